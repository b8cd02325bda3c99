"""An agreement file from a source. docs/LANGUAGE.md has the language; whatever is not in it is a mistake with its place."""

from __future__ import annotations

import ast
import os
from pathlib import Path

from designer import files, tree
from designer import names as tables
from designer.actions import Action, called, words_of
from designer.errors import Failure
from designer.expressions import NAMED, Expressions
from designer.language import ACTIONS, CHILDREN, COUNTS, DECLARATIONS, FORMS, RESERVED, RULES, SETTINGS
from designer.language import MOST, MOST_ARGUMENTS, MOST_BYTES, MOST_NAME, MOST_STEPS
from designer.meanings import ARTICLES, Meanings, nearest, number
from designer.names import Names
from designer.source import Mistake, Source
from designer.tree import ALWAYS, Agreement, Constant, Row, Rule, Statement, Transition

TRANSITION = "@transition(FROM, TO) or @transition(FROM, TO, GUARD)"
ROW = "ACCOUNT.CALL(ARGUMENT, .., pays=COINS)"
ALLOWED = (
    "a source has states(..), variables(..), accounts(..), settings(..), calls(..), def initial(), def fallback(), "
    f"@transition(..) above a def, rows {ROW}, and rules always(..), not_after(..), only_after(..)"
)


class Maker:
    """What a source has declared. The parts are first sorted, then translated in the order of the file."""

    def __init__(self, source: Source) -> None:
        self.source = source
        self.declared: dict[str, ast.Call] = {}
        self.definitions: dict[str, ast.FunctionDef] = {}
        self.moves: list[tuple[ast.FunctionDef, ast.Call]] = []
        self.row_nodes: list[ast.Call] = []
        self.rule_nodes: list[ast.Call] = []
        self.meanings = Meanings()
        self.names = Names()
        for node in source.parse():
            self.sort(node)

    # Sorting.

    def sort(self, node: ast.stmt) -> None:
        match node:
            case ast.FunctionDef(name=word) if word in ACTIONS:
                self.sort_action(node)
            case ast.FunctionDef():
                self.sort_transitions(node)
            case ast.Expr(value=ast.Call(func=ast.Attribute()) as call):
                self.row_nodes.append(call)
            case ast.Expr(value=ast.Call() as call) if called(node) in RULES:
                self.rule_nodes.append(call)
            case ast.Expr(value=ast.Call() as call) if called(node) in DECLARATIONS:
                word = str(called(node))
                if word in self.declared:
                    raise Mistake(node, f"{word}(..) stands here for the second time; it is at line {self.declared[word].lineno}")
                self.declared[word] = call
            case ast.Expr(value=ast.Constant(value=str())):
                raise Mistake(node, "text has no meaning here: write a comment, which begins with #")
            case _:
                tried = called(node)
                hint = f"'{tried}' stands in an action" if tried in FORMS else ALLOWED
                raise Mistake(node, f"no such part of an agreement; {hint}")

    def sort_action(self, node: ast.FunctionDef) -> None:
        if node.name in self.definitions:
            line = self.definitions[node.name].lineno
            raise Mistake(node, f"def {node.name} stands here for the second time; it is at line {line}")
        for decorator in node.decorator_list:
            raise Mistake(decorator, f"{node.name} is no transition's name: nothing stands above its def")
        self.definitions[node.name] = node

    def sort_transitions(self, node: ast.FunctionDef) -> None:
        if not node.decorator_list:
            raise Mistake(node, f"'{node.name}' needs {TRANSITION} above it; only initial and fallback have none")
        for decorator in node.decorator_list:
            if called(decorator) != "transition" or not isinstance(decorator, ast.Call):
                raise Mistake(decorator, f"above a def stands {TRANSITION}")
            self.moves.append((node, decorator))

    # Declarations.

    def declaration(self, word: str) -> ast.Call:
        if word not in self.declared:
            raise Mistake(ast.Module(), f"{word}(..) is missing")
        return self.declared[word]

    def counted(self, word: str, items: list[ast.expr] | list[ast.keyword]) -> None:
        least, most = COUNTS[word]
        if len(items) > most:
            raise Mistake(items[most], f"{len(items)} {word}, at most {most}")
        if len(items) < least:
            raise Mistake(self.declared[word], f"{len(items)} {word}, at least {least}")

    def declare_names(self, word: str, kind: str) -> tuple[str, ...]:
        """states(NAME, ..) and variables(NAME, ..)."""
        words = words_of(self.declaration(word), f"{word}(NAME, ..)")
        self.counted(word, words)
        for index, node in enumerate(words):
            if not isinstance(node, ast.Name):
                raise Mistake(node, f"a name is expected here: write {word}(NAME, ..)")
            self.meanings.declare(node, node.id, kind, index)
        return tuple(self.meanings.indices(kind))

    def pairs(self, word: str, form: str) -> list[tuple[str, ast.keyword]]:
        """WORD=VALUE, .., each word once and nothing else."""
        call = self.declaration(word)
        for node in call.args:
            raise Mistake(node, f"a value is missing: write {form}")
        found: list[tuple[str, ast.keyword]] = []
        for pair in call.keywords:
            if pair.arg is None:
                raise Mistake(pair, f"write {form}")
            if pair.arg in dict(found):
                raise Mistake(pair, f"'{pair.arg}' stands here for the second time")
            found.append((pair.arg, pair))
        return found

    def declare_accounts(self) -> tuple[int, ...]:
        """The opening balances."""
        pairs = self.pairs("accounts", "accounts(NAME=COINS, ..)")
        self.counted("accounts", [pair for _, pair in pairs])
        balances: list[int] = []
        for index, (name, pair) in enumerate(pairs):
            self.meanings.declare(pair, name, "account", index)
            balances.append(number(pair.value, f"the balance of '{name}'"))
            if sum(balances) > MOST:
                raise Mistake(pair, f"the sum of the balances is {sum(balances):,} here, at most {MOST:,}")
        return tuple(balances)

    def settings(self) -> dict[str, int]:
        form = "settings(start=STATE, units=NUMBER, depth=NUMBER, bound=NUMBER)"
        pairs = dict(self.pairs("settings", form))
        for word, pair in pairs.items():
            if word not in ("start", *SETTINGS):
                raise Mistake(pair, f"there is no setting '{word}': write {form}")
        for word in ("start", *SETTINGS):
            if word not in pairs:
                raise Mistake(self.declared["settings"], f"the setting '{word}' is missing: write {form}")
        values = {word: number(pairs[word].value, word, *bounds) for word, bounds in SETTINGS.items()}
        return values | {"start": self.meanings.index(pairs["start"].value, "state")}

    def declare_calls(self) -> None:
        """Calls with a number given, then the others: from 1 on in the order of their first transitions."""
        for name, pair in self.given_calls():
            value = number(pair.value, f"the number of '{name}'", 0, MOST_NAME)
            if value in self.names.calls:
                raise Mistake(pair, f"the number {value} is that of '{self.names.calls[value]}' already")
            self.declare_call(pair, name, value)
        for node, _ in self.moves:
            if node.name not in self.meanings.indices("call"):
                free = [value for value in range(1, MOST_NAME + 1) if value not in self.names.calls]
                if not free:
                    raise Mistake(node, f"no number from 1 to {MOST_NAME} is left for '{node.name}': calls(..) has them all")
                self.declare_call(node, node.name, free[0])

    def given_calls(self) -> list[tuple[str, ast.keyword]]:
        return self.pairs("calls", "calls(NAME=NUMBER, ..)") if "calls" in self.declared else []

    def declare_call(self, node: ast.AST, name: str, value: int) -> None:
        self.meanings.declare(node, name, "call", value)
        self.names.calls[value] = name

    # Actions and transitions.

    def action(self, word: str) -> Statement:
        if word not in self.definitions:
            raise Mistake(ast.Module(), f"def {word}() is missing")
        made = Action(self.definitions[word], self.meanings)
        self.names.arguments[word], self.names.locals[word] = made.arguments, made.locals
        return made.record(2)

    def limited(self, word: str, nodes: list[ast.Call]) -> None:
        if len(nodes) > CHILDREN[word]:
            raise Mistake(nodes[CHILDREN[word]], f"{len(nodes)} {word}, at most {CHILDREN[word]}")

    def transitions(self) -> tuple[Transition, ...]:
        made: list[Transition] = []
        last: tuple[ast.FunctionDef, Action, Statement] | None = None
        for position, (node, decorator) in enumerate(self.moves):
            if last is None or last[0] is not node:
                action = Action(node, self.meanings)
                self.check_arguments(node, action)
                last = node, action, action.record(3)
            made.append(self.transition(decorator, *last, made))
            self.names.locals[position] = last[1].locals
        return tuple(made)

    def check_arguments(self, node: ast.FunctionDef, action: Action) -> None:
        """All transitions of a call have the same arguments, so that a row passes what each of them takes."""
        known = self.names.arguments.setdefault(self.meanings.names[node.name].index, action.arguments)
        if known != action.arguments:
            raise Mistake(node, f"'{node.name}' has ({', '.join(known)}) above; all transitions of a call have the same arguments")

    def transition(
        self, decorator: ast.Call, node: ast.FunctionDef, action: Action, record: Statement, before: list[Transition]
    ) -> Transition:
        first, second, *guards = words_of(decorator, TRANSITION, 2, 3)
        from_state, to_state = self.meanings.index(first, "state"), self.meanings.index(second, "state")
        name = self.meanings.names[node.name].index
        for position, other in enumerate(before):
            if (other.name, other.from_state) == (name, from_state):
                line = self.moves[position][1].lineno
                raise Mistake(decorator, f"'{node.name}' from '{ast.unparse(first)}' has a transition already, at line {line}")
        guard = action.guard(guards[0], 3) if guards else Constant(1)
        return Transition(name, from_state, to_state, guard, record)

    # Rows and rules.

    def rows(self) -> tuple[Row, ...]:
        self.limited("rows", self.row_nodes)
        return tuple(self.row(node) for node in self.row_nodes)

    def row(self, node: ast.Call) -> Row:
        assert isinstance(node.func, ast.Attribute)
        sender = self.meanings.index(node.func.value, "account")
        word = node.func.attr
        known = self.meanings.names.get(word)
        if known is None or known.kind != "call":
            raise Mistake(self.source.last_word(node.func), self.no_call(word))
        coins = self.coins(node)
        takes = self.names.arguments.get(known.index, self.names.arguments["fallback"])
        if len(node.args) != len(takes):
            raise Mistake(node, f"{len(node.args)} given, '{word}' takes {len(takes)}: ({', '.join(takes)})")
        values = [self.passed(name, argument) for name, argument in zip(takes, node.args)]
        return Row(known.index, sender, coins, (*values, *[0] * (MOST_ARGUMENTS - len(values))))

    def no_call(self, word: str) -> str:
        """What is said of a row's name that is no call; only one without a meaning can be declared as it is."""
        known = self.meanings.names.get(word)
        hint = "a call that only fallback answers is declared by"
        if known is None and word not in RESERVED:
            return f"'{word}' is no transition's name; {hint} calls({word}=NUMBER)"
        is_what = ARTICLES[known.kind if known else "context"]
        return f"'{word}' is {is_what}, not a call; {hint} calls(NAME=NUMBER), with a name that has no other meaning"

    def passed(self, name: str, node: ast.expr) -> int:
        """An argument of a row: a number, or the name of an account or state, which stands for its number."""
        meaning = self.meanings.names.get(node.id) if isinstance(node, ast.Name) else None
        if meaning and meaning.kind in NAMED:
            return meaning.index
        return number(node, f"the argument '{name}'")

    def coins(self, node: ast.Call) -> int:
        for index, pair in enumerate(node.keywords):
            if pair.arg != "pays" or index:
                again = "stands here for the second time" if pair.arg == "pays" else f"is no keyword of a row: write {ROW}"
                raise Mistake(pair, f"'{pair.arg or '**'}' {again}")
        return number(node.keywords[0].value, "pays") if node.keywords else 0

    def rules(self) -> tuple[Rule, ...]:
        self.limited("rules", self.rule_nodes)
        return tuple(self.rule(node) for node in self.rule_nodes)

    def rule(self, node: ast.Call) -> Rule:
        word = str(called(node))
        kind = RULES.index(word) + 1
        if kind == ALWAYS:
            (claim,) = words_of(node, "always(CONDITION)", 1)
            return Rule(kind, expression=Expressions(Meanings(("own", "state"), self.meanings)).value(claim, 3))
        p, q = words_of(node, f"{word}(CALL, CALL)", 2)
        return Rule(kind, self.transition_name(p), self.transition_name(q))

    def transition_name(self, node: ast.expr) -> int:
        index = self.meanings.index(node, "call")
        if index not in self.names.arguments:
            raise Mistake(node, f"'{ast.unparse(node)}' has no transition, and a rule speaks of transitions")
        return index

    # The whole.

    def agreement(self) -> Agreement:
        self.names.states = self.declare_names("states", "state")
        if "variables" in self.declared:
            self.names.variables = self.declare_names("variables", "variable")
        balances = self.declare_accounts()
        self.names.accounts = tuple(self.meanings.indices("account"))
        self.limited("transitions", [decorator for _, decorator in self.moves])
        self.declare_calls()
        settings = self.settings()
        made = Agreement(
            states=len(self.names.states),
            variables=len(self.names.variables),
            start=settings["start"],
            depth=settings["depth"],
            limit=settings["units"],
            bound=settings["bound"],
            balances=balances,
            initial=self.action("initial"),
            fallback=self.action("fallback"),
            transitions=self.transitions(),
            rows=self.rows(),
            rules=self.rules(),
        )
        self.check_calls(made)
        self.check_whole(made)
        return made

    def check_calls(self, made: Agreement) -> None:
        """A number in calls(..) that nothing uses would leave nothing in the file."""
        used = [self.names.calls[value] for value in tables.calls_of(made)]
        for name, pair in self.given_calls():
            if name not in used:
                hint = f"calls(..) has names of transitions and rows only{nearest(name, used)}"
                raise Mistake(pair, f"no transition or row has the name '{name}': {hint}")

    def check_whole(self, made: Agreement) -> None:
        """Bytes and steps of the whole; the part that passes a limit is the place."""
        nodes = [*(self.definitions[word] for word in ACTIONS), *(decorator for _, decorator in self.moves)]
        steps = [tree.steps(made.initial), tree.steps(made.fallback), *(1 + tree.steps(part.action) for part in made.transitions)]
        _, _, children = tree.parts(made)
        sizes = [tree.size(child) for child in children]
        fields = 16 + 4 * made.accounts
        self.check_sum([*nodes, *self.row_nodes, *self.rule_nodes], fields, sizes, MOST_BYTES, "bytes")
        self.check_sum(nodes, 0, steps, MOST_STEPS, "steps")

    def check_sum(self, nodes: list[ast.AST], first: int, counts: list[int], most: int, word: str) -> None:
        total = first
        for node, count in zip(nodes, counts):
            total += count
            if total > most:
                whole = first + sum(counts)
                raise Mistake(node, f"the agreement has {whole:,} {word}, at most {most:,}; they are passed here")


def make(text: str, path: str = "source") -> tuple[Agreement, Names]:
    """The agreement of a source, and its names. A failure names the path."""
    source = Source(path, text)
    try:
        maker = Maker(source)
        return maker.agreement(), maker.names
    except Mistake as mistake:
        raise source.failure(source.place(mistake.node), str(mistake)) from None


def make_file(source: Path, target: Path) -> None:
    """Writes the agreement file of a source and its names, or nothing."""
    text = files.read_text(source)
    beside = tables.path_of(target)
    for written in (target, beside):
        if os.path.exists(written) and os.path.samefile(written, source):
            raise Failure(f"{written}: this is the source, and would be written over")
    made, names = make(text, str(source))
    files.write_all({target: tree.encode(made), beside: tables.text(names).encode()})
