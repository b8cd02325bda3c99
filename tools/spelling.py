"""Brings the names of definitions and lemmas to the spelling of the Rattle in use, after its script for older repositories has run.

usage: python3 tools/spelling.py        at the top of the repository, once

Words of specifications and proofs are in snake case: `startTree` becomes `start_tree`, in .rt, .antt and must-fail edits alike. Names
of Rust types, variants, modules and files begin with a capital and stay; functions of src/ are in snake case already. Where a lemma's
name would then be that of the definition it speaks of, the lemma gets a name of its own. In must-fail edits a projection is written
tight, as `c.call` for `c .call`, and operators have ◌ where their arguments go.
"""

import pathlib
import re

HUMP = re.compile(r"(?<![A-Za-z0-9_])[a-z][A-Za-z0-9_]*?[a-z0-9][A-Z][A-Za-z0-9_]*")

# Lemmas that would fall together with a definition that their file names, by file.
LEMMAS = {
    "files/proofs/TreeLaws.antt": {"no_steps": "sum-no_steps"},
    "searcher/proofs/Rulings.antt": {"one_later": "ruled_by-one_later"},
}


def snake(name: str) -> str:
    return re.sub(r"(?<=[a-z0-9])[A-Z]", lambda m: "_" + m.group(0).lower(), name)


def respelled(text: str) -> str:
    return HUMP.sub(lambda m: snake(m.group(0)), text)


def renamed(text: str, names: dict[str, str]) -> str:
    for old, new in names.items():
        text = re.sub(rf"(?<![\w'-]){re.escape(old)}(?![\w'-])", new, text)
    return text


def edited(text: str) -> str:
    """A must-fail edit: names, projections and clauses as the sources now have them."""
    lines = []
    for line in text.split("\n"):
        if line.startswith(("old: ", "new: ")):
            line = re.sub(r"(?<=[\w)]) \.(?=[a-z0-9])", ".", line)
            line = re.sub(r"(?<!\w)\((\w+(?:\.\w+)+)\)", r"\1", line)
            line = line.replace("⌜ ", "").replace(" ⌝", "").replace("Rattle·", "Rattle.")
            line = respelled(line)
        lines.append(line)
    return "\n".join(lines)


def main() -> None:
    for path in sorted(pathlib.Path("crates").rglob("*")):
        if "out" in path.parts or path.suffix not in (".rt", ".antt", ".edit"):
            continue
        text = path.read_text(encoding="utf-8")
        if path.suffix == ".edit":
            new = edited(text)
        else:
            new = respelled(renamed(text, LEMMAS.get(str(path.relative_to("crates")), {})))
        if new != text:
            path.write_text(new, encoding="utf-8")


main()
