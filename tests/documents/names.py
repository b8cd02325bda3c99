"""The rules by which a name is looked for in the project."""

import re

from project import Project
from words import MADE

QUALIFIED = re.compile(r"([A-Z]\w*)\.(\w+)")
FUNCTION = re.compile(r"[a-z]\w*(?:::\w+)+")
EDIT = re.compile(r"[a-z_]+/[a-z0-9_]+")
SUFFIX = re.compile(r".+\.(?:md|antt|rt|edit|py|rs|c|h|txt|toml|pml)")
# What is written of a function's proof, in the function's folder: its answers, its invariants, or all of it.
WRITTEN = re.compile(r"crates/\w+/proofs/.+/(?:Answers|Invariants|Proof)\.antt")


def definition(project: Project, name: str, crates: list[str]) -> bool:
    """File.name is declared in specs/File.antt of one of the crates."""
    found = QUALIFIED.fullmatch(name)
    return found is not None and any(found[2] in project.declared(f"crates/{crate}/specs/{found[1]}.antt") for crate in crates)


def case(project: Project, name: str) -> bool:
    """A definition of the rules whose cases are proved by computing."""
    used = re.findall(r"\w+", project.text("crates/rules/proofs/Cases.antt"))
    return definition(project, name, ["rules"]) and name.split(".")[1] in used


def statement(project: Project, name: str) -> bool:
    """A name that stands alone is declared among the definitions."""
    return any(name in project.declared(p) for p in project.under("crates/rules/specs", ".antt"))


def sources(name: str) -> list[str]:
    """Where crate::module::function may stand."""
    crate, *modules, _ = name.split("::")
    inside = ["/".join(modules)] if modules else ["lib", "main"]
    return [f"crates/{crate}/src/{module}.rt" for module in inside]


def head(project: Project, name: str) -> str:
    """What stands before the body of crate::module::function; nothing if there is no such function."""
    last = name.split("::")[-1]
    return "".join(project.functions(source).get(last, "") for source in sources(name))


def contract(project: Project, name: str) -> bool:
    return FUNCTION.fullmatch(name) is not None and "ensures" in head(project, name)


def open_contract(project: Project, name: str) -> bool:
    """A contract that asks nothing of the caller."""
    return contract(project, name) and "requires" not in head(project, name)


def type_of(project: Project, name: str) -> bool:
    """A type, as Name or crate::Name."""
    *crate, last = name.split("::")
    return any(last in project.types(c) for c in crate or project.crates)


def theorem(project: Project, name: str, file: str) -> bool:
    return name in project.declared(file)


def proof(project: Project, path: str) -> bool:
    """A file of proofs, or a folder with what is written of a function's proof."""
    a_file = path in project.files and re.match(r"crates/\w+/proofs/", path) is not None
    return a_file or any(WRITTEN.fullmatch(p) for p in project.under(path, ".antt"))


def written(project: Project, name: str) -> list[str]:
    """What is written of the proof of crate::module::function: in the folder of that name, below its modules, or below the type of a
    method; a cycle of calls shares one."""
    crate, *modules, last = name.split("::")
    cycles = {function: f"+{cycle}" for source in sources(name) for function, cycle in project.cycles(source).items()}
    below = "/".join([*modules, ""]) + r"|\w+/[A-Z]\w*/"
    folder = re.compile(rf"crates/{crate}/proofs/(?:{below}){re.escape(cycles.get(last, last))}/\w+\.antt")
    return [p for p in project.under(f"crates/{crate}/proofs", ".antt") if folder.fullmatch(p) and WRITTEN.fullmatch(p)]


def proof_of(project: Project, name: str, folder: str) -> bool:
    """A folder in which something is written of the proof of crate::module::function."""
    return any(p.startswith(f"{folder}/") for p in written(project, name))


def unwritten(project: Project, name: str) -> bool:
    """A function with a contract whose proof Rattle finds: nothing of it is written."""
    return contract(project, name) and not written(project, name)


def path(project: Project, name: str, folder: str = "") -> bool:
    """A file or folder, from the root or from the document's folder; * stands for any name."""
    plain = name.rstrip("/")
    if any(f"{plain}/".startswith(f"{made}/") for made in MADE):
        return True
    wanted = {plain, f"{folder}/{plain}".lstrip("/")}
    if "*" not in plain:
        return bool(wanted & project.paths)
    patterns = [re.compile(re.escape(w).replace(r"\*", "[^/]+")) for w in wanted]
    return any(p.fullmatch(there) for p in patterns for there in project.paths)


def in_crates(project: Project, name: str) -> bool:
    """A path below crates/, or one that some crate has, as src/lib.rt."""
    return path(project, f"crates/{name}") or path(project, f"crates/*/{name}")


def lone_file(project: Project, name: str) -> bool:
    """A file that is named without its folder."""
    return any(p.endswith(f"/{name}") for p in project.files)


def lower(project: Project, name: str) -> bool:
    """A crate, a folder of tests, a command of the designer, or a function or theorem of some crate."""
    return (
        name in project.crates
        or f"tests/{name}" in project.paths
        or f"designer/{name}.py" in project.paths
        or any(name in project.functions(p) for p in project.of_crates("src", ".rt"))
        or any(name in project.declared(p) for p in project.of_crates("proofs", ".antt"))
    )


def in_sources(project: Project, fragment: str) -> bool:
    return any(fragment in project.text(p) for p in project.of_crates("src", ".rt"))


def occurs(project: Project, words: list[str], file: str) -> bool:
    """The words occur in a file, which is there."""
    return set(words) <= set(re.findall(r"[\w-]+", project.text(file)))
