"""scripts/agreement as it is called: what it prints and writes, and its exit statuses."""

from __future__ import annotations

import os
import subprocess
import tempfile
from collections.abc import Callable, Iterator
from functools import partial
from pathlib import Path

from cases import BASE, COUNTER, ROOT, Test, altered
from designer.make import make
from designer.names import text
from designer.tree import encode

AGREEMENT = ROOT / "scripts" / "agreement"
EXAMPLE = ROOT / "examples" / "agreements" / "counter.agreement"


class Answer:
    """What a command answers."""

    def __init__(self, *words: str | Path, script: Path = AGREEMENT, folder: Path | None = None) -> None:
        done = subprocess.run([str(script), *map(str, words)], capture_output=True, text=True, check=False, cwd=folder)
        self.status, self.out, self.err = done.returncode, done.stdout, done.stderr

    def fails(self, message: str, status: int = 2) -> None:
        """One line on standard error, nothing on standard output."""
        assert (self.status, self.out) == (status, ""), (self.status, self.out, self.err)
        assert self.err.count("\n") == 1 and message in self.err and "Traceback" not in self.err, self.err


def in_folder(test: Callable[[Path], None]) -> Callable[[], None]:
    """The test with a new folder."""

    def run() -> None:
        with tempfile.TemporaryDirectory() as name:
            test(Path(name))

    return run


def names_in(folder: Path) -> list[str]:
    return sorted(path.name for path in folder.iterdir())


def make_writes(folder: Path) -> None:
    (folder / "sale.txt").write_text(BASE, encoding="utf-8")
    answer = Answer("make", folder / "sale.txt", folder / "sale.agreement")
    assert (answer.status, answer.out, answer.err) == (0, "", ""), answer.err
    tree, names = make(BASE)
    assert (folder / "sale.agreement").read_bytes() == encode(tree)
    assert (folder / "sale.agreement.names").read_text(encoding="utf-8") == text(names)
    assert names_in(folder) == ["sale.agreement", "sale.agreement.names", "sale.txt"]
    shown = Answer("show", folder / "sale.agreement")
    assert shown.status == 0 and shown.err == "", shown.err
    assert encode(make(shown.out)[0]) == encode(tree)


def mistake_writes_nothing(folder: Path) -> None:
    (folder / "sale.txt").write_text(altered("depth=2", "depth=9"), encoding="utf-8")
    answer = Answer("make", "sale.txt", "sale.agreement", folder=folder)
    assert (answer.status, answer.out) == (2, "")
    assert answer.err == (
        "sale.txt:5:38: depth is 9, at most 8\n"
        "    settings(start=open, units=60, depth=9, bound=100)\n"
        "                                         ^\n"
    ), answer.err
    assert names_in(folder) == ["sale.txt"]


def mistake_leaves_the_old(folder: Path) -> None:
    (folder / "sale.txt").write_text(altered("depth=2", "depth=9"), encoding="utf-8")
    (folder / "sale.agreement").write_bytes(COUNTER)
    (folder / "sale.agreement.names").write_text("old", encoding="utf-8")
    assert Answer("make", folder / "sale.txt", folder / "sale.agreement").status == 2
    assert (folder / "sale.agreement").read_bytes() == COUNTER
    assert (folder / "sale.agreement.names").read_text(encoding="utf-8") == "old"


def wrong_source(data: bytes | None, message: str, folder: Path) -> None:
    source = folder / "sale.txt"
    if data is not None:
        source.write_bytes(data)
    Answer("make", source, folder / "sale.agreement").fails(message)
    assert names_in(folder) == ([] if data is None else ["sale.txt"])


def folder_as_source(folder: Path) -> None:
    Answer("make", folder, folder / "sale.agreement").fails("cannot be read: this is a folder, not a file")
    assert names_in(folder) == []


def unwritable_target(folder: Path) -> None:
    source = folder / "sale.txt"
    source.write_text(BASE, encoding="utf-8")
    (folder / "there").mkdir()
    (folder / "other.names").mkdir()
    os.mkfifo(folder / "pipe")
    Answer("make", source, folder / "there").fails("there: cannot be written: this is a folder, not a file")
    Answer("make", source, folder / "none" / "sale.agreement").fails("cannot be written: No such file or directory")
    Answer("make", source, folder / "other").fails("other.names: cannot be written: this is a folder, not a file")
    Answer("make", source, folder / "pipe").fails("pipe: cannot be written: this is no file")
    Answer("make", source, folder / ("n" * 300)).fails("cannot be written: File name too long")
    Answer("make", source, source).fails("this is the source, and would be written over")
    Answer("make", source, "/").fails("/: cannot be written: this names a folder, not a file")
    Answer("make", source, f"{folder}/new/").fails("new/: cannot be written: this names a folder, not a file")
    (folder / "one").touch()
    (folder / "one.names").symlink_to("one")
    Answer("make", source, folder / "one").fails("one.names: cannot be written: it is the same file as another that is written")
    assert (folder / "one").read_bytes() == b""
    assert names_in(folder) == ["one", "one.names", "other.names", "pipe", "sale.txt", "there"]
    assert names_in(folder / "there") == []


def through_links(folder: Path) -> None:
    """The script through a symbolic link, and a target that is one: what it points to is written."""
    (folder / "agreement").symlink_to(AGREEMENT)
    (folder / "sale.txt").write_text(BASE, encoding="utf-8")
    (folder / "real").write_bytes(b"")
    (folder / "link").symlink_to("real")
    answer = Answer("make", "sale.txt", "link", script=folder / "agreement", folder=folder)
    assert answer.status == 0, answer.err
    assert (folder / "link").is_symlink() and (folder / "real").read_bytes() == encode(make(BASE)[0])


def show_refused(data: bytes, message: str, folder: Path) -> None:
    path = folder / "wrong.agreement"
    path.write_bytes(data)
    (folder / "wrong.agreement.names").write_text("not a table", encoding="utf-8")
    answer = Answer("show", path)
    answer.fails(message, 4)
    assert answer.err == message + "\n", answer.err


def show_wrong_names(folder: Path) -> None:
    path = folder / "counter.agreement"
    path.write_bytes(COUNTER)
    beside = folder / "counter.agreement.names"
    for data, message in (
        (b"states one\n", "counter.agreement.names: 1 states are named, the agreement has 2"),
        (b"\n\nstates a 2\n", "counter.agreement.names: line 3: '2' is no name"),
        (b"states \xff\n", "counter.agreement.names: this is no text: byte 7 is not UTF-8"),
        (b"states a\0\n", "counter.agreement.names: this is no text: it has a zero byte"),
    ):
        beside.write_bytes(data)
        Answer("show", path).fails(message)
    beside.unlink()
    beside.mkdir()
    Answer("show", path).fails("counter.agreement.names: cannot be read: this is a folder, not a file")


def show_unreadable(folder: Path) -> None:
    Answer("show", folder / "none").fails("none: cannot be read: No such file or directory")
    Answer("show", folder).fails("cannot be read: this is a folder, not a file")
    Answer("show", folder / ("n" * 300)).fails("cannot be read: File name too long")


def show_into_closed_pipe(folder: Path) -> None:
    """A reader that goes away early gets no traceback either."""
    script = 'set -o pipefail; "$0" show "$1" | true'
    done = subprocess.run(["bash", "-c", script, str(AGREEMENT), str(EXAMPLE)], capture_output=True, text=True, check=False)
    assert done.stderr == "", done.stderr


def among_other_modules(folder: Path) -> None:
    """Modules of the folder that the script is called from are not its own."""
    for name in ("ast", "agreement", "designer", "names", "tempfile"):
        (folder / f"{name}.py").write_text("raise SystemExit(9)\n", encoding="utf-8")
    assert Answer("show", EXAMPLE, folder=folder).status == 0


def show_into_full_disk(folder: Path) -> None:
    with open("/dev/full", "w", encoding="utf-8") as full:
        done = subprocess.run([str(AGREEMENT), "show", str(EXAMPLE)], stdout=full, stderr=subprocess.PIPE, text=True, check=False)
    assert done.returncode == 2, done.returncode
    assert done.stderr == "agreement: the output cannot be written: No space left on device\n", done.stderr


def show_into_nothing(folder: Path) -> None:
    done = subprocess.run(["bash", "-c", '"$0" show "$1" >&-', str(AGREEMENT), str(EXAMPLE)], capture_output=True, check=False)
    assert (done.returncode, done.stderr) == (0, b""), done


def show_counter() -> None:
    answer = Answer("show", EXAMPLE)
    assert answer.status == 0 and answer.err == "", answer.err
    first, rest = answer.out.split("\n", 1)
    assert first.startswith("# ") and "not proved" in first, first
    assert rest.startswith("states(waiting, counted)\nvariables(count)\naccounts(house=5)\n"), answer.out


def help_and_usage() -> None:
    for words in (["--help"], ["-h"], ["help"], ["make", "--help"]):
        answer = Answer(*words)
        assert answer.status == 0 and answer.out.startswith("usage: agreement make") and answer.err == "", answer.err
    nothing = Answer()
    assert nothing.status == 2 and nothing.out == "" and nothing.err.startswith("usage: "), nothing.err
    Answer("judge", "x").fails("agreement: there is no command 'judge'; commands are make, show, explain")
    for words in (["make"], ["make", "a"], ["make", "a", "b", "c"], ["make", "", "b"]):
        Answer(*words).fails("usage: agreement make SOURCE FILE")
    for words in (["show"], ["show", "a", "b"], ["show", ""]):
        Answer(*words).fails("usage: agreement show FILE")


WRONG_SOURCES: dict[str, tuple[bytes | None, str]] = {
    "missing": (None, "sale.txt: cannot be read: No such file or directory"),
    "not UTF-8": (b"states(a)\n# \xff\n", "sale.txt: this is no text: byte 12 is not UTF-8"),
    "with a zero byte": (b"states(a)\0\n", "sale.txt: this is no text: it has a zero byte"),
    "an agreement file": (COUNTER, "sale.txt: this is no text: "),
    "empty": (b"", "sale.txt:1:1: states(..) is missing"),
    "too long": (b"#" * 16_777_217, "sale.txt: this has over 16,777,216 bytes"),
}
DEPTH_NINE = COUNTER[:8] + b"\x09" + COUNTER[9:]
REFUSED = {
    "refusal 4 at byte 0: the agreement's depth is 9, at most 8": DEPTH_NINE,
    "refusal 1 at byte 0: under 4 or over 32,768 bytes, or first length not the file's": bytes(40_000),
}


def tests() -> Iterator[Test]:
    folders = (make_writes, mistake_writes_nothing, mistake_leaves_the_old, folder_as_source, unwritable_target, through_links)
    outputs = (show_into_closed_pipe, show_into_full_disk, show_into_nothing)
    for test in (*folders, show_wrong_names, show_unreadable, among_other_modules, *outputs):
        yield test.__name__.replace("_", " "), in_folder(test)
    for label, (data, message) in WRONG_SOURCES.items():
        yield f"a source that is {label}", in_folder(partial(wrong_source, data, message))
    for message, data in REFUSED.items():
        yield f"show says {message}", in_folder(partial(show_refused, data, message))
    yield "show of the counter agreement", show_counter
    yield "help and usage", help_and_usage
