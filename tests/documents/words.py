"""Words that the strictly checked documents set as code and that name nothing of the project. Each must be in use."""

FORM = "the form of a name, not a name"
KIT = "of the language or the kit"
OUTPUT = "text that a program prints"
C_LIBRARY = "of the C library"
BUILT = "made by a build"
WORD = "a word of document 01 or of the file format"

OTHER: dict[str, dict[str, str]] = {
    "docs/TRACE.md": {
        "File.name": FORM,
        "crate::module::function": FORM,
        "crate/name": FORM,
        "crates/rules/specs/File.antt": FORM,
        "crates/CRATE/src/MODULE.rt": FORM,
        "crates/CRATE/must-fail/NAME.edit": FORM,
        "+NAME": FORM,
        "ensures": KIT,
        "librunner.a": BUILT,
        "in_rule": "a parameter of `Reading.expression_body`",
    },
    "docs/PROMISES.md": {
        "File.name": FORM,
        "crate::module::function": FORM,
        "crates/CRATE/src/MODULE.rt": FORM,
        "ensures": KIT,
        "requires": KIT,
        "Abort": KIT,
        "Wait": KIT,
        "rt ci": KIT,
        "rt version": KIT,
        "rattle-kit-13f logic dac8208d650f15bf": OUTPUT,
        "axioms libc: libc::read, libc::write": OUTPUT,
        "axioms=": OUTPUT,
        "axioms=2": OUTPUT,
        "memcpy": C_LIBRARY,
        "memset": C_LIBRARY,
        "write": C_LIBRARY,
    },
    "docs/DECISIONS.md": {
        "match": KIT,
        "refused 1 0": OUTPUT,
        "start refused 27": OUTPUT,
        "for": WORD,
        "while": WORD,
        "not": WORD,
    },
    "docs/ARCHITECTURE.md": {
        "&mut": KIT,
        "?": KIT,
        "do": KIT,
        "ensures": KIT,
        "io": KIT,
        "libc": KIT,
        "record": "a word of the proof language, and a parameter of `include/agreement.h`",
        "state": "a parameter of the exported functions",
        "for": WORD,
        "while": WORD,
    },
    "docs/GLOSSARY.md": {
        "File.name": FORM,
        "crates/rules/specs/File.antt": FORM,
        "requires": KIT,
        "ensures": KIT,
        "use": KIT,
        "do": KIT,
    },
}

# In the other documents only what looks like a name of the project is checked. These look like one.
MADE: dict[str, str] = {
    "target": BUILT,
    "tests/bench/found": "where the bench saves files",
    "tests/bench/target": BUILT,
}
