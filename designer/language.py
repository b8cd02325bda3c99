"""The words, operators and limits of the source language; docs/LANGUAGE.md has an entry for each."""

from __future__ import annotations

import ast

MOST = 4_294_967_295
MOST_LEVELS = 16
MOST_STEPS = 1_024
MOST_BYTES = 32_768
MOST_LOCALS = 8
MOST_ARGUMENTS = 4
MOST_NAME = 255

# Least and most of what the agreement's fields count, the most of its children, and the settings' least and most.
COUNTS = {"states": (1, 64), "variables": (0, 16), "accounts": (1, 8)}
CHILDREN = {"transitions": 64, "rows": 16, "rules": 8}
SETTINGS = {"units": (1, 4_096), "depth": (0, 8), "bound": (1, 1_000_000)}

# In the order of their numbers in the file.
CONTEXT = ("sender", "coins", "own", "state")
OPERATORS = ("+", "-", "*", "//", "%", "==", "!=", "<", "<=", "and", "or")
OPERATOR_NODES: tuple[type[ast.AST], ...] = (
    ast.Add,
    ast.Sub,
    ast.Mult,
    ast.FloorDiv,
    ast.Mod,
    ast.Eq,
    ast.NotEq,
    ast.Lt,
    ast.LtE,
    ast.And,
    ast.Or,
)
RULES = ("always", "not_after", "only_after")

DECLARATIONS = ("states", "variables", "accounts", "settings", "calls")
ACTIONS = ("initial", "fallback")
FORMS = ("locals", "transition", "transfer", "require", "range", "loop", "block")
RESERVED = frozenset((*CONTEXT, *RULES, *DECLARATIONS, *ACTIONS, *FORMS))
