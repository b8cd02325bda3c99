"""An agreement file that the library accepts, with its tree and names."""

from __future__ import annotations

from dataclasses import dataclass
from pathlib import Path

import agreement

from designer import files, names, refused, tree
from designer.errors import REFUSED, Failure
from designer.language import MOST_BYTES


@dataclass(frozen=True)
class Accepted:
    agreement: agreement.Agreement
    tree: tree.Agreement
    names: names.Names


def load(path: Path) -> Accepted:
    """Fails with status 4 and the refusal in words where the library refuses the file."""
    data = files.read(path, MOST_BYTES)
    try:
        accepted = agreement.Agreement(data)
    except agreement.Refused as refusal:
        raise Failure(refused.sentence(refusal.number, refusal.place, data), REFUSED) from refusal
    except agreement.LibraryMissing as missing:
        raise Failure(f"agreement: {missing}") from None
    decoded = tree.decode(data)
    return Accepted(accepted, decoded, names.load(path, decoded))
