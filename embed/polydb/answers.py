"""What a site says, as objects: `Commit`, `Refusal`, and `Item` with the cases of its value. The lines that they are made of stand in `docs/FORMATS.md`."""

from __future__ import annotations

from dataclasses import dataclass
from typing import Dict, Optional, Tuple, Union

from .engine import PolydbError

__all__ = ["Answer", "Case", "Commit", "InDoubt", "Item", "Refusal", "answer_of", "item_of"]


class InDoubt(PolydbError):
    """There isn't one value or reply, but several: it depends on the outcomes of transactions that aren't known yet."""


@dataclass(frozen=True)
class Commit:
    """The transaction has committed."""

    transaction: str
    #: All replies that there may be. A reply is a number, or `nothing`, or `declined-require`, `declined-overflow`, `declined-zero-divisor`.
    replies: Tuple[Union[int, str], ...]

    @property
    def is_certain(self) -> bool:
        """Whether there is one reply, however the outcomes turn out on which it depends."""
        return len(self.replies) == 1

    @property
    def reply(self) -> Union[int, str]:
        """The one reply, or InDoubt."""
        if not self.is_certain:
            raise InDoubt(f"{self.transaction} has {len(self.replies)} replies: {', '.join(map(str, self.replies))}")
        return self.replies[0]

    def __bool__(self) -> bool:
        return True


@dataclass(frozen=True)
class Refusal:
    """The transaction hasn't committed, and never will."""

    transaction: str
    #: `conflict`, `outcome-limit`, `uncertain`, `expired`, `grant-lost` or `journal-full`.
    cause: str
    #: What the cause says besides: `site`, `item`, `holder`, `names`, `length`.
    more: Dict[str, Union[int, str]]

    def __bool__(self) -> bool:
        return False


Answer = Union[Commit, Refusal]


@dataclass(frozen=True)
class Case:
    """A value, and when it is so: each transaction that has to commit with a `+` before it, and each that has not to with a `-`."""

    value: int
    when: Tuple[str, ...]


@dataclass(frozen=True)
class Item:
    """What a site shows of an item."""

    name: str
    #: Its values. One without conditions is sure.
    cases: Tuple[Case, ...]
    #: The transaction that holds it; then no value is shown.
    locked: Optional[str] = None

    @property
    def is_certain(self) -> bool:
        """Whether it has one value."""
        return self.locked is None and len(self.cases) == 1

    @property
    def value(self) -> int:
        """The one value, or InDoubt."""
        if not self.is_certain:
            raise InDoubt(f"{self.name} has {len(self.cases)} values" if self.locked is None else f"{self.name} is held by {self.locked}")
        return self.cases[0].value

    @property
    def values(self) -> Tuple[int, ...]:
        """All values that there may be."""
        return tuple(case.value for case in self.cases)


_MEMBERS = {
    "conflict": ("site", "item", "holder"),
    "outcome-limit": ("names",),
    "uncertain": ("item", "names"),
    "expired": ("site",),
    "grant-lost": ("site",),
    "journal-full": ("site", "length"),
}


def _word(word: str) -> Union[int, str]:
    return int(word) if word.lstrip("-").isdigit() else word


def answer_of(line: str) -> Answer:
    """A report `commit ..` or `refuse ..` as an object."""
    kind, transaction, cause, *rest = line.split()
    if kind == "commit":
        return Commit(transaction, tuple(map(_word, rest)))
    if kind == "refuse":
        return Refusal(transaction, cause, dict(zip(_MEMBERS.get(cause, ()), map(_word, rest))))
    raise ValueError(line)


def item_of(name: str, shown: str) -> Item:
    """What a site shows of an item, `50 if -0.1.0 ; 60 if +0.1.0`, as an object."""
    if shown.startswith("locked "):
        return Item(name, (), shown.split()[1])
    cases = []
    for case in shown.split(" ; "):
        value, _, when = case.partition(" if ")
        cases.append(Case(int(value), tuple(when.split())))
    return Item(name, tuple(cases))
