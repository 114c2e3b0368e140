"""Secret sharing: who may know the secret, and how large the shares must be (docs/guide/sharing.md)."""

from __future__ import annotations

from collections.abc import Iterable
from dataclasses import dataclass
from typing import Any, Union

from .answers import Answer
from .asking import prove
from .errors import NotationError
from .evidence import subset
from .factors import Factor, best
from .notation import Assumption, Constraint, Names, Relation, Sum, Variable, Variables, entropy, names_of, rates
from .reading import Reader


@dataclass(frozen=True)
class Sharing:
    """A secret, its parties, and the sets of parties that know it together, with all larger sets and no others."""

    secret: str
    parties: Names
    qualified: tuple[Names, ...]

    def knows(self, group: Iterable[str]) -> bool:
        members = set(group)
        return any(members.issuperset(known) for known in self.qualified)

    def minimal(self) -> list[Names]:
        """The listed sets that contain no other listed one, each once, in their order."""
        sets = [frozenset(known) for known in self.qualified]
        return [
            known
            for place, known in enumerate(self.qualified)
            if sets[place] not in sets[:place] and not any(other < sets[place] for other in sets)
        ]

    def maximal(self) -> list[Names]:
        """The unqualified sets that lie in no other one, by their numbers."""
        groups = (subset(self.parties, number) for number in range(2 ** len(self.parties)))
        return [
            group
            for group in groups
            if not self.knows(group) and all(self.knows((*group, party)) for party in self.parties if party not in group)
        ]

    def given(self) -> tuple[Assumption, ...]:
        """Each minimal set knows the secret, each maximal one nothing of it: in the order of mode `sharing`."""
        knowing = [entropy((self.secret,), condition=known) == 0 for known in self.minimal()]
        return tuple(knowing + [entropy((self.secret,), group) == 0 for group in self.maximal() if group])

    def prove(self, relation: Union[str, Relation], **settings: Any) -> Answer:
        return prove(relation, self.given(), **settings)

    def best(self, greater: Sum, less: Sum, **settings: Any) -> Factor:
        return best(greater, less, self.given(), **settings)

    def worst_share(self, **settings: Any) -> Factor:
        """The least factor of the largest share over the secret: its `bound` is how many times the secret some share must be."""
        size, = rates("share")
        sizes = [entropy((party,)) <= size for party in self.parties]
        return best(size, entropy((self.secret,)), [*self.given(), *sizes], **settings)

    def file(self, asks: str) -> str:
        """The same as a file of mode `sharing`, which asks by this line."""
        lines = [f"secret {self.secret}", "parties " + ", ".join(self.parties), *("qualified " + ", ".join(known) for known in self.qualified)]
        return "\n".join([*lines, asks]) + "\n"


def read_sharing(file: str) -> tuple[Sharing, str]:
    """A sharing file that the program has read, in the form in which `cut` hands it out: who shares, and the line that asks.

    >>> read_sharing("secret s\\nparties a, b\\nqualified a, b\\nprove H(a) >= H(s)\\n")
    (Sharing(secret='s', parties=('a', 'b'), qualified=(('a', 'b'),)), 'prove H(a) >= H(s)')
    """
    *lines, asks = file.splitlines()
    (secret,), parties, *qualified = map(_listed, lines)
    return Sharing(secret, parties, tuple(qualified)), asks


def _listed(line: str) -> Names:
    reader = Reader(line)
    reader.take()
    return reader.names()


def sharing(secret: Variable, *qualified: Variables, parties: Variables = ()) -> Sharing:
    """sharing(s, a + b, b + c, c + d): these sets know the secret s together. `parties` may name further ones, or give their order."""
    sets = tuple(map(names_of, qualified))
    everyone = tuple(dict.fromkeys([*names_of(parties), *(name for known in sets for name in known)]))
    if secret.name in everyone:
        raise NotationError(f"{secret} is the secret, and no party")
    if not all(sets) or not sets:
        raise NotationError("a set that knows the secret has a party: sharing(s, a + b, b + c)")
    return Sharing(secret.name, everyone, sets)
