"""Problems of the field as assumptions about variables: networks, index coding, coded caching, regenerating codes."""

from __future__ import annotations

from collections.abc import Hashable, Iterable, Mapping, Sequence
from dataclasses import dataclass, field
from itertools import combinations
from typing import Any, Optional, Union

from .answers import Answer
from .asking import prove
from .bounds import OuterBound, outer_bound
from .curves import Curve, tradeoff
from .errors import NotationError
from .factors import Factor, best
from .notation import Assumption, Constraint, H, Names, Relation, Sum, Variable, entropy, indep, rates, rv
from .questions import Given, listed

Node = Hashable
Messages = Union[str, Iterable[str]]


@dataclass(frozen=True)
class Problem:
    """Variables with what ties them: ask of it by `prove`, `best`, `tradeoff` and `outer_bound`. `labels` say what each variable is."""

    given: tuple[Assumption, ...]
    labels: Mapping[str, str] = field(default_factory=dict, hash=False)

    def prove(self, relation: Union[str, Relation], given: Given = None, **settings: Any) -> Answer:
        return prove(relation, [*self.given, *listed(given)], **settings)

    def best(self, greater: Sum, less: Sum, given: Given = None, **settings: Any) -> Factor:
        return best(greater, less, [*self.given, *listed(given)], **settings)

    def tradeoff(self, x: Sum, y: Sum, unit: Sum, given: Given = None, **settings: Any) -> Curve:
        return tradeoff(x, y, unit, [*self.given, *listed(given)], **settings)

    def outer_bound(self, *kept: Sum, given: Given = None, **settings: Any) -> OuterBound:
        return outer_bound(*kept, given=[*self.given, *listed(given)], **settings)

    def __str__(self) -> str:
        return "\n".join(part.text() for part in self.given)


def _func(what: Iterable[str], of: Iterable[str]) -> Constraint:
    return Constraint("func", (tuple(what), tuple(of)))


def _independent(messages: Sequence[str]) -> list[Assumption]:
    return [indep(*map(Variable, messages))] if len(messages) > 1 else []


def _equal(names: Sequence[str]) -> list[Assumption]:
    return [entropy((one,)) == entropy((next_one,)) for one, next_one in zip(names, names[1:])]


def _at_most(names: Iterable[str], rate: Sum) -> list[Assumption]:
    return [entropy((name,)) <= rate for name in names]


# Networks


@dataclass(frozen=True)
class Edge:
    """What `tail` sends to its heads, the same to each, at most `capacity` where that is given."""

    name: str
    tail: Node
    heads: tuple[Node, ...]
    capacity: Optional[Sum] = None


def network(edges: Any, sources: Mapping[Node, Messages], demands: Mapping[Node, Messages], merge: bool = True) -> Problem:
    """A network without cycles: the messages at nodes, which are independent, what each edge carries, and what each sink wants.

    `edges` are a graph of networkx, or (tail, head) or (tail, head, capacity) for each edge, or of class `Edge`; a capacity is a sum, as a
    rate. With `merge` an edge without a capacity carries all that its tail has, and a node that has one edge alone and no message forwards
    it on edges of the same capacity. That makes no code worse, and leaves fewer variables.
    """
    made = _Network(_edges(edges), {node: _named(what) for node, what in sources.items()}, merge)
    made.carry()
    wants = [made.want(node, _named(messages)) for node, messages in demands.items()]
    messages = list(dict.fromkeys(name for group in made.messages.values() for name in group))
    functions = [*made.functions, *(want for want in wants if want is not None)]
    return Problem((*_independent(messages), *functions, *made.bounds), {**dict.fromkeys(messages, "a message"), **made.labels})


class _Network:
    """What each edge carries, edge after edge from the sources on."""

    def __init__(self, edges: Sequence[Edge], messages: Mapping[Node, Names], merge: bool) -> None:
        self.edges = edges
        self.messages = messages
        self.merge = merge
        self.arriving: dict[Node, list[Edge]] = {}
        for edge in edges:
            for head in edge.heads:
                self.arriving.setdefault(head, []).append(edge)
        self.carried: dict[str, Names] = {}  # by the names of edges, those of variables
        self.capacities: dict[str, Sum] = {}
        self.labels: dict[str, str] = {}
        self.functions: list[Assumption] = []
        self.bounds: list[Assumption] = []

    def has(self, node: Node) -> Names:
        """The variables that a node has: its messages, and what arrives there."""
        arriving = [name for edge in self.arriving.get(node, ()) for name in self.carried[edge.name]]
        found = tuple(dict.fromkeys([*self.messages.get(node, ()), *arriving]))
        if not found:
            raise NotationError(f"nothing arrives at {node!r}")
        return found

    def carry(self) -> None:
        left = list(self.edges)
        while left:
            ready = [edge for edge in left if all(into.name in self.carried for into in self.arriving.get(edge.tail, ()))]
            if not ready:
                raise NotationError("the network has a cycle: give it time, with an edge for each moment")
            for edge in ready:
                left.remove(edge)
                self._carry(edge)

    def _carry(self, edge: Edge) -> None:
        inputs = self.has(edge.tail)
        ends = f"{edge.tail} to {', '.join(map(str, edge.heads))}"
        if self.merge and (edge.capacity is None or self._forwards(inputs, edge.capacity)):
            self.carried[edge.name] = inputs
            self.labels.update((name, f"{self.labels[name]}, {ends}") for name in inputs if name in self.labels)
            return
        if edge.name in self.labels or any(edge.name in names for names in self.messages.values()):
            raise NotationError(f"{edge.name} names two things")
        self.carried[edge.name] = (edge.name,)
        self.labels[edge.name] = ends
        self.functions.append(_func((edge.name,), inputs))
        if edge.capacity is not None:
            self.capacities[edge.name] = edge.capacity
            self.bounds += _at_most((edge.name,), edge.capacity)

    def _forwards(self, inputs: Names, capacity: Sum) -> bool:
        """Whether the inputs are one edge's, of the same capacity."""
        return len(inputs) == 1 and inputs[0] in self.capacities and self.capacities[inputs[0]].same(capacity)

    def want(self, node: Node, messages: Names) -> Optional[Assumption]:
        has = self.has(node)
        missing = [name for name in messages if name not in has]
        return _func(missing, has) if missing else None


def _named(what: Messages) -> Names:
    return tuple(variable.name for variable in rv(what)) if isinstance(what, str) else tuple(what)


def _edges(edges: Any) -> list[Edge]:
    if hasattr(edges, "edges") and hasattr(edges, "nodes"):  # a graph of networkx
        edges = [(tail, head, said.get("capacity"), said.get("name")) for tail, head, said in edges.edges(data=True)]
    found = []
    for number, edge in enumerate(edges, 1):
        if not isinstance(edge, Edge):
            tail, head, capacity, name = (*edge, None, None)[:4]
            edge = Edge(name or f"E{number}", tail, tuple(head) if isinstance(head, (list, tuple, set)) else (head,), capacity)
        found.append(edge)
    return found


# Index coding, caching, storage


def index_coding(wants: Mapping[str, Messages], word: str = "P") -> Problem:
    """One word for all: index_coding({"A": "E B", "B": "A C", ..}) has a receiver for each message, who knows the others listed.

    The rate L is at most each message's entropy, so that best(H(P), L) is about the least length of the word.
    """
    messages = tuple(wants)
    length, = rates("L")
    given = [*_independent(messages), _func((word,), messages)]
    given += [_func((wanted,), (*_named(known), word)) for wanted, known in wants.items()]
    given += [length <= entropy((name,)) for name in messages]
    return Problem(tuple(given), {**dict.fromkeys(messages, "a message"), word: "the word"})


def caching(files: int, users: int, demands: Sequence[Sequence[int]]) -> Problem:
    """Coded caching: each user has a cache of size M, and for each listed demand one word of size R serves all users.

    Files are A, B, C and so on, of one size; by the demand (1, 2, 1) user 1 wants A, user 2 B, user 3 A. The unit is H(A).
    """
    names = "ABCDEFGJK"[:files]
    caches = [f"Z{user}" for user in range(1, users + 1)]
    words = {"X" + "".join(map(str, demand)): demand for demand in demands}
    given = [*_independent(names), _func([*caches, *words], names)]
    given += [_func((names[file - 1],), (cache, word)) for word, demand in words.items() for cache, file in zip(caches, demand)]
    memory, rate = rates("M R")
    given += [*_equal(names), *_at_most(caches, memory), *_at_most(words, rate)]
    return Problem(tuple(given), {**dict.fromkeys(names, "a file"), **dict.fromkeys(caches, "a cache"), **dict.fromkeys(words, "a word")})


def regenerating(nodes: int, enough: int, helpers: int, repairs: Optional[Iterable[tuple[int, Sequence[int]]]] = None) -> Problem:
    """Regenerating codes with exact repair: a node stores at most A, any `enough` nodes hold all, and a lost node is made anew from at
    most B of each of `helpers` others. `repairs` says which repairs there are, as [(3, (1, 2))] for that of node 3 by 1 and 2.

    What a helper sends depends on the lost node alone, and not on the other helpers. The unit is the entropy of any `enough` nodes.
    """
    stored = {node: f"W{node}" for node in range(1, nodes + 1)}
    if repairs is None:
        repairs = [(lost, by) for lost in stored for by in combinations([node for node in stored if node != lost], helpers)]
    chosen = list(repairs)
    sent = {(helper, lost): f"S{helper}{lost}" for lost, by in chosen for helper in by}
    by_helper = {node: [name for (helper, _), name in sent.items() if helper == node] for node in stored}
    given: list[Assumption] = [_func(names, (stored[node],)) for node, names in by_helper.items() if names]
    given += [_func((stored[lost],), [sent[helper, lost] for helper in by]) for lost, by in chosen]
    for group in combinations(stored, enough) if enough < nodes else ():
        given.append(_func([stored[node] for node in stored if node not in group], [stored[node] for node in group]))
    size, each = rates("A B")
    given += [*_at_most(stored.values(), size), *_at_most(sent.values(), each)]
    labels = {name: f"node {node}" for node, name in stored.items()}
    labels.update((name, f"{helper} helps to mend {lost}") for (helper, lost), name in sent.items())
    return Problem(tuple(given), labels)
