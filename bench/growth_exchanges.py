"""Exchanges by which nodes that share the tiles of a job come to hold all of them: which message goes when, and which arrive.

Node K makes share K of the tiles. What a node holds is a set of shares, as the bits of a number.
"""
from random import Random
from typing import Callable, Iterator, NamedTuple


class Sending(NamedTuple):
    """A message: from whom, to whom, the shares in it, and whether it arrives."""

    sender: int
    to: int
    shares: tuple[int, ...]
    arrives: bool


class Exchange(NamedTuple):
    """All messages, or only their count and that of the shares in them, and how many rounds they take."""

    nodes: int
    rounds: int
    count: int
    shares: int
    messages: list[Sending]


# a message that is to be sent: from whom, to whom, and its shares as bits
Wish = tuple[int, int, int]


class Nodes:
    """Nodes, and what each of them holds. Messages of a round leave before any of them arrives."""

    def __init__(self, count: int, loss: int, seed: int, is_counted: bool):
        self.count, self.loss, self.random, self.is_counted = count, loss, Random(seed), is_counted
        self.held = [1 << it for it in range(count)]
        self.rounds = self.sent = self.shares = 0
        self.messages: list[Sending] = []

    def are_done(self) -> bool:
        return all(it == (1 << self.count) - 1 for it in self.held)

    def round(self, wishes: list[Wish]) -> list[Wish]:
        """Sends the messages of a round. Those that are lost are left."""
        lost = []
        for wish in wishes:
            sender, to, shares = wish
            arrives = self.random.randrange(100) >= self.loss
            self.sent += 1
            self.shares += shares.bit_count()
            if not self.is_counted:
                self.messages.append(Sending(sender, to, tuple(bits(shares)), arrives))
            if arrives:
                self.held[to] |= shares
            else:
                lost.append(wish)
        self.rounds += 1
        return lost

    def until_arrived(self, wishes: list[Wish]) -> None:
        """Sends messages, and again what is lost, until all have arrived."""
        while wishes:
            wishes = self.round(wishes)

    def exchange(self) -> Exchange:
        return Exchange(self.count, self.rounds, self.sent, self.shares, self.messages)


def bits(number: int) -> Iterator[int]:
    return (at for at in range(number.bit_length()) if number >> at & 1)


def all_to_all(nodes: Nodes) -> None:
    """Each node sends its own share to each other node."""
    nodes.until_arrived([(one, other, 1 << one) for one in range(nodes.count) for other in range(nodes.count) if one != other])


def ring(nodes: Nodes) -> None:
    """Each node sends to the next one the share that it received last, its own first, until each share has gone around."""
    for step in range(nodes.count - 1):
        nodes.until_arrived([(it, (it + 1) % nodes.count, 1 << (it - step) % nodes.count) for it in range(nodes.count)])


def random_pairs(nodes: Nodes) -> None:
    """Each round, each node sends all that it holds to another one that it draws."""
    while not nodes.are_done():
        nodes.round([(it, (it + nodes.random.randrange(1, nodes.count)) % nodes.count, nodes.held[it]) for it in range(nodes.count)])


def asking_pairs(nodes: Nodes) -> None:
    """Each round, each node draws another one, which sends it what it lacks. The question is no message with facts."""
    while not nodes.are_done():
        drawn = [(it + nodes.random.randrange(1, nodes.count)) % nodes.count for it in range(nodes.count)]
        wishes = [(other, it, nodes.held[other] & ~nodes.held[it]) for it, other in enumerate(drawn)]
        nodes.round([it for it in wishes if it[2]])


WAYS: dict[str, Callable[[Nodes], None]] = {
    "all to all": all_to_all, "ring": ring, "random pairs": random_pairs, "random pairs, asked": asking_pairs}


def exchange_of(way: str, nodes: int, loss: int, seed: int, is_counted: bool = False) -> Exchange:
    """The exchange of a way, where so many of a hundred messages are lost."""
    found = Nodes(nodes, loss, seed, is_counted)
    WAYS[way](found)
    return found.exchange()
