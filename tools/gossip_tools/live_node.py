"""A node that gossips by datagrams: what it tells, what it sends, and what it makes of what comes.

For those who write gossip, beside tools/replay.py: the rules of docs/model.md as bytes, the greatest first, on a
network that loses datagrams, holds them up and changes their order. An exchange of p, who begins it, with q has three:

  DIGEST   p to q   what p holds
  ANSWER   q to p   what q holds, and a delta: what p lacks by its digest
  DELTA    p to q   a delta: what q lacks by the digest of the answer

A node keeps nothing of an exchange. It answers each digest and takes each delta as it comes, however late, in whatever
order, and also twice. That leaves no gap in a scuttle mode, where a mark stands for all that is below it. Of each owner
a delta has what comes right above the mark that the digest told, in order and without holes. While a node runs its
marks only rise, as an entry never takes the place of a newer one. So when the delta comes the node still holds all up
to that mark, and what comes joins on. A restart alone takes copies away: so a digest tells how often its node has
restarted, its `life`, a delta repeats that, and a node drops a delta that was made for an earlier life.
"""
import random
import struct
from enum import IntEnum
from itertools import accumulate
from typing import NamedTuple

HEADER = struct.Struct(">BHIIII")  # kind, sender, its life, life that the delta is for, numbers and entries to come
NUMBER = struct.Struct(">HHQ")  # of the digest: owner, key, mark; in a scuttle mode the key is always 0
ENTRY = struct.Struct(">HHQIII")  # of the delta: owner, key, mark, value, born, how many bytes of padding follow
Kind = IntEnum("Kind", ("DIGEST", "ANSWER", "DELTA"))


class Entry(NamedTuple):
    owner: int
    key: int
    mark: int  # generation * 2^32 + version: marks compare as numbers, and 0 stands for no entry
    value: int
    born: int  # the interval in which it was written


class Message(NamedTuple):
    kind: Kind
    sender: int
    life: int  # the sender's
    made_for: int  # the receiver's life, by the digest that the delta was made from
    digest: dict  # for each owner the marks by key
    delta: list


def encoded(message, padding):
    *head, digest, delta = message
    numbers = [NUMBER.pack(owner, key, mark) for owner, told in digest.items() for key, mark in told.items()]
    entries = [ENTRY.pack(*it, padding(it)) + bytes(padding(it)) for it in delta]
    return b"".join([HEADER.pack(*head, len(numbers), len(entries)), *numbers, *entries])


def decoded(datagram):
    *head, numbers, entries = HEADER.unpack_from(datagram)
    at, digest, delta = HEADER.size + numbers * NUMBER.size, {}, []
    for owner, key, mark in NUMBER.iter_unpack(datagram[HEADER.size:at]):
        digest.setdefault(owner, {})[key] = mark
    for _ in range(entries):
        *fields, padding = ENTRY.unpack_from(datagram, at)
        delta.append(Entry(*fields))
        at += ENTRY.size + padding
    return Message(*head, digest, delta)


# The sending order: by rank and count among what is lacking of the same owner, and by the turned number of the owner.
ORDERS = {
    "scuttle-breadth": lambda it, rank, count, turned: (rank, turned, it.key),
    "scuttle-depth": lambda it, rank, count, turned: (-count, turned, it.mark),
    "precise-oldest": lambda it, rank, count, turned: (it.born, turned, it.mark),
    "precise-newest": lambda it, rank, count, turned: (-it.born, turned, -it.mark),
}


class Node:
    """A node by its number, the fields of the scenario, and `send`, which takes a receiver and a datagram."""

    def __init__(self, number, rules, send):
        self.number, self.rules, self.send = number, rules, send
        self.table = {}  # for each owner of whom it holds something, the entries by key
        self.generation = self.version = self.life = 0
        self.entries = self.cut = 0  # so far, of all deltas that it sent

    def restart(self, forgets):
        self.life += 1
        self.table = {owner: part for owner, part in self.table.items() if owner == self.number and not forgets}
        if forgets:
            self.generation, self.version = self.generation + 1, 0

    def write(self, interval):
        self.version += 1
        drawn = random.getrandbits(32) if self.rules.choice == "random" else self.version - 1
        value, key = divmod(drawn, self.rules.keys)
        entry = Entry(self.number, key, self.generation << 32 | self.version, value, interval)
        self.table.setdefault(self.number, {})[key] = entry
        return entry

    def begin(self, peer):
        self.put(peer, Kind.DIGEST, 0, self.digest())

    def receive(self, datagram):
        it = decoded(datagram)
        if it.kind == Kind.DIGEST:
            self.put(it.sender, Kind.ANSWER, it.life, self.digest(), self.delta(it.sender, it.digest))
        elif it.kind == Kind.ANSWER:
            # (made before it takes what came, so that nothing of that goes back)
            self.put(it.sender, Kind.DELTA, it.life, {}, self.delta(it.sender, it.digest))
        if it.made_for == self.life:
            self.apply(it.delta)

    def put(self, receiver, kind, made_for, digest, delta=()):
        message = Message(kind, self.number, self.life, made_for, digest, delta)
        self.send(receiver, encoded(message, self.rules.padding))

    def digest(self):
        """In a scuttle mode the greatest mark of each owner, in a precise one the mark of each key."""
        if self.rules.is_scuttle:
            return {owner: {0: max(it.mark for it in part.values())} for owner, part in self.table.items()}
        return {owner: {key: it.mark for key, it in part.items()} for owner, part in self.table.items()}

    def lacking(self, told, part):
        """The entries of an owner that a node lacks who told this of it; never those of an older generation."""
        greatest = max(told.values(), default=0)
        if self.rules.is_scuttle:
            return [it for it in part.values() if it.mark > greatest]
        return [it for it in part.values() if it.mark > max(told.get(it.key, 0), greatest >> 32 << 32)]

    def delta(self, receiver, digest):
        """What the receiver lacks by its digest, in the order of the mode, as much as the budget has room for."""
        turn = random.randrange(self.rules.nodes) if self.rules.rotation == "random" else 0
        order, ranked = ORDERS[self.rules.mode], []
        for owner in self.table.keys() - {receiver}:
            lacking = sorted(self.lacking(digest.get(owner, {}), self.table[owner]), key=lambda it: it.mark)
            turned = (owner - turn) % self.rules.nodes
            ranked += [(order(it, rank, len(lacking), turned), it) for rank, it in enumerate(lacking)]
        ordered = [it for _, it in sorted(ranked)]
        taken = accumulate(map(self.rules.size, ordered))
        sent = [it for it, upto in zip(ordered, taken) if upto <= self.rules.budget]
        self.entries, self.cut = self.entries + len(sent), self.cut + len(ordered) - len(sent)
        return sent

    def apply(self, delta):
        """Takes the newer entry of each key, and of an owner the newest generation alone."""
        for it in delta:
            part = self.table.setdefault(it.owner, {})
            generation = max((held.mark for held in part.values()), default=0) >> 32
            if it.mark >> 32 > generation:
                part.clear()
            if it.mark >> 32 >= generation and (it.key not in part or it.mark > part[it.key].mark):
                part[it.key] = it
