"""What the nodes of a live cluster make of datagrams that come late, twice or in another order, and when its figures
are worthless. That nodes send, hold and count what the bench does is tried in scripts/."""
import random
import unittest

from gossip_tools import live_node
from gossip_tools.live_figures import Figures
from gossip_tools.live_node import Entry, Kind, Message, Node
from gossip_tools.scenario import MODES
from given import plan


def mark(generation, version):
    return generation * 2**32 + version


class Cluster:
    """Nodes and the datagrams that are under way between them, as (receiver, datagram)."""

    def __init__(self, **fields):
        rules = plan(**fields)
        self.under_way = []
        self.nodes = [Node(it, rules, lambda *what: self.under_way.append(what)) for it in range(rules.nodes)]

    def bring(self, at=0):
        receiver, datagram = self.under_way.pop(at)
        self.nodes[receiver].receive(datagram)

    def do_anything(self, drawn, round):
        node, what = drawn.choice(self.nodes), drawn.random()
        if what < 0.15:
            node.write(round)
        elif what < 0.35:
            node.begin(drawn.choice([it.number for it in self.nodes if it is not node]))
        elif what < 0.38:
            node.restart(forgets=drawn.random() < 0.3)
        elif self.under_way:
            # (any datagram that is under way comes, and one of ten stays under way too)
            at = drawn.randrange(len(self.under_way))
            if drawn.random() < 0.1:
                self.under_way.append(self.under_way[at])
            self.bring(at)


class Datagrams(unittest.TestCase):
    message = Message(Kind.ANSWER, 5, 1, 7, {3: {0: mark(1, 9)}}, [Entry(4, 2, mark(0, 6), 1003, 8)])
    # (a line each for the head, a number of the digest, an entry)
    datagram = bytes.fromhex("02 0005 00000001 00000007 00000001 00000001"
                             "0003 0000 00000001 00000009"
                             "0004 0002 00000000 00000006 000003eb 00000008 00000003 000000")

    def test_bytes(self):
        self.assertEqual(self.datagram, live_node.encoded(self.message, lambda it: it.value % 1000))
        self.assertEqual(self.message, live_node.decoded(self.datagram))

    def test_entries_have_the_bytes_of_the_bench(self):
        for form, value, wanted in ((1, 999, 24), (2, 0, 24), (2, 999, 1023), (2, 1003, 27)):
            entry = Entry(1, 0, mark(0, 3), value, 2)
            datagram = live_node.encoded(self.message._replace(delta=[entry]), plan(format=form).padding)
            # (31 are those of the head and the one number)
            self.assertEqual(31 + wanted, len(datagram))


class Order(unittest.TestCase):
    """Datagrams that come late, in another order, twice, or after a restart."""

    def test_a_newer_generation_wins(self):
        """Of owner 1 one node holds x, and another one y, which is of a newer generation."""
        x, y = Entry(1, 1, mark(0, 5), 0, 3), Entry(1, 0, mark(1, 1), 0, 4)
        for mode in MODES:
            older, newer = Cluster(mode=mode).nodes[2:]
            older.apply([x])
            newer.apply([y])
            self.assertEqual(([], [y]), (older.delta(0, newer.digest()), newer.delta(0, older.digest())), mode)
            older.apply([y])
            newer.apply([x])
            self.assertEqual([{1: {0: y}}] * 2, [older.table, newer.table], mode)

    def test_no_gap(self):
        """In a scuttle mode a node has all of an owner's own entries up to the greatest mark that it holds of it."""
        for seed in range(20):
            drawn = random.Random(seed)
            cluster = Cluster(nodes=5, keys=3, budget=4, mode=drawn.choice(MODES[:2]), choice="random",
                              rotation="random")
            for round in range(300):
                cluster.do_anything(drawn, round)
                self.assertEqual([], gaps(cluster.nodes), (seed, round))


def gaps(nodes):
    """What a copy lacks of its owner below the greatest mark that it has, where that is of the owner's generation."""
    found = []
    for holder in nodes:
        for owner, part in holder.table.items():
            greatest = max(it.mark for it in part.values())
            own = nodes[owner].table.get(owner, {}) if greatest >> 32 == nodes[owner].generation else {}
            found += [(holder.number, it) for it in own.values() if it.mark <= greatest and part.get(it.key) != it]
    return found


class Plans(unittest.TestCase):
    def test_random_peers(self):
        self.assertEqual([0, 1, 3], sorted(plan(peers="random", fanout=3).peers_of(2, 1)))

    def test_worthless(self):
        """More than one timer in 20 was late, or more than one datagram in 1000 didn't come."""
        for late, sent, came, is_so in ((5, 1000, 999, False), (6, 1000, 999, True), (5, 1000, 998, True),
                                        (0, 10, 11, False)):
            figures = Figures(plan())
            figures.timers, figures.late = 100, late
            figures.end([(sent, 0), (0, came)])
            self.assertEqual(is_so, figures.is_worthless(), (late, sent, came))
