"""What is to happen in a live cluster: a scenario with the interval, the latency and the fanout of the network."""
import random
from types import SimpleNamespace

from gossip_tools import read
from gossip_tools.live_node import ENTRY, HEADER, NUMBER
from gossip_tools.scenario import digest_numbers

LARGEST = 65507  # the bytes of the largest datagram
PADDINGS = 1000  # in format 2 an entry has from 0 to 999 bytes of padding


class Plan(SimpleNamespace):
    """The fields of a scenario, whose rounds are intervals here, with the budget in one field; the seconds of an
    interval; the least and the most latency, in intervals; and the fanout."""

    def __init__(self, **fields):
        super().__init__(**fields)
        self.is_scuttle = self.mode.startswith("scuttle-")
        self.restarts_of = read.grouped((it["node"], it) for it in self.restart)
        self.apart = [(it["from"], it["to"], frozenset(it["apart"])) for it in self.partition]

    def padding(self, entry):
        return entry.value % PADDINGS if self.format == 2 else 0

    def size(self, entry):
        return ENTRY.size + self.padding(entry) if self.format == 2 else 1

    def largest_message(self):
        lacking = (self.nodes - 1) * self.keys
        delta = min(self.budget, lacking) * ENTRY.size
        if self.format == 2:
            delta = min(self.budget, lacking * (ENTRY.size + PADDINGS - 1))
        return HEADER.size + digest_numbers(self.nodes, self.keys, self.mode) * NUMBER.size + delta

    def is_down(self, node, round):
        return any(it["round"] <= round < it["round"] + it["down"] for it in self.restarts_of.get(node, ()))

    def restarts_in(self, node, round):
        return [it for it in self.restarts_of.get(node, ()) if it["round"] == round]

    def writes_in(self, round):
        """The writes of each node that is up. The last listed load counts."""
        return [self.writes, *(it["writes"] for it in self.load if it["from"] <= round <= it["to"])][-1]

    def are_separated(self, node, other, round):
        return any(first <= round <= last and (node in apart) != (other in apart) for first, last, apart in self.apart)

    def peers_of(self, node, round):
        others = self.nodes - 1
        if self.peers == "random":
            return [it + (it >= node) for it in random.sample(range(others), self.fanout)]
        if self.peers == "ring":
            begun = (round - 1) * self.fanout
            return [(node + 1 + (begun + call) % others) % self.nodes for call in range(self.fanout)]
        raise ValueError(self.peers)
