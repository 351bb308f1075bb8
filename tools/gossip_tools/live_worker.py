"""The processes of a live cluster. Each has some of the nodes, and each of these a socket and a clock of its own.

By a pipe, which has no part in gossip, a process tells the one that supervises it on which addresses its nodes are, at
the end of each interval what they hold, and at last how many datagrams they sent and received.
"""
import asyncio
import collections
import contextlib
import functools
import multiprocessing
import os
import random
import resource
import time
from array import array
from concurrent.futures import ThreadPoolExecutor

from gossip_tools import running
from gossip_tools.commands import Refused, workers
from gossip_tools.live_figures import LATE, say
from gossip_tools.live_node import Node

NODES_OF_A_PROCESS = 16  # fewer aren't worth a process more
MESSAGES = 3  # of an exchange
TIME_TO_BEGIN = 0.2  # seconds, in which each process hears when the cluster begins
TIME_TO_END = 0.2  # seconds, in which what is under way comes

# What a process tells at the end of an interval: counts of all intervals so far; the greatest lag, in intervals, and
# the writes since the last time; and of each node its generation and the marks that it holds.
Told = collections.namedtuple("Told", "entries, cut, timers, late, lag, writes, generations, marks")


def marks_of(node, plan):
    """The mark of each key of each owner, or 0 where the node holds nothing."""
    marks = array("Q", bytes(8 * plan.nodes * plan.keys))
    for owner, part in node.table.items():
        for key, entry in part.items():
            marks[owner * plan.keys + key] = entry.mark
    return marks


class Socket(asyncio.DatagramProtocol):
    def __init__(self, receive):
        self.datagram_received = receive


class Host:
    """The nodes of a process, and the network as they meet it."""

    def __init__(self, plan, numbers, loop):
        self.plan, self.loop = plan, loop
        self.nodes = {it: Node(it, plan, lambda *what, it=it: self.send(it, *what)) for it in numbers}
        self.phases = {it: random.random() for it in numbers}
        self.sockets, self.addresses, self.known, self.begin = {}, [], set(), 0.0
        # (sent and received are datagrams, but for those that the scenario loses)
        self.timers = self.late = self.sent = self.received = 0
        self.lag, self.writes, self.down = 0.0, [], set()

    async def bind(self):
        """Gives each node a socket, and answers with their addresses."""
        for number in self.nodes:
            self.sockets[number], _ = await self.loop.create_datagram_endpoint(
                lambda number=number: Socket(functools.partial(self.receive, number)), local_addr=("127.0.0.1", 0))
        return {number: it.get_extra_info("sockname") for number, it in self.sockets.items()}

    def start(self, addresses, begin):
        self.addresses, self.known = [addresses[it] for it in sorted(addresses)], set(addresses.values())
        self.begin = begin
        for number, phase in self.phases.items():
            self.at(phase, self.tick, number, 1)

    def at(self, intervals, what, *words):
        """Has something done so many intervals after the beginning, and notes how late it is."""
        planned = self.begin + intervals * self.plan.interval

        def go_off():
            lag = (self.loop.time() - planned) / self.plan.interval
            self.timers += 1
            self.late += lag > LATE
            self.lag = max(self.lag, lag)
            what(*words)

        self.loop.call_at(planned, go_off)

    def tick(self, number, round):
        """An interval of a node's own clock begins: it restarts, writes, and calls its peers."""
        node, plan = self.nodes[number], self.plan
        if restarts := plan.restarts_in(number, round):
            node.restart(any(it.get("forget") for it in restarts))
        self.down.discard(number)
        if plan.is_down(number, round):
            self.down.add(number)
        else:
            self.writes += [node.write(round) for _ in range(plan.writes_in(round))]
            for peer in plan.peers_of(number, round):
                node.begin(peer)
        if round < plan.rounds:
            self.at(round + self.phases[number], self.tick, number, round + 1)

    def send(self, sender, receiver, datagram):
        """The network loses a datagram, or carries it after the latency."""
        round = 1 + int((self.loop.time() - self.begin) / self.plan.interval)
        if random.random() * 1000000 < self.plan.loss_ppm or self.plan.are_separated(sender, receiver, round):
            return
        if delay := random.uniform(*self.plan.latency) * self.plan.interval:
            self.loop.call_later(delay, self.carry, sender, receiver, datagram)
        else:
            self.carry(sender, receiver, datagram)

    def carry(self, sender, receiver, datagram):
        self.sent += 1
        self.sockets[sender].sendto(datagram, self.addresses[receiver])

    def receive(self, number, datagram, address):
        # (what another program of this machine sends is passed over)
        if address in self.known:
            self.received += 1
            if number not in self.down:
                self.nodes[number].receive(datagram)

    def told(self):
        nodes = self.nodes.values()
        told = Told(sum(it.entries for it in nodes), sum(it.cut for it in nodes), self.timers, self.late, self.lag,
                    self.writes, {it.number: it.generation for it in nodes},
                    {it.number: marks_of(it, self.plan) for it in nodes})
        self.lag, self.writes = 0.0, []
        return told


async def play(plan, numbers, pipe):
    host = Host(plan, numbers, asyncio.get_running_loop())
    pipe.send(await host.bind())
    host.start(*pipe.recv())
    supervisor, ended = os.getppid(), asyncio.Event()
    # (a thread of its own, so that no node waits for the other side of the pipe, which may be gone)
    with ThreadPoolExecutor(1) as sending:
        def tell(round):
            sending.submit(pipe.send, host.told())
            if round == plan.rounds or os.getppid() != supervisor:
                ended.set()

        for round in range(1, plan.rounds + 1):
            host.at(round, tell, round)
        await ended.wait()
        # (until the exchanges that are under way are over)
        await asyncio.sleep(MESSAGES * plan.latency[1] * plan.interval + TIME_TO_END)
        sending.submit(pipe.send, (host.sent, host.received))


def main(plan, numbers, pipe, others):
    for it in others:
        it.close()
    # (each node has an open file)
    _, most = resource.getrlimit(resource.RLIMIT_NOFILE)
    resource.setrlimit(resource.RLIMIT_NOFILE, (most, most))
    try:
        asyncio.run(play(plan, numbers, pipe))
    except (OSError, MemoryError) as error:
        pipe.send(getattr(error, "strerror", None) or "out of memory")
    except EOFError:
        pass


@contextlib.contextmanager
def processes(plan):
    """The pipes to processes that have the nodes, which begin at once. They end with the block."""
    count = max(1, min(workers(), plan.nodes // NODES_OF_A_PROCESS))
    fork, started, pipes = multiprocessing.get_context("fork"), [], []
    try:
        for at in range(count):
            with running.deaf():
                pipe, theirs = fork.Pipe()
                pipes.append(pipe)
                process = fork.Process(target=main, args=(plan, range(at, plan.nodes, count), theirs, list(pipes)))
                process.start()
                started.append(process)
                theirs.close()
        addresses = dict(collections.ChainMap(*heard(pipes)))
        when = time.monotonic() + TIME_TO_BEGIN
        with talk():
            for it in pipes:
                it.send((addresses, when))
        yield pipes
    finally:
        for it in started:
            it.kill()
            it.join()


@contextlib.contextmanager
def talk():
    """A block that speaks with processes, in which one may be found to have ended."""
    try:
        yield
    except (EOFError, OSError):
        raise Refused(say("ended"), 1) from None


def heard(pipes):
    with talk():
        found = [it.recv() for it in pipes]
    if failed := [it for it in found if isinstance(it, str)]:
        raise Refused(say("failed", why=failed[0]), 1)
    return found
