"""Carries out the runs of a folder: here, on several cores at once, or on several machines by GNU parallel."""
import contextlib
import os
import re
import shlex
import shutil
import signal
import subprocess
import tempfile
import time

from gossip_tools.commands import Refused, Stopped, refuse_if, shown
from gossip_tools.texts import speaker

# In large pages, and much of it at a time, the C library gives memory faster. What the caller says to it goes before
# that.
LARGE_PAGES = {"GLIBC_TUNABLES": "glibc.malloc.hugetlb=1:glibc.malloc.top_pad=67108864"}
# A machine of HOSTS: `:` or its name, with or without a user, and before that how many cores it has.
NAME = "[A-Za-z0-9_.][A-Za-z0-9_.-]*"
HOST = f"([1-9][0-9]{{0,3}}/)?(:|({NAME}@)?{NAME})"
# The signals that end a process where nothing else is said.
ENDINGS = signal.SIGINT, signal.SIGTERM, signal.SIGHUP
# How GNU parallel ends, and in how many seconds: its first TERM lets none begin, its second ends what runs anywhere.
GENTLY = (signal.SIGTERM, 1), (signal.SIGTERM, 10)
say = speaker("running")


class Failed(Exception):
    """Why a run has no report."""


class Signals:
    """The signals that end a process raise Stopped, once. One that the caller ignores stays ignored."""
    held, waiting = False, None

    @classmethod
    def listen(cls):
        numbers = [it for it in ENDINGS if signal.getsignal(it) != signal.SIG_IGN]

        def stop(number, _):
            for it in numbers:
                signal.signal(it, signal.SIG_IGN)
            if cls.held:
                cls.waiting = number
            else:
                raise Stopped(number)

        for it in numbers:
            signal.signal(it, stop)
        # (where a caller has it ignored no process that ends can be waited for)
        signal.signal(signal.SIGCHLD, signal.SIG_DFL)

    @classmethod
    @contextlib.contextmanager
    def hold(cls):
        """A block that no signal interrupts: a process that was started is noted, a report that is whole is named."""
        cls.held = True
        try:
            yield
        finally:
            cls.held = False
        if cls.waiting:
            raise Stopped(cls.waiting)


def reason(status, told):
    ended = say("status", status=status) if status >= 0 else say("ended_by", signal=signal.Signals(-status).name)
    last = "".join(told.strip().splitlines()[-1:]).strip()
    more = say("full_disk") if last.startswith("fault 13:") else ""
    return f"{ended}: {last}{more}" if last else ended


def close(folder, name, process, program):
    """Keeps the report of a run that has ended, or says why there is none."""
    with process.stderr:
        told = process.stderr.read().decode(errors="replace")
    if process.returncode:
        folder.part(name).unlink(missing_ok=True)
        return f"{name}: {reason(process.returncode, told)}"
    lacks = folder.keep(name)
    return say("no_report", name=name, program=program, lacks=lacks) if lacks else ""


@contextlib.contextmanager
def deaf():
    """A block in which no signal that ends a process comes, neither here nor to the processes that are started."""
    before = signal.pthread_sigmask(signal.SIG_BLOCK, ENDINGS)
    try:
        yield
    finally:
        signal.pthread_sigmask(signal.SIG_SETMASK, before)


@contextlib.contextmanager
def group(*first):
    """A process group that ends with the block, and with this process, however that ends. What is left in it is killed,
    after the first signals where this process is gone, each with the seconds that are left to end in.

    Its leader waits at a pipe until nobody has the other end, which the system closes with this process. A child closes
    that after it has joined the group, so none is missed; of what it starts all is in the group. The death signal that
    Linux sends for a parent would come to children alone, and not if this process ends before they ask for it.
    """
    reader, writer = os.pipe()
    # (so that no signal that stops the sweep is taken by its leader too)
    with deaf():
        leader = os.fork()
        if not leader:
            lead(reader, first)
        os.setpgid(leader, leader)
    os.close(reader)
    try:
        yield leader
    finally:
        os.killpg(leader, signal.SIGKILL)
        os.waitpid(leader, 0)
        os.close(writer)


def lead(reader, first):
    """What the leader of a group does. It holds nothing open but its end of the pipe."""
    try:
        os.setpgid(0, 0)
        os.closerange(0, reader)
        os.closerange(reader + 1, os.sysconf("SC_OPEN_MAX"))
        os.read(reader, 1)
        for number, seconds in first:
            os.killpg(0, number)
            until = time.monotonic() + seconds
            while others_in_group() and time.monotonic() < until:
                time.sleep(0.05)
        os.killpg(0, signal.SIGKILL)
    finally:
        os._exit(1)


def others_in_group():
    for pid in (int(it) for it in os.listdir("/proc") if it.isdigit()):
        with contextlib.suppress(ProcessLookupError):
            if os.getpgid(pid) == os.getpgrp() and pid != os.getpid():
                return True
    return False


def here(folder, names, program, jobs, done):
    """Carries out the runs on this machine, and calls `done` with the name of each, its processor time and how long it
    took. Once one fails none begins."""
    waiting, running, begun, failed = list(names), {}, {}, ""
    try:
        # (a group of their own, so that Ctrl-C comes to the sweep alone, which ends its runs)
        with group() as runs:
            while running or waiting and not failed:
                while waiting and not failed and len(running) < jobs:
                    name = waiting.pop(0)
                    # (the scenario as a file that has no name, so that nobody changes it)
                    with (Signals.hold(), open(os.memfd_create("scenario"), "w+b") as given,
                          open(folder.part(name), "wb") as report):
                        given.write(folder.runs[name].encode())
                        given.seek(0)
                        begun[name] = time.monotonic()
                        running[name] = subprocess.Popen([program, "run"], stdin=given, stdout=report,
                                                         stderr=subprocess.PIPE, process_group=runs,
                                                         env={**LARGE_PAGES, **os.environ})
                name, processor = ended(running, runs)
                with Signals.hold():
                    why = close(folder, name, running.pop(name), program)
                    failed = failed or why
                    if not why:
                        done(name, processor, time.monotonic() - begun[name])
    finally:
        for name, process in running.items():
            process.wait()
            process.stderr.close()
            folder.part(name).unlink(missing_ok=True)
    if failed:
        raise Failed(failed)


def ended(running, group):
    """The next run of a process group that ends, by its name, and its processor time."""
    pid, status, used = os.wait4(-group, 0)
    name, process = next((name, it) for name, it in running.items() if it.pid == pid)
    process.returncode = os.waitstatus_to_exitcode(status)
    return name, used.ru_utime + used.ru_stime


def hosts():
    """The machines of HOSTS, divided by commas; empty where there are none."""
    told, version = os.environ.get("HOSTS", ""), ""
    for host in told.split(",") if told else []:
        refuse_if(not host.strip(), say("no_host", told=shown(told)))
        refuse_if(not re.fullmatch(HOST, host), say("host", host=shown(host)))
    with contextlib.suppress(OSError):
        version = told and subprocess.run(["parallel", "--version"], capture_output=True, text=True).stdout
    refuse_if(told and not version.startswith("GNU parallel"), say("no_parallel"))
    return told


@contextlib.contextmanager
def gnu_parallel(words, given, told):
    """GNU parallel, with its input and where it complains. It ends with the block, and with it all that it started."""
    environment = {"HOME": tempfile.gettempdir(), **os.environ, "PARALLEL_SHELL": shutil.which("sh")}
    process = None
    with group(*GENTLY) as runs:
        try:
            with Signals.hold():
                process = subprocess.Popen(["parallel", *words], stdin=given, stdout=subprocess.PIPE, stderr=told,
                                           text=True, env=environment, errors="replace", process_group=runs)
            with process.stdout:
                yield process
            process.wait()
        finally:
            for number, seconds in GENTLY if process else ():
                process.send_signal(number)
                with contextlib.suppress(subprocess.TimeoutExpired):
                    process.wait(timeout=seconds)
            if process:
                process.kill()
                process.wait()


def start(program, hosts):
    """Starts the program on each of the hosts, and refuses where it doesn't start, with what it says there."""
    command = f'{shlex.quote(program)} --help 2>&1 >/dev/null || {{ status=$?; echo "status $status"; exit $status; }}'
    for host in dict.fromkeys(hosts.split(",")):
        with tempfile.TemporaryFile("w+", errors="replace") as told:
            words = ["-n0", "--jobs", "1", "--sshlogin", host, command, ":::", "once"]
            with gnu_parallel(words, subprocess.DEVNULL, told) as process:
                lines = process.stdout.readlines()
            told.seek(0)
            lines += told
        if process.returncode:
            line = next(filter(None, map(str.strip, lines)), "it says nothing")
            raise Refused(say("not_on_all", host=shown(host), line=line))


def far(folder, names, program, hosts, jobs, done):
    """Carries out the runs on the hosts, where `:` is this machine. Scenarios go there and reports come back by
    standard input and output, so no file is made or removed on another machine, which may share the folder."""
    command = f'echo "begin $PARALLEL_SEQ"; {shlex.quote(program)} run 2>&1; status=$?; echo; ' \
              'echo "end $PARALLEL_SEQ $status"; exit $status'
    words = ["--pipe", "-N1", "--recend", "\\0", "--rrs", "--block", "4M", "--halt", "now,fail=1",
             "--sshlogin", hosts, *(["--jobs", str(jobs)] if jobs else [])]
    failed = ""
    with (tempfile.TemporaryFile() as scenarios, tempfile.TemporaryFile("w+", errors="replace") as told,
          tempfile.NamedTemporaryFile("r") as log):
        for name in names:
            scenarios.write(folder.runs[name].encode() + b"\0")
        scenarios.seek(0)
        with gnu_parallel([*words, "--joblog", log.name, command], scenarios, told) as process:
            for name, status, text in answers(process.stdout, names):
                with Signals.hold():
                    folder.part(name).write_text(text)
                    lacks = folder.keep(name)
                if status or lacks:
                    failed = failed or f"{name}: {reason(status, text) if status else lacks}"
                else:
                    done(name)
        if process.returncode or failed:
            told.seek(0)
            # (what ssh says stands among what GNU parallel says of it)
            said = "".join(it for it in told if not it.startswith("parallel: ") and it.strip() != command)
            raise Failed(failed or why_by_log(log, names, said) or reason(process.returncode, said))


def why_by_log(log, names, said):
    """Which run failed, where and why, by the log that GNU parallel has of its jobs; empty where none has."""
    for line in log.readlines()[1:]:
        place, host, _, _, _, _, status, number, _ = line.split("\t", 8)
        if (status, number) != ("0", "0"):
            return f"{names[int(place) - 1]} on {host}: {reason(-int(number) or int(status), said)}"
    return ""


def answers(lines, names):
    """The name, the status and the output of each run that GNU parallel has put through."""
    text = None
    for line in lines:
        word, _, rest = line.rstrip("\n").partition(" ")
        if word == "begin":
            text = []
        elif word == "end" and text:
            at, status = map(int, rest.split())
            yield names[at - 1], status, "".join(text)[:-1]
            text = None
        elif text is not None:
            text.append(line)
