"""From the numbers of a cluster to a mode and a budget; the tool gossip_advise."""
import os
import shlex
import sys
import tomllib
from fractions import Fraction

from gossip_tools import answer, choice, cluster, files, folders, page, rules, running, scenario, study, sweep, target
from gossip_tools.healing import Healing
from gossip_tools.commands import Refused, folder_of, refuse_if, the_program, workers
from gossip_tools.progress import Progress, in_words
from gossip_tools.texts import speaker

say = speaker("advise")


def numbers_of(words, file):
    """The numbers of the cluster: those of the words, and of the file where there are no words."""
    kept = None
    if file.exists():
        try:
            kept = tomllib.loads(file.read_bytes().decode())
        except (tomllib.TOMLDecodeError, UnicodeDecodeError):
            raise Refused(say("unreadable", file=file)) from None
    if not words:
        refuse_if(kept is None, say("no_numbers", folder=file.parent, call=cluster.ADVISE.example))
        words = [f"{name}={value}" for name, value in kept.items() if name != "program"]
    told = cluster.told(cluster.ADVISE, words)
    cluster.check_limits(told)
    refuse_if(not told["writes"], say("no_writes"))
    refuse_if(told["loss"] == 100, say("all_is_lost"))
    refuse_if(not told["interval"], say("no_interval"))
    refuse_if(told["target"] == 0, say("target_of_0"))
    refuse_if(told["split"] > cluster.SPLIT.most, say("long_split", cluster.SPLIT))
    refuse_if(told["restarts"] and told["restarts"] > told["nodes"], say("too_many_restarts", **told))
    return told, kept


def as_text(value):
    if not isinstance(value, Fraction):
        return value
    return int(value) if value.denominator == 1 else cluster.plain(value)


def keep(folder, told, kept, program):
    """Writes down the numbers and the program's check sum, or refuses where others are there."""
    fields = {name: as_text(it) for name, it in told.items() if it is not None}
    fields["program"] = check_sum = files.check_sum(program)
    if kept is None:
        files.put(folder / "cluster.toml", scenario.written(fields))
    elif differ := sorted(it for it in fields.keys() | kept.keys() if fields.get(it) != kept.get(it)):
        raise Refused(say("another", folder=folder, differ=", ".join(differ)))
    return check_sum


class Stages:
    def __init__(self, it, folder, program):
        self.study, self.folder, self.program, self.progress = it, folder, program, Progress()
        # (the budgets and modes that were run, each with its seeds, by stage)
        self.made = {}

    def runs(self, stage, seeds):
        """The scenario of a stage, and by their names those of its runs: budgets and modes, each under its seeds."""
        text, runs = self.study.scene(stage), {}
        for choices in self.study.choices(stage, seeds):
            runs |= sweep.spread(text, choices)
        return text, runs

    def plan(self, *parts, times=0):
        """Reckons with these runs for the time left, and with as many again so many times. A part is a stage, with its
        budgets and modes, and their seeds if those aren't the stage's."""
        it, work = self.study, {}
        for stage, pairs, *seeds in parts:
            for pair in pairs:
                _, runs = self.runs(stage, {pair: seeds[0] if seeds else it.seeds(stage)})
                work |= {f"{stage}/{name}": it.work(stage, *pair) for name in runs}
        self.progress.plan(work | {f"{name} {at}": it for at in range(times) for name, it in work.items()})

    def expect(self, decision, *stages):
        """Reckons with what is still to be run in these stages where this is decided."""
        it, pair = self.study, (decision.budget, decision.mode)
        most, parts = (it.most(decision.mode), decision.mode), []
        for stage in stages:
            heals = stage in it.healing_stages()
            parts.append((stage, {pair} if heals else it.wanted(decision.mode) | it.next_smaller(*pair)))
            parts += [(stage, {most}, rules.BOUNDING_FIRST)] if heals else []
        self.plan(*parts)

    def carry_out(self, stage, pairs, seeds=None):
        """Makes these runs of a stage, under its seeds if no others are told, and reads them."""
        made = self.made.setdefault(stage, {})
        for pair in pairs:
            made[pair] = max(made.get(pair, ()), seeds or self.study.seeds(stage), key=len)
        seeds = {pair: made[pair] for pair in pairs}
        text, runs = self.runs(stage, seeds)
        if to_do := [name for name in runs if f"{stage}/{name}" not in self.progress.over]:
            left, it = self.progress.left(), self.study
            said = say("runs", stage=stage, runs=len(to_do), rounds=it.rounds(stage), shorter=it.shorter(stage))
            print(said + (say("left", left=in_words(left)) if left else ""), file=sys.stderr, flush=True)
        sweep.carry_out(self.folder / stage, text, runs, self.program, self.progress, os.environ.get("HOSTS"))
        return study.Found(self.study, stage, self.folder / stage, seeds)

    def choose(self, stage, pairs, dropped):
        """What these runs choose. What can't be chosen after the first seeds isn't run under the others."""
        decision = choice.Decision(self.study, self.carry_out(stage, pairs, rules.FIRST), stage, dropped)
        self.carry_out(stage, decision.may_be_chosen())
        return choice.Decision(self.study, self.carry_out(stage, pairs, rules.FIRST), stage, dropped)

    def decide(self, stage, pairs, dropped=()):
        """What these runs choose, once nodes * writes were run too, and what is between where those are worse."""
        decision = self.choose(stage, pairs, dropped)
        if (knee := (self.study.knee, decision.mode)) not in pairs:
            pairs = pairs | {knee}
            decision = self.choose(stage, pairs, dropped)
        if decision.suffices and decision.budget > self.study.knee:
            decision = self.choose(stage, pairs | self.study.between(decision.mode), dropped)
        return decision

    def decide_in_time(self, stages, pairs, decision):
        """What the first of these stages chooses that shows a level, or the last. Modes that lag aren't run on."""
        dropped = ()
        for stage in stages:
            self.expect(decision, stage)
            decision = self.decide(stage, pairs, dropped)
            if decision.suffices:
                break
            dropped = decision.why_dropped()
            pairs = {(self.study.most(mode), mode) for mode in decision.contenders}
        return decision

    def bound(self, stage, pair, times=0):
        """What bounds a budget and a mode that a stage chose: longer runs under other seeds. `times` as in `plan`."""
        self.plan((f"{stage}-bound", {pair}), times=times)
        return choice.Bound(self.study, f"{stage}-bound", self.carry_out(f"{stage}-bound", {pair}), pair)

    def is_level(self, decision):
        """Has a decision bounded. Whether `greatest` is level in those runs too."""
        decision.bound = decision.bound or self.bound(decision.stage, (decision.budget, decision.mode))
        return decision.bound.is_level()

    def look_below(self, decision):
        """The same decision with smaller budgets beside it, of which the last is worse under the first seeds."""
        while pairs := self.study.next_smaller(decision.smaller() or decision.budget, decision.mode):
            if pairs <= decision.found.rows.keys():
                break
            found = self.carry_out(decision.stage, pairs | decision.found.rows.keys(), rules.FIRST)
            decision = choice.Decision(self.study, found, decision.stage, decision.against, decision.bound)
        return decision

    def look_at_floor(self, decision):
        """Has it what nothing goes below, from runs that cut nothing: its own, or others under the first seeds."""
        bound, ample = decision.bound, {(self.study.ample(), self.study.usual)}
        decision.floor = bound.found.uncut(bound.window)
        if not decision.floor:
            self.plan((bound.stage, ample, rules.BOUNDING_FIRST))
            decision.floor = self.carry_out(bound.stage, ample, rules.BOUNDING_FIRST).uncut(bound.window)

    def heal(self, decision):
        """What heals, with the budget that is taken and, under the first of these seeds, with all that fits."""
        taken, most = ((budget, decision.mode) for budget in (decision.budget, decision.most))
        found = {}
        for stage in self.study.healing_stages():
            self.carry_out(stage, {taken})
            found[stage] = self.carry_out(stage, {taken, most}, rules.BOUNDING_FIRST)
        return Healing(self.study, decision.mode, found)


def look(folder):
    """Refuses a folder with other things in it, what is no folder, and a name that an answer can't have in UTF-8."""
    name = str(folder)
    refuse_if(name != name.encode(errors="ignore").decode(), say("not_utf8", name=ascii(name)))
    refuse_if(folder.exists() and not folder.is_dir(), folders.say("no_folder", path=folder))
    if folder.exists() and not (folder / "cluster.toml").exists() and {it.name for it in folder.iterdir()} - {"lock"}:
        raise Refused(say("no_answer", folder=folder))


def call_with_enough(decision, folder):
    """The whole call with room for nodes * writes entries, into another folder; empty where it wouldn't help."""
    helps, it = not decision.suffices and decision.knee_suffices(), decision.study
    return call_with(it, it.packet(decision.mode), f"{folder}-enough") if helps else ""


def call_with(it, packet, folder):
    told = it.told | {"packet": packet}
    words = {name: str(as_text(told[name])) for name in cluster.ADVISE.named if told[name] is not None}
    asked = [f"{name}={text}" for name, text in words.items() if text != cluster.ADVISE.usual[name]]
    return shlex.join(["gossip_advise", "-o", folder, *asked])


def tell(folder, lines, kept=(), told=()):
    """Tells these lines, but for those told before, and keeps all behind those that are kept; answers what is kept."""
    print(*(it for it in lines if it not in told), sep="\n", flush=True)
    lines = [*kept, *lines]
    files.put(folder / "answer.txt", "\n".join(lines) + "\n")
    return lines


def first_answer(it, stages, check_sum):
    """The first answer, which the folder has until the last one comes: what is chosen, bounds it and heals."""
    folder, told = stages.folder, []
    if it.least_rounds:
        told = tell(folder, [say("by_sum", it)])
    first = stages.decide(it.steady_stages()[0], it.wanted(it.usual))
    told = tell(folder, answer.first_words(first, call_with_enough(first, folder)), told)
    if not first.suffices:
        return first
    is_level = stages.is_level(first)
    about_target = [say("target", judged=target.judged(first)[1])] if it.target and is_level else []
    told = tell(folder, [first.bound.added(), *about_target], told)
    if not is_level:
        return first
    stages.expect(first, first.stage, *it.healing_stages())
    healing, healed = None, {}
    for tells, of_these in it.healing_groups():
        healed |= {stage: stages.carry_out(stage, {(first.budget, first.mode)}) for stage in of_these}
        healing = Healing(it, first.mode, healed)
        told = tell(folder, healing.lines(tells, first.budget), told)
    page.make(folder, first, healing, stages.made, check_sum, head=say("first"))
    tell(folder, answer.last_of_first_words(first, folder), told)
    return first


def bounded_decision(it, stages, decision):
    """What is decided, from more and more intervals until the runs that bound it are level too."""
    while not (decision.suffices and stages.is_level(decision)):
        if not (later := it.later_stages(decision.stage)):
            decision.suffices, decision.budget = False, decision.most
            break
        decision = stages.decide_in_time(later, it.wanted(decision.mode), decision)
    return decision


def smallest_packet(it, stages, check_sum):
    search = target.Search(it, stages)
    is_met = search.carry_out()
    pairs = {search.run_of(mode) for mode in search.modes} | {(search.budget, search.chosen)}
    met = target.Met(search, is_met, target.aged(stages, search.stage, search.found, pairs))
    stages.look_at_floor(met)
    tell(stages.folder, met.in_words(call_with(it, met.packet(), f"{stages.folder}-packet")))
    print("", page.make(stages.folder, met, None, stages.made, check_sum, more=met.more()), sep="\n")


def beside(it, stages, decision):
    """What a target and the ages of copies say of a decision, as names and words; nothing where no target was told."""
    if it.target is None:
        return []
    if not decision.suffices:
        return [target.judged(decision)]
    if decision.budget < decision.most and not it.keeps_to_target(decision.bounded()):
        decision.bound_of_most = stages.bound(decision.stage, (decision.most, decision.mode))
    pair = decision.budget, decision.mode
    return [target.judged(decision), *target.aged(stages, decision.stage, decision.found, {pair}).told(*pair)]


def study_of(it, folder, program, check_sum):
    stages, healing = Stages(it, folder, program), None
    if not it.has_packet:
        return smallest_packet(it, stages, check_sum)
    first = first_answer(it, stages, check_sum)
    print(flush=True)
    was_enough = bool(first.bound and first.bound.is_level())
    decision = bounded_decision(it, stages, first)
    if decision.suffices:
        stages.expect(decision, decision.stage, *it.healing_stages())
        decision = stages.look_below(decision)
        healing = stages.heal(decision) if it.heals() else None
        stages.look_at_floor(decision)
    missing = answer.not_run(decision, call_with_enough(decision, folder), was_enough)
    more = beside(it, stages, decision)
    before = healing.counted_lines() if healing and was_enough else ()
    tell(folder, answer.in_words(decision, healing, missing, more), told=before)
    print("", page.make(folder, decision, healing, stages.made, check_sum, missing, more), sep="\n")


def main(words):
    folder, words = folder_of(words, cluster.ADVISE.folder)
    hosts = running.hosts()
    look(folder)
    it = study.Study(numbers_of(words, folder / "cluster.toml")[0])
    program = the_program()
    workers()
    sweep.check({"the first scenario": it.scene("few")}, program)
    running.Signals.listen()
    try:
        with files.locked(folder):
            # (another call may have come first)
            told, kept = numbers_of(words, folder / "cluster.toml")
            # (before its check sum is kept, as the machines may need another program)
            if hosts and kept is None:
                running.start(program, hosts)
            study_of(study.Study(told), folder, program, keep(folder, told, kept, program))
    except running.Stopped as stopped:
        raise Refused(say("stopped", by=stopped), stopped.status) from None
