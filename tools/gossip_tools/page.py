"""The page of an answer, report.html: one file that needs no network, to be looked at before it is read."""
import base64
import html
import re

from gossip_tools import answer, cluster, files, plots, read, rules
from gossip_tools.healing import ENDS, HEALED, ROLLING
from gossip_tools.measures import in_rounds, lasting, sentences, span
from gossip_tools.texts import speaker, text_of

# (on paper the page is light; pictures, which are drawn on white, are turned dark, and their colours stay the same)
STYLE = "\n" + text_of("page.css")
say = speaker("page")
MOST_COLUMNS = 5  # of cards beside each other


def told(it):
    """A text in the page, where what stands in backquotes is code."""
    return re.sub("`([^`]*)`", r"<code>\1</code>", html.escape(str(it)))


def listed(head, said, kind=""):
    lines = "".join(f"<li>{told(one)}</li>" for one in said)
    return f'<h2>{head}</h2><ul class="{kind}">{lines}</ul>' if said else ""


def chosen_cards(decision):
    """The cards of mode, budget and worst staleness, each as its name, a few large words, more words and its kind."""
    it, of_budget = decision.study, f"{decision.bytes()} bytes, {decision.times()}"
    entries = f"{decision.whole_budget()} entries"
    if not decision.suffices:
        return [("budget", say("none_fits"), say("tried", entries=entries, of_budget=of_budget), "none"),
                ("worst staleness", say("not_known"), decision.no_level(), "none")]
    kind = "first" if decision.is_met and not decision.is_too_small() else "none"
    rounds, _, time = lasting(it, [decision.most_rounds()]).partition(", ")
    of_worst = sentences(time, decision.bound and decision.bound.holds_in(),
                         it.parts > 1 and say("reckon", decision))
    return [("mode", decision.mode, "", kind),
            ("budget", entries, f"{of_budget}; packet={decision.packet()}", kind),
            ("worst staleness", say("at_most", rounds=rounds), "; ".join(of_worst), "")]


def cards(decision, healing, more):
    it, rows = decision.study, chosen_cards(decision)
    if decision.is_too_small() or not decision.suffices and decision.to_knee():
        rows.append(("enough", f"{it.packet(decision.mode)} bytes", decision.to_knee(), "first"))
    if decision.floor:
        rows.append((answer.FLOOR, in_rounds(decision.floor), decision.above_floor(), ""))
    rows += [(name, *said.partition(": ")[::2], "none" if said.startswith("not met") else "") for name, said in more]
    rows.append(("share cut", f"{span(decision.cut, 2)}\u00a0%", say("of_lacking"), ""))
    rows += [(f"{HEALED[stage]} is {ENDS[stage]} after", *healing.in_words(stage, decision.budget), "")
             for stage in it.heals() if healing]
    if healing and it.leaves():
        words, _, more = healing.wait(decision.budget).partition(": ")[0].partition(", ")
        rows.append((ROLLING, words, more, ""))
    # (so that the lines of cards are full, those with most letters take two columns)
    lines = -(-len(rows) // MOST_COLUMNS)
    columns = -(-len(rows) // lines)
    broad = sorted(rows, key=lambda row: -sum(map(len, row[:3])))[:lines * columns - len(rows)]
    said = "".join(f'<div class="{" ".join(filter(None, (row[3], "broad" * (row in broad))))}">{told(row[0])}'
                   f"<b>{told(row[1])}</b>{told(row[2])}</div>" for row in rows)
    return f'<div class="cards" style="--columns: {columns}">{said}</div>'


def below_the_cards(decision, healing):
    no_floor = f"{answer.FLOOR}: {decision.above_floor()}".capitalize() if decision.floor == [] else ""
    reserve = healing and healing.with_reserve(decision)
    said = sentences(
        decision.suffices and decision.tells_all(), no_floor, decision.reserve(), decision.why_not_knee(),
        reserve and say("reserve", reserve=reserve), healing and healing.counted())
    return "".join(f"<p><small>{told(it)}</small></p>" for it in said)


def paragraphs(lines):
    """Lines as paragraphs; those that begin with a space are commands."""
    return "".join(f"<pre>{html.escape(it.strip())}</pre>" if it[:1] == " " else f"<p>{told(it)}</p>" for it in lines)


def captions(decision):
    it, each = decision.study, decision.study.restarting()[0]
    same = plots.lie_on_each_other(decision)
    values = {
        "same": say("same", entries=it.whole(same)) if same else "", "most": say("most") if it.fanout > 1 else "",
        "nodes": f"{each if it.restarts else 'one'} node{'s' if each > 1 else ''}",
        "each": say("each", it) if it.restarts else "", "band": say("band"),
    }
    return {name: say(name, decision, **values) for name in (
        "worst", "cut", "greatest", "stale", "split", "restart", "forgotten")}


def pictures(folder, decision, healing):
    if not plots.IS_THERE:
        return say("no_pictures")
    room = folder / "pictures"
    room.mkdir(exist_ok=True)
    text, said = "", captions(decision)
    heads = {"worst": "The knee", "greatest": "Round by round", "split": "Healing"}
    for name, script in plots.all_of(decision, healing).items():
        svg = base64.b64encode(plots.draw(room, name, script).encode()).decode()
        if name in heads:
            text += ("</div>" if text else "") + f'<h2>{heads[name]}</h2><div class="pictures">'
        text += (f'<figure><img src="data:image/svg+xml;base64,{svg}" alt="{html.escape(said[name])}">'
                 f"<figcaption>{told(said[name])} <small>pictures/{name}.gnuplot</small></figcaption></figure>")
    return text + "</div>"


def field(decision, budget, mode):
    if (budget, mode) not in decision.found.rows:
        return "<td></td>"
    level = "" if decision.is_enough(budget, mode) else " not level"
    chosen = "chosen" if decision.suffices and (budget, mode) == (decision.budget, decision.mode) else ""
    return (f'<td class="{chosen}">{span(decision.worst_with(budget, mode))}{level}<br>'
            f"<small>{span(decision.found.cut(budget, mode, decision.window), 2)} %</small></td>")


def table(decision):
    it, (first, last) = decision.study, decision.window
    head = "".join(f"<th>{mode}</th>" for mode in decision.figures)
    text = "".join(f"<tr><th>{it.whole(budget)}</th>"
                   f"{''.join(field(decision, budget, mode) for mode in decision.figures)}</tr>"
                   for budget in decision.budgets())
    not_level = say("not_level") if " not level" in text else ""
    above = say("table", decision, first=first, last=last, not_level=not_level)
    return f"""<p class="before-table">{above}</p>
<div class="wide"><table><thead><tr><th>budget</th>{head}</tr></thead><tbody>{text}</tbody></table></div>"""


def made_of(folder, study, made, check_sum):
    text = ""
    for stage, pairs in made.items():
        words = [" ".join(f"{field}={','.join(values)}" for field, values in choices.items())
                 for choices in study.choices(stage, pairs)]
        commands = "\n".join(f"gossip_sweep -o {stage} {it} < {stage}/scenario" for it in words)
        text += (f"<details><summary>{stage}: {told('; '.join(words))}</summary><pre>{told(commands)}\n\n"
                 f"{told(study.scene(stage))}</pre></details>")
    told_words = read.settings((folder / "cluster.toml").read_bytes().decode())
    call = " ".join(f"{name}={value}" for name, value in told_words.items() if name != "program")
    return say("made_of", check_sum=check_sum, call=told(call), stages=text)


def make(folder, decision, healing, made, check_sum, missing=(), more=(), head=""):
    """Writes the page, and says where it is. `made` are the runs by stage, `missing` lines on what didn't heal, `more`
    names and words beside the worst staleness; the head of a first answer says so."""
    it = decision.study
    tenth = say("tenth", it) if it.parts > 1 else ""
    text = text_of("page.html").format(
        title=told(f"{head}{it.all_nodes} nodes: {decision.headline()}"), style=STYLE, it=it, tenth=tenth,
        interval=cluster.plain(it.told["interval"]), lost=cluster.plain(it.told["loss"]), choosing=len(rules.CHOOSING),
        in_most=rules.IN_MOST, cards=cards(decision, healing, more), below_the_cards=below_the_cards(decision, healing),
        missing=paragraphs(missing), mind=listed(answer.say("mind"), answer.warnings(decision), "mind"),
        pictures=pictures(folder, decision, healing), table=table(decision),
        too_close=listed(answer.say("too_close"), decision.too_close()),
        left_out=listed(answer.say("not_looked_at"), answer.left_out(decision)),
        made_of=made_of(folder, it, made, check_sum))
    files.put(folder / "report.html", text)
    return say("made" if plots.IS_THERE else "made_without", page=folder / "report.html")
