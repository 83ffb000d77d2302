"""Events as a page for a browser: a row for each record, with a lane for the controller, each slot and the drive.

The page needs no other file, and is written as it goes. The summary, which is known last, is written last and shown first. Rows
come in sections that a browser draws only while they are seen, so that many thousands can be scrolled.
"""
import html
import pathlib

from second.log import COMPLETE, PACKET, POLL, RESET, TAKE, TIMEOUT
from second.wire import CONTROL, PAUSE, RESUME

from .following import is_paused
from .names import KINDS, REFUSALS, STATES, count, number
from .wording import answer_words, effect_words, message_words, record_words, reply_words, slots_words

HERE = pathlib.Path(__file__).parent
ROWS = 100                  # rows of a section

# How a slot's bar looks: class and letter
HOLDING = "Idle, holds its last response"
BARS = {"Idle": ("idle", ""), HOLDING: ("holding", ""), "Receive": ("receive", "R"), "Process untaken": ("process", "P"),
        "Process taken": ("taken", "D"), "Process answered": ("held", "H"), "Transmit": ("transmit", "T")}
STATE_NOTES = {"Process taken": " (the drive has it)", "Process answered": " (held back by its pause flag)"}
LETTER_EACH = 10            # rows after which a bar has its letter again

# Places of the lanes, as in page.css
CONTROLLER, REPLY, SLOTS, DRIVE, MIDDLE = 34, 106, (178, 274), 362, 11
LANES = {"controller": CONTROLLER, "reply": REPLY, "slot 0": SLOTS[0], "slot 1": SLOTS[1], "drive": DRIVE}
EDGE = 12                   # from the middle of a slot's lane to what is drawn beside its bar


# Marks: what is drawn over the lanes of a row. Each is written once and then used by its name.

def line(start, end, dashed=False):
    return f'<path{" class=dash" if dashed else ""} d="M{start} {MIDDLE}H{end}"/>'


def head(at, step):
    """An arrow's head at a place, pointing to the right (step 1) or to the left (-1)."""
    return f'<path class=fill d="M{at} {MIDDLE}l{-8 * step} -4.5v9z"/>'


def dot(at):
    return f'<circle class=fill cx="{at}" cy="{MIDDLE}" r="3"/>'


def diamond(at):
    return f'<path class=fill d="M{at - 6} {MIDDLE}l6 -5.5l6 5.5l-6 5.5z"/>'


def cross(at):
    return f'<path d="M{at - 4.5} {MIDDLE - 4.5}l9 9m0 -9l-9 9"/>'


def clock(at):
    return f'<circle class=paper cx="{at}" cy="{MIDDLE}" r="6.5"/><path d="M{at} {MIDDLE - 4}v4h3.5"/>'


def silent(at):
    return f'<circle class=paper cx="{at}" cy="{MIDDLE}" r="3.5"/>'


def pausing(at):
    return f'<circle class=paper cx="{at}" cy="{MIDDLE}" r="6.5"/><path d="M{at - 2} {MIDDLE - 3}v6m4 -6v6"/>'


def marks():
    """Every mark: its name, and what it draws."""
    found = {
        "silent": silent(CONTROLLER),
        "waits": pausing(CONTROLLER),
        "reset": f'<path d="M{CONTROLLER - 10} 9H{DRIVE + 10}M{CONTROLLER - 10} 13H{DRIVE + 10}"/>',
        "bad": cross(CONTROLLER),
        "refused": dot(CONTROLLER) + line(CONTROLLER, REPLY - 27, True) + cross(REPLY - 20),
        "reply": diamond(REPLY - 9) + line(REPLY - 12, CONTROLLER + 9) + head(CONTROLLER + 3, -1),
        "both": dot(CONTROLLER) + line(CONTROLLER, SLOTS[1] - EDGE) + diamond(SLOTS[0] - EDGE - 4) + diamond(SLOTS[1] - EDGE - 4),
        "refused-drive": cross(DRIVE),
        "refused-timeout": cross(DRIVE - 30),
    }
    for slot, at in enumerate(SLOTS):
        found.update({
            f"in{slot}": dot(CONTROLLER) + line(CONTROLLER, at - EDGE - 6) + head(at - EDGE + 1, 1),
            f"out{slot}": dot(at - EDGE - 1) + line(at - EDGE, CONTROLLER + 9) + head(CONTROLLER + 3, -1),
            f"control{slot}": dot(CONTROLLER) + line(CONTROLLER, at - EDGE) + diamond(at - EDGE - 4),
            f"refused{slot}": dot(CONTROLLER) + line(CONTROLLER, at - EDGE - 14, True) + cross(at - EDGE - 7),
            f"take{slot}": dot(at + EDGE + 1) + line(at + EDGE, DRIVE - 9) + head(DRIVE - 3, 1),
            f"complete{slot}": dot(DRIVE) + line(DRIVE, at + EDGE + 6) + head(at + EDGE - 1, -1),
            f"refused-drive{slot}": dot(DRIVE) + line(DRIVE, at + EDGE + 14, True) + cross(at + EDGE + 7),
            f"timeout{slot}": clock(at + EDGE + 8),
            f"refused-timeout{slot}": clock(at + EDGE + 8) + cross(at + EDGE + 25),
        })
    return found


def mark_of(event):
    """The name of the mark for a record, and whether it is one of a packet."""
    slot = event.named if event.named in (0, 1) else ""
    if event.tag == PACKET:
        return packet_mark(event, slot), True
    if event.tag == POLL:
        return (out_mark(event, slot), True) if event.sent else (silent_mark(event), False)
    if event.tag in (TAKE, COMPLETE):
        return f"{'refused-drive' if event.refused else KINDS[event.tag]}{slot}", False
    return {None: "bad", RESET: "reset", TIMEOUT: f"{'refused-' if event.refused else ''}timeout{slot}"}[event.tag], False


def packet_mark(event, slot):
    if event.refused or slot == "":
        return f"refused{slot}"
    if event.primitive:
        return "both" if event.primitive.opcode in (PAUSE, RESUME) else f"control{slot}"
    return f"in{slot}"


def out_mark(event, slot):
    return "reply" if event.head and event.head.nmimt == CONTROL or slot == "" else f"out{slot}"


def silent_mark(event):
    waits = any(state in ("Transmit", "Process answered") for state in event.before.states)
    return "waits" if event.before.paused and waits else "silent"


class Page:
    """The page, written as it goes."""

    def __init__(self, write):
        self.write = write
        self.rows = 0

    def begin(self, title):
        style = (HERE / "page.css").read_text(encoding="utf-8")
        symbols = "".join(f'<g id="{name}">{drawn}</g>' for name, drawn in marks().items())
        lanes = "".join(f'<b style="left:{place}px">{name}</b>' for name, place in LANES.items())
        self.write(PAGE_TOP.format(title=html.escape(title), style=style, symbols=symbols, legend=legend(), lanes=lanes))

    def event(self, event):
        if self.rows % ROWS == 0:
            self.write("</section>\n<section>\n" if self.rows else "<section>\n")
        self.write(row(event, self.rows % LETTER_EACH == 0))
        self.rows += 1

    def end(self, summary):
        self.write("</section>\n" if self.rows else "<p>No record is shown.</p>\n")
        script = (HERE / "page.js").read_text(encoding="utf-8")
        self.write(f'</main>\n<div id="summary">\n{"".join(cards(summary))}</div>\n<script>\n{script}</script>\n</body>\n</html>\n')


PAGE_TOP = """<!doctype html>
<html lang="en">
<head>
<meta charset="utf-8">
<meta name="viewport" content="width=device-width, initial-scale=1">
<title>{title}, explained</title>
<style>
{style}</style>
</head>
<body>
<svg width="0" height="0" style="position:absolute" aria-hidden="true"><defs>{symbols}</defs></svg>
<header>
<h1>{title}</h1>
<p>Each row is a record of the log; time goes downwards. The answers are those of the proved log program. What the slots are is
followed with the second program. Put the pointer on a row, or go to it by keyboard, for all of its words.</p>
</header>
{legend}
<main>
<div class="top"><span class="n">record</span><span class="at">byte</span><span class="lanes">{lanes}&nbsp;</span><span
class="w">&nbsp;answer, and what happened</span></div>
"""


def row(event, lettered):
    """A record's row."""
    name, is_packet = mark_of(event)
    kinds = ["row"] + ["x"] * (event.refused or event.tag is None) + ["q"] * (name == "silent") + ["d"] * event.differs
    kinds += [f"a{slot}" for slot in sorted(event.slots) if slot < 2]
    look = " ".join(["tick"] * is_packet + ["refuse"] * (event.refused or event.tag is None) + ["quiet"] * (name == "silent"))
    answer = "bad" if event.tag is None else "?" if event.answer is None else event.answer
    return (f'<div class="{" ".join(kinds)}" id="r{event.number}">'
            f'<span class="n"><a href="#r{event.number}">{event.number}</a></span><span class="at">{event.record.offset}</span>'
            f'<span class="lanes" title="{html.escape(slots_words(event.after))}">'
            f'<svg class="{look}"><use href="#{name}"/></svg>{bars(event, lettered)}</span>'
            f'<div class="w"><p><b>{answer}</b>{html.escape(short_words(event))}</p><ul>{all_words(event)}</ul></div></div>\n')


def bars(event, lettered):
    """What the slots are: on a row that changes a slot the upper half is what it was before."""
    before, after = event.before, event.after
    drawn = ['<i class="reply"></i>'] if after.reply and before.reply else []
    if bool(after.reply) != bool(before.reply):
        drawn.append(f'<i class="reply {"down" if after.reply else "up"}"></i>')
    for slot in (0, 1):
        if changed(event, slot):
            drawn += [bar(before, slot, " up", False), bar(after, slot, " down", True)]
        else:
            drawn.append(bar(after, slot, "", lettered))
    return "".join(drawn)


def changed(event, slot):
    """Whether the slot's bar looks otherwise after the record, or what it stands for began anew."""
    return bar(event.before, slot, "", True) != bar(event.after, slot, "", True) or event.ended == slot


def bar(view, slot, half, lettered):
    name, letter = BARS[HOLDING if view.held[slot] else view.states[slot]]
    shown = f"<b>{letter}</b>" if lettered and letter else ""
    return f'<i class="s{slot} {name}{" paused" if is_paused(view, slot) else ""}{half}">{shown}</i>'


def short_words(event):
    """The record and its answer in one line."""
    if event.tag == PACKET and event.primitive:
        return f"{packet_label(event)}: {reply_words(event.primitive)}"
    if event.tag == PACKET:
        return f"{packet_label(event)}: {plain_answer(event)}"
    if event.tag == POLL and event.sent:
        return f"to EID {event.who[0]} tag {event.who[1]}: {answer_words(event).split('; ', 1)[1]}"
    return f"{record_words(event)[0]}: {plain_answer(event)}"


def plain_answer(event):
    """The answer's words without its number."""
    return answer_words(event).split(": " if event.line == "bad" and event.tag is None else ", ", 1)[1]


def packet_label(event):
    """Whom a packet is from, and what it begins."""
    if event.who is None:
        return "packet"
    label = f"from EID {event.who[0]} tag {event.who[1]}"
    if event.fields.som and event.payload:
        return f"{label}, {message_words(event.payload, event.fields.eom).split(', ')[0]}"
    return label


def all_words(event):
    parts = [*record_words(event), answer_words(event), *effect_words(event)]
    if event.differs:
        parts.append(f"the second program answers {event.expected}")
    return "".join(f"<li>{html.escape(words)}</li>" for words in parts)


# The legend, and what a reader can choose: the class that page.css knows, and its words

CHOICES = {"no-quiet": "without polls that found nothing", "only-refused": "only refusals", "only-0": "only slot 0",
           "only-1": "only slot 1"}


def legend():
    states = "".join(f'<span><i class="{name}"><b>{letter}</b></i>{STATES.get(state, state)}{STATE_NOTES.get(state, "")}</span>'
                     for state, (name, letter) in BARS.items())
    drawn = "".join(f'<span><svg class="{look}" viewBox="0 0 56 22">{shown}</svg>{words}</span>' for look, shown, words in (
        ("", dot(4) + line(4, 42) + head(50, 1), "packet, take or completion"),
        ("", dot(4) + line(4, 42) + diamond(46), "control primitive; its reply begins in the reply lane"),
        ("refuse", dot(4) + line(4, 38, True) + cross(46), "refused"),
        ("", clock(28), "timeout"),
        ("quiet", silent(28), "poll that found nothing"),
        ("", pausing(28), "poll that found nothing because of a pause flag"),
        ("", '<path d="M2 9H54M2 13H54"/>', "reset")))
    boxes = "".join(f'<label><input type="checkbox" value="{value}"> {words}</label>' for value, words in CHOICES.items())
    return (f'<div id="legend">{states}<span><i class="taken paused"></i>pause flag set (hatched)</span>{drawn}\n'
            f'<div id="wanted" hidden>{boxes}<label>go to record <input type="number" min="1"></label></div></div>')


# The summary

def cards(summary):
    yield look_card(summary)
    yield card("Slots", slot_rows(summary))
    yield card("Log", log_rows(summary))
    yield card("Answers", (answer_row(*found) for found in summary.answer_rows()))
    yield card("Requesters", (f"<tr><td>EID {eid} tag {tag}</td><td class=count>{number(seen['in'])} in</td><td class=count>"
                              f"{number(seen['refused'])} refused</td><td class=count>{number(seen['out'])} out</td></tr>"
                              for (eid, tag), seen in sorted(summary.requesters.items())))


def card(title, rows):
    return f'<div class="card"><h2>{title}</h2><table>{"".join(rows)}</table></div>\n'


def look_card(summary):
    remarks = list(summary.remarks())
    calm = "" if remarks else ' class="calm"'
    items = "".join(f"<li>{html.escape(remark)}</li>" for remark in remarks or [summary.CALM])
    return f'<div class="card"{calm} id="look"><h2>To look at</h2><ul>{items}</ul></div>\n'


def answer_row(kind, answer, words, times, first):
    wrong = " class=wrong" if answer in REFUSALS else ""
    return (f"<tr><td>{kind}</td><td{wrong}>{'?' if answer is None else answer}</td><td class=count>{number(times)}</td>"
            f'<td>{html.escape(words)} (<a href="#r{first}">first</a>)</td></tr>')


def pair(name, value):
    return f"<tr><th>{name}</th><td>{value}</td></tr>"


def log_rows(summary):
    yield pair("records", f"{number(summary.records)}: {summary.kind_words()}")
    sums = {name: number(value) for name, value in summary.data()["bytes"].items()}
    yield pair("bytes", f"{number(summary.log_bytes)} of log; packets {sums['in']} in ({sums['refused']} refused), {sums['out']} out; "
               f"{sums['bodies']} in bodies from the drive")
    if summary.longest_wait:
        wait, slot, ticket, start, end = summary.longest_wait
        yield pair("longest wait", f"{count(wait, 'record')} from a completion to its last packet: slot {slot}, "
                   f'ticket {number(ticket)}, <a href="#r{start}">{start}</a> to <a href="#r{end}">{end}</a>')
    if summary.longest_pause:
        length, start, end = summary.longest_pause
        yield pair("longest pause", f'{count(length, "record")}, <a href="#r{start}">{start}</a> to <a href="#r{end}">{end}</a>')


# Words, and where the summary's data of a slot has the number
SLOT_ROWS = {
    "commands that entered Process": "commands",
    "completed by the drive": "completed",
    "answered at once with an error": "answered_at_once",
    "last packet went": "ended sent",
    "aborted": "ended aborted",
    "ended by a reset": "ended reset",
    "assemblies timed out": "assemblies_ended timed_out",
    "assemblies started anew": "assemblies_ended started_anew",
    "assemblies dropped by a refusal": "assemblies_ended dropped",
    "assemblies aborted": "assemblies_ended aborted",
    "assemblies ended by a reset": "assemblies_ended reset",
    "Replays": "replays asked",
    "replays begun": "replays begun",
    "replays sent to the last packet": "replays sent",
    "replays aborted": "replays aborted",
    "replays ended by a reset": "replays reset",
}


def slot_rows(summary):
    """A table with a column for each slot; rows with two zeros are left out."""
    found = [summary.slot_data(index) for index in (0, 1)]
    yield slot_row("", "slot 0", "slot 1")
    for name, path in SLOT_ROWS.items():
        values = [at_path(slot, path) for slot in found]
        if any(values):
            yield slot_row(name, *map(number, values))
    yield slot_row("at the end", *(STATES[slot["state"]] for slot in found))
    held = [slot["held"] for slot in found]
    if any(held):
        yield slot_row("last response still held", *(count(each["bytes"], "byte") if each else "nothing" for each in held))


def slot_row(name, *values):
    return f"<tr><td>{name}</td>" + "".join(f"<td class=count>{value}</td>" for value in values) + "</tr>"


def at_path(found, path):
    for name in path.split():
        found = found[name]
    return found
