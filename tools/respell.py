#!/usr/bin/env python3
"""Brings the repository's own definitions and lemmas to today's spelling, in one pass over the tree that port.py left.

usage: python3 tools/respell.py [ROOT]

A definition, a lemma, a field, a constructor and a local name are in snake case: `byteStep` becomes `byte_step`, `wrong-eid` becomes
`wrong_eid`. Functions of src/, what Rattle itself makes or the library has, types, strings, inputs and outputs keep their names. Where two
names would fall together, TOGETHER gives one of them another name. An import `put as Bytes·put` becomes the module `Bytes`, and `Bytes.put`.
Names between backticks in comments and in docs/ are respelled alike.
"""
import os
import re
import sys

# Names that would fall together with another one in a file that has both.
TOGETHER = {
    # constants and constructors of specs/
    "packet-sent": "packet_sent_number",
    "wrong-stores": "wrong_stores_number",
    "handedOut": "bytes_handed_out",
    "reply-waits": "reply_is_waiting",
    "begun-turn": "begun_goes_on",
    "was-reset": "by_reset",
    "sent-again": "is_sent_again",
    # lemmas
    "by_turn": "by_turn_lem",
    "is_control": "is_control_lem",
    "store_at": "store_at_lem",
    "abort-word": "abort_word_lem",
    "after-packet": "after_packet_lem",
    "begun-or": "begun_or_lem",
    "by-head": "by_head_lem",
    "check-right": "check_right_lem",
    "first-number": "first_number_lem",
    "header-numbers": "header_numbers_lem",
    "is-abort": "is_abort_lem",
    "is-command": "is_command_lem",
    "is-last": "is_last_lem",
    "is-primitive": "is_primitive_lem",
    "is-replay": "is_replay_lem",
    "later-at": "later_at_lem",
    "next-ticket": "next_ticket_lem",
    "no-parameter": "no_parameter_lem",
    "pause-word": "pause_word_lem",
    "paused-slot": "paused_slot_lem",
    "reply-packet": "reply_packet_lem",
    "route-to": "route_to_lem",
    "sending-or": "sending_or_lem",
    "state-word": "state_word_lem",
    "take-numbers": "take_numbers_lem",
    "timed-out": "timed_out_lem",
    "with-flags": "with_flags_lem",
    "with-reply": "with_reply_lem",
    "with-slots": "with_slots_lem",
    "with-awaiting": "with_awaiting_lem",
}
# (crate, name): what one crate's lemma of a name is called, where another crate has a function of that name
IN_CRATE = {("machine", "holder_in"): "holder_in_lem"}
# What Rattle makes, in proof files.
MADE = re.compile(r"^(invariant-|decreases-|loop-|returns-|well-formed$)")
# Files that speak of a name without declaring it, as the tree's own proofs of functions do, are respelled by the same table.
TOKEN = re.compile(r"[^\s.(){}\[\];,\"`]+")
IMPORT = re.compile(r"^(\s*)((?:pub )?(?:ghost )?use) ([^\s{;]+)\.\{(.*)\}(;?)\s*$")


def is_old(name):
    """A name in an older spelling: a dash between letters, or a capital after a small letter; it does not begin with a capital."""
    if name[0].isupper() or name[0].isdigit() or "·" in name:
        return False
    return ("-" in name and re.search("[A-Za-z]", name) is not None) or re.search("[a-z0-9][A-Z]", name) is not None


def snake(name):
    return re.sub(r"([a-z0-9])([A-Z])", lambda m: m[1] + "_" + m[2].lower(), name).replace("-", "_")


def files(root, ends):
    for folder, dirs, names in os.walk(os.path.join(root, "crates")):
        dirs[:] = sorted(d for d in dirs if d not in ("out", "must-fail"))
        for n in sorted(names):
            if n.endswith(ends):
                yield os.path.join(folder, n)


def read(path):
    with open(path, encoding="utf-8") as f:
        return f.read()


def declared(text):
    """Names that a file of specs/ or proofs/ declares or binds."""
    out = set()
    for line in text.splitlines():
        if line.lstrip().startswith("--"):
            continue
        m = re.match(r"^\s*(?:(?:abbrev|unfoldable|pub|data|record|ruleset)\s+)*([^\s.(){}\[\];,\"`]+)\s*(?:\{[^}]*\}\s*)*:(?!=)\s", line)
        if m:
            out.add(m[1])
        m = re.match(r"^\s*(?:(?:abbrev|unfoldable|pub)\s+)*(?:data|record|ruleset)\s+([^\s.(){}\[\];,\"`]+)", line)
        if m:
            out.add(m[1])
        out.update(re.findall(r"\blet\s+([^\s.(){}\[\];,\"`]+)", line))
        for binders in re.findall(r"λ\s+([^.]*)\.", line) + re.findall(r"[({]([^(){}:]+) : ", line) + re.findall(r"[\[|]\s*([^↦|\[\]]+)↦", line):
            out.update(TOKEN.findall(binders))
        m = re.match(r"^\s*(\S+(?: [^=:]+)?) = ", line)
        if m:
            out.update(TOKEN.findall(m[1])[1:])
        out.update(re.findall(r"\bas\s+([^\s.(){}\[\];,\"`]+)", line))
    return out


def of_library(text):
    """Names that a file imports from elsewhere than this repository."""
    out = set()
    for line in text.splitlines():
        m = re.match(r"^\s*(?:pub )?(?:ghost )?use (\S+)\.\{(.*)\}", line)
        if m and (not m[1].startswith("Rattle.") or m[1].startswith("Rattle.std.")):
            for item in m[2].split(","):
                words = item.split()
                if words:
                    out.add(words[0])
                    if len(words) < 3:
                        out.add(words[-1])
    return out


def qualified(text):
    """`put as M·put` in an import becomes the module M beside it, and each `M·put` becomes `M.put`."""
    out = []
    for line in text.split("\n"):
        m = IMPORT.match(line)
        if m and "·" in m[4]:
            items = [i.strip() for i in m[4].split(",")]
            kept = [i for i in items if "·" not in i]
            for i in items:
                if "·" in i:
                    name, _, alias = i.partition(" as ")
                    if alias != m[3].rsplit(".", 1)[1] + "·" + name:
                        raise SystemExit(f"respell: {line}")
            out.append(f"{m[1]}{m[2]} {m[3]}{m[5]}")
            if kept:
                out.append(f"{m[1]}{m[2]} {m[3]}.{{{', '.join(kept)}}}{m[5]}")
        else:
            out.append(line)
    return re.sub(r"(?<![\w·.])([A-Z]\w*)·([a-z]\w*)", r"\1.\2", "\n".join(out))


def respelled(part, names):
    def one(m):
        return names.get(m[0], m[0])

    return TOKEN.sub(one, part)


def quoted(part, names):
    """Names between backticks, and names that no plain word looks like, in a comment or a page."""
    part = re.sub(r"`([^`\n]+)`", lambda m: "`" + respelled(m[1], names) + "`", part)
    return re.sub(r"(?<![\w/.-])[a-z]+[a-z0-9]*[A-Z]\w*(?![\w-])", lambda m: names.get(m[0], m[0]), part)


def antt(text, names):
    out = []
    for line in text.split("\n"):
        code, mark, said = line.partition("--") if re.match(r"^\s*--", line) or re.search(r"\s--\s", line) else (line, "", "")
        out.append(respelled(code, names) + mark + quoted(said, names))
    return "\n".join(out)


STRING = re.compile(r'(//[^\n]*)|(b?"(?:\\.|[^"\\])*")|(b?\'(?:\\.|[^\'\\])\')', re.S)


def source(text, names):
    """A file of src/: all but strings and characters."""
    out, at = [], 0
    for m in STRING.finditer(text):
        out.append(respelled(text[at : m.start()], names))
        out.append(quoted(m[0], names) if m[1] else m[0])
        at = m.end()
    out.append(respelled(text[at:], names))
    return "".join(out)


def table(root):
    found, library = set(), set()
    for path in files(root, ".antt"):
        text = read(path)
        found |= declared(text)
        library |= of_library(text)
    names = {n: snake(n) for n in found if is_old(n) and n not in library and not MADE.match(n)}
    both = sorted(n for n in found if is_old(n) and n in library)
    if both:
        print("respell: names that the library has too, left as they are: " + ", ".join(both))
    names.update(TOGETHER)
    return names


def main(root):
    names = table(root)
    changed = 0
    for path in files(root, (".antt", ".rt")):
        crate = os.path.relpath(path, os.path.join(root, "crates")).split(os.sep)[0]
        text = read(path)
        own = dict(names)
        for (where, name), new in IN_CRATE.items():
            if crate == where:
                own[name] = new
        new = qualified(text)
        new = antt(new, own) if path.endswith(".antt") else source(new, own)
        if new != text:
            changed += 1
            with open(path, "w", encoding="utf-8") as f:
                f.write(new)
    pages = [os.path.join(root, n) for n in ("README.md", "CONTRIBUTING.md", "CHANGELOG.md")]
    for folder, _, page in os.walk(os.path.join(root, "docs")):
        pages += [os.path.join(folder, n) for n in page if n.endswith(".md") and not n.startswith("PORT")]
    for path in sorted(pages):
        if os.path.exists(path):
            text = read(path)
            new = quoted(text, names)
            if new != text:
                changed += 1
                with open(path, "w", encoding="utf-8") as f:
                    f.write(new)
    print(f"respell: {len(names)} names, {changed} files changed")


if __name__ == "__main__":
    main(sys.argv[1] if len(sys.argv) > 1 else ".")
