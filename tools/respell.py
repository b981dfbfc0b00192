#!/usr/bin/env python3
"""Brings the names of the repository's own definitions and lemmas to snake case.

usage: python3 tools/respell.py [FOLDER]

FOLDER is the repository's top, here if left out. A name that specs/ or proofs/ declare and that has a dash or a capital within is respelled wherever it
is cited: `countAfter` is `count_after`, `drive-before` is `drive_before`. A lemma that would have its definition's name gets `_lem`. Types, modules and
records keep their spelling, as do functions of src/, strings, inputs and outputs, and what a file imports from a library under the same name.
It reads .rt, .antt and .edit files, and in .md files what stands in backticks. Run it once, over names of the old spelling.
"""
import collections
import glob
import os
import re
import sys

WORDS = {"abbrev", "unfoldable", "opaque", "private", "pub", "field"}
NAMED = re.compile(r"^( *)((?:(?:abbrev|unfoldable|opaque|private|pub|field) )*)((?:[^\s:(){}|.,;=λ→≡\"]+ )+):(?: |$)")
TYPE = re.compile(r"^( *)(?:(?:abbrev|unfoldable|opaque|private|pub) )*(data|record|ruleset|module) ")
TOKEN = re.compile(r"[A-Za-z_μ+][\w'′μ+-]*")
# Lemmas that would fall together with a definition, or with another lemma.
LEMMAS = set(
    """bit-xor act-clocks act-line act-text any-true at-clock begin-size bit-of block-totals calm-clock check-from clock-in clocks-on copies_at copies-in
    counts-after cursor-part cursor-size dmc-at dmc-brink dmc-in dmc-on dmc-renewed dmc-still dmc-turned envelope-begun envelope-in envelope-set
    file-bytes file-check file-tree first-in first-number frame-in frame-moved frame_on frame-read frame-stepped frame-written goes_on got-tree in_order
    inside_of is-done is-on is-over is-register item_in item-place judge-at kept-tree last-at last-in length-enabled length-in length-loaded levels-heard
    linear-halted linear-in linear-set lines_end lines-in loop-text machine-answer machine-buffer marks-in mended-tree metered-number noise-in noise-on
    noise-renewed noise-still open-behind other_length output-in player-size reader-in registers-in rest-text right_by room_of same_line samples-in
    sequencer-in shifter-in sounds-renewed square-enabled square-enveloped square-in square-kept square-on square-renewed square-still square-swept
    square-timed squares-after start-in state-in state-part state-size step_by stop-here stop-line stop-of stream-in sweep-in sweep-set table-of
    tally-answer tally-weighed tens-of timer-in totals-of tree-of triangle-at triangle-enabled triangle-gives triangle-in triangle-lengthened
    triangle-linear triangle-on triangle-renewed triangle-still triangle-timed voices-after voices-renewed wait-on wait-turn walk_start wav-size
    window-from word-bytes word-of write-text written-by""".split()
)


def snake(name):
    name = name.replace("′", "'")
    name = re.sub(r"(?<=[a-z0-9])(?=[A-Z])", "_", name).replace("-", "_").lower()
    return name


def new_name(name):
    return snake(name) + ("_lem" if name in LEMMAS else "")


def old(name):
    return name in LEMMAS or ("-" in name or "′" in name or bool(re.match(r"[a-z][a-z0-9]*[A-Z]", name)))


def read(path):
    with open(path, encoding="utf-8") as f:
        return f.read()


def declared(top):
    """The names that are declared, and those of them that are fields of a record."""
    names, fields = set(), set()
    for path in sorted(glob.glob(os.path.join(top, "crates/*/specs/**/*.antt"), recursive=True) + glob.glob(os.path.join(top, "crates/*/proofs/**/*.antt"), recursive=True)):
        record = -1
        for line in read(path).splitlines():
            depth = len(line) - len(line.lstrip(" "))
            if line.strip() and depth <= record:
                record = -1
            found = TYPE.match(line)
            if found:
                if found.group(2) == "record":
                    record = depth
                continue
            found = NAMED.match(line)
            if not found:
                continue
            each = [n for n in found.group(3).split() if n not in WORDS]
            if not all(TOKEN.fullmatch(n) for n in each) or line[found.end():].startswith(("goal.", "tie.")):
                continue
            names.update(each)
            if record >= 0:
                fields.update(each)
    return names, fields


def generated(name):
    return name[0] in "μ+" or "μ" in name or "-Inv-" in name or name.endswith("-spec") or name[0].isupper()


def aliases(text, crates):
    """The names that a file gives to modules of the repository."""
    return {new for path, new in re.findall(r"\buse ([\w.·+'-]+) as ([\w'-]+)", text) if path.startswith("Rattle.") and path.split(".")[1] in crates}


def foreign(text, crates):
    """The names that a file takes from a library."""
    out = set()
    for path, items in re.findall(r"\buse ([\w.·+'-]+)\.\{([^}]*)\}", text):
        parts = path.split(".")
        if parts[0] == "Rattle" and len(parts) > 1 and parts[1] in crates:
            continue
        out.update(i.split(" as ")[-1].strip() for i in items.split(","))
    return out


def turned(text, names, fields, kept, modules, kind, said):
    """The text with each name respelled: kind is rt, antt or edit."""
    skip = r"\"(?:[^\"\\\n]|\\.)*\"" if kind == "rt" else r"\"[^\"\n]*\""
    comment = r"//[^\n]*" if kind == "rt" else r"--[^\n]*"
    parts = re.compile(skip + "|" + (comment + "|" if kind != "edit" else "") + r"`[^`\n]*`|(?<![\w'′μ-])[A-Za-z_][\w'′μ-]*|.", re.S)
    marks = "//" if kind == "rt" else "--"

    def one(name, before, inside):
        if name in kept or name not in names or not old(name) or generated(name):
            return name
        if before == "." and name not in fields and not (module in modules or module[:1].isupper()):
            return name
        if kind != "antt" and re.fullmatch("[a-z0-9_]+", name):
            # A function of src/ that a lemma is named as.
            return name
        if inside and "-" in name and not inside == "`":
            return name
        return new_name(name)

    out = []
    last = module = ""
    for it in parts.finditer(text):
        word = it.group()
        if word.startswith('"'):
            out.append(word)
        elif kind != "edit" and word.startswith(marks):
            # In a comment: names with a capital, and in backticks all.
            ticks = re.split(r"(`[^`]*`)", word)
            for k, piece in enumerate(ticks):
                inside = "`" if k % 2 else "text"
                ticks[k] = TOKEN.sub(lambda m: one(m.group(), piece[m.start() - 1] if m.start() else "", inside), piece)
            out.append("".join(ticks))
        elif TOKEN.fullmatch(word):
            module = out[-2] if last == "." and len(out) > 1 else ""
            new = one(word, last[-1:], "")
            if new != word:
                said.add((word, new))
            out.append(new)
        else:
            out.append(word)
        last = word
    return "".join(out)


def page(text, names, fields):
    """A page: what stands in backticks."""
    def one(m):
        name = m.group()
        return new_name(name) if name in names and old(name) and not generated(name) else name

    return re.sub(r"`[^`\n]+`", lambda m: TOKEN.sub(one, m.group()) if not re.search(r"perch |must-fail|\.edit|/", m.group()) else m.group(), text)


def main():
    top = sys.argv[1] if len(sys.argv) > 1 else "."
    crates = set(os.listdir(os.path.join(top, "crates")))
    names, fields = declared(top)
    own = {n for n in names if old(n) and not generated(n)}
    whole = collections.defaultdict(set)
    for n in names:
        whole[new_name(n) if n in own else n].add(n)
    for new, those in sorted(whole.items()):
        if len(those) > 1:
            print("fall together:", new, *sorted(those))
    for path in sorted(glob.glob(os.path.join(top, "crates/**/*"), recursive=True)):
        kind = path.rsplit(".", 1)[-1]
        if kind not in ("rt", "antt", "edit") or "/out/" in path:
            continue
        text = read(path)
        kept = foreign(text, crates)
        if kind == "edit":
            for file in re.findall(r"^file: (.*)$", text, re.M):
                at = os.path.join(os.path.dirname(os.path.dirname(path)), file.strip())
                kept |= foreign(read(at), crates) if os.path.exists(at) else set()
        said = set()
        new = turned(text, own, fields, kept, aliases(text, crates), kind, said)
        for a, b in sorted(said):
            if re.search(r"(?<![\w'.-])" + re.escape(b) + r"(?![\w'-])", text):
                print("look:", path, a, "->", b)
        if new != text:
            with open(path, "w", encoding="utf-8") as f:
                f.write(new)
    for path in [os.path.join(top, "README.md")] + sorted(glob.glob(os.path.join(top, "docs/**/*.md"), recursive=True)):
        text = read(path)
        new = page(text, own, fields)
        if new != text:
            with open(path, "w", encoding="utf-8") as f:
                f.write(new)


main()
