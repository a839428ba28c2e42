#!/usr/bin/env python3
"""The places of docs/DESIGN-PASS.md, counted: old forms in crates/*/src, and answers in crates/*/proofs.

    tools/places.py [-l] [FOLDER]

For each row its number, and with -l each place. A row is a pattern over the lines of the sources, or over their items where a line does not
tell (an enum, a signature). The patterns find shapes and not today's names, where that is possible; where it is not, the row names what it
looks for."""
import glob
import re
import sys

LIST = "-l" in sys.argv
FOLDERS = [a for a in sys.argv[1:] if a != "-l"]
ROOT = FOLDERS[0] if FOLDERS else "."


def text(path):
    with open(path, encoding="utf-8") as file:
        return file.read()


SOURCES = {p[len(ROOT) + 1:]: text(p) for p in sorted(glob.glob(f"{ROOT}/crates/*/src/*.rt"))}
PROOFS = {p[len(ROOT) + 1:]: text(p) for p in sorted(glob.glob(f"{ROOT}/crates/*/proofs/**/*.antt", recursive=True))
          if "/out/" not in p}


def row(number, what, places):
    print(f"{number:4} {len(places):4}  {what}")
    if LIST:
        for place in places:
            print("            " + place)


def lines(pattern, only=""):
    """The lines that have the pattern, comments left out."""
    found = []
    for path, body in SOURCES.items():
        if not re.search(only, path):
            continue
        for at, line in enumerate(body.splitlines(), 1):
            if re.match(r"\s*//", line):
                continue
            if re.search(pattern, line):
                found.append(f"{path}:{at}: {line.strip()}")
    return found


def items(head):
    """The items that begin so, each with its text up to the brace that closes it."""
    for path, body in SOURCES.items():
        for match in re.finditer(head, body, re.M):
            depth, at = 0, body.index("{", match.start())
            for at in range(at, len(body)):
                depth += {"{": 1, "}": -1}.get(body[at], 0)
                if depth == 0:
                    break
            yield path, body.count("\n", 0, match.start()) + 1, body[match.start():at + 1]


def signatures():
    """Each function's name and the text of its signature, up to its clauses or its body."""
    for path, body in SOURCES.items():
        for match in re.finditer(r"^ *(?:pub(?:\([a-z]+\))? )?(?:extern \"C\" )?fn (\w+)", body, re.M):
            end = re.compile(r"\n *(requires|ensures)|\{\s*\n").search(body, match.end())
            yield path, body.count("\n", 0, match.start()) + 1, match.group(1), body[match.start():end.start() if end else None]


def functions(pattern):
    return [f"{path}:{at}: fn {name}" for path, at, name, sig in signatures() if re.search(pattern, sig)]


def enums():
    """Enums of two variants of which one has a payload, or with a variant that says that there is nothing."""
    found = []
    for path, at, body in items(r"^ *(?:pub )?enum \w+"):
        inner = re.sub(r"//.*", "", body[body.index("{") + 1:-1])
        variants = [v.strip() for v in re.split(r",(?![^()]*\))", inner) if v.strip()]
        payload = [v for v in variants if "(" in v]
        if (len(variants) == 2 and payload) or any(re.match(r"(None|Nothing)\b", v) for v in variants):
            found.append(f"{path}:{at}: " + " ".join(body.split()))
    return found


def pairs():
    """Structs of a bool and something else, or of a value and what became of it."""
    found = []
    for path, at, body in items(r"^ *(?:pub )?struct \w+[^;(]*\{"):
        fields = re.findall(r"^\s*(?:pub )?(\w+): ([^,\n]+)", body, re.M)
        if any(t == "bool" for _, t in fields) or len(fields) == 2 and any(n in ("outcome", "next") for n, _ in fields):
            found.append(f"{path}:{at}: " + " ".join(body.split()))
    return found


def clauses(pattern):
    """The requires clauses that have the pattern."""
    return [f"{p}:{body.count(chr(10), 0, m.start()) + 1}: {' '.join(m.group(0).split())[:110]}"
            for p, body in SOURCES.items()
            for m in re.finditer(r"requires [^{\n]*\{[^\n]*(?:\n(?! *(?:requires|ensures|\{))[^\n]*)*", body)
            if re.search(pattern, m.group(0))]


print("point 1")
row("1a", "enums of the shape of Option or Result", enums())
row("1b", "arms that take a refusal apart to pass it on", lines(r"\b(?!Phase\b)\w+::Refused\(\w\) =>"))
row("1c", "refusals returned, and acceptances, by a variant of an own enum",
    lines(r"return (?!Phase\b)\w+::Refused\(|^\s*\w+::Refused\(Refusal::|\bVerdict::Accepted,?$"))
row("1d", "functions that take or answer a number for a cause, a running cause or a number of causes",
    functions(r"\b(cause|running|first|second|number): u8\b(?!.*-> Result)|fn queued_of|fn none_or_cause"))
row("1e", "for a mode", functions(r"\bm: u8|fn mode(_of)?\(.*-> u8"))
row("1f", "for a rule", functions(r"\b(broken|n): u16|fn \w*broken\w*\([^)]*\) -> u16"))
row("1g", "for a kind of event", functions(r"\b(kind|sub): u8"))
row("1h", "for a refusal that is remembered", functions(r"\brefused: usize"))
row("1i", "fields that hold such a number",
    lines(r"^\s*pub (cause|running|queued|er|kind|sub|waiting): (u8|u16|\[u8; 2\])"))
row("1j", "structs of a flag and a value, or of two results", pairs())
row("1k", "functions that change what is lent and answer a flag", functions(r"&mut [\s\S]*-> bool\s*$"))
row("1l", "types that derive copying and no comparison or printing", lines(r"^#\[derive\(Clone, Copy\)\]"))
print("point 2")
row("2a", "functions that differ by a number's width or sign", functions(r"fn (read|write)_[iu](16|32|64)\b|fn [iu](16|32)_of\b"))
row("2b", "copies of a part of a slice, by type or by size", functions(r"fn (copy_over|copy_part|copy_row|copy_snapshot|append)\b"))
row("2c", "loops over events and snapshots, by the system",
    functions(r"fn (advance|advance_drawing|follow|replay_on|rebuild|mend_on|replay|mend|repair)\b(?!.*desk)") )
row("2d", "scratch arrays that an outer function lends to an inner one", lines(r"\[0u8; MAX_(SIZE|BESIDE)\]"))
row("2e", "functions that write numbers into a lent array", functions(r"fn (write_span|write_part)\b"))
row("2f", "functions that are a cast", functions(r"fn (wide|joined)\b"))
row("2g", "printing functions that differ by a width or a sign",
    functions(r"fn (print_four|print_two|print_row|signed_32|unsigned_32|signed_16|unsigned_16|four|two)\b"))
print("point 3")
row("3a", "while loops", lines(r"^\s*while "))
row("3b", "an index counted up", lines(r"\+= 1;"))
print("point 4")
row("4a", "equality, order, conversion by hand",
    functions(r"fn (same\w*|queued_of|empty|mode_of|fresh|levels_of|word_of|short_of|is_none|edition_at|trace_number|number_of|trace_of"
              r"|place_of|told_place|shorter|is_zero)\b"))
row("4b", "a struct copied before a field of it is set", lines(r"^\s*let mut [a-z] = [a-z](\.[a-z]+)?;$"))
row("4c", "printing by hand", functions(r"fn (append\w*|push\w*|replay_line|refusal_line|print_\w+|decimal|hex|text)\b"))
print("point 5")
row("5a", "signatures with state and moving", functions(r"\bmoving: &"))
row("5b", "signatures with count and spacing, or more numbers of a shape", functions(r"\bcount: usize[^)]*spacing: usize|\bspacing: usize[^)]*count: usize"))
row("5c", "requires: lent bytes hold a good state", clauses(r"Held \(system ed\)"))
row("5d", "requires: the lengths of the two", clauses(r"length (state|moving)\.\w+ ≡|length s\.\w+ ≡ snapshot_size|length bytes\.\w+ ≡ moving_size"))
row("5e", "requires: a reader's length or form", clauses(r"length reader\.\w+ ≡ reader_size|WellFormed reader"))
row("5f", "requires: a verdict that was given", clauses(r"verdict .*≡ given tt"))
row("5g", "requires: a bit's number", clauses(r"\b(n|sub) < 32"))
row("5h", "requires: a spacing above 0", clauses(r"0 < (?:\w+\.)?spacing"))
row("5i", "requires: a line's room", clauses(r"160 ≤ length"))
row("5j", "signatures with five plain numbers or more",
    [f"{p}:{a}: fn {n}" for p, a, n, s in signatures() if len(re.findall(r": (?:u|i)(?:8|16|32|64|size)\b", s)) >= 5])
print("point 6")
row("6a", "signatures with a slice and a place in it", functions(r"\bat: usize"))
row("6b", "an array with a length beside it, or two that go together", lines(r"pub waiting: \[u8; 2\]|\[0u8; (20|16|160|ROOM)\]|: \[u8; ROOM\]"))
row("6c", "texts as bytes", lines(r'\bb"'))
print("point 7")
row("7a", "a match on the edition, or an edition named", lines(r"match (?:ed|header::edition\(\w+\)) \{|\bEdition::Base\b"))
row("7b", "a match on a kind or a sub", lines(r"^\s*match (kind|sub) \{"))
print("point 8")
answers = []
for path, body in PROOFS.items():
    if not re.search(r"/(Answers|Proof)\.antt$", path) or path.count("/") < 4:
        continue
    for part in re.split(r"\n(?=\S)", re.sub(r"--.*", "", body)):
        match = re.match(r"(?:unfolding [^\n]*\n)?pub ([\w\-]+) : goal\.", part)
        if match:
            bare = re.search(r"= *(search \(?[\w, -]*\)?|omega \w+|cc|refl|search rules)\s*$", part)
            answers.append((path, match.group(1), bool(bare)))
row("8a", "answers of goals", [f"{p}: {n}" for p, n, _ in answers])
row("8b", "of them a tactic alone", [f"{p}: {n}" for p, n, b in answers if b])
row("8c", "files of answers and of invariants", [p for p in PROOFS if re.search(r"/(Answers|Invariants|Proof)\.antt$", p) and p.count("/") >= 4])
