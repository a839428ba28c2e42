#!/usr/bin/env python3
"""Gives the repository's own names the spelling of today's Rattle. Run once, at the top, right after the kit's port.py.

usage: python3 tools/respell.py [--dry]

Types and modules are in upper camel case, everything else in snake case; a dash joins two names; ' is the prime. So sameBytes becomes
same_bytes, bit-clearBit bit-clear_bit, eqZ-refl eq_z-refl. Three kinds of names are taken:

- in .antt files each name that begins with a small letter and has a capital (no name of the kit's has that form);
- in .rt files such names where specs/ or proofs/ declare them (a name of Rust's never has that form);
- in comments, docs, the README and must-fail edits only names that specs/ or proofs/ declare under their new spelling.

Functions of src/, exported names, strings, inputs and outputs stay. A new name that another one has already is printed, and both stay.
"""
import collections
import os
import re
import sys

# port.py wrote `_` for the dash of these lemmas, because a library once had the same names; they get their dash back.
LOST_DASH = """after-next after-one after-read all-listed and-last as-before as-is as-number at-first at-place at-same b-all begun-first bit-not bits-back
block-same by-count by-end by-number byte-at bytes-drop bytes-one bytes-take compare-self cond-cases cond-same count-at count-same down-fits due-all
either-way end-same end-stays ended-so first-of first-part fit-length from-first from-last from-one from-place from-zero front-at front-bytes
front-length front-same goes-on half-lt head-in head-opened held-at held-bytes holds-as in-area in-pieces inside-both is-base kept-refl kept-set
kept-trans kind-1 laid-out left-by left-over length-digits length-front length-part length-rest lent-placed listed-same mask-lt next-multiple no-flag
no-room none-in not-first not-found not-listed nothing-left number-same one-each one-of one-shifted opened-view other-at other-text part-none pass-on
passed-length past-end past-first push-at put-front put-is put-next put-whole read-whole reader-at refusal-is rest-part room-next row-at row-back
row-count run-at run-more same-at same-bits same-bytes same-numbers same-received same-refl same-step set-keeps set-other settled-same shape-same
signed-back some-bytes split-parts step-from step-other take-part take-put take-split taken-more told-none too-short true-same two-post
unsigned-signed up-fits within-first word-lt write-same writes-at""".split()
DASHED = {name.replace("-", "_"): name for name in LOST_DASH}
# What port.py made of a function's name behind a dot or a dash.
GARBLED = {
    "take_Chunk": "take_chunk",
    "is_IsWord": "is_word",
    "Mode-of": "mode_of",
    "Reset-by": "reset_by",
    "Stored-row": "stored_row",
    "get_d_part": "get_or-part",
}

NAME = re.compile(r"[^\s(){}.;,@\"«»]+")
RUST_NAME = re.compile(r"(?<![\w'-])[\w◌]+'*(?![\w])")
# A word of prose, with dashes and primes inside it.
WORD = re.compile(r"(?<![\w'-])[a-z◌][\w◌]*(?:-[\wℕℤ]+)*['′]*(?![\w-])")
# Comments and strings, which are no code.
QUIET = re.compile(r"--[^\n]*|\"(?:\\.|[^\"\\])*\"")
RUST_QUIET = re.compile(r"//[^\n]*|\"(?:\\.|[^\"\\])*\"|'(?:\\.|[^'\\])'")
DECLARED = re.compile(r"(?m)^ *(?:(?:pub|abbrev|unfoldable|axiom) )*(?:(?:data|record|mod) (\S+)|(\S+)(?: \{[^{}\n]*\})* :)")
PROOF_OF_FUNCTION = re.compile(r"/proofs/(.*/)?(Proof|Answers|Invariants)\.antt$")
FUNCTION_MODULE = re.compile(r"\.[A-Z(e]")


def snake_part(part):
    if not part or part[0].isupper() or part.islower():
        return part
    part = re.sub(r"(?<=[a-z0-9ℕℤ])(?=[A-Z])", "_", part)
    return "".join(c.lower() if c.isascii() else c for c in part)


def snake(name):
    """A part that begins with a capital is a type's and stays; the other parts are in snake case."""
    return "-".join(snake_part(part) for part in name.split("-")).replace("′", "'")


def is_camel(name):
    return re.match(r"[a-z◌]", name) is not None and re.search(r"[A-Z]", name) is not None and snake(name) != name


def declared_in(text):
    return {first or second for first, second in DECLARED.findall(text)}


def is_proof_of_function(path):
    return PROOF_OF_FUNCTION.search("/" + path) is not None


def files():
    yield "README.md"
    for top in ("crates", "docs"):
        for folder, folders, names in os.walk(top):
            folders[:] = sorted(name for name in folders if name not in ("out", "target"))
            yield from (os.path.join(folder, name) for name in sorted(names) if name.endswith((".antt", ".rt", ".edit", ".md")))


def between(quiet, text, code, prose):
    """The text with `code` done to what is code and `prose` to comments and strings; `code` is told where it is."""
    out, at = [], 0
    for found in quiet.finditer(text):
        out += [code(text[at : found.start()]), prose(found[0])]
        at = found.end()
    return "".join(out) + code(text[at:])


class Names:
    """The table from old names to new, and what was noticed on the way."""

    def __init__(self, texts):
        quiet = {path: (QUIET if path.endswith(".antt") else RUST_QUIET).sub(" ", text) for path, text in texts.items() if path.endswith((".antt", ".rt"))}
        self.noticed = []
        self.own = {path: declared_in(text) for path, text in quiet.items() if path.endswith(".antt")}
        declared = set().union(*self.own.values())
        self.lemmas = set().union(*(names for path, names in self.own.items() if not is_proof_of_function(path)))
        words = {path: set(NAME.findall(text)) for path, text in quiet.items()}
        used = set().union(*words.values())
        self.table = {name: snake(name) for name in used if is_camel(name)}
        self.table |= {name: dashed for name, dashed in DASHED.items() if name in self.lemmas}
        self.table |= {name: right for name, right in GARBLED.items() if name in used}
        self.leave_clashes(declared)
        self.look_for_hidden(quiet, words)
        self.plain = {self.table.get(name, name) for name in declared}
        self.plain |= {part for name in self.plain if "◌" in name for part in name.split("◌") if part.isidentifier()}

    def leave_clashes(self, declared):
        """Two old names with one new name, or a new name that is declared already."""
        olds = collections.defaultdict(list)
        for old, new in self.table.items():
            if old not in GARBLED:
                olds[new].append(old)
        taken = {name for name in declared if name not in self.table}
        for new, names in sorted(olds.items()):
            if len(names) > 1 or new in taken:
                self.noticed.append(f"clash: {' and '.join(sorted(names))} would be {new}: left as it was")
                for old in names:
                    del self.table[old]

    def look_for_hidden(self, quiet, words):
        """A new name that the same file has in another meaning, as a parameter or a local name."""
        for path, text in sorted(quiet.items()):
            bare = set(re.findall(r"(?<![^\s(){};,@\"«»])" + NAME.pattern, text))
            for old in sorted(words[path] & set(self.table) - set(GARBLED)):
                new = self.table[old]
                if path.endswith(".rt"):
                    hidden = re.search(rf"\b(?:let (?:mut )?|for ){new}\b|\b{new}: ", text)
                else:
                    hidden = new in bare and new not in self.table and old in bare
                if hidden:
                    self.noticed.append(f"look: {path}: {old} becomes {new}, which stands there already")

    def prose(self, text):
        def turn(found):
            word = found[0]
            new = snake(word) if is_camel(word) or "′" in word else word
            return new if new in self.plain else word

        return WORD.sub(turn, text)

    def antt(self, path, text):
        goals = self.own[path] if is_proof_of_function(path) else set()

        def code(piece):
            def turn(found):
                name = found[0]
                # a function's folder behind a dot keeps its name, as in proofs.same_at.Goals; so do names that its own proof declares
                folder = FUNCTION_MODULE.match(piece[found.end() :]) and piece[: found.start()].endswith(".")
                return name if name in DASHED and (folder or name in goals) else self.table.get(name, name)

            return NAME.sub(turn, piece)

        return between(QUIET, text, code, self.prose)

    def rust(self, text):
        def turn(found):
            return found[0] if found[0] in DASHED else self.table.get(found[0], found[0])

        def quiet(piece):
            return self.prose(piece) if piece.startswith("//") else piece

        return between(RUST_QUIET, text, lambda piece: RUST_NAME.sub(turn, piece), quiet)

    def turned(self, path, text):
        if path.endswith(".antt"):
            return self.antt(path, text)
        return self.rust(text) if path.endswith(".rt") else self.prose(text)


def main():
    texts = {}
    for path in files():
        with open(path, encoding="utf-8") as file:
            texts[path] = file.read()
    names = Names(texts)
    changed = 0
    for path, text in sorted(texts.items()):
        new = names.turned(path, text)
        if new != text:
            changed += 1
            if "--dry" not in sys.argv:
                with open(path, "w", encoding="utf-8") as file:
                    file.write(new)
    print("\n".join(names.noticed))
    print("in capitals, and kept:", " ".join(sorted(name for name in names.lemmas if name.isupper() and name.isascii())))
    print(f"respell: {len(names.table)} names in {changed} files; {len(names.noticed)} to look at")


if __name__ == "__main__":
    main()
