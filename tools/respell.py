#!/usr/bin/env python3
"""Brings the repository's own definitions and lemmas to today's spelling, behind port.py: values in snake case.

usage: python3 tools/respell.py [FOLDER]      once, at the top of a repository that port.py has turned
A name in lower camel case becomes snake case in specs/, proofs/ and clauses. (Edits are turned by tools/respell_edits.py.) A lemma that has such a name already gets `_lem`.
The definition `result` becomes `result_of`, since `result` is what a clause calls the returned value, and clauses that kept their λ for it lose it.
"""
import os
import re
import sys

ROOT = sys.argv[1] if len(sys.argv) > 1 else "."
# words of the kit, which keep their spelling
KIT = {"uint_Makes", "uint_Tells", "uint_Lawful", "bool_Makes", "bool_Lawful", "scaled_Fits", "walk_Meets", "mut_Tells", "shr_slice_Tells", "mut_slice_Tells"}
WORD = re.compile(r"[A-Za-z_][A-Za-z0-9_']*")
CAMEL = re.compile(r"[a-z][a-z0-9_]*[A-Z]")
# lemmas whose names a definition takes now
LEMMAS = {"back_fits", "in_use", "one_by_one", "end_by", "is_later", "place_at", "put_front", "same_at", "same_end", "step_by", "digit_at", "kind_ok", "byte_fits", "is_digit", "left_out"}
# `result` in these stands for the packed answer of crate results
LAMBDA = re.compile(r"ensures\*( \w+)? \{ λ r\. ⌜ (.*) ⌝ \}")


def snake(word):
    return re.sub(r"(?<=[a-z0-9])[A-Z]", lambda m: "_" + m.group().lower(), word)


def texts():
    for folder, dirs, files in os.walk(os.path.join(ROOT, "crates")):
        dirs[:] = sorted(d for d in dirs if d != "out")
        for f in sorted(files):
            if f.endswith((".rt", ".antt")):
                yield os.path.join(folder, f)


def names(text, lemmas):
    def turn(m):
        word, before, behind = m.group(), text[: m.start()], text[m.end() :]
        if CAMEL.match(word) and word not in KIT and "'" not in word[:2]:
            return snake(word)
        if lemmas and word in LEMMAS and not before.endswith((".", "-")) and not behind.startswith((".", "-")):
            return word + "_lem"
        return word

    return WORD.sub(turn, text)


def packed(text):
    """The definition `result` of crate results, by its new name; comments keep the word."""
    turn = lambda line: line if line.lstrip().startswith("--") else re.sub(r"(?<![\w.'-])result(?![\w'-])(?!\s*=)", "result_of", line)
    return "\n".join(map(turn, text.split("\n")))


def clause(m):
    body = packed(m.group(2))
    body = re.sub(r"(?<![\w.'-])r(?![\w'-])", "result", body)
    return f"ensures{m.group(1) or ''} {{ {body} }}"


def main():
    for path in texts():
        with open(path, encoding="utf-8") as f:
            old = f.read()
        new = old
        own = path.endswith(".antt")
        head = re.search(r"results\.specs\.Result\.\{([^}]*)\}", new)
        if own and ("crates/results/specs/" in path or (head and re.search(r"(?<!\w)result(?!\w)", head.group(1)))):
            new = packed(new)
        if path.endswith(".rt"):
            new = LAMBDA.sub(clause, new)
            new = re.sub(r"(results\.specs\.Result\.\{[^}]*?)(?<!\w)result(?!\w)", r"\1result_of", new)
            new = re.sub(r"ensures( r_value)( \{ result ≡)", r"ensures value\2", new)
        new = names(new, own)
        if new != old:
            with open(path, "w", encoding="utf-8") as f:
                f.write(new)


main()
