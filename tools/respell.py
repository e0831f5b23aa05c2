#!/usr/bin/env python3
"""Spells the repository's own words of antt as today's Rattle does: a word is in snake case, a type or a module in camel case.

usage: tools/respell.py [--list]        at the top of a checkout, after /opt/rattle/port/port.py and nothing else

A name is turned where an .antt file of the repository declares or binds it in kebab case or with a capital inside (`code-numbers`, `rowAt`).
What comes from a library keeps its name, and so does what Rattle makes of the source in a file of proofs/F/ (`Need-returns`, `loop-test`).
Functions of src/ are in snake case already. A name whose new spelling would meet another name gets the one that TAKEN gives it.
--list prints the names, old and new, and those that would fall together, and writes nothing.
"""

import os
import re
import sys

WORD = re.compile(r"(?:[^\W\d]|_)[\w'₀-₉→-]*", re.UNICODE)
OWN = re.compile(r"^Rattle\.(%s)\.")
# old: new, where the plain spelling belongs to another name
TAKEN = {
    "depth-in": "depth_inside",
    "no-pair": "no_pair_lem",
    "numbers-in": "numbers_inside",
    "points-in": "points_inside",
    "row-at": "row_at_lem",
    "row-in": "row_inside",
    "row-text": "row_text_lem",
    "sum-from": "sum_from_lem",
    "symbols-in": "symbols_inside",
    "text-row": "text_row_lem",
    "used-in": "used_inside",
    "whole-chunks": "whole_chunks_lem",
}
# a lemma that meets a function of src/, renamed only where it stands for itself and where the file has it
LEMMAS = {"size_in": ("size_inside", "crates/slip/proofs/Reader.antt")}


def snake(word):
    """code-numbers and codeNumbers are code_numbers; a capital that begins a part keeps no dash before it."""
    word = re.sub(r"(?<=[a-z0-9₀-₉'])([A-Z])", lambda m: "_" + m.group(1).lower(), word)
    return word.replace("-", "_")


def odd(word):
    """a word in kebab case, or with a capital inside; types and modules begin with a capital and are left"""
    return not word[0].isupper() and "→" not in word and (re.search(r"[\w']-[\w']", word) or re.search(r"[a-z0-9'][A-Z]", word)) is not None


def strip(text, mark):
    return re.sub(re.escape(mark) + r".*$", "", text, flags=re.M)


def files():
    for folder, dirs, names in os.walk("crates"):
        dirs[:] = sorted(d for d in dirs if d not in ("out", "must-fail"))
        for name in sorted(names):
            if name.endswith((".antt", ".rt")):
                yield os.path.join(folder, name)


def is_walk(path):
    return os.path.basename(path) == "Proof.antt"


def main():
    crates = sorted(d for d in os.listdir("crates") if os.path.isdir(os.path.join("crates", d)))
    own = re.compile(r"^Rattle\.(%s)\." % "|".join(crates))
    texts = {p: open(p, encoding="utf-8").read() for p in files()}
    from_library = set()
    for p, t in texts.items():
        for m in re.finditer(r"^(?:ghost )?use ([\w.'+-]+)\.\{([^}]*)\}", t, flags=re.M):
            if not own.match(m.group(1) + "."):
                from_library |= {w.strip().split(" as ")[0].strip() for w in m.group(2).split(",")}
    words = {}
    every = {}
    for p, t in texts.items():
        bare = strip(t, "--" if p.endswith(".antt") else "//")
        for w in WORD.findall(bare):
            every.setdefault(w, set()).add(p)
            if p.endswith(".antt") and not is_walk(p) and odd(w) and w not in from_library:
                words.setdefault(w, set()).add(p)
    # what a walk declares of its own: not what it cites of the modules that Rattle makes
    for p, t in texts.items():
        if is_walk(p):
            made = set(re.findall(r"(?:tie|goal)\.([\w'-]+)", t))
            for w in re.findall(r"^\s*(?:abbrev )?(?:pub )?([\w'-]+) :", t, flags=re.M):
                if odd(w) and w not in from_library and not w.startswith(("invariant-", "decreases-")) and w not in made:
                    words.setdefault(w, set()).add(p)
    new = {w: TAKEN.get(w, snake(w)) for w in [*words, *TAKEN]}
    back = {}
    for w, n in new.items():
        back.setdefault(n, []).append(w)
    clash = sorted((n, ws, sorted(every.get(n, ()))[:4]) for n, ws in back.items() if len(ws) > 1 or n in every)
    if "--list" in sys.argv[1:]:
        for n, ws, at in clash:
            print("meets:", n, ws, at)
        for w in sorted(new):
            print(w, new[w])
        return
    for p, t in texts.items():
        lines = []
        for line in t.split("\n"):
            mark = "--" if p.endswith(".antt") else "//"
            code, sep, note = line.partition(mark)
            if p.endswith(".rt") and '"' in code:
                lines.append(line)
                continue
            for old, (to, home) in LEMMAS.items():
                module = home[len("crates/") : -len(".antt")].replace("/", ".")
                if p == home or "use Rattle.%s.{" % module in t and re.search(re.escape(module) + r"\.\{[^}]*\b" + old + r"\b", t):
                    code = re.sub(r"(?<![\w.'-])" + old + r"(?![\w'-])", to, code)
            code = WORD.sub(lambda m: new.get(m.group(0), m.group(0)), code)
            note = re.sub(r"`([^`]*)`", lambda m: "`" + WORD.sub(lambda k: new.get(k.group(0), k.group(0)), m.group(1)) + "`", note) if sep else note
            lines.append(code + sep + note)
        after = "\n".join(lines)
        if after != t:
            with open(p, "w", encoding="utf-8") as f:
                f.write(after)


if __name__ == "__main__":
    main()
