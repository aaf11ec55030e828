#!/usr/bin/env python3
"""Respells this repository's own antt names: snake case for definitions, lemmas, fields and variables.

usage: python3 tools/respell.py [--dry]      at the top, once, right after port.py

Types and modules keep their capitals. What is imported from the kit keeps its spelling, and so do the names that the
check makes (behind `tie.`, and of steps). Source, tests, exported names and strings are not touched: of a .rt file the
`ghost use` items and the clauses are. A function's proof F-spec is F_spec. Names that would fall together stop it.
"""
import collections
import os
import re
import sys

WORD = re.compile(r"(?<![\w'′])[^\W\d][\w'′]*(?:-[\w'′≡≤<]+)*", re.U)
OWN_USE = re.compile(r"^\s*(?:pub )?(?:ghost )?use (Rattle\.\w+[\w.'+-]*)")
ANY_USE = re.compile(r"^\s*(?:pub )?(?:ghost )?use ([\w.'+·-]+?)(?:\.\{([^}]*)\})?(?: as [\w-]+)?;?\s*$")
MADE = re.compile(r"^(Need|After|At|Then|Else|In|Arm|Lts|Loop|Start|returns|loop|invariant|decreases|calls|then|else|if|overflow_)(-|\d|$)")
# Where a lemma would fall together with the definition that it is about, or with another name of its file.
SPECIAL = {
    ("crates/runner/proofs/Turns.antt", "line-end"): "end_of_line",
    ("crates/runner/proofs/put_results/Proof.antt", "line_read"): "line_read_lem",
    ("crates/tick_lines/proofs/Eights.antt", "four_bytes"): "four_bytes_lem",
    ("crates/lines/proofs/Eights.antt", "four_bytes"): "four_bytes_lem",
}
for _folder in ("crates/text/proofs/Laws/", "crates/model/proofs/Laws/", "crates/lines/proofs/"):
    for _file in ("Splits", "FormSheets", "Rows"):
        SPECIAL[(_folder + _file + ".antt", "first_part")] = "first_part_lem"
for _folder in ("crates/ledger/proofs/", "crates/model/proofs/"):
    for _file in ("Laws/FractionValues", "Follow/LedgerTick", "Follow/Lists"):
        SPECIAL[(_folder + _file + ".antt", "is_below")] = "is_below_lem"
KIT = ("Rattle.std", "Rattle.core", "Rattle.os", "Rattle.io", "Rattle.libc")


def files():
    for folder, dirs, names in os.walk("crates"):
        dirs[:] = sorted(d for d in dirs if d not in ("out", "data"))
        for n in sorted(names):
            if n.endswith((".antt", ".rt")):
                yield os.path.join(folder, n)


def functions():
    found = set()
    for p in files():
        if p.endswith(".rt"):
            with open(p, encoding="utf-8") as f:
                found |= set(re.findall(r"\bfn (\w+)", f.read()))
    return found


def odd(name):
    return "-" in name or bool(re.match(r"^[a-z_][\w']*[A-Z]", name)) or "′" in name


def turned(name):
    if not odd(name) or name[0].isupper():
        return name.replace("′", "'")
    out = name.replace("-", "_").replace("′", "'")
    out = re.sub(r"(?<=[a-z0-9])([A-Z])(?=[a-z0-9])", lambda m: "_" + m.group(1).lower(), out)
    out = re.sub(r"(?<=[a-z0-9])([A-Z])$", lambda m: "_" + m.group(1).lower(), out)
    return out.lower()


def clauses(text):
    """The spans of a .rt file that antt reads: ghost items, and what stands in the braces of clauses."""
    spans = []
    for m in re.finditer(r"ghost use [^;]*;", text):
        spans.append(m.span())
    for m in re.finditer(r"\b(?:requires|ensures|decreases|ghost)\b[^{;\n]*\{", text):
        if text[m.start():m.start() + 9] == "ghost use":
            continue
        depth, i = 1, m.end()
        while depth:
            depth += {"{": 1, "}": -1}.get(text[i], 0)
            i += 1
        spans.append((m.end(), i))
    return sorted(spans)


def code(text, comment):
    """text cut into (piece, whether antt reads it)."""
    out, i = [], 0
    for m in re.finditer(comment + r"[^\n]*|\"(?:[^\"\\\n]|\\.)*\"", text):
        out.append((text[i:m.start()], True))
        out.append((m.group(0), False))
        i = m.end()
    out.append((text[i:], True))
    return out


def kit_names(text):
    """What the file imports from the kit, which keeps its spelling."""
    names = set()
    for line in text.splitlines():
        m = ANY_USE.match(line)
        if m and m.group(2) and (not m.group(1).startswith("Rattle.") or m.group(1).startswith(KIT)):
            names |= {x.strip() for x in m.group(2).split(",")}
    return names


def kit_paths(text):
    return {m.group(1) for m in re.finditer(r"(?m)^\s*use (?!Rattle\.)[\w.]+ as (\w+)", text)}


def pieces(path):
    with open(path, encoding="utf-8") as f:
        text = f.read()
    if path.endswith(".antt"):
        return text, code(text, "--")
    out, i = [], 0
    for a, b in clauses(text):
        out.append((text[i:a], False))
        out += code(text[a:b], "//")
        i = b
    out.append((text[i:], False))
    return text, out


def defined():
    """Module-level names, fields and constructors that the repository declares in antt."""
    names = set()
    for p in files():
        if p.endswith(".antt"):
            with open(p, encoding="utf-8") as f:
                for line in f:
                    m = re.match(r"^\s*(?:abbrev |unfoldable |pub |data |record |mod )*([^\s:(){}=.,;]+)\s.*:\s|^\s*(?:abbrev |unfoldable |pub )*([^\s:(){}=.,;]+) :", line)
                    if m:
                        names.add(m.group(1) or m.group(2))
    return names


def spelled(path, fallen, own, fns):
    """The file respelled, and the names that fall together in it."""
    text, parts = pieces(path)
    kit, by = kit_names(text), kit_paths(text)
    out, used, plain = [], {}, set()
    for piece, read in parts:
        if not read:
            out.append(piece)
            continue
        at = 0
        for m in WORD.finditer(piece):
            w = m.group(0)
            head = re.search(r"([\w'-]+)\.$", piece[max(0, m.start() - 60):m.start()])
            n = None
            if (path, w) in SPECIAL and not head:
                n = SPECIAL[(path, w)]
            elif not odd(w):
                if not head:
                    plain.add(w)
                continue
            elif w in kit or w[0].isupper():
                continue
            elif head:
                if head.group(1) in ("tie", "Tie") or head.group(1) in by:
                    continue
                bare = re.sub(r"\d+$", "", w)
                if w not in own and (MADE.match(w) or turned(bare) not in fns and turned(w) not in fns):
                    continue
                n = turned(w) + ("_lem" if w in fallen and head.group(1)[0].isupper() else "")
            elif MADE.match(w) and w not in own:
                continue
            else:
                n = turned(w) + ("_lem" if w in fallen else "")
            if not head:
                used.setdefault(n, set()).add(w)
            out += [piece[at:m.start()], n]
            at = m.end()
        out.append(piece[at:])
    out = [x.replace("Need-overflow-", "Need-overflow_") for x in out]
    together = [(path, n, sorted(olds | ({n} & (plain | kit)))) for n, olds in sorted(used.items())
                if len(olds | ({n} & (plain | kit))) > 1]
    return text, "".join(out), together


def main(argv):
    own, fns, fallen = defined(), functions(), set()
    every = list(files())
    for p in every:
        for _, _, names in spelled(p, fallen, own, fns)[2]:
            fallen |= {n for n in names if "-" in n and n in own}
    plans, together = [], []
    for p in every:
        text, new, two = spelled(p, fallen, own, fns)
        together += two
        if new != text:
            plans.append((p, new))
    for x in together:
        print("together:", *x)
    print("with _lem:", *sorted(fallen))
    if "--dry" not in argv:
        for p, text in plans:
            with open(p, "w", encoding="utf-8") as f:
                f.write(text)
    print(len(plans), "files")
    return 0


if __name__ == "__main__":
    raise SystemExit(main(sys.argv[1:]))
