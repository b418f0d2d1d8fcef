#!/usr/bin/env python3
"""Brings the names of the repository's own definitions and lemmas to one spelling.

usage: python3 tools/respell.py [--report]     at the top of the repository, on files that the kit's port.py has turned

Definitions, lemmas, fields and helper lemmas of specs/ and proofs/ become snake case, types become camel case; getD in a name
becomes get_or, as in the library. Names of the library, of goals and of the code keep their spelling, and so does everything in
comments and strings. README.md and docs/, but for docs/PORT.md, get the new spelling of the names that they quote.
With --report nothing is written: the renamings are listed, and each new name that stands in the files already.
"""

import glob
import re
import sys

SPLIT = re.compile(r"([^\s(){}\[\],;.:\"«»⌜⌝∥]+)")
DECLARED = re.compile(r"^\s*(?:(?:pub|abbrev|unfoldable)\s+)*([^\s(){}\[\],;.:\"λ]+)\s*:\s+(.*)$")
TYPE = re.compile(r"^\s*(?:(?:pub|abbrev|unfoldable)\s+)*(?:record|data)\s+([^\s(){}\[\],;.:\"]+)")
BOUND = re.compile(r"(?<![^\s(])let ([^\s(){}\[\],;.:\"]+)\s*[:=]")
IMPORT = re.compile(r"^\s*(?:pub )?(?:ghost )?use ([^\s{]+)\.\{([^}]*)\}", re.M)
GENERATED = re.compile(r"^\s*(?:ghost )?use Rattle\.\w+\.proofs\.[^\s{]*\.(?:Goals|Given)\.\{([^}]*)\}", re.M)
# chosen by hand: two whose plain respelling is taken, and a variable that is declared nowhere
CHOSEN = {"No-number": "IsNoNumber", "bool-byte": "byte_of_bool", "figure-of": "figure_of"}
TICKED = re.compile(r"`([^`\s]+)`")


def files():
    for pattern in ("crates/*/src/**/*.rt", "crates/*/specs/**/*.antt", "crates/*/proofs/**/*.antt"):
        yield from sorted(glob.glob(pattern, recursive=True))


def read(path):
    with open(path, encoding="utf-8") as f:
        return f.read()


def code_of(line, mark):
    """The line before its comment."""
    at = line.find(mark)
    return (line, "") if at < 0 else (line[:at], line[at:])


def respelt(name):
    if name in CHOSEN:
        return CHOSEN[name]
    words = [w for w in re.split(r"[-_]", name.replace("getD", "get_or")) if w]
    if name[0].isupper():
        return "".join(w[0].upper() + w[1:] for w in words)
    return "_".join(words)


def aliases_in(text):
    """Names that a file gives to what it imports."""
    return {n for m in IMPORT.finditer(text) for n in re.findall(r" as ([^\s,]+)", m.group(2))}


def listed(names):
    for it in names.split(","):
        it = it.strip()
        if it:
            yield it.split(" as ")[0].strip()


def declared_in(path, text):
    names = set()
    for line in text.splitlines():
        code, _ = code_of(line, "--")
        for m in BOUND.finditer(code):
            names.add(m.group(1))
        m = TYPE.match(code)
        if m:
            names.add(m.group(1))
            continue
        m = DECLARED.match(code)
        if m and not m.group(2).startswith(("goal.", "given.")):
            names.add(m.group(1))
    return {n for n in names if re.search(r"[a-zA-Z]", n) and "◌" not in n}


def imported(text):
    """Names that a file takes from the library and from goals."""
    names = set()
    for m in IMPORT.finditer(text):
        if m.group(1).startswith(("Rattle.std", "Rattle.core", "borrow", "lib", "native", "mathlib", "Prim", "denote")) or re.search(r"\.(Goals|Given)$", m.group(1)):
            names |= set(listed(m.group(2)))
    for m in GENERATED.finditer(text):
        names |= set(listed(m.group(1)))
    return names


def turn(path, text, table):
    kept = imported(text)
    own = declared_in(path, text) if path.endswith(".antt") else set()
    mark = "--" if path.endswith(".antt") else "//"
    out = []
    for line in text.split("\n"):
        code, comment = code_of(line, mark)
        pieces = SPLIT.split(code)
        quoted = 0
        for i, piece in enumerate(pieces):
            if i % 2 == 0:
                quoted += piece.count('"')
                continue
            if quoted % 2 or piece not in table or (piece in kept and piece not in own):
                continue
            before = "".join(pieces[:i])
            if re.search(r"(?<![\w'-])(c|w|goal|given|l)\.$", before):
                continue
            pieces[i] = table[piece]
        out.append("".join(pieces) + comment)
    return "\n".join(out)


def turn_pages(table, own):
    """The names that README and docs/ quote."""
    known = set(table.values()) | own
    changed = 0
    for path in sorted(set(glob.glob("docs/*.md")) - {"docs/PORT.md"}) + ["README.md"]:
        text = read(path)

        def quoted(m):
            new = table.get(m.group(1)) or respelt(m.group(1))
            return f"`{new}`" if "-" in m.group(1) and new in known else m.group(0)

        new = TICKED.sub(quoted, text)
        if new != text:
            changed += 1
            with open(path, "w", encoding="utf-8") as f:
                f.write(new)
    return changed


def main(argv):
    texts = {p: read(p) for p in files()}
    own = set()
    for p, t in texts.items():
        own |= aliases_in(t)
        if p.endswith(".antt"):
            own |= declared_in(p, t)
    table = {n: respelt(n) for n in own | set(CHOSEN) if respelt(n) != n}
    if "--report" in argv:
        words = {}
        for p, t in texts.items():
            for line in t.split("\n"):
                code, _ = code_of(line, "--" if p.endswith(".antt") else "//")
                for w in SPLIT.findall(code):
                    words.setdefault(w, set()).add(p)
        taken = {}
        for old, new in sorted(table.items()):
            taken.setdefault(new, []).append(old)
            places = sorted(words.get(new, ()))
            print(old, "->", new, ("TAKEN in " + " ".join(places[:6])) if places else "")
        for new, olds in taken.items():
            if len(olds) > 1:
                print("TOGETHER", new, olds)
        return 0
    changed = 0
    for p, t in texts.items():
        new = turn(p, t, table)
        if new != t:
            changed += 1
            with open(p, "w", encoding="utf-8") as f:
                f.write(new)
    changed += turn_pages(table, own)
    print(f"respell: {len(table)} names, {changed} files")
    return 0


if __name__ == "__main__":
    raise SystemExit(main(sys.argv[1:]))
