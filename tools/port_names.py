#!/usr/bin/env python3
"""Brings the repository's own names to the spelling of today's Rattle: functions, lemmas and fields in snake case.

usage: python3 tools/port_names.py [--dry]      at the top of the repository, once, after port.py

It renames what specs/ and proofs/ define: `bankOf` becomes `bank_of`, `remainder-of-sum` becomes `remainder_of_sum`. A type keeps its
capital. In src/ and in the edits it renames the same words. Functions of src/, strings, inputs and outputs keep their names.
"""
import collections, os, re, subprocess, sys

LIBRARY = os.path.join(os.path.dirname(subprocess.run(["rt", "doc"], capture_output=True, text=True).stdout.strip()), "rattle")
SOLID = r"[^\s(){}\[\];,.λ?⌜⌝\"`]"
TOKEN = re.compile(SOLID + "+")
DRY = "--dry" in sys.argv


def files(root, *endings):
    for folder, dirs, names in os.walk(root):
        dirs[:] = sorted(d for d in dirs if d not in ("out", "target", ".git"))
        for n in sorted(names):
            if n.endswith(endings):
                yield os.path.join(folder, n)


def read(p):
    with open(p, encoding="utf-8") as f:
        return f.read()


def is_walk(p):
    """A file of one function's proof: its names are goals, which Rattle spells."""
    return os.path.basename(p) in ("Proof.antt", "Answers.antt", "Invariants.antt") or "/Proof/" in p


def bare(line):
    return re.sub(r"(^|\s)--\s.*$", "", line)


HEAD = re.compile(r"^\s*(?:(?:abbrev|unfoldable|pub|data|record) )*(" + SOLID + r"+)(?: [^:=]*)? : ")
GROUP = re.compile(r"[({]((?:" + SOLID + r"+ )+): ")
LAMBDA = re.compile(r"λ ([^.:(){}=]+)\. ")
LET = re.compile(r"\blet (" + SOLID + r"+) ")
KINDS = re.compile(r"^\s*(?:pub )?(?:data|record) (" + SOLID + r"+)")
EQUATION = re.compile(r"^\s*(" + SOLID + r"+)(?: [^=]*)? =(?: |$)")


def defined(text):
    found = set()
    for line in text.split("\n"):
        line = bare(line)
        if line.startswith(("use ", "pub use ", "mod ", "pub mod ")):
            continue
        for r in (HEAD, KINDS, EQUATION):
            m = r.match(line)
            if m:
                found.add(m.group(1))
        for m in GROUP.finditer(line):
            found.update(m.group(1).split())
        for m in LAMBDA.finditer(line):
            found.update(m.group(1).split())
        for m in LET.finditer(line):
            found.add(m.group(1))
    return found


def snake(name):
    lead = re.match(r"[+]?", name).group(0)
    name = name[len(lead):]
    parts = name.split("-")
    out = []
    for k, part in enumerate(parts):
        if part[:1].isupper():
            # a capital alone is a variable, as in W-side; else a type, which keeps its capital
            out.append(part.lower() if re.fullmatch(r"[A-Z]'?", part) and len(parts) > 1 else part)
        else:
            part = re.sub(r"(?<=[a-z0-9])([A-Z])", lambda m: "_" + m.group(1).lower(), part)
            out.append(part)
    return lead + "_".join(out)


def wanted(name):
    if not re.search(r"[A-Za-z]", name) or name.startswith(("-", "◌")):
        return False
    return bool(re.search(r"[A-Za-z0-9']-[A-Za-z0-9]", name)) or bool(re.match(r"[a-z][A-Za-z0-9']*[A-Z]", name))


own, walks = set(), {}
for p in files("crates", ".antt"):
    t = read(p)
    if is_walk(p):
        walks[p] = {n for n in defined(t) if wanted(n)}
    else:
        own |= {n for n in defined(t) if wanted(n)}

library = set()
for p in files(LIBRARY, ".antt"):
    if "/crates/" in p:
        continue
    for line in read(p).split("\n"):
        m = HEAD.match(bare(line))
        if m:
            library.add(m.group(1))

names = {n: snake(n) for n in own if snake(n) != n}
plain = set()
for p in files("crates", ".antt"):
    plain |= defined(read(p))
plain -= set(names)
# names that fall together: the lemma of a function's name gets `_lem`
names.update({n: t for n, t in {"A-is": "told_address", "B-is": "told_bank"}.items() if n in names})
taken = {n for o, n in names.items() if "-" not in o} | (plain & {"call_of", "room_at"})
for o, n in list(names.items()):
    if "-" in o and n in taken:
        names[o] = n + "_lem"
if DRY:
    back = collections.defaultdict(set)
    for o, n in names.items():
        back[n].add(o)
    print("renamed:", len(names))
    for n, o in sorted(back.items()):
        if len(o) > 1 or n in plain:
            print("fall together:", n, "<-", *sorted(o), "(and a name that stands)" if n in plain else "")
    for n, o in sorted(back.items()):
        if n in library:
            print("library has:", n, "<-", *sorted(o))
    for o in sorted(names):
        if o in library:
            print("library's own spelling:", o)
    sys.exit()


IMPORT = re.compile(r"^\s*(?:pub |ghost )?use (\S+?)\.\{([^}]*)\}", re.M)
FIELD = re.compile(r"^\s+pub (" + SOLID + r"+) ")
crates = [line.split(":")[0].split()[0] for line in read("crates.txt").split("\n") if line.split("#")[0].strip()]
fields = {m.group(1) for p in files("crates", ".antt") for m in map(FIELD.match, read(p).split("\n")) if m}


def borrowed(text):
    """What a file takes from the library: it keeps the library's spelling."""
    found = set()
    for m in IMPORT.finditer(text):
        if m.group(1).split(".")[:2] not in [["Rattle", c] for c in crates]:
            found |= {n.strip().split(" ")[0] for n in m.group(2).split(",")}
    return found


def turn(text, skip, walk):
    def one(m):
        n = m.group(0)
        if n not in names or n in skip:
            return n
        if walk and text[max(0, m.start() - 1) : m.start()] == ".":
            # a step of the code, as in c.row-marked.ensures, or a field of the repository's own
            return snake(n) if n in fields else n
        return names[n]

    return TOKEN.sub(one, text)


changed = 0
for p in files("crates", ".antt", ".rt"):
    t = read(p)
    u = turn(t, walks.get(p, set()) | borrowed(t), p in walks)
    if u != t:
        changed += 1
        with open(p, "w", encoding="utf-8") as f:
            f.write(u)
print(f"renamed {len(names)} names in {changed} files")
