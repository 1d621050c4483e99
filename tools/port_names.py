#!/usr/bin/env python3
"""tools/port_names.py [--check] [FOLDER]: brings this repository's own names to the spelling of today's Rattle, once, after the kit's port.py.

A word of a definition, a lemma, a field or a constructor is in snake case: `numberOf` becomes `number_of`, `nodeOf-held` becomes `node_of-held`. A field, a
constructor and a definition of specs/ has no dash: `last-gc` becomes `last_gc`. Types, facts and modules keep their capitals, and so does what a file of src/
declares: its functions, types and variants. Strings of programs, inputs and outputs are left alone.

It reads crates/, docs/, README.md, tools/ and oracle/, and writes in place. It prints each file in which a new spelling meets a name that stood there before ('meets:').
With --check it writes nothing.
"""
import os, re, sys

WORD = re.compile(r"[A-Za-zμκλ_][A-Za-z0-9_'′₀-₉α-ωΑ-Ω≡≤≢∷→]*(?:-[A-Za-z0-9_'′₀-₉α-ω≡≤≢∷→]+)*")

# Two names that would fall together, and a unit that the programs print.
SPELLED = {"lastGc": "last_gc_of", "last-gc": "last_gc", "kWh": "kWh"}

# Lemmas and constructors that port.py gave the name that a definition now has, each with the files that mean them.
APART = [
    (r"crates/(demand1|profile_plain|parties|parties_calls|over_apart)/", r"\b(calls\.)(list|record|seen|take)_(over|of|by|out)\b", r"\1\2-\3"),
    (r"crates/demand1/specs/Calls\.antt", r"(?m)^(  |(?:lentTo|checks|tables|leaves|refusals|remembers|asked) \()(list|record|seen|take)_(over|of|by|out)\b", r"\1\2-\3"),
    (r"crates/(rules|profiles|parties|demand1|profile_plain|parties_calls)/proofs/", r"\bwrite_as\b", "write_as_lem"),
    (r"crates/\w+/proofs/", r"\btaken_as\b(?!\.)", "taken_as_lem"),
    (r"crates/parties_calls/proofs/Blind", r"\b(read_at|bytes_on|list_on|rows_on)\b", r"\1_lem"),
    (r"crates/listing_read/proofs/Unlisted", r"\bop_bytes\b", "op_bytes_lem"),
    (r"crates/net_careful_runs/proofs/", r"\btaken_out\b", "taken_out_lem"),
    (r"crates/local_node/proofs/Deciding", r"\ballowed_at\b", "allowed_at_lem"),
]


def snake(part):
    if not re.match(r"^[a-z][A-Za-z0-9_'₀-₉]*$", part) or not re.search(r"[A-Z]", part):
        return part
    return re.sub(r"(?<=[a-z0-9'_])([A-Z]+)", lambda m: "_" + m.group(1).lower(), part).replace("__", "_")


def camel_free(word):
    return "-".join(snake(p) for p in word.split("-"))


def files(root, ends):
    for top in ("crates",):
        for folder, dirs, names in os.walk(os.path.join(root, top)):
            dirs[:] = sorted(d for d in dirs if d not in ("out", "target", "data"))
            for n in sorted(names):
                if n.endswith(ends):
                    yield os.path.join(folder, n)


def text_of(p):
    with open(p, encoding="utf-8") as f:
        return f.read()


def strip_comments(t):
    return "\n".join(re.sub(r"(^|\s)--.*$", "", l) for l in t.split("\n"))


def declared(root):
    """The fields, constructors and definitions of specs/ that have a dash."""
    dashed = set()
    for p in files(root, (".antt",)):
        t = strip_comments(text_of(p))
        inside = False
        for l in t.split("\n"):
            if re.match(r"^(pub )?(record|data)\b|^abbrev.*\brecord\b", l):
                inside = True
                continue
            if re.match(r"^\S", l):
                inside = False
            m = re.match(r"^\s+(?:pub )?([a-z][\w'-]*) :(?!:)", l)
            if inside and m and "-" in m.group(1):
                dashed.add(m.group(1))
            if "/specs/" in p:
                m = re.match(r"^(?:abbrev |unfoldable )?(?:pub )?([a-z][\w'-]*) :(?!:)", l)
                if m and "-" in m.group(1):
                    dashed.add(m.group(1))
    return dashed


def main(argv):
    check = "--check" in argv
    argv = [a for a in argv if a != "--check"]
    root = argv[0] if argv else "."
    if not check:
        for p in files(root, (".antt",)):
            t = r = text_of(p)
            for where, old, new in APART:
                if re.match(where, os.path.relpath(p, root)):
                    r = re.sub(old, new, r)
            if r != t:
                with open(p, "w", encoding="utf-8") as f:
                    f.write(r)
    dashed = declared(root)
    # a lemma's name keeps its dashes also where a definition of specs/ has a like name
    lemmas = set()
    for p in files(root, (".antt",)):
        if "/proofs/" in p:
            for l in strip_comments(text_of(p)).split("\n"):
                m = re.match(r"^(?:abbrev |unfoldable )?(?:pub )?([a-z][\w'-]*) :(?!:)", l)
                if m:
                    lemmas.add(m.group(1))
    both = dashed & lemmas
    if both:
        print("both a lemma and a definition, field or constructor:", " ".join(sorted(both)))
    dashed -= both

    # Where the word without its dash is another's, the dash stays, so that no two names fall together.
    words = set()
    for p in files(root, (".antt", ".rt", ".edit")):
        words |= set(WORD.findall(text_of(p)))
    spelled = {}
    for w in words - dashed:
        spelled.setdefault(camel_free(w), set()).add(w)
    kept = {w for w in dashed if w not in SPELLED and any("-" not in o for o in spelled.get(camel_free(w).replace("-", "_"), ()))}
    print("the dash stays:", " ".join(sorted(kept)))
    dashed -= kept

    def new(word):
        if word in SPELLED:
            return SPELLED[word]
        w = camel_free(word)
        return w.replace("-", "_") if word in dashed else w

    # every word that the crates write, with its new spelling
    table = {}
    for p in files(root, (".antt", ".rt", ".edit")):
        for w in WORD.findall(text_of(p)):
            n = new(w)
            if n != w:
                table[w] = n
    print(len(table), "words respelled, of them with dashes dropped:", len(dashed))
    back = {}
    for w, n in table.items():
        back.setdefault(n, []).append(w)
    for n, ws in sorted(back.items()):
        if len(ws) > 1:
            print("fall together:", " ".join(ws), "->", n)
    changed = 0
    for p in files(root, (".antt", ".rt", ".edit")):
        t = text_of(p)
        own = re.sub(r"(?m)^((?:pub )?use )([^{\n]*)(\.\{|$)", r"\1\3", strip_comments(t))
        had = set(WORD.findall(own))
        r = WORD.sub(lambda m: table.get(m.group(0), m.group(0)), t)
        if r != t:
            if p.endswith(".antt"):
                for w in sorted(had & set(table)):
                    if table[w] in had:
                        print(f"meets: {os.path.relpath(p, root)}: {w} -> {table[w]}")
            changed += 1
            if not check:
                with open(p, "w", encoding="utf-8") as f:
                    f.write(r)
    # pages and tools: the names alone that crates declare and that nothing else could mean
    for top in ("docs", "tools", "oracle", "README.md"):
        for folder, dirs, names in os.walk(os.path.join(root, top)) if os.path.isdir(os.path.join(root, top)) else [(root, [], [top])]:
            dirs[:] = [d for d in dirs if d not in ("target",)]
            for n in names:
                if not (n.endswith(".md") or top == "tools") or n.startswith("port_names"):
                    continue
                p = os.path.join(folder, n)
                try:
                    t = text_of(p)
                except UnicodeDecodeError:
                    continue
                r = WORD.sub(lambda m: table.get(m.group(0), m.group(0)) if re.search(r"[a-z][A-Z]", m.group(0)) else m.group(0), t)
                if r != t:
                    changed += 1
                    if not check:
                        with open(p, "w", encoding="utf-8") as f:
                            f.write(r)
    print(changed, "files changed")


main(sys.argv[1:])
