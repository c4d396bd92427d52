#!/usr/bin/env python3
"""Brings the names of definitions and lemmas in specs/ and proofs/ to the spelling of today's Rattle: words in snake case, types in camel case, and a dash only
between two names. Run once, at the top of the repository, on what port.py wrote; it rewrites files in place, and prints each name, old and new.

usage: tools/port_names.py            rewrites crates/, README.md, docs/ (what stands between backquotes) and the names in tests/
       tools/port_names.py --list     prints the names alone

A name is renamed where a file of specs/ or proofs/ defines it (a definition, a lemma, a field, a constructor) and no library does. Functions, types and fields of
src/ keep their names. Of a name with dashes the dashes stay where each part is a name itself; else, and in a field's name, they become '_'.
"""

import os
import re
import sys

ROOT = "."
TOKEN = re.compile(r"(?<![\w'’«\-])[A-Za-z][\w']*(?:-[\w'≡≢≤<∷+*ℕ]+)*(?![\w'\-])")
STRING = re.compile(r'"(?:[^"\\\n]|\\.)*"')
COMMENT = re.compile(r"(?:^|(?<=\s))(?:--|//)(?: .*)?$")
# Where two names would fall together, or a new one would be a word that is reserved or in use.
APART = {
    "after_line": "after_line_lem",
    "bits_of_bytes": "bits_of_bytes_lem",
    "goes_on": "goes_on_lem",
    "goes_to": "goes_to_lem",
    "held_in": "held_in_lem",
    "in-state": "in_state_lem",
    "kind-of": "kind_of_lem",
    "mac-of": "mac_of_lem",
    "no-action": "no_action_lem",
    "one_more": "one_more_lem",
    "only-in": "only_in_lem",
    "protocol-error": "protocol_error_lem",
    "xor-bits": "xor_bits_lem",
    "with-peers": "entries_with_peers",
    "bytes-of-bits": "bytes_of_bits_lem",
    "is-sound": "is_sound_lem",
    "length-ok": "length_ok_lem",
    "mac-right": "mac_right_lem",
    "peers-at": "peers_at_lem",
    "peers-of": "peers_of_lem",
    "body_ok": "body_fits",
    "same_key": "same_found_key",
    "length_X": "length_x",
}


def walk(top, endings):
    for folder, dirs, files in os.walk(os.path.join(ROOT, top)):
        dirs[:] = sorted(d for d in dirs if d not in ("out", ".git", "target"))
        for f in sorted(files):
            if f.endswith(endings):
                yield os.path.join(folder, f)


def read(p):
    with open(p, encoding="utf-8") as f:
        return f.read()


def bare(line):
    return COMMENT.sub("", line)


def top_level(p):
    """Names that a file defines: signatures at any depth below 'where', fields and constructors."""
    names = set()
    for line in read(p).splitlines():
        line = bare(line)
        m = re.match(r"^(?:abbrev |unfoldable )?(?:pub )?([A-Za-z][\w'\-≡≢≤<∷+*ℕ]*)(?: \([^)]*\)| \{[^}]*\})* :(?: |$)", line)
        if m:
            names.add(m[1])
        m = re.match(r"^(?:pub )?(?:record|data) ([A-Za-z][\w'\-]*)", line)
        if m:
            names.add(m[1])
        m = re.match(r"^\s+(?:pub )?([A-Za-z][\w'\-≡≢≤<∷+*ℕ]*(?: [A-Za-z][\w'\-≡≢≤<∷+*ℕ]*)*) :(?: |$)", line)
        if m:
            names.update(m[1].split())
    return names


def labels(p):
    """The fields of the records that a file declares."""
    names, inside = set(), False
    for line in read(p).splitlines():
        line = bare(line)
        if re.match(r"^\S", line):
            inside = re.match(r"^(?:pub )?record .* where$", line) is not None
        m = re.match(r"^  (?:pub )?([A-Za-z][\w'\-]*(?: [A-Za-z][\w'\-]*)*) :(?: |$)", line)
        if inside and m:
            names.update(m[1].split())
    return names


def imported(p):
    """Names that a file takes from a library."""
    names = set()
    text = "\n".join(bare(l) for l in read(p).splitlines())
    for m in re.finditer(r"(?m)^\s*(?:ghost )?(?:pub )?use ([\w.+\-]+)\.\{([^}]*)\}", text):
        if not re.match(r"Rattle\.(%s)\." % "|".join(CRATES), m[1]):
            names.update(w.strip().split(" as ")[0] for w in m[2].split(","))
    return names


def functions(top):
    """The functions of the sources below a folder: they keep their names."""
    return {m[1] for p in walk(top, (".rt",)) for m in re.finditer(r"\bfn (\w+)", read(p))}


def snake(word):
    word = re.sub(r"([a-z0-9])([A-Z])", r"\1_\2", word)
    word = re.sub(r"([A-Z]+)([A-Z][a-z])", r"\1_\2", word)
    return word.lower()


CRATES = sorted(os.listdir(os.path.join(ROOT, "crates")))


def table():
    antt = list(walk("crates", (".antt",)))
    libraries = set()
    for p in antt + list(walk("crates", (".rt",))):
        libraries |= imported(p)
    own = set()
    for p in antt:
        if os.path.basename(p) not in ("Proof.antt", "Answers.antt", "Invariants.antt"):
            own |= top_level(p)
    local = set()
    for p in antt:
        if os.path.basename(p) in ("Proof.antt", "Answers.antt", "Invariants.antt"):
            local |= top_level(p)
    fields = set()
    for p in antt:
        fields |= labels(p)
    one = {}
    for n in sorted(own):
        parts = n.split("-")
        one[n] = [p if (p[:1].isupper()) else snake(p) for p in parts]
    names = {"".join(ps) for n, ps in one.items() if len(ps) == 1} | libraries
    names |= {"append", "true", "false", "suc", "zero", "nil", "cons", "length", "take", "drop", "at"} - {"at"}
    new = {}
    for n, ps in one.items():
        if n in libraries:
            continue
        joined = n not in fields and all(p in names for p in ps)
        t = ps[0]
        for p in ps[1:]:
            t += ("-" if joined or p[:1].isupper() or not re.match(r"[a-z0-9_']+$", p) else "_") + p
        if n in APART:
            t = APART[n]
        if t != n:
            new[n] = t
    taken = {}
    for n in sorted(own | libraries):
        taken.setdefault(new.get(n, n), []).append(n)
    for t, ns in sorted(taken.items()):
        if len(ns) > 1:
            print("falls together: %s: %s" % (t, ", ".join(ns)), file=sys.stderr)
    return new


def turned(text, new):
    return TOKEN.sub(lambda m: whole(m[0], new), text)


def whole(token, new):
    return new.get(token, token)


def rust(text, new):
    out, last = [], 0
    for m in STRING.finditer(text):
        out += [turned(text[last:m.start()], new), m[0]]
        last = m.end()
    return "".join(out + [turned(text[last:], new)])


def quoted(text, new):
    return re.sub(r"`[^`\n]*`", lambda m: turned(m[0], new), text)


def aliases():
    """A module that a file imports under a name of its own is in camel case, as modules are."""
    for p in walk("crates", (".antt",)):
        old = t = read(p)
        for a in re.findall(r"(?m)^use \S+ as ([A-Za-z_-]+)$", t):
            if a in ("goal", "tie"):
                continue
            name = "".join(w[:1].upper() + w[1:] for w in re.split("[-_]", a))
            if name == a:
                continue
            if re.search(r"(?<![\w.\-])%s(?![\w\-])" % name, t.replace(" as " + a, "")):
                name = "The" + name
            t = re.sub(r"(?m)^(use \S+ as )%s$" % re.escape(a), lambda m: m[1] + name, t)
            t = re.sub(r"(?<![\w.\-«])%s(?=\.[A-Za-z«])" % re.escape(a), name, t)
        if t != old:
            with open(p, "w", encoding="utf-8") as f:
                f.write(t)


def main(argv):
    new = table()
    for n in sorted(new):
        print(n, new[n])
    if argv == ["--list"]:
        return
    every = functions("crates")
    for p in list(walk("crates", (".antt", ".rt", ".edit"))):
        crate = os.path.relpath(p, os.path.join(ROOT, "crates")).split(os.sep)[0]
        kept = functions(os.path.join("crates", crate)) if p.endswith(".antt") else every
        here = {n: v for n, v in new.items() if n not in kept}
        old = read(p)
        t = rust(old, here) if p.endswith(".rt") else turned(old, here)
        if t != old:
            with open(p, "w", encoding="utf-8") as f:
                f.write(t)
    aliases()
    pages = [os.path.join(ROOT, "README.md")] + list(walk("docs", (".md",))) + [p for p in walk("tests", ("README.md",))]
    for p in pages:
        old = read(p)
        t = quoted(old, new)
        if t != old:
            with open(p, "w", encoding="utf-8") as f:
                f.write(t)
    for p in ("tests/forms", "tests/misfits", "tests/assurance"):
        old = read(os.path.join(ROOT, p))
        t = turned(old, {n: v for n, v in new.items() if re.search(r"[a-z][A-Z]|-", n)})
        if t != old:
            with open(os.path.join(ROOT, p), "w", encoding="utf-8") as f:
                f.write(t)


if __name__ == "__main__":
    main(sys.argv[1:])
