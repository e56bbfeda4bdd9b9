#!/usr/bin/env python3
"""Brings the repository's own definitions and lemmas to one spelling: words in snake case, facts in upper camel case.

usage: python3 tools/respell.py        at the top of the repository, once, after the port to a newer Rattle
       python3 tools/respell.py --list prints the table, old and new, and writes nothing

It reads the names that crates/*/specs and crates/*/proofs declare (signatures, record fields, constructors), and writes each
as it is used in .antt files, and in the clauses and `ghost use` items of .rt files. A name that a file takes from a library, and
one that it declares itself for a goal, stays there. What falls together is printed, and then nothing is written.
"""

import glob
import os
import re
import sys

WORD = r"[^\s(){}.;,@\"«»\[\]\\:]+"
TOKEN = re.compile(r"--[^\n]*|\"(?:[^\"\\]|\\.)*\"|" + WORD)
DECLARED = re.compile(r"^( *)(?:(?:abbrev|unfoldable|pub|opaque) )*(" + WORD + r") : ", re.M)
USE = re.compile(r"^(?:pub |ghost )?use (\S+?)\.\{([^}]*)\}", re.M)
FACTS = {"at": "At"}
# `at` is a word of tactics and a parameter's name too: it is the fact only before its first argument, and where it is imported.
AT = re.compile(r"(?<![\w.'-])at (?=\(2 \^ \d+\)|B\b)")
AT_IMPORT = re.compile(r"^((?:pub |ghost )?use Rattle\.base\.specs\.Parts\.\{[^}]*?)\bat\b", re.M)


def read(path):
    with open(path, encoding="utf-8") as it:
        return it.read()


def snake(name):
    name = re.sub(r"(?<=[a-z0-9])([A-Z])", lambda it: "_" + it[1].lower(), name)
    return name.replace("-", "_")


def files(pattern):
    return sorted(it for it in glob.glob(pattern, recursive=True) if "/out/" not in it)


SPECS = files("crates/*/specs/*.antt")
LAWS = files("crates/*/proofs/*.antt")
WALKS = files("crates/*/proofs/*/**/*.antt")
SOURCES = files("crates/*/src/**/*.rt")


def declared(text):
    return [(len(it[1]), it[2]) for it in DECLARED.finditer(text)]


def fields_of(text):
    """Fields of records: what is declared deeper than the head of the record."""
    out, inside = set(), None
    for line in text.split("\n"):
        head = re.match(r"( *)(?:pub )?record \S+.* where", line)
        if head:
            inside = len(head[1])
            continue
        if inside is not None and line.strip():
            if len(line) - len(line.lstrip()) <= inside:
                inside = None
            else:
                it = DECLARED.match(line)
                if it:
                    out.add(it[2])
    return out


def table():
    names, fields = {}, set()
    for path in SPECS + LAWS:
        text = read(path)
        for _, name in declared(text):
            if name[0].islower() and snake(name) != name and re.fullmatch(r"[\w'→≢-]+", name):
                names[name] = snake(name)
        fields |= fields_of(text)
    # A lemma that would have the name of what it is about gets `_lem`.
    plain = {name for path in SPECS for _, name in declared(read(path))}
    humps = {new for old, new in names.items() if re.search("[a-z0-9][A-Z]", old)} | plain
    for old, new in names.items():
        if not re.search("[a-z0-9][A-Z]", old) and old not in plain and new in humps:
            names[old] = new + "_lem"
    laws = {name for path in LAWS for _, name in declared(read(path))}
    return names, fields, {it: it + "_lem" for it in laws - plain if it in humps}


def taken(text):
    """The names that a file takes from a library."""
    out = set()
    for it in USE.finditer(text):
        if not OWN.match(it[1]):
            for one in it[2].split(","):
                out.add(one.strip().split(" as ")[-1].strip())
    return out


CRATES = [it.split("/")[1] for it in glob.glob("crates/*/src")]
OWN = re.compile(r"Rattle\.(%s)\b" % "|".join(CRATES))


def turned(text, names, fields, keep):
    def one(it):
        word = it[0]
        if word.startswith(("--", '"')) or word not in names or word in keep:
            return word
        before = text[max(0, it.start() - 80) : it.start()]
        owner = re.search(r"([^\s(){};,\[\]]*)\.\Z", before)
        if owner and not re.search(r"(^|\.)[A-Z][\w']*\Z", owner[1]) and word not in fields:
            return word
        return names[word]

    return TOKEN.sub(one, text)


CLAUSE = re.compile(r"^ *(?:requires|ensures|ghost)\b.*$|^ghost use [^;]*;", re.M)


def move():
    """Rattle makes a module `specs.contracts`, so honigzange's file of that name is Calls."""
    old, new = (f"crates/honigzange/specs/{it}.antt" for it in ("Contracts", "Calls"))
    if os.path.exists(old):
        os.rename(old, new)
        for path in files("crates/honigzange/**/*.antt") + files("crates/honigzange/**/*.rt"):
            text = read(path)
            now = re.sub(r"Rattle\.honigzange\.specs\.Contracts\b", "Rattle.honigzange.specs.Calls", text)
            now = re.sub(r"^pub mod Contracts$", "pub mod Calls", now, flags=re.M)
            if now != text:
                with open(path, "w", encoding="utf-8") as it:
                    it.write(now)


def main():
    names, fields, lemmas = table()
    if "--list" in sys.argv[1:]:
        for old, new in sorted({**names, **lemmas, **FACTS}.items()):
            print(f"{old}\t{new}")
        return 0
    bad, out = [], {}
    for path in SPECS + LAWS + WALKS + SOURCES:
        text = read(path)
        keep = taken(text)
        cited = {one.strip() for it in USE.finditer(text) if ".proofs." in it[1] for one in it[2].split(",")}
        cited |= {name for _, name in declared(text)} if path in LAWS else set()
        ours = {old: new for old, new in lemmas.items() if old in cited}
        if path in WALKS:
            keep |= {it[1] for it in re.finditer(r"^(?:abbrev )?(" + WORD + r") : (?:tie|goal|lts)\.", text, re.M)}
            here = {it[1]: snake(it[1]) for it in re.finditer(r"^(?:abbrev )?(" + WORD + r") : (?!tie\.|goal\.|lts\.)", text, re.M)}
            mine = {**names, **ours, **{a: b for a, b in here.items() if a != b and not a.endswith("-spec")}}
        else:
            mine = {**names, **ours}
        if path.endswith(".rt"):
            new = CLAUSE.sub(lambda it: turned(it[0], mine, fields, keep), text)
        else:
            new = turned(text, mine, fields, keep)
        if AT_IMPORT.search(new) or path == "crates/base/specs/Parts.antt":
            new = AT_IMPORT.sub(r"\1At", new)
            new = re.sub(r"^(abbrev pub )at(?= : ℕ → ℕ → ℤ → Type 0)", r"\1At", new, flags=re.M)
            new = AT.sub("At ", new)
        shown = lambda of: [it for m in USE.finditer(of) for it in (x.strip().split(" as ")[-1] for x in m[2].split(","))]
        for of in (shown, lambda of: [n for d, n in declared(of) if d == 0]):
            if len(set(of(text))) != len(set(of(new))):
                bad.append(f"{path}: {sorted(set(of(text)) ^ set(of(new)))[:12]}")
        both = set(shown(new)) & {n for d, n in declared(new) if d == 0}
        if both - (set(shown(text)) & {n for d, n in declared(text) if d == 0}):
            bad.append(f"{path}: declared and imported: {both}")
        if path.endswith(".rt"):
            params = set(re.findall(r"(?:mut )?(\w+): ", re.sub(r"//.*", "", text)))
            hid = params & (set(shown(new)) - set(shown(text)))
            if hid:
                bad.append(f"{path}: a parameter hides {sorted(hid)}")
        out[path] = (text, new)
    if bad:
        print("\n".join(bad))
        print("nothing is written")
        return 1
    for path, (text, new) in out.items():
        if new != text:
            with open(path, "w", encoding="utf-8") as it:
                it.write(new)
    move()
    print(f"{len(names) + len(FACTS)} names, {sum(a != b for a, b in out.values())} files")
    return 0


if __name__ == "__main__":
    sys.exit(main())
