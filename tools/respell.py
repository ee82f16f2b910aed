#!/usr/bin/env python3
"""Respells the repository's own definitions and lemmas, once, after port.py: words in snake case, a dash only between two names.

    python3 tools/respell.py            at the top of the repository

What port.py leaves are the names that are the repository's own. This respells, in specs/, proofs/, src/, the must-fail edits, the
pages and the tests (what port.py itself had respelled is turned in the pages by hand):

- a word in camel case (`howMany`) in snake case (`how_many`), and `Up`, which is a word and no type, as `up`;
- a dash in a name of the repository's own as `_`, unless it stands between two names of definitions (`sum-le`).

Types, modules and the letters of the rules (B, C, D, I, S, T) stay. A dash stays too where the name would fall together with another.
It stops before it writes anything where two words would. `--list` prints the names, old and new, and those that stand beside a
function, a field or a lemma of another place that is spelled so already; it changes nothing.
"""
import re
import subprocess
import sys
from pathlib import Path

WORD = re.compile(r"[A-Za-z_][A-Za-z0-9_']*(?:-[A-Za-z0-9_']+)*")
DEFINED = re.compile(r"^\s*((?:(?:pub|abbrev|unfoldable|ruleset|record|data)\s+)*)([A-Za-z][A-Za-z0-9_'-]*)\s*(?:[({][^=]*)?(:|=|where)")
CAMEL = re.compile(r"^[a-z][A-Za-z0-9_'-]*[a-z0-9][A-Z]")
UPPER_WORDS = {"Up": "up"}
# words of the library beside which a dash stands
LIBRARY = set("""le lt add sub mul div mod min max or and not suc zero pow length append map take drop set get_or cond ltb leb eqb
true false count sum fold""".split())


def snake(name):
    name = re.sub(r"([a-z0-9])([A-Z])", lambda m: m.group(1) + "_" + m.group(2).lower(), name)
    return re.sub(r"([a-z])([A-Z])", lambda m: m.group(1) + "_" + m.group(2).lower(), name)


def files(*suffixes):
    tracked = subprocess.run(["git", "ls-files", "-co", "--exclude-standard"], capture_output=True, text=True, check=True).stdout.splitlines()
    return [Path(f) for f in tracked if Path(f).suffix in suffixes and Path(f).is_file() and not f.startswith("tools/")]


def is_proof_of_function(path):
    return path.name in ("Proof.antt", "Answers.antt", "Invariants.antt")


# In prose, as 'Up to sixteen tasks', a word in upper case stays.
def respelled(line, names, suffix):
    if suffix == ".antt":
        at = line.find("--")
    elif suffix == ".rt":
        at = line.find("//")
    else:
        at = -1 if suffix == ".edit" else 0
    at = len(line) if at < 0 else at
    plain = {old: new for old, new in names.items() if old not in UPPER_WORDS}
    prose = WORD.sub(lambda m: plain.get(m.group(0), m.group(0)), line[at:])
    for old, new in UPPER_WORDS.items():
        prose = prose.replace(f"`{old}`", f"`{new}`")
    return WORD.sub(lambda m: names.get(m.group(0), m.group(0)), line[:at]) + prose


def main():
    sources = files(".antt")
    texts = {f: f.read_text() for f in sources}
    own, specs = set(), set()
    for f, text in texts.items():
        if is_proof_of_function(f):
            continue
        for line in text.splitlines():
            m = DEFINED.match(line)
            if m and not line.lstrip().startswith("--"):
                own.add(m.group(2))
                if "/specs/" in str(f):
                    specs.add(m.group(2))
    names = {}
    # camel case, wherever it stands in antt: nothing of the toolchain's has it
    tokens = set()
    for f, text in texts.items():
        for line in text.splitlines():
            tokens |= set(WORD.findall(line))
    for t in tokens:
        for part in t.split("-"):
            if CAMEL.match(part):
                names[t] = snake(t)
    for old, new in UPPER_WORDS.items():
        names[old] = new
    plain = {names.get(n, n) for n in specs if "-" not in n} | LIBRARY
    for n in own:
        if "-" not in n:
            continue
        parts = names.get(n, n).split("-")
        out = parts[0]
        for left, right in zip(parts, parts[1:]):
            out += ("-" if left in plain and right in plain else "_") + right
        if out != n and out not in tokens | own | set(names.values()):
            names[n] = out
    # two names that fall together: one of them keeps its dashes (above); a word and a function, field or lemma of another place may
    by_new = {}
    for old, new in names.items():
        by_new.setdefault(new, []).append(old)
    together = [(new, olds) for new, olds in by_new.items() if len(olds) > 1 or new in tokens]
    if "--list" in sys.argv:
        for old in sorted(names):
            print(old, names[old])
        for new, olds in sorted(together):
            print("together:", new, *olds, *(["and one that is there"] if new in tokens else []))
        return
    two = [(new, olds) for new, olds in together if len(olds) > 1]
    if two:
        for new, olds in two:
            print("together:", new, *olds)
        sys.exit(1)
    changed = 0
    for f in files(".antt", ".rt", ".edit", ".md") + [p for p in map(Path, subprocess.run(["git", "ls-files", "tests"], capture_output=True, text=True).stdout.splitlines()) if p.suffix in ("", ".txt") and p.is_file()]:
        try:
            text = f.read_text()
        except UnicodeDecodeError:
            continue
        new = "\n".join(respelled(line, names, f.suffix) for line in text.split("\n"))
        if new != text:
            f.write_text(new)
            changed += 1
    print(f"respell: {len(names)} names, {changed} files")


main()
