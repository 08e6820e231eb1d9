#!/usr/bin/env python3
"""Spells the repository's own names of definitions, lemmas, fields and variables as today's Rattle does.

Run once, at the top, after /opt/rattle/port/port.py: words in snake case, types and facts in upper camel case. Names that
Rattle makes (of goals and steps), names of the library and names of src/ stay as they are.
"""
import collections
import glob
import re
import sys

TOKEN = re.compile(r"[^\s(){}\[\],;:.=λ\"`⌜⌝]+")
BINDERS = re.compile(r"[({]((?:[^\s(){}:,;=.]+ )+): ")
HEAD = re.compile(r"^\s*(?:abbrev |unfoldable )?(?:pub )?(?:record |data )?(?:pub )?([^\s(){}:,;=λ|]+)\s+(?:[({].*)?:(?:\s|$)")
LET = re.compile(r"\blet ([^\s(){}:,;=λ|]+) ")
LAMBDA = re.compile(r"λ ((?:[^\s(){}:,;=.]+ ?)+)\.")
ALIAS = re.compile(r"\bas ([^\s,{}]+)")
EQUATION = re.compile(r"^\s+([^\s(){}:,;=λ|]+) =")
MADE = re.compile(
    r"^(returns|loop|overflow|overflow_\w+|invariant|decreases|then|else|if|match|in_ok|in_err|bounds|slice_bounds)-"
    r"|^in-[A-Z]|-requires(-|$)|^in-(ok|err|default|some|none)\b|^branch-")
# names that would fall together with another
TAKEN = {
    "Kept-element": "IsKeptElement",
    "Kept-question": "IsKeptQuestion",
    "Kept-transition": "IsKeptTransition",
}


def own_files():
    return sorted(glob.glob("crates/*/specs/**/*.antt", recursive=True) + glob.glob("crates/*/proofs/**/*.antt", recursive=True))


def is_answer(path):
    return path.split("/proofs/")[1].count("/") > 0 if "/proofs/" in path else False


def code(line):
    return re.sub(r"--.*|//.*", "", re.sub(r'"[^"]*"', '""', line))


def library_names(files):
    names = set()
    for path in files:
        for m in re.finditer(r"use Rattle\.std\.[\w.]+\.\{([^}]*)\}|use (?:borrow|mir|denote|native|mathlib|lib)\.[\w.]+\.\{([^}]*)\}", open(path).read()):
            for item in (m.group(1) or m.group(2)).split(","):
                names.add(item.strip().split(" as ")[0])
    return names


def defined(files):
    names = set()
    for path in files:
        for line in map(code, open(path)):
            if re.match(r"\s*(pub )?use ", line):
                for m in ALIAS.finditer(line):
                    names.add(m.group(1))
                continue
            m = HEAD.match(line)
            if m and not re.search(r": goal\.", line):
                names.add(m.group(1))
            if is_answer(path) and re.search(r": goal\.", line):
                continue
            for pattern in (BINDERS, LAMBDA):
                for m in pattern.finditer(line):
                    names.update(m.group(1).split())
            for m in LET.finditer(line):
                names.add(m.group(1))
    for path in glob.glob("crates/*/src/*.rt"):
        for line in map(code, open(path)):
            if line.startswith("ghost use "):
                for m in ALIAS.finditer(line):
                    names.add(m.group(1))
    return names


def spelled(name):
    if name in TAKEN:
        return TAKEN[name]
    if name[0].isupper():
        return "".join(part[:1].upper() + part[1:] for part in name.split("-"))
    name = name.replace("getD", "get_or").replace("-", "_")
    return name


def renames():
    files = own_files()
    library = library_names(files + glob.glob("crates/*/src/*.rt"))
    result = {}
    for name in defined(files):
        if "-" not in name and "getD" not in name or name in library or MADE.search(name) or not re.match(r"[A-Za-z]", name):
            continue
        new = spelled(name)
        if new != name:
            result[name] = new
    return result


def turned(text, path, names):
    out = []
    for line in text.split("\n"):
        body, comment = line, ""
        m = re.search(r"(^|\s)(--|//)", line)
        if m and not path.endswith(".edit"):
            body, comment = line[: m.start()], line[m.start():]
        pieces = re.split(r'("[^"]*")', body)
        for i in range(0, len(pieces), 2):
            def put(m):
                word = m.group(0)
                before = pieces[i][: m.start()]
                if before.endswith("goal."):
                    return word
                return names.get(word, word)
            pieces[i] = TOKEN.sub(put, pieces[i])
        out.append("".join(pieces) + comment)
    return "\n".join(out)


def main():
    names = renames()
    back = collections.defaultdict(set)
    for old, new in names.items():
        back[new].add(old)
    for new, olds in sorted(back.items()):
        if len(olds) > 1:
            print("fall together:", new, *sorted(olds))
    paths = own_files() + glob.glob("crates/*/src/*.rt") + glob.glob("crates/*/must-fail/*.edit")
    for path in sorted(paths):
        text = open(path).read()
        words = set(TOKEN.findall("\n".join(map(code, text.split("\n")))))
        for word in sorted(words & set(names)):
            if names[word] in words:
                print("both stand in", path + ":", word, names[word])
        new = turned(text, path, names)
        if new != text and "--try" not in sys.argv:
            open(path, "w").write(new)
    if "--list" in sys.argv:
        for old in sorted(names):
            print(old, names[old])
    print(len(names), "names")


main()
