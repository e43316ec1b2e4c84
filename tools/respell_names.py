#!/usr/bin/env python3
"""Brings the names of this repository's definitions and lemmas to the spelling of the Rattle kit's library.

usage: python3 tools/respell_names.py        at the top of the repository, once, after the kit's port.py

Words get underscores, types and facts are in camel case: 'running-share' becomes 'running_share', 'dayOf' 'day_of',
'Running-laws' 'RunningLaws'. Turned are names that specs/ and proofs/ declare, fields and constructors too, and names
bound in a proof. Names that Rattle makes or that the kit's library declares, names of src/, comments and strings stay.
It prints names that would fall together in a file, and then changes nothing.
"""

import os
import re
import sys

NAME = r"[^\s(){}\[\],;.λ\"«»]+"
BEFORE = r"(?<![^\s(){}\[\],;.])"
AFTER = r"(?![^\s(){}\[\],;.])"
TOKEN = re.compile(BEFORE + NAME + AFTER)
DECLARED = re.compile(r"^\s*(?:(?:pub|abbrev|unfoldable|data|record)\s+)*(" + NAME + r")((?:\s*[({][^)}]*[)}])*)\s+:\s+(\S+)")
HEADED = re.compile(r"^\s*(?:pub\s+)?(?:record|data)\s+(" + NAME + r")")
ALIAS = re.compile(r"\sas\s+(" + NAME + r")(?=[,}])")
USE = re.compile(r"^\s*(?:pub\s+)?(?:ghost\s+)?use\s+(\S+?)\.\{([^}]*)\}")
CAMEL = re.compile(r"^[a-z]+(?:[A-Z][a-z]+)+$")
SKIP = re.compile(r'"(?:[^"\\]|\\.)*"')
# Names that are chosen by hand: 'SetUp' is a type already.
CHOSEN = {"Set-up": "SetUpAnswer"}


def spelled(name):
    if name in CHOSEN:
        return CHOSEN[name]
    name = name.replace("′", "'")
    if name[0].isupper():
        return "".join(word[:1].upper() + word[1:] for word in name.split("-"))
    return re.sub("[A-Z]", lambda m: "_" + m.group(0).lower(), name.replace("-", "_")) if CAMEL.match(name) else name.replace("-", "_")


def files(root):
    for folder, below, names in os.walk(os.path.join(root, "crates")):
        below[:] = sorted(d for d in below if d != "out")
        for name in sorted(names):
            if name.endswith((".antt", ".rt")):
                yield os.path.join(folder, name)


def text_of(path):
    with open(path, encoding="utf-8") as f:
        return f.read()


def parts(line, mark):
    """The line before its comment, and the comment."""
    blank = SKIP.sub(lambda m: " " * len(m.group(0)), line)
    at = re.search(r"(?:^|\s)" + re.escape(mark) + r"(?:\s|$)", blank)
    return (line, "") if not at else (line[: at.start()], line[at.start() :])


def odd(name):
    return "′" in name or bool(CAMEL.match(name)) or bool(re.search(r"[^\W\d_]-\w|\d-\w|'-\w", name)) and name[0] not in "◌"


def declared(root):
    """The odd names that the repository declares, but for those that Rattle asks for; and all that it declares."""
    found, every, made = set(), set(), set()
    for path in files(root):
        for line in text_of(path).splitlines():
            code = parts(line, "--" if path.endswith(".antt") else "//")[0]
            if USE.match(code):
                found |= {w for w in ALIAS.findall(code) if odd(w)}
            if not path.endswith(".antt"):
                continue
            m = HEADED.match(code)
            if m:
                every.add(m.group(1))
                found |= {m.group(1)} if odd(m.group(1)) else set()
            m = DECLARED.match(code)
            if m:
                every.add(m.group(1))
                if m.group(3).startswith("goal."):
                    made.add(m.group(1))
                elif odd(m.group(1)):
                    found.add(m.group(1))
    return found - made, every


def own(path, crates):
    m = re.match(r"Rattle\.(\w+)\.", path)
    return bool(m) and m.group(1) in crates


def turn(path, names, crates):
    text = text_of(path)
    mark = "--" if path.endswith(".antt") else "//"
    lines = text.split("\n")
    strange, made = set(), set()
    for line in lines:
        m = USE.match(line)
        if m and (not own(m.group(1), crates) or m.group(1).endswith((".Goals", ".Given"))):
            strange |= {w.split(" as ")[-1].strip() for w in m.group(2).split(",")} - {w for w in ALIAS.findall(line)}
        m = DECLARED.match(line)
        if m and m.group(3).startswith("goal."):
            made.add(m.group(1))
    in_proofs = path.endswith(".antt") and "/proofs/" in path

    def new(m):
        word = m.group(0)
        if not odd(word) or word in made:
            return word
        after_dot = m.start() > 0 and m.string[m.start() - 1] == "."
        if word in names and (after_dot or word not in strange):
            return spelled(word)
        if in_proofs and not after_dot and not CAMEL.match(word) and word not in strange and re.match(r"^[a-z][\w'-]*$", word):
            return spelled(word)
        return word

    out = []
    for line in lines:
        code, comment = parts(line, mark)
        pieces, at = [], 0
        for s in SKIP.finditer(code):
            pieces += [TOKEN.sub(new, code[at : s.start()]), s.group(0)]
            at = s.end()
        pieces.append(TOKEN.sub(new, code[at:]))
        out.append("".join(pieces) + comment)
    changed = "\n".join(out)
    if changed != text:
        with open(path, "w", encoding="utf-8") as f:
            f.write(changed)
    return changed != text


def main():
    root = os.getcwd()
    crates = {d for d in os.listdir(os.path.join(root, "crates"))}
    names, every = declared(root)
    bad = []
    for path in files(root):
        here = set(TOKEN.findall(text_of(path)))
        new = {}
        for name in sorted(here & names):
            new.setdefault(spelled(name), []).append(name)
        bad += [f"{', '.join(b)} as {a} in {path}" for a, b in sorted(new.items()) if len(b) > 1 or a in here & every]
    if bad:
        print("fall together: " + "; ".join(bad))
        return 1
    n = sum(turn(path, names, crates) for path in files(root))
    print(f"{len(names)} names, {n} files")
    return 0


if __name__ == "__main__":
    sys.exit(main())
