#!/usr/bin/env python3
"""Counts the places of docs/DESIGN-PASS.md in crates/*/src: python3 tools/design_places.py [CHECKOUT] [--list]"""
import glob
import re
import sys
from collections import defaultdict

ROOT = next((a for a in sys.argv[1:] if not a.startswith("--")), ".")
LIST = "--list" in sys.argv

# One regular expression for each kind of place, on a file's whole text.
PATTERNS = [
    ("1 a refusal, anomaly or problem in an Option", r"-> Option<(?:Refusal|Anomaly|Problem)>"),
    ("1 an answer passed on by hand",
     r"if let Some\((?:refusal|anomaly)\) =|Some\((?:refusal|anomaly)\) => Err|Err\((?:refusal|anomaly|problem)\) => (?:Err|Some)"
     r"|else \{\n\s*return None;\n\s*\};|Err\(_\) => return Err"),
    ("1 an enum (whether of the shape of Option or Result: by reading)", r"^\s*(?:pub(?:\(crate\))? )?enum \w+"),
    ("1 a number for a kind", r"\b(?:class|dial|sub_profile): u8"),
    ("1 a variant's number by an arm of a match", r"\w+::\w+ => \d+,$"),
    ("1 a flag", r"let mut \w+ = (?:true|false);"),
    ("3 a counter of its own", r"\b\w+ \+= 1;|= (?:\w+\.)*\w+\.saturating_add\(1\)"),
    ("4 a conversion by a match",
     r"(?:Ok|Some)\((\w+)\) => (?:(?:Ok|Some)\()?\1\)?,|Err\(_\) => None|None => None|Ok\(\(\)\) => (?:0|Ok|Some|\{\})"),
    ("4 a conversion cut by hand", r"\.min\([^()]*\) as \w+"),
    ("4 printing a copied field", r"let (\w+) = (?:\w+\.)+\1(?:\(\))?;"),
    ("6 a fixed array in a type", r"(?::|&mut) \[[A-Za-z0-9<>]+; [\w]+\]"),
    ("7 a function pointer, a boxed closure, a dyn", r"\bfn\(|\bdyn |Box<"),
]


def sources():
    for path in sorted(glob.glob(ROOT + "/crates/*/src/**/*.rt", recursive=True)):
        with open(path, encoding="utf-8") as file:
            yield path[len(ROOT) + 1:], file.read()


def loops(text):
    """Each loop over a range, and whether its variable is an index in the loop's body."""
    for match in re.finditer(r"for (\w+) in [^{\n]*\.\.[^{\n]*\{", text):
        depth, end = 1, match.end()
        while depth > 0:
            depth += {"{": 1, "}": -1}.get(text[end], 0)
            end += 1
        yield match, re.search(r"\w\[[^\]\n]*\b" + match.group(1) + r"\b[^\]\n]*\]", text[match.end():end]) is not None


def functions(text):
    """Name, parameters and requires-facts of each function."""
    for match in re.finditer(r"fn (\w+)(?:<[^(\n]*>)?\(((?:[^()]|\([^()]*\))*)\)", text):
        head = re.split(r"\n\s*\{\s*\n|\{\n", text[match.end():], maxsplit=1)[0].split(";\n")[0]
        facts = []
        for clause in re.findall(r"requires (?:\w+ )?\{ (.*) \}$", head, re.M):
            facts += [part.strip("() ") for part in clause.split(" × ")]
        yield match.group(1), [p.strip() for p in match.group(2).split(",") if ":" in p], facts


def tell(title, places):
    print(f"{len(places):4} {title}")
    if LIST:
        print("".join(f"       {place}\n" for place in places), end="")


def main():
    texts = list(sources())

    def place(path, text, match):
        return f"{path}:{text.count(chr(10), 0, match.start()) + 1}: {' '.join(match.group(0).split())}"

    for name, pattern in PATTERNS:
        tell(name, [place(path, text, match) for path, text in texts for match in re.finditer(pattern, text, re.M)])
    over = [(place(path, text, match), index) for path, text in texts for match, index in loops(text)]
    tell("3 a loop over a range whose variable is an index", [where for where, index in over if index])
    tell("3 another loop over a range", [where for where, index in over if not index])
    facts, together = defaultdict(list), defaultdict(list)
    for path, text in texts:
        crate = path.split("/")[1]
        for name, parameters, asked in functions(text):
            for fact in asked:
                facts[fact].append(f"{crate}::{name}")
            for k in range(len(parameters) - 2):
                together[tuple(parameters[k:k + 3])].append(f"{crate}::{name}")
    for title, groups in (("5 a fact that three functions or more ask", facts), ("5 three parameters in a row, in three functions or more", together)):
        often = {key: names for key, names in groups.items() if len(set(names)) >= 3}
        tell(title, [f"{key if isinstance(key, str) else ', '.join(key)}: {', '.join(names)}" for key, names in often.items()])


main()
