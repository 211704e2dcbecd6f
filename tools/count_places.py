"""Counts places in src/ that today's forms could replace, for docs/DESIGN-PASS.md.

    python3 tools/count_places.py [--list] [ROOT]

Each count goes by text alone, so it finds more than what should change: a person reads the list (--list) and judges.
ROOT is a checkout of this repository, by default the one that this file is in.
"""
import collections
import pathlib
import re
import sys

LISTED = "--list" in sys.argv
WORDS = [word for word in sys.argv[1:] if not word.startswith("--")]
ROOT = pathlib.Path(WORDS[0]) if WORDS else pathlib.Path(__file__).resolve().parent.parent


def sources():
    for path in sorted(ROOT.glob("crates/*/src/**/*.rt")):
        yield path.relative_to(ROOT), path.read_text()


def code(text):
    """The text without comments and ghost lines, line by line."""
    for number, line in enumerate(text.split("\n"), 1):
        bare = line.split("//")[0].rstrip()
        if bare and not bare.lstrip().startswith("ghost"):
            yield number, bare


def lines(pattern):
    """The lines of code that the pattern matches."""
    seek = re.compile(pattern)
    return [f"{path}:{number}: {line.strip()}" for path, text in sources() for number, line in code(text) if seek.search(line)]


def functions():
    """Each function: its file, its name, its parameters, its clauses and its body."""
    head = re.compile(r"^( *)(?:pub(?:\([a-z]+\))? )?fn ([a-z_0-9]+)", re.M)
    for path, text in sources():
        text = "\n".join(line.split("//")[0] for line in text.split("\n"))
        for found in head.finditer(text):
            end = re.search(r"^" + found.group(1) + r"[}]|;$", text[found.end():], re.M)
            whole = text[found.start():found.end() + (end.end() if end else 0)]
            yield path, found.group(2), whole


def clauses():
    """Clauses that stand in three or more functions, by their text."""
    held = collections.defaultdict(set)
    for path, name, whole in functions():
        for clause in re.findall(r"(?:requires|ensures)\*? ?[a-z_]* ?\{([^\n{}]*)\}", whole):
            held[" ".join(clause.split())].add(f"{path} {name}")
    return [f"{len(names)} times: {text}" for text, names in sorted(held.items()) if len(names) > 2]


def travellers():
    """Pairs of parameters, one behind the other, that stand in three or more functions."""
    held = collections.defaultdict(set)
    for path, name, whole in functions():
        opened = re.search(r"\(([^()]*(?:\([^()]*\)[^()]*)*)\)", whole)
        parameters = [" ".join(part.split()) for part in re.split(r",(?![^<(\[]*[>)\]])", opened.group(1))] if opened else []
        parameters = [part for part in parameters if part and ":" in part]
        for first, second in zip(parameters, parameters[1:]):
            held[first + ", " + second].add(f"{path} {name}")
    return [f"{len(names)} times: {text}" for text, names in sorted(held.items()) if len(names) > 2]


def twins():
    """Functions whose bodies differ only in names and numbers."""
    held = collections.defaultdict(list)
    for path, name, whole in functions():
        body = whole[whole.find("\n" if "ensures" not in whole else "{"):]
        body = re.sub(r"(?:requires|ensures)\*? ?[a-z_]* ?\{[^}]*\}", "", body)
        start = body.find("{")
        shape = re.sub(r'"[^"]*"', "S", body[start:])
        shape = re.sub(r"\b(?!if|else|for|in|match|return|let|mut|while|true|false|Ok|Err|Some|None)[A-Za-z_][A-Za-z_0-9:]*\b", "n", shape)
        shape = re.sub(r"\d[\d_]*", "0", "".join(shape.split()))
        if len(shape) > 40 and "_cases" not in str(path):
            held[shape].append(f"{path} {name}")
    return [" = ".join(names) for names in held.values() if len(names) > 1]


def enums():
    """Own enums of two or three variants of which one holds a single value."""
    found = []
    for path, text in sources():
        for name, body in re.findall(r"enum ([A-Za-z]+)[^{]*\{(.*?)\n\}", text, re.S):
            variants = [v.strip() for v in re.sub(r"//.*", "", body).split(",\n") if v.strip()]
            if len(variants) < 4 and any(re.fullmatch(r"[A-Za-z]+\([^,]*\),?", v) for v in variants):
                found.append(f"{path}: enum {name}")
    return found


def proofs():
    """Lines of proofs, and answers, by crate."""
    found = []
    for crate in sorted(ROOT.glob("crates/*/proofs")):
        files = list(crate.rglob("*.antt"))
        count = sum(len(path.read_text().split("\n")) - 1 for path in files)
        answers = sum(len(re.findall(r"^pub .*: goal\.", path.read_text(), re.M)) for path in files)
        found.append(f"{crate.parent.name}: {count} lines, {answers} answers")
    return found


ALL_ZERO = r"(?:verb|sender): 0,$"
PLACES = [
    ("1a own enums shaped as Option or Result", enums()),
    ("1b flags among fields", lines(r"^\s*(?:pub(?:\([a-z]+\))? )?[a-z_]+: bool,$")),
    ("1c numeric constants", lines(r"^\s*(?:pub )?const [A-Z_]+: [ui](?:8|16|32|64|size) =")),
    ("1d numbers matched to variants, or variants to numbers", lines(r"^\s*(?:\d+ => |.*=> \d+,$)")),
    ("1e a Result or Option taken apart by hand", lines(r"^\s*(?:Err\([a-z_]+\)|None|Some\(_\)|Err\(_\)) => ")),
    ("2 bodies that differ only in names and numbers", twins()),
    ("3a loops over a range", lines(r"\bfor [a-z_]+ in [^{]*\.\.")),
    ("3b while loops", lines(r"^\s*while ")),
    ("3c counters moved by hand", lines(r"\+= 1;|= [a-z_]+ \+ 1;")),
    ("3d loops that only search", lines(r"^\s*(?:return true;|return false;|found = true;|return i;)")),
    ("4a casts by as", lines(r" as [ui](?:8|16|32|64|size)\b")),
    ("4b impls of conversion, comparison and printing", lines(r"^impl.* (?:From|TryFrom|PartialEq|Eq|Ord|Clone|Default)(?:<.*>)? for |Display for ")),
    ("4c values of nothing written out field by field", lines(ALL_ZERO)),
    ("4d texts made in functions", lines(r"^\s*(?:let [a-z]+ = )?format!\(")),
    ("5a clauses that stand in three or more functions", clauses()),
    ("5b pairs of parameters of three or more functions", travellers()),
    ("6 arrays among fields and results", lines(r"^\s*(?:pub(?:\([a-z]+\))? )?[a-z_]+: \[.*; \d+\],$|-> .*\(\[.*; \d+\]")),
    ("7 matches", lines(r"\bmatch ")),
    ("8 proofs", proofs()),
]

for name, found in PLACES:
    print(f"{len(found):4}  {name}")
    if LISTED or name.startswith("8"):
        for place in found:
            print("        " + place)
