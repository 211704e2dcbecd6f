"""Reads the items of .antt files by their text alone: signatures with their clauses, data types, records and fixities.

It knows of antt its layout, the words that begin an item, and comments. An item in a `module _ (..) where` has that head
as a part of its text, since it speaks of the module's parameters.
"""
import collections
import re

Item = collections.namedtuple("Item", "word name statement text")
QUIET = re.compile(r"(\"(?:\\.|[^\"\\\n])*\")|\{-.*?-\}|(?<![^\s(){}\[\],;])--(?=[\s-])[^\n]*", re.S)
MARKS = r"(?:(?:pattern|unfoldable|abbrev|axiom|pub)\s+)*"
SIGNATURE = re.compile(MARKS + r"(?:ruleset\s+)?([^\s(){}.;,@\"«»]+|«[^»]*»)(?:\s*\{[^}]*\})?\s+:\s")
DECLARED = re.compile(MARKS + r"(data|record)\s+([^\s(){}.;,@\"]+)")
FIXITY = re.compile(MARKS + r"infix[lr]?\s+\d+\s+(\S+)")
PASSED = re.compile(MARKS + r"(?:use|mod|open|package)\b")


def bare(text):
    """The text without comments."""
    return QUIET.sub(lambda found: found[1] or " ", text)


def folded(text):
    """The text in one layout: white space folded, none inside brackets, no comma before one that closes, no `pub`, and names
    without the modules that they are from."""
    text = " ".join(text.split())
    text = re.sub(r"\bpub ", "", re.sub(r"\bRattle(?:\.[^\s(){}\[\],;.]+)*\.(?=[^\s(){}\[\],;.]+)", "", text))
    return re.sub(r"\s*[,;]?\s*([)\]}])", r"\1", re.sub(r"([(\[{])\s+", r"\1", text))


def chunks(lines):
    """The parts of these lines that begin at their least indent; a line that begins with a closing bracket begins none."""
    lines = [line for line in lines if line.strip()]
    least = min((len(line) - len(line.lstrip()) for line in lines), default=0)
    held = []
    for line in lines:
        if held and (line[least] == " " or line[least] in ")]}"):
            held[-1].append(line)
        else:
            held.append([line])
    return held


def split_module(chunk):
    """The head and the body of a module's lines."""
    ends = next((at for at, line in enumerate(chunk) if re.search(r"\bwhere\s*$", line)), len(chunk) - 1)
    return " ".join(chunk[: ends + 1]), chunk[ends + 1 :]


def begun(text):
    """The word, the name and the statement of the item that a part begins, or None if it goes on with the one before it."""
    declared, fixity, signature = DECLARED.match(text), FIXITY.match(text), SIGNATURE.match(text)
    if declared:
        return declared[1], declared[2], text
    if fixity:
        return "infix", f"{fixity[1]} (fixity)", text
    if not signature:
        return None
    marks = text[: signature.start(1)].split()
    return next((mark for mark in ("abbrev", "unfoldable", "axiom") if mark in marks), "lemma"), signature[1], text


def items(text, head="", is_bare=False):
    """The items of a file, in their order."""
    found = []
    for chunk in chunks((text if is_bare else bare(text)).split("\n")):
        whole = " ".join(" ".join(chunk).split())
        if re.match(r"(?:pub )?module\b", whole):
            above, body = split_module(chunk)
            found += items("\n".join(body), f"{head} {above}", True)
        elif begins := begun(whole):
            found.append(Item(begins[0], begins[1], folded(f"{head} {begins[2]}"), folded(f"{head} {whole}")))
        elif found and not PASSED.match(whole):
            found[-1] = found[-1]._replace(text=folded(f"{found[-1].text} {whole}"))
    return found
