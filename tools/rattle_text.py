"""Reads the items of .rt files by their text alone: their functions, types, traits and ghost members.

It knows no more of Rattle than its brackets, the words that begin an item, and comments and quoted texts.
"""
import dataclasses
import re

QUIET = re.compile(r"//[^\n]*|\"(?:\\.|[^\"\\])*\"|b?'(?:\\[^']*|[^'\\\n])'")
ITEM = re.compile(r"^[ ]*(pub(?:\([a-z]+\))?[ ]+)?(?:const[ ]+|unsafe[ ]+)*(fn|impl|trait|struct|enum|mod|ghost)\b", re.M)
CLAUSE = re.compile(r"\b(ensures|requires)\*?\s*(\w*)\s*$")
CLOSES = {"(": ")", "[": "]", "{": "}"}


@dataclasses.dataclass
class Item:
    """An item: its word (fn, impl, ghost ..), its name, whether `pub` stands before it, its head, its clauses and its span.

    The head is its text up to its body, clauses left out; a clause is its word, its label and its text. The owner is the
    impl, trait, struct or enum that it stands in."""

    word: str
    name: str
    public: bool
    head: str
    clauses: list
    start: int
    end: int
    owner: "Item" = None


def blanked(text):
    """The text with comments and quoted texts blanked, place for place."""
    return QUIET.sub(lambda found: re.sub(r"[^\n]", " ", found.group()), text)


def bare(text):
    """The text without comments, white space folded."""
    return " ".join(re.sub(r"(\"(?:\\.|[^\"\\])*\")|//[^\n]*", lambda found: found.group(1) or " ", text).split())


def closing(code, start):
    """The place behind the bracket that closes the one at the start."""
    waits = []
    for place in range(start, len(code)):
        if code[place] in CLOSES:
            waits.append(CLOSES[code[place]])
        elif waits and code[place] == waits[-1]:
            waits.pop()
            if not waits:
                return place + 1
    return len(code)


def spanned(text, code, start):
    """What an item that starts here has as clauses, where its head ends and where it ends itself."""
    clauses, head, place = [], [], start
    while place < len(code) and code[place] != ";":
        if code[place] not in CLOSES:
            place += 1
            continue
        end = closing(code, place)
        clause = CLAUSE.search(code, start, place) if code[place] == "{" else None
        if not clause and code[place] == "{":
            return clauses, "".join(head) + code[start:place], end
        if clause:
            clauses.append((clause[1], clause[2], bare(text[place + 1 : end - 1])))
            head.append(code[start : clause.start()])
            start = end
        place = end
    return clauses, "".join(head) + code[start:place], place + 1


def named(word, head):
    """The name of an item; of an impl what follows the word."""
    after = head[re.search(rf"\b{word}\b", head).end() :]
    return " ".join(after.split()) if word == "impl" else re.match(r"\s*(\w*)", after)[1]


def ghost(text, code, found, owner):
    """A ghost member or field: what stands behind its `:` or `=` is its one clause."""
    end = code.find("{", found.end())
    head = code[found.start() : end]
    close = closing(code, end)
    clause = (head.rstrip()[-1:], "", bare(text[end + 1 : close - 1]))
    return Item("ghost", named("ghost", head), False, head, [clause], found.start(), close, owner)


def items(text):
    """The items of a file, those in impls, traits and types too, in their order; none of a function's body."""
    code, found, place, owners = blanked(text), [], 0, []
    while heads := ITEM.search(code, place):
        owners = [owner for owner in owners if owner.end > heads.start()]
        owner, word = owners[-1] if owners else None, heads[2]
        place = heads.end()
        if word == "ghost":
            if re.match(r"\s+\w+\s*[:=]\s*\{", code[heads.end() :]):
                found.append(ghost(text, code, heads, owner))
                place = found[-1].end
            continue
        clauses, head, end = spanned(text, code, heads.start())
        item = Item(word, named(word, head), (heads[1] or "").strip() == "pub", head, clauses, heads.start(), end, owner)
        found.append(item)
        if word == "fn":
            place = end
        elif word != "mod":
            owners.append(item)
            place = heads.start() + len(head) if code[end - 1] == "}" else end
    return found
