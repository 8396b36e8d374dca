"""The names in a text of code: its clauses, its imports, and the names of its types and functions."""
import collections
import re

# A term of a contract or ghost item: its offsets, and the names that are bound around it.
Clause = collections.namedtuple("Clause", "start end outer")
# One leaf of a `use`: the path, what it is called here, the offset of its last name, and whether it is public.
Use = collections.namedtuple("Use", "path called start is_public")
# A name in code: its text and offset, the names before it that `::` joins to it, whether a dot is before it, and what follows it.
Word = collections.namedtuple("Word", "text start path is_member after")
CLAUSE = re.compile(r"^[ \t]*(?:(?:requires|ensures|decreases|invariant)(?:[ \t]+\w+)?|(?:pub )?ghost \w+[ \t]*[:=])[ \t]*\{", re.M)
FUNCTION = re.compile(r"\bfn\s+(\w+)")
USE = re.compile(r"^[ \t]*(pub(?:\([^)]*\))?[ \t]+)?use\s+([^;]+);", re.M)
TOKENS = re.compile(r"//[^\n]*|/\*.*?\*/|b?\"(?:\\.|[^\"\\])*\"|b?'(?:\\.[^']*|[^'\\])'|'\w+|\w+|::|\s+|.", re.S)


def closing(text, start):
    """The offset of the brace that closes the one at this offset."""
    depth = 0
    for place in range(start, len(text)):
        depth += (text[place] == "{") - (text[place] == "}")
        if depth == 0:
            return place
    return len(text)


def clauses_of(text):
    """The terms of the contracts and ghost items of a file."""
    functions = [found.start() for found in FUNCTION.finditer(text)]
    found, at = [], 0
    for clause in CLAUSE.finditer(text):
        if clause.start() < at:
            continue
        at = closing(text, clause.end() - 1)
        begin = max([place for place in functions if place < clause.start()], default=0)
        is_ghost = "ghost " in clause[0]
        outer = set() if is_ghost else set(re.findall(r"(\w+)\s*:(?!:)", text[begin:clause.start()].split("requires")[0].split("ensures")[0]))
        found.append(Clause(clause.end(), at, frozenset(outer | {"result", "self"})))
    return found


def leaves(tree, offset, before):
    """The leaves of a tree of imports."""
    head = re.match(r"\s*((?:\w+\s*::\s*)*)", tree)
    path = before + [(name) for name in re.findall(r"\w+", head[1])]
    rest, at = tree[head.end():], offset + head.end()
    if not rest.startswith("{"):
        leaf = re.match(r"(\w+|\*)(?:\s+as\s+(\w+))?", rest)
        return [(path + [leaf[1]], leaf[2] or leaf[1], at)] if leaf else []
    found, depth, begin = [], 0, 1
    for place, letter in enumerate(rest):
        depth += (letter == "{") - (letter == "}")
        if letter == "," and depth == 1 or depth == 0:
            found += leaves(rest[begin:place], at + begin, path)
            begin = place + 1
        if depth == 0:
            break
    return found


def uses_of(text):
    """The leaves of the imports of code."""
    found = []
    for one in USE.finditer(text):
        if not one[2].startswith("Rattle."):
            found += [Use(path, called, start, bool(one[1])) for path, called, start in leaves(one[2], one.start(2), [])]
    return found


def words_of(text):
    """The names in code, outside of contracts, comments, texts and imports."""
    skipped = [(clause.start, clause.end) for clause in clauses_of(text)]
    skipped += [(one.start(), one.end()) for one in re.finditer(r"^[ \t]*(?:pub(?:\([^)]*\))? )?(?:ghost )?use [^;]+;", text, re.M)]
    skipped.sort()
    tokens = [(one[0], one.start()) for one in TOKENS.finditer(text) if not one[0].isspace() and not one[0].startswith(("//", "/*"))]
    found, place = [], 0
    for at, (word, start) in enumerate(tokens):
        while place < len(skipped) and skipped[place][1] <= start:
            place += 1
        inside = place < len(skipped) and skipped[place][0] <= start
        if inside or not re.match(r"[A-Za-z_]\w*$", word):
            continue
        path, back = [], at
        while back > 1 and tokens[back - 1][0] == "::" and re.match(r"\w+$", tokens[back - 2][0]):
            path.insert(0, tokens[back - 2][0])
            back -= 2
        is_member = back > 0 and tokens[back - 1][0] == "."
        after = tokens[at + 1][0] if at + 1 < len(tokens) else ""
        found.append(Word(word, start, path, is_member, after))
    return found


def variants_in(text):
    """The offsets of the names of variants where an enum declares them."""
    found = set()
    for one in re.finditer(r"\benum\s+\w+[^{;]*\{", text):
        end, depth, expects = closing(text, one.end() - 1), 0, True
        for token in TOKENS.finditer(text, one.end(), end):
            word = token[0]
            if word.isspace() or word.startswith("//"):
                continue
            depth += (word in "([{" and len(word) == 1) - (word in ")]}" and len(word) == 1)
            if depth == 0 and expects and re.match(r"[A-Z]\w*$", word):
                found.add(token.start())
                expects = False
            elif depth == 0 and word == ",":
                expects = True
    return found
