"""The functions of a source file, with the clauses of their contracts."""
import collections
import re

from rust_names import TOKENS, closing

CLAUSE = re.compile(r"(requires|ensures|decreases)(?:\s+(\w+))?\s*\{")
HEAD = re.compile(r"^[ \t]*(pub(?:\([^)]*\))? )?(?:const |unsafe )*fn (\w+)", re.M)

# A clause: its keyword, its name, which may be empty, and its offsets.
Clause = collections.namedtuple("Clause", "keyword name begin end")
# A function: where it is, whether it is public, its number of parameters, its clauses, and its body's offsets.
Function = collections.namedtuple("Function", "name start is_public parameters clauses body")


def plain(text):
    """A text of code of the same length, with blanks for comments and underscores for what is quoted."""
    def other(found):
        word = found[0]
        if word.startswith(("//", "/*")):
            return re.sub(r"[^\n]", " ", word)
        is_quoted = len(word) > 1 and word.lstrip("b")[:1] in ("'", '"') and word[-1] in "'\""
        return re.sub(r"[^\n]", "_", word) if is_quoted else word
    return TOKENS.sub(other, text)


def after_brackets(text, at, brackets="<>"):
    """The offset behind the bracket that closes the one at this offset. The arrow of a type closes none."""
    depth = 0
    for place in range(at, len(text)):
        depth += text[place] == brackets[0]
        depth -= text[place] == brackets[1] and text[place - 1] not in "-="
        if depth == 0:
            return place + 1
    return len(text)


def count_parameters(text):
    """The number of parameters between two parentheses."""
    depth, parts = 0, [""]
    for place, letter in enumerate(text):
        depth += letter in "([{<"
        depth -= letter in ")]}" or letter == ">" and text[place - 1] not in "-="
        if letter == "," and depth == 0:
            parts.append("")
        else:
            parts[-1] += letter
    return sum(bool(part.strip()) for part in parts)


def function_at(text, head, is_public):
    """The function whose head is found there, in a plain text."""
    at = head.end()
    at = after_brackets(text, at) if text[at] == "<" else at
    end = after_brackets(text, at, "()")
    parameters, clauses, depth, at = count_parameters(text[at + 1:end - 1]), [], 0, end
    while at < len(text):
        clause = CLAUSE.match(text, at) if text[at - 1].isspace() else None
        if clause:
            at = closing(text, clause.end() - 1) + 1
            clauses.append(Clause(clause[1], clause[2] or "", clause.start(), at))
            continue
        if depth == 0 and text[at] in "{;":
            break
        depth += (text[at] in "([") - (text[at] in ")]")
        at += 1
    body = (at + 1, closing(text, at)) if text[at:at + 1] == "{" else (at, at)
    return Function(head[2], head.start(2), is_public, parameters, clauses, body)


def functions_of(text):
    """The functions of a plain text; those in a body of another one are part of it."""
    traits = [(one.start(), closing(text, one.end() - 1)) for one in re.finditer(r"^pub trait [^{;]*\{", text, re.M)]
    found, at = [], 0
    for head in HEAD.finditer(text):
        if head.start() >= at:
            is_public = head[1] == "pub " or any(begin < head.start() < end for begin, end in traits)
            found.append(function_at(text, head, is_public))
            at = found[-1].body[1]
    return found
