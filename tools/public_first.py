"""The order of items in a source file: public types and functions first."""
import re

from repository import ROOT  # noqa: F401

HEAD = re.compile(r"(?:pub(?:\([^)]*\))? )?(?:mod|use|extern crate) |ghost use |macro_rules!|#!\[|//!")
ITEM = re.compile(r"(?:pub(?:\([^)]*\))? )?(?:const |unsafe )?(fn|struct|enum|trait|impl|const|static|type)\b")
TYPES = ("struct", "enum", "trait", "type")


class Item:
    """An item with the comments and attributes above it."""

    def __init__(self, lines):
        self.lines = lines
        self.line = next((line for line in lines if not line.startswith(("//", "#[", "    ", ")", "]"))), "")
        found = ITEM.match(self.line)
        self.kind = found[1] if found else None
        self.is_public = self.line.startswith("pub ") or self.line.startswith("pub(")

    def name(self):
        """The type that an item declares, or that an implementation is of."""
        if self.kind == "impl":
            text = " ".join(self.lines[self.lines.index(self.line):])
            head = re.split(r"\{|\bwhere\b|\brequires\b", without_brackets(text[len("impl"):]))[0]
            return re.search(r"(\w+)[^\w:]*$", head.split(" for ")[-1])[1]
        found = re.search(r"\b(?:struct|enum|trait|fn|const|static|type) (\w+)", self.line)
        return found[1] if found else None


def without_brackets(text):
    """A text without what is between angle brackets. The arrow of a type closes none."""
    kept, depth = "", 0
    for place, letter in enumerate(text):
        depth += letter == "<"
        kept += letter if depth == 0 else ""
        depth -= letter == ">" and text[place - 1] not in "-="
    return kept


def items_of(text):
    """The lines before the first item, and the items. Every line of a file belongs to one of them."""
    lines = text.rstrip("\n").split("\n")
    groups, current, depth_line = [], [], False
    for line in lines:
        goes_on = line[:1] in " \t{)}]>" or line.startswith("where") or current and open_item(current)
        begins = bool(line) and not goes_on
        if begins and not depth_line:
            if current and not only_above(current):
                groups.append(current)
                current = []
        current.append(line)
    groups.append(current)
    groups = [[line for line in trimmed(group)] for group in groups if trimmed(group)]
    begin = next((n for n, group in enumerate(groups) if not is_head(group)), len(groups))
    return groups[:begin], [Item(group) for group in groups[begin:]]


def trimmed(lines):
    while lines and not lines[0]:
        lines = lines[1:]
    while lines and not lines[-1]:
        lines = lines[:-1]
    return lines


def only_above(lines):
    """Whether these are only the comments and attributes of an item that follows right away."""
    last = [line for line in lines if line]
    return bool(last) and lines[-1] != "" and all(line.startswith(("///", "//", "#[", " ", ")", "]")) and not line.startswith("//!") for line in last)


def open_item(lines):
    """Whether an item goes on: its contract stands between its head and its body."""
    return False


def is_head(group):
    line = next((line for line in group if not line.startswith(("///", "#["))), "")
    return bool(HEAD.match(line))


def seen(items):
    """For each item, whether other files can use it: it is public, or it is an implementation of a public type of the file, or one
    of a type of another file that has public methods or is of a trait. What is public in the crate alone counts as public."""
    types = {item.name(): item.is_public for item in items if item.kind in TYPES}
    def is_seen(item):
        if item.kind != "impl":
            return item.is_public
        is_open = " for " in item.line or any(re.match(r"    pub\b", line) for line in item.lines)
        return types.get(item.name(), is_open)
    return [is_seen(item) for item in items]


def ordered(items):
    """Public types with their implementations, then public functions and implementations of types of other files, and then the rest; in
    each part the order stays."""
    types = {item.name() for item in items if item.kind in TYPES}
    def rank(item, is_seen):
        is_function = item.kind == "fn" or item.kind == "impl" and item.name() not in types
        return 2 if not is_seen else int(is_function)
    ranks = [rank(item, is_seen) for item, is_seen in zip(items, seen(items))]
    return [item for wanted in (0, 1, 2) for item, one in zip(items, ranks) if one == wanted]


def put_public_first(path):
    """Orders the items of a file; the exit status."""
    with open(path, encoding="utf-8") as text:
        before = text.read()
    head, items = items_of(before)
    constants = [item for item in items if item.kind in ("const", "static") or item.kind is None]
    rest = ordered([item for item in items if item not in constants])
    parts = ["\n".join(group) for group in head]
    text = join_head(head, before) + "\n\n".join("\n".join(item.lines) for item in constants + rest) + "\n"
    if sorted(text.split("\n")) != sorted(before.split("\n")) and sorted(l for l in text.split("\n") if l) != sorted(l for l in before.split("\n") if l):
        print(f"{path}: its items can't be told apart")
        return 1
    if text != before:
        with open(path, "w", encoding="utf-8") as out:
            out.write(text)
    return 0


def join_head(head, before):
    """The text before the first item, as it is."""
    if not head:
        return ""
    last = head[-1][-1]
    at = before.rindex(last, 0, before.index("\n".join(head[-1])) + len("\n".join(head[-1])) + 1) + len(last)
    return before[:at] + "\n\n"
