"""Wrong bodies: what each changes, in which functions, and what a check says of these."""
import collections
import os
import re

FUNCTION = re.compile(r"(\s*)(?:pub(?:\(\w+\))? )?(?:const )?(?:unsafe )?fn (\w+)")
HEAD_OF_IMPL = re.compile(r"impl\b")
TYPE = re.compile(r"^(?:pub(?:\(\w+\))? )?(?:struct|enum) (\w+)", re.M)
CONSTANT = re.compile(r"\s*(?:pub(?:\(\w+\))? )?(?:const|static) (\w+):")
CYCLE = re.compile(r"\s*#\[cycle\((\w+)\)\]")
# What a proof says that names what the body lacks.
LACKING = re.compile(r"has no field|is not a field of|is not in scope|has no `|was not admitted|is no name|no such|record `[^`]+` \(nearest: ")
# A message's further lines begin with a blank.
FURTHER = re.compile(r"\n[ \t]+(?=\S)")
# What a check says of an open goal: of a clause, or of an invariant, of which it has no text.
OPEN = re.compile(r"note: (src/\S+?):(\d+):\d+: (?:it is not proved that|`search` found no proof) .*?(\(`([^`]+)`\)|$)(.*)")
LIMIT = re.compile(r"antt ran out of|outgrew the memory limit|stopped at the step limit")

# A function: the file and lines that it takes, the type and trait of its impl if it is a method, and its text.
Function = collections.namedtuple("Function", "file first last module type trait name cycle text")


def read(path):
    with open(path, encoding="utf-8") as file:
        return file.read()


# ---- functions of a crate, whose files have the layout of `rt fmt`

def functions_of(folder):
    """The functions of a crate. A method that is of no trait is named by the module of its type, wherever its impl is."""
    found, types = [], {}
    for place, _, names in os.walk(f"{folder}/src"):
        for name in sorted(names):
            if name.endswith(".rt"):
                path = os.path.relpath(f"{place}/{name}", folder)
                text = read(f"{folder}/{path}")
                found += functions_in(path, text.split("\n"))
                types.update((one, module_of(path)) for one in TYPE.findall(text))
    return [one if one.trait else one._replace(module=types.get(one.type, one.module)) for one in found]


def module_of(path):
    return "::".join(part for part in re.sub(r"^src/|\.rt$", "", path).split("/") if part not in ("lib", "main", "mod"))


def functions_in(path, lines):
    found, kind, trait, cycle = [], "", "", None
    for number, line in enumerate(lines, 1):
        if HEAD_OF_IMPL.match(line):
            kind, trait = head_of_impl(lines, number)
        elif line == "}":
            kind = trait = ""
        cycle = match[1] if (match := CYCLE.match(line)) else cycle
        if match := FUNCTION.match(line):
            first, last = begin_of(lines, number), end_of(lines, number, match[1])
            text = "\n".join(lines[number - 1 : last])
            found.append(Function(path, first, last, module_of(path), kind, trait, match[2], cycle, text))
            cycle = None
    return found


def begin_of(lines, number):
    """The first line of a function's comment and attributes."""
    above = range(number - 1, 0, -1)
    return next((line + 1 for line in above if not lines[line - 1].strip() or lines[line - 1].endswith(("{", "}", ";"))), 1)


def end_of(lines, first, indent):
    """The last line of what begins in this line, which ends with a brace in the same column."""
    if lines[first - 1].rstrip().endswith("}"):
        return first
    return next((number for number in range(first + 1, len(lines) + 1) if lines[number - 1] == f"{indent}}}"), first)


def head_of_impl(lines, number):
    """The names of the type and the trait of an impl."""
    head = lines[number - 1].removeprefix("impl")
    for more in lines[number:]:
        if "{" in head:
            break
        head += " " + more.strip()
    while (shorter := re.sub(r"<[^<>]*>", "", head.replace("->", ""))) != head:
        head = shorter
    head = re.split(r"\{|\bwhere\b", head)[0]
    trait, _, kind = head.rpartition(" for ")
    return tuple(re.sub(r"[&']\w*|\bmut\b", "", part).split("::")[-1].strip() for part in (kind, trait))


# ---- what a wrong body changes

def path_of(function):
    """A function's path below its crate, as a check prints it."""
    return "::".join(part for part in (function.module, f"{function.type}{function.trait}", function.name) if part)


class Edit:
    """A wrong body, with the functions that it changes."""

    def __init__(self, path, folder, functions):
        self.path, self.name, self.crate = path, os.path.basename(path)[:-5], os.path.basename(folder)
        self.functions, self.changes, self.fault, self.test = set(), [], None, None
        file = old = None
        for line in read(path).split("\n"):
            word, _, text = line.partition(": ")
            if word == "file":
                file = text.strip()
            elif word == "old":
                old = text
            elif word == "test":
                self.test = text.strip()
            elif line.startswith("new:") and file and old:
                self.add(folder, functions, file, old, line[4:].removeprefix(" "))
        self.is_alone = not self.functions
        self.functions = self.functions or set(functions)

    def add(self, folder, functions, file, old, new):
        text = read(f"{folder}/{file}") if os.path.isfile(f"{folder}/{file}") else ""
        if text.count(old) != 1:
            self.fault = f"its old text is in {file} {text.count(old)} times"
            return
        line = text[: text.index(old)].count("\n") + 1
        self.changes.append((file, line, old, new))
        self.functions |= owners_of(functions, file, line, text.split("\n")[line - 1])

    def meets(self, other):
        return self.is_alone or other.is_alone or bool(self.functions & other.functions)


def owners_of(functions, file, line, text):
    """The functions that a change in this line changes, with all of a cycle that one is in."""
    own = {one for one in functions if one.file == file and one.first <= line <= one.last}
    if not own and (match := CONSTANT.match(text)):
        own = {one for one in functions if re.search(rf"\b{match[1]}\b", one.text)}
    cycles = {one.cycle for one in own} - {None}
    return own | {one for one in functions if one.cycle in cycles}


def put_together(folder, edits):
    """The files that some wrong bodies change, each with its text before and after. What one writes is no old text of another."""
    changes = {}
    for edit in edits:
        for file, _, old, new in edit.changes:
            changes.setdefault(file, []).append((old, new))
    return {file: (text := read(f"{folder}/{file}"), replaced(text, pairs)) for file, pairs in changes.items()}


def replaced(text, pairs):
    """The text with new texts in the places of old ones, each of which stands in it once."""
    places = sorted((text.index(old), old, new) for old, new in pairs)
    parts, end = [], 0
    for place, old, new in places:
        parts += [text[end:place], new]
        end = place + len(old)
    return "".join([*parts, text[end:]])


# ---- what a check says

def is_proved(text):
    """Whether a check proved all that it was asked for."""
    return bool(re.search(r"^(logic=proved|only=(\d+) proved=\2$)", text, re.M))


def has_verdict(text):
    """Whether a check came to a verdict: what it can't compile, it doesn't prove or refuse."""
    return bool(re.search(r"^(logic|only)=", text, re.M))


def judge(edit, text):
    """What a check says of a wrong body: `refused: ..`, or why it isn't."""
    if not has_verdict(text):
        limit = LIMIT.search(text)
        return f"NOT KNOWN: {limit[0]}" if limit else f"DOESN'T COMPILE: {first_error(text)}"
    lines = FURTHER.sub(" ", text).split("\n")
    goals = [goal for line in lines for goal in goals_in(edit, line)]
    if goals:
        return f"refused: {next((goal for goal in goals if goal.endswith('false')), goals[0])}"
    lacking = next((line for line in lines if is_of_proof(edit, line) and LACKING.search(line)), None)
    if lacking:
        return f"NOT REFUSED for its meaning: a proof names what it lacks: {lacking[:120]}"
    if is_proved(text):
        return "NOT REFUSED: the crate is proved with it"
    return f"NOT REFUSED: no goal of its own is open: {first_error(text)}"


def judge_by_test(edit, text):
    """What a run of the crate's tests says of a wrong body that no clause can see."""
    if re.search(rf"^test (\w+::)*{edit.test} \.\.\. FAILED", text, re.M):
        return f"refused by the test {edit.test} alone"
    if re.search(rf"^test (\w+::)*{edit.test} \.\.\. ok", text, re.M):
        return f"NOT REFUSED: the test {edit.test} passes with it"
    return f"NOT KNOWN: the test {edit.test} didn't run: {first_error(text)}"


def culprits(edits, text):
    """Those of these wrong bodies whose functions a check can't compile."""
    places = re.findall(r"^(?:\./)?(src/\S+?):(\d+):\d+: error", text, re.M)
    return [edit for edit in edits if any(has_line(edit, file, int(line)) for file, line in places)]


def has_line(edit, file, line):
    return any(one.file == file and one.first <= line <= one.last for one in edit.functions)


def first_error(text):
    """The first line that reports an error, or an unproved function."""
    lines = [line for line in text.split("\n") if re.search(r": error|^error|not proved", line)]
    return lines[0][:160] if lines else text[-160:].strip()


def goals_in(edit, line):
    """The goals of the wrong body's own functions that a line says are open or false."""
    if match := OPEN.match(line):
        if has_line(edit, match[1], int(match[2])):
            return [f"{place_of(edit, match)}: {match[4] or 'a goal'}{' is false' if 'is false' in match[5] else ' is open'}"]
    elif match := re.match(r"note: `([^`]+)` of (proofs/\S+?) may be false", line):
        if is_of_proof(edit, match[2]):
            return [f"{os.path.dirname(match[2]).removeprefix('proofs/')}: {match[1]} is false"]
    elif is_of_proof(edit, line) and re.match(r"\S+?:\d+:\d+: error", line) and not LACKING.search(line):
        return [f"{line.split(':')[0].removeprefix('./')}: {line.split(': ', 1)[1][:100]}"]
    return []


def place_of(edit, match):
    return next(one.name for one in edit.functions if one.file == match[1] and one.first <= int(match[2]) <= one.last)


def is_of_proof(edit, line):
    """Whether a line begins with a file of the proof of one of the wrong body's functions."""
    match = re.match(r"(?:note: )?(?:\./)?proofs/(\S+)/\w+\.antt", line)
    return bool(match) and any(is_path_of(one, match[1].split("/")) for one in edit.functions)


def is_path_of(function, parts):
    """Whether a proof's folder is that of a function: its module, then its impl if it has one, then its name."""
    if function.cycle and parts[-1] == f"+{function.cycle}":
        return True
    module = [part for part in function.module.split("::") if part]
    rest = parts[len(module) :]
    if parts[: len(module)] != module or not rest or rest[-1] != function.name:
        return False
    return len(rest) == (2 if function.type else 1) and (not function.type or rest[0].startswith(function.type))
