"""The names in a text of antt: which of them a local binder hides, and which are labels.

A text of definitions or proofs is a list of items: imports, modules, records, signatures and clauses. `names_of` yields each name
of such a text, and `names_of_term` those of one term, as a clause of a contract has it."""
import collections
import re

# A name, or a mark of the syntax. `start` is its offset; `indent` is the indentation of the line if the token begins it, else None.
Token = collections.namedtuple("Token", "text start indent")
# A name in a text: its token, whether a local binder hides it, what it is ("use", "pattern", "label", or where it is declared "head" or
# "constructor"), the tokens that follow it after dots, and the names that are bound there (to be read before the next name is taken).
Name = collections.namedtuple("Name", "token is_bound role parts scope")
WORDS = re.compile(r"--[^\n]*|\"(?:\\.|[^\"\\\n])*\"|\n|[(){};,@.]|[^\s(){};,@.\"]+")
OPENING, CLOSING = "([{", ")]}"
MARKS = ("pattern", "unfoldable", "abbrev", "axiom", "pub")
SKIPPED = ("infix", "infixl", "infixr", "mod")


def tokens_of(text, begin=0):
    """The tokens of a text, without comments and quoted texts; brackets of the syntax are tokens of one character."""
    tokens, line = [], text.rfind("\n", 0, begin) + 1
    is_first = not text[line:begin].strip()
    for found in WORDS.finditer(text, begin):
        word = found[0]
        if word == "\n":
            line, is_first = found.end(), True
        elif word.startswith(("--", '"')):
            continue
        else:
            tokens.append(Token(word, found.start(), found.start() - line if is_first else None))
            is_first = False
    return tokens


def is_name(token):
    return token.text not in OPENING + CLOSING + ";,@.=:|_" and token.text not in ("→", "×", "↦", "λ", "let", "in", "elim", "as", "record", "do", "←")


class Frame:
    """What is bound inside one pair of brackets, or in an item."""

    def __init__(self, bracket, is_record=False, after=()):
        self.bracket, self.is_record, self.after = bracket, is_record, after
        self.bound, self.kept, self.lets, self.later, self.fields = set(), set(), [], [], []


class Scope:
    """The names that are bound at a place."""

    def __init__(self, outer):
        self.outer, self.frames = [set(outer)], []

    def __contains__(self, name):
        return any(name in names for names in self.outer) or any(name in f.bound or name in f.kept for f in self.frames)


class Terms:
    """A walk over the tokens of terms."""

    def __init__(self, tokens, outer=()):
        self.tokens, self.scope, self.at = tokens, Scope(outer), 0

    def text(self, ahead=0):
        at = self.at + ahead
        return self.tokens[at].text if at < len(self.tokens) else ""

    def touches(self, at):
        """Whether the token at this place follows the one before it without a space."""
        before = self.tokens[at - 1]
        return at > 0 and before.start + len(before.text) == self.tokens[at].start

    def is_projection(self, at):
        """Whether the dot at this place has a name right after it and something right before it."""
        return (0 < at < len(self.tokens) - 1 and self.tokens[at].text == "." and self.touches(at) and self.touches(at + 1)
                and self.tokens[at + 1].text not in "([{}])")

    def parts(self, at):
        """The names that follow a name after dots."""
        found = []
        while self.is_projection(at + 1):
            found.append(self.tokens[at + 2])
            at += 2
        return found

    def matching(self, at):
        """The place of the bracket that closes the one at this place."""
        depth = 0
        for place in range(at, len(self.tokens)):
            word = self.tokens[place].text
            depth += (word in OPENING and len(word) == 1) - (word in CLOSING and len(word) == 1)
            if depth == 0:
                return place
        return len(self.tokens)

    def ahead(self, at, ends):
        """The place of the first of these words at the depth of this place."""
        while at < len(self.tokens) and self.tokens[at].text not in ends:
            if self.tokens[at].text in CLOSING:
                return None
            at = self.matching(at) + 1 if self.tokens[at].text in OPENING else at + 1
        return at if at < len(self.tokens) else None

    def typed(self, at):
        """The names before the colon, if the bracket at this place is a binder of them."""
        names, place = [], at + 1
        while place < len(self.tokens) and is_name(self.tokens[place]) or self.tokens[place].text == "_":
            names.append(self.tokens[place])
            place += 1
        return names if names and self.tokens[place].text == ":" else None

    def bind(self, names, kept=False):
        frame = self.scope.frames[-1]
        (frame.kept if kept else frame.bound).update(names)

    def patterns(self, end):
        """Binds the names of patterns from here to a place; of `{x = y}` the label is left alone, and types are walked."""
        while self.at < end:
            token = self.tokens[self.at]
            names = self.typed(self.at) if token.text in ("(", "{") else None
            if names:
                closing = self.matching(self.at)
                self.at += len(names) + 2
                yield from self.walk(closing)
                self.bind(name.text for name in names)
            elif is_name(token) and self.text(1) == "=" and self.at + 1 < end:
                yield self.name(token, "label")
            elif is_name(token):
                yield self.name(token, "pattern")
                self.bind([] if token.text[0].isupper() else [token.text])
                self.at += 2 * len(self.parts(self.at))
            self.at += 1

    def name(self, token, role):
        return Name(token, token.text in self.scope, role, self.parts(self.at), self.scope)

    def walk(self, end):
        """The names of terms from here to a place."""
        self.scope.frames.append(Frame(""))
        while self.at < end:
            yield from self.step(end)
        self.scope.frames.pop()

    def step(self, end):
        token = self.tokens[self.at]
        word, frame = token.text, self.scope.frames[-1]
        if token.indent is not None and frame.later:
            frame.bound.update(frame.later)
            frame.later = []
        if word in OPENING and word:
            yield from self.open(word)
        elif word in CLOSING:
            self.scope.frames.pop()
            self.bind(frame.after)
            self.at += 1
        elif word in (";", ",", "|"):
            frame.bound = set()
            frame.kept.update(frame.fields)
            frame.fields = []
            self.at += 1
            yield from self.alternative()
        elif word == "λ":
            yield from self.function()
        elif word == "let":
            yield from self.begin_let(end)
        elif word == "in":
            frame.bound.update(frame.lets.pop() if frame.lets else ())
            self.at += 1
        else:
            yield from self.word(token)

    def word(self, token):
        if is_name(token):
            if self.text(1) == "←":
                self.scope.frames[-1].later.append(token.text)
            else:
                yield self.name(token, "use")
            self.at += 2 * len(self.parts(self.at)) + 1
        elif self.is_projection(self.at):
            self.at += 2
        else:
            self.at += 1

    def open(self, word):
        is_record = word == "{" and (self.tokens[self.at - 1].text == "record" or self.tokens[self.at - 2].text == "record")
        names = None if is_record or word == "[" else self.typed(self.at)
        self.scope.frames.append(Frame(word, is_record, [name.text for name in names or ()]))
        self.at += 1 + (len(names) if names else 0)
        if not names:
            yield from self.alternative()

    def alternative(self):
        """What begins a part between brackets: a label, or a pattern of a case. A field is bound in the fields after it."""
        frame = self.scope.frames[-1]
        if frame.bracket == "{" and self.at < len(self.tokens) and is_name(self.tokens[self.at]) and self.text(1) in ("=", ":"):
            token, mark = self.tokens[self.at], self.text(1)
            yield self.name(token, "label")
            self.at += 1
            if mark == ":":
                frame.fields = [token.text]
        elif frame.bracket == "[":
            while self.text() == "|":
                self.at += 1
            end = self.ahead(self.at, ("↦", "|"))
            if end is not None and self.tokens[end].text == "↦":
                yield from self.patterns(end)

    def function(self):
        end = self.at + 1
        while not (self.tokens[end].text == "." and not self.is_projection(end)):
            end = self.matching(end) + 1 if self.tokens[end].text in OPENING else end + 1
        self.at += 1
        yield from self.patterns(end)
        self.at = end + 1

    def begin_let(self, end):
        """Walks the names that a `let` binds; they are bound after its `in`."""
        stop = self.ahead(self.at, ("=", ":")) or end
        names = [t.text for t in self.tokens[self.at + 1:stop] if is_name(t)]
        self.scope.frames[-1].lets.append(names)
        self.at = stop + 1
        return
        yield


def names_of_term(text, begin, end, outer=()):
    """The names of the term in text[begin:end], with these names bound outside."""
    tokens = [t for t in tokens_of(text[:end], begin)]
    terms = Terms(tokens, outer)
    yield from terms.walk(len(tokens))


class Block:
    """A module, record or data type: its indentation, and that of its items."""

    def __init__(self, kind, indent):
        self.kind, self.indent, self.inner = kind, indent, None


class Items(Terms):
    """A walk over the items of a file."""

    def __init__(self, tokens):
        super().__init__(tokens)
        self.blocks, self.scope.outer = [Block("file", -1)], [set()]
        self.blocks[0].inner, self.declared = 0, set()

    def enter(self, indent):
        """Leaves the blocks that a line of this indentation is not in."""
        while len(self.blocks) > 1 and indent <= self.blocks[-1].indent:
            self.blocks.pop()
            self.scope.outer.pop()
        if self.blocks[-1].inner is None:
            self.blocks[-1].inner = indent

    def end_of_item(self):
        """The place of the next item's first token."""
        limit, at = self.tokens[self.at].indent, self.at + 1
        while at < len(self.tokens) and (self.tokens[at].indent is None or self.tokens[at].indent > limit):
            at += 1
        return at

    def items(self):
        while self.at < len(self.tokens):
            token = self.tokens[self.at]
            self.enter(token.indent or 0)
            yield from self.item()

    def head(self):
        """Skips the marks of an item; returns its first other word."""
        while self.text() in MARKS:
            self.at += 1
        return self.text()

    def item(self):
        indent, end = self.tokens[self.at].indent or 0, self.end_of_item()
        word = self.head()
        if word == "use" or word in SKIPPED:
            self.at = end
        elif word in ("module", "record", "data"):
            yield from self.block(word, indent)
        elif word == "unfolding":
            self.at += 1
            yield from self.walk(end)
        else:
            yield from self.definition(end)
        return

    def block(self, word, indent):
        self.at += 1
        self.scope.frames.append(Frame(""))
        yield self.name(self.tokens[self.at], "head")
        self.at += 1
        stop = self.ahead(self.at, ("where",))
        stop = len(self.tokens) if stop is None else stop
        while self.at < stop:
            yield from self.step(stop)
        bound = self.scope.frames.pop().bound
        self.at = stop + 1
        self.blocks.append(Block(word, indent))
        self.scope.outer.append(bound)

    def definition(self, end, role="head"):
        colon = self.ahead(self.at, (":", "="))
        if colon is not None and colon < end and self.tokens[colon].text == ":":
            yield from self.signature(colon, end)
            return
        self.scope.frames.append(Frame(""))
        first = self.tokens[self.at]
        if role == "label" or first.text in self.declared:
            yield self.name(first, role)
            self.at += 1
        if colon is not None and colon < end:
            yield from self.patterns(colon)
            self.at = colon + 1
        while self.at < end and self.text() != "where":
            yield from self.step(end)
        if self.at < end:
            yield from self.local_definitions(end)
        self.scope.frames.pop()

    def local_definitions(self, end):
        """Walks what follows the `where` of a clause."""
        self.at += 1
        indent = self.tokens[self.at].indent
        starts = [n for n in range(self.at, end) if self.tokens[n].indent is not None and self.tokens[n].indent <= (indent or 0)] or [self.at]
        heads = [self.tokens[n] for n in starts if is_name(self.tokens[n]) and self.tokens[n].text != "unfolding"]
        self.bind({token.text for token in heads}, kept=True)
        for start, stop in zip(starts, starts[1:] + [end]):
            self.at = start
            if self.text() == "unfolding":
                self.at += 1
                yield from self.walk(stop)
            else:
                yield from self.local_definition(stop)

    def local_definition(self, stop):
        colon = self.ahead(self.at, (":", "="))
        if colon is None or colon >= stop:
            yield from self.walk(stop)
        elif self.tokens[colon].text == ":":
            self.at = colon + 1
            yield from self.walk(stop)
        else:
            yield from self.definition(stop, "label")

    def signature(self, colon, end):
        """Walks a signature: of a definition, a field or a constructor."""
        kind, names = self.blocks[-1].kind, []
        while self.at < colon:
            if is_name(self.tokens[self.at]):
                names.append(self.tokens[self.at].text)
                role = {"record": "label", "data": "constructor"}.get(kind, "head")
                yield self.name(self.tokens[self.at], role)
            self.at += 1
        self.at += 1
        yield from self.walk(end)
        self.declared.update(names)
        if kind == "record":
            self.scope.outer[-1].update(names)


DECLARED = ("head", "constructor")


def names_of(text):
    """The names of a file of definitions or proofs."""
    yield from Items(tokens_of(text)).items()


IMPORT = re.compile(r"^([ \t]*)((?:pub |ghost |unfoldable )*)use (Rattle\.[^\s{;]*?)(?:\.\{([^}]*)\})?(?: as ([^\s;]+))?;?[ \t]*$", re.M)
# What an import brings: the module, the names with what they are called here, or None for the module itself, and its own alias.
Import = collections.namedtuple("Import", "start end is_public module names alias")


def imports_of(text):
    """The imports of a file, of definitions or of code."""
    found = []
    for line in IMPORT.finditer(text):
        names = None
        if line[4] is not None:
            names = [tuple((one.split(" as ") * 2)[:2]) for one in re.split(r",\s*", line[4].strip()) if one.strip()]
            names = [(name.strip(), called.strip()) for name, called in names]
        found.append(Import(line.start(), line.end(), "pub " in line[2], line[3], names, line[5]))
    return found
