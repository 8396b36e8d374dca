"""The texts of the repository with the changes that a renaming makes in them, and how names of terms are resolved."""
import collections
import os
import re
import subprocess

from antt_names import DECLARED, imports_of, names_of, names_of_term
from repository import ROOT, dependencies, with_those_below
from rust_names import clauses_of

KINDS = (".antt", ".rt", ".md", ".edit", ".txt")
RESERVED = set("""data record deriving module where use mod pub package open as unfoldable abbrev axiom unfold unfolding ruleset mutual
infix infixl infixr elim let in do Type if then else ground assumption rw simp search grind cc omega refl tt self result""".split())
ATTRIBUTE = re.compile(r"\b(\w+)::specs::((?:\w+::)*)([^\s,():]+)")
PAIR = re.compile(r"^(file|old|new): (.*)$", re.M)


def module_of(path):
    """The module of a file of definitions or proofs."""
    return "Rattle." + ".".join(path[len("crates/"):-len(".antt")].split("/"))


class Renaming:
    """All texts, and what is to be changed in them."""

    def __init__(self):
        listed = subprocess.run(["git", "-C", ROOT, "ls-files"], stdout=subprocess.PIPE, text=True, check=True).stdout.split("\n")
        wanted = [path for path in listed if path.endswith(KINDS) or path.startswith("tools/")]
        self.texts = {path: self.read(path) for path in wanted if os.path.isfile(f"{ROOT}/{path}")}
        self.changes, self.moves, self.stops, self.looks = collections.defaultdict(dict), [], [], []
        self.kept_clauses, self.code_names, self.needs = {}, None, dependencies()

    @staticmethod
    def read(path):
        with open(f"{ROOT}/{path}", encoding="utf-8") as text:
            return text.read()

    def replace(self, path, start, end, new):
        self.changes[path][(start, end)] = new

    def place(self, path, offset):
        return f"{path}:{self.texts.get(path, '')[:offset].count(chr(10)) + 1}"

    def stop(self, path, offset, why):
        self.stops.append(f"{self.place(path, offset)}: {why}")

    def look_at(self, path, offset, what):
        self.looks.append(f"look at {self.place(path, offset)}: {what}")

    def clauses(self, path):
        if path not in self.kept_clauses:
            self.kept_clauses[path] = clauses_of(self.texts[path])
        return self.kept_clauses[path]

    def is_below(self, crate, others):
        return crate in self.needs and any(other in with_those_below(self.needs, crate) for other in others)

    def is_code_name(self, crate, word):
        """Whether a word is also the name of an item or clause of the code of a crate, or of any crate if none is given."""
        if self.code_names is None:
            form = re.compile(r"\b(?:fn|struct|enum|trait|type|mod|ensures|requires) (\w+)")
            self.code_names = {(path.split("/")[1], word) for path, text in self.texts.items() if path.endswith(".rt") for word in form.findall(text)}
        return (crate, word) in self.code_names or crate is None and any(word == other for _, other in self.code_names)

    def changed(self, path, start=0, end=None):
        """The text of a file, or a part of it, after the changes."""
        text = self.texts[path]
        end = len(text) if end is None else end
        parts, at = [], start
        for (first, last), new in sorted(self.changes.get(path, {}).items()):
            if first >= start and last <= end:
                parts += [text[at:first], new]
                at = last
        return "".join(parts) + text[at:end]

    def words(self, path):
        """The words that are changed in a file."""
        text = self.texts[path]
        return {text[first:last]: new for (first, last), new in self.changes.get(path, {}).items()}

    def change_edits(self):
        """Changes the wrong bodies whose sources are changed."""
        for path in [path for path in self.texts if path.endswith(".edit")]:
            crate, file = "/".join(path.split("/")[:2]), None
            for pair in PAIR.finditer(self.texts[path]):
                if pair[1] == "file":
                    file = f"{crate}/{pair[2].strip()}"
                elif file in self.texts and self.changes.get(file):
                    self.change_line(path, pair, file)

    def change_line(self, path, pair, file):
        source, line, words = self.texts[file], pair[2], self.words(file)
        if pair[1] == "old" and source.count(line) == 1:
            start = source.index(line)
            new = self.changed(file, start, start + len(line))
        else:
            new = re.sub(r"(?<![\w.])\w+|(?<=\.)\w+(?=\()", lambda found: words.get(found[0], found[0]), line)
        if new != line:
            self.replace(path, pair.start(2), pair.end(2), new)

    def finish(self, is_trial):
        """Prints what stops the renaming, or writes the texts; whether nothing stopped it."""
        for line in sorted(set(self.looks)) + sorted(set(self.stops)):
            print(line)
        if self.stops:
            return False
        self.change_edits()
        if is_trial:
            return True
        for path in self.changes:
            text = self.changed(path)
            with open(f"{ROOT}/{path}", "w", encoding="utf-8") as out:
                out.write(text)
        for old, new in self.moves:
            if os.path.exists(f"{ROOT}/{old}"):
                os.makedirs(os.path.dirname(f"{ROOT}/{new}"), exist_ok=True)
                subprocess.run(["git", "-C", ROOT, "mv", old, new], check=True)
        return True


class Terms:
    """The renaming of names that terms use: definitions, and the types and variants that the code declares."""

    def __init__(self, renaming, wanted):
        self.renaming, self.wanted, self.values = renaming, wanted, set(wanted.values())
        self.public, self.aliases = {}, {}
        for path, text in renaming.texts.items():
            if path.endswith(".antt") and "/specs/" in path:
                self.read_public(module_of(path), text)

    def read_public(self, module, text):
        """What a file of definitions passes on: names, and modules of its crate."""
        for one in imports_of(text):
            if one.is_public and one.names is None:
                outer = module[:-len(".Lib")] if module.endswith(".Lib") else module
                self.aliases[f"{outer}.{one.alias or one.module.split('.')[-1]}"] = one.module
            elif one.is_public:
                self.public.update({(module, called): (one.module, name) for name, called in one.names})

    def origin(self, module, name):
        """The module that defines what another passes on, and its name there."""
        module = self.aliases.get(module, module)
        while (module, name) in self.public:
            module, name = self.public[(module, name)]
        return module, name

    def new_name(self, module, name):
        return self.wanted.get(self.origin(module, name))

    def rename_file(self, path):
        text, own = self.renaming.texts[path], {}
        names, modules = {}, {}
        for one in imports_of(text):
            if one.names is None:
                modules[one.alias or one.module.split(".")[-1]] = one.module
            else:
                self.rename_import(path, one, names)
        if path.endswith(".antt"):
            if "/specs/" in path:
                own = {old: new for (module, old), new in self.wanted.items() if module == module_of(path)}
            self.rename_terms(path, names_of(text), own, names, modules)
            return
        for clause in self.renaming.clauses(path):
            self.rename_terms(path, names_of_term(text, clause.start, clause.end, clause.outer), own, names, modules)
        self.rename_attributes(path)

    def rename_import(self, path, one, names):
        text = self.renaming.texts[path]
        for name, called in one.names:
            new = self.new_name(one.module, name)
            if called in names and names[called] != new:
                self.renaming.stop(path, one.start, f"{called} comes from two modules")
            if called == name:
                names[called] = new
            if new:
                found = re.compile(r"(?<=[{,\s])" + re.escape(name) + r"(?=[},\s])").search(text, text.index("{", one.start))
                self.renaming.replace(path, found.start(), found.end(), new)

    def rename_terms(self, path, terms, own, names, modules):
        """Renames the uses in these terms. `own` has the definitions of the file, `name_table` what it imports."""
        for name in terms:
            word = name.token.text
            if name.role in DECLARED:
                if word in own:
                    self.put(path, name.token, own[word], None)
            elif name.role != "label" and not name.is_bound:
                if word in modules and name.parts:
                    new = self.new_name(modules[word], name.parts[0].text)
                    if new:
                        self.put(path, name.parts[0], new, None)
                elif name.role == "use" or word[0].isupper():
                    new = own.get(word) or names.get(word)
                    if new:
                        self.put(path, name.token, new, name.scope)

    def put(self, path, token, new, scope):
        if scope is not None and new in scope:
            self.renaming.stop(path, token.start, f"{token.text} would be {new}, which is bound here")
        self.renaming.replace(path, token.start, token.start + len(token.text), new)

    def rename_attributes(self, path):
        for found in ATTRIBUTE.finditer(self.renaming.texts[path]):
            crate = path.split("/")[1] if found[1] == "crate" else found[1]
            new = self.new_name(f"Rattle.{crate}.specs.{found[2][:-2].replace('::', '.')}", found[3])
            if new:
                self.renaming.replace(path, found.start(3), found.end(3), new)

    def check_imports(self, path):
        """Stops where a file would have a name twice: by two imports, or by an import and a definition of its own."""
        text, found = self.renaming.texts[path], {}
        own = module_of(path) if path.endswith(".antt") else None
        for one in imports_of(text):
            for name, called in one.names or ():
                new = self.new_name(one.module, name)
                final = new if new and called == name else called
                if found.setdefault(final, self.origin(one.module, name)) != self.origin(one.module, name) and final in self.values:
                    self.renaming.stop(path, one.start, f"{final} is imported from two modules")
        if own is None or not self.values & (set(found) | {new for (module, _), new in self.wanted.items() if module == own}):
            return
        heads = [name.token for name in names_of(text) if name.role in DECLARED]
        for token in heads:
            final = self.wanted.get((own, token.text), token.text)
            if final in found and final in self.values:
                self.renaming.stop(path, token.start, f"{final} is defined and imported")

    def rename(self):
        olds = sorted({re.escape(old) for _, old in self.wanted} | {re.escape(new) for new in self.values}, key=len, reverse=True)
        some = re.compile("|".join(olds))
        for path in sorted(self.renaming.texts):
            if path.endswith((".antt", ".rt")) and some.search(self.renaming.texts[path]):
                self.check_imports(path)
                self.rename_file(path)
