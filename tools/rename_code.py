"""The renaming of items of the code, of source files and of crates."""
import collections
import glob
import os
import re

from antt_names import imports_of, names_of, names_of_term
from renaming import ATTRIBUTE, Terms, module_of
from repository import ROOT
from rust_names import uses_of, variants_in, words_of

# An item of the code: the crate, the module in it, its kind, the type that it belongs to if it is a variant, and its names.
Item = collections.namedtuple("Item", "crate module kind owner old new")


def place_of(path):
    """The crate and the module of a source file."""
    parts = path[len("crates/"):-len(".rt")].split("/")
    return parts[0], tuple(parts[2:]) if parts[-1] not in ("lib", "main") else ()


def is_source(path):
    return path.startswith("crates/") and path.endswith(".rt") and path.split("/")[2] == "src"


class Code:
    """The source files, and what their paths name."""

    def __init__(self, renaming):
        self.texts = {path: text for path, text in renaming.texts.items() if is_source(path)}
        self.modules = {place_of(path): path for path in self.texts}
        self.crates = {crate for crate, _ in self.modules}
        self.uses = {path: uses_of(text) for path, text in self.texts.items()}

    def origin(self, path, names, depth=0):
        """The crate, the module, and the names in it, that a path in a file names."""
        crate, module = place_of(path)
        first, rest = names[0], tuple(names[1:])
        if first == "crate":
            return self.inside(crate, (), rest, depth)
        if first in ("self", "super"):
            return self.inside(crate, module[:-1] if first == "super" else module, rest, depth)
        if (crate, module + (first,)) in self.modules:
            return self.inside(crate, module, tuple(names), depth)
        for one in self.uses[path]:
            if one.called == first and one.path != list(names) and depth < 9:
                return self.origin(path, tuple(one.path) + rest, depth + 1)
        if first in self.crates:
            return self.inside(first, (), rest, depth)
        return crate, module, tuple(names)

    def inside(self, crate, module, names, depth):
        """What names below a module name, through what the module passes on."""
        while names and (crate, module + names[:1]) in self.modules:
            module, names = module + names[:1], names[1:]
        path = self.modules.get((crate, module))
        for one in self.uses.get(path, ()) if names and depth < 9 else ():
            if one.is_public and one.called == names[0]:
                return self.origin(path, tuple(one.path) + names[1:], depth + 1)
        return crate, module, names


class Items:
    """The renaming of items of the code."""

    def __init__(self, renaming, lines):
        self.renaming, self.code = renaming, Code(renaming)
        self.items = [self.item(line) for line in lines]
        self.by_old = collections.defaultdict(list)
        for item in self.items:
            self.by_old[item.old].append(item)
        self.callers = collections.defaultdict(dict)
        self.declaring = {old: {path.split("/")[1] for path, text in self.code.texts.items() if re.search(rf"\bfn {old}\b", text)}
                          for old, items in self.by_old.items() if any(item.kind == "method" for item in items)}

    @staticmethod
    def item(line):
        crate, module = place_of(f"crates/{line[0]}")
        owner = line[2] if line[1] == "variant" else None
        return Item(crate, module, line[1], owner, line[-2], line[-1])

    def named(self, path, names):
        """The item that a path in a file names."""
        if names[0] == "Self":
            crate, module = place_of(path)
            return next((i for i in self.by_old[names[-1]] if i.kind == "variant" and (i.crate, i.module) == (crate, module)), None)
        crate, module, rest = self.code.origin(path, names)
        for item in self.by_old[names[-1]]:
            wanted = (item.owner, item.old) if item.owner else (item.old,)
            if (item.crate, item.module) == (crate, module) and rest == wanted and item.kind != "method":
                return item
        return None

    def method(self, crate, word):
        """The method that a member of this name is in a crate: one of its own, or one of a crate below if no other crate has the name."""
        for item in self.by_old[word]:
            if item.kind == "method" and (item.crate == crate or self.declaring[word] == {item.crate} and self.renaming.is_below(crate, [item.crate])):
                return item
        return None

    def rename_uses(self, path):
        """Renames in the imports of a file, each name of each path."""
        text = self.renaming.texts[path]
        for one in self.code.uses[path]:
            for length in range(1, len(one.path) + 1):
                if one.path[length - 1] in self.by_old:
                    item = self.named(path, one.path[:length])
                    if item:
                        start = one.start if length == len(one.path) else text.rfind(item.old, 0, one.start)
                        self.renaming.replace(path, start, start + len(item.old), item.new)

    def rename_words(self, path):
        text = self.renaming.texts[path]
        if not any(re.search(rf"\b{re.escape(old)}\b", text) for old in self.by_old):
            return
        called = {one.called: one.path[-1] for one in self.code.uses[path]}
        declared = variants_in(text)
        for word in words_of(text):
            if word.text in self.by_old and called.get(word.text, word.text) == word.text:
                self.rename_word(path, text, word, declared)

    def rename_word(self, path, text, word, declared):
        crate, _ = place_of(path)
        method = self.method(crate, word.text)
        is_declared = re.search(r"\bfn\s+$", text[max(0, word.start - 9):word.start])
        if word.is_member or method and (word.path or is_declared):
            if method and (word.after in ("(", "::") or is_declared):
                self.put(path, word.start, method)
            return
        if word.start in declared:
            item = self.variant_declared(path, text, word)
        else:
            item = self.named(path, word.path + [word.text])
        if item is None or item.kind == "fn" and not self.is_call(text, word, is_declared):
            return
        self.put(path, word.start, item)

    def variant_declared(self, path, text, word):
        owner = re.findall(r"\benum\s+(\w+)", text[:word.start])[-1]
        crate, module = place_of(path)
        return next((i for i in self.by_old[word.text] if (i.crate, i.module, i.kind, i.owner) == (crate, module, "variant", owner)), None)

    @staticmethod
    def is_call(text, word, is_declared):
        """Whether a lower-case name is a function here, and neither a variable nor a field."""
        variable = re.search(rf"\b(?:let|mut|ref)\s+{word.text}\b|\|{word.text}\b|\b{word.text}\s*:(?!:)|\({word.text}\)\s*(?:=|=>)", text)
        return bool(is_declared or word.path or word.after in ("(", "::") or word.after != ":" and not variable)

    def put(self, path, start, item):
        self.renaming.replace(path, start, start + len(item.old), item.new)
        self.callers[place_of(path)[0]][item.old] = item
        taken = rf"\b(?:fn|struct|enum|trait|mod|let|let mut)\s+{item.new}\b|[(,]\s*{item.new}\s*:(?!:)"
        if item.kind != "variant" and re.search(taken, self.renaming.texts[path]):
            self.renaming.stop(path, start, f"{item.old} would be {item.new}, which is here already")

    def rename(self):
        for path in sorted(self.code.texts):
            self.rename_uses(path)
            self.rename_words(path)
        self.rename_declared()
        for path in sorted(self.code.texts):
            self.rename_clauses(path)
        for crate, items in self.callers.items():
            self.rename_goals(crate, {old: item for old, item in items.items() if item.kind in ("fn", "method", "variant")})
        for item in self.items:
            self.move_proofs(item)

    def rename_clauses(self, path):
        """Renames types that clauses name by the imports of the code, and variants behind a type."""
        text = self.renaming.texts[path]
        olds = {item.old for item in self.items if item.kind in ("type", "variant") and re.search(rf"\b{item.old}\b", text)}
        imported = {called for one in imports_of(text) for _, called in one.names or ()}
        for clause in self.renaming.clauses(path) if olds else ():
            for name in names_of_term(text, clause.start, clause.end, clause.outer):
                word, part = name.token.text, name.parts[0] if name.parts else None
                if name.role == "label" or name.is_bound:
                    continue
                item = self.named(path, [word]) if word in olds and word not in imported else None
                if item and item.kind == "type":
                    self.renaming.replace(path, name.token.start, name.token.start + len(word), item.new)
                item = self.named(path, [word, part.text]) if part and part.text in olds and word[0].isupper() else None
                if item:
                    self.renaming.replace(path, part.start, part.start + len(part.text), item.new)

    def rename_declared(self):
        """Renames the modules and names that the types and variants have for terms."""
        wanted, folders = {}, {}
        for item in self.items:
            module = ".".join(("Rattle", item.crate, "specs", "declared") + item.module)
            if item.kind == "type":
                wanted[(f"{module}.{item.old}", item.old)] = item.new
                for part in ("specs.declared", "proofs", "specs.contracts"):
                    begin = ".".join(("Rattle", item.crate) + tuple(part.split(".")) + item.module)
                    folders[f"{begin}.{item.old}"] = f"{begin}.{item.new}"
            elif item.kind == "variant":
                wanted[(f"{module}.{item.owner}.TheVariants", item.old)] = item.new
            elif item.kind == "fn":
                begin = ".".join(("Rattle", item.crate, "proofs") + item.module)
                folders.update({f"{begin}.{mark}{item.old}": f"{begin}.{mark}{item.new}" for mark in ("", "+")})
        Terms(self.renaming, wanted).rename()
        replace_modules(self.renaming, folders)

    def rename_goals(self, crate, items):
        """Renames the parts of names of goals, in the proofs of the functions of a crate."""
        folder = f"crates/{crate}/proofs/"
        for proof, text in self.renaming.texts.items():
            if proof.startswith(folder) and proof.endswith(".antt") and items and re.search(r"\.(Goals|Given)( as |\.\{)", text):
                self.rename_goals_in(proof, text, items)

    def rename_goals_in(self, proof, text, items):
        for found in re.finditer(r"(?<![\w.])(?:goal|c)\.([^\s(){};,@.\"]+)|^(?:abbrev |pub )*([^\s(){};,@.\"]+)(?= )", text, re.M):
            group = 1 if found[1] else 2
            parts = re.split(r"([-+])", found[group])
            new = "".join(items[part].new if part in items and len(parts) > group - 1 else part for part in parts)
            if new != found[group] and found[group] not in ("use", "module", "record", "data"):
                self.renaming.replace(proof, found.start(group), found.end(group), new)

    def move_proofs(self, item):
        folder = "/".join(("crates", item.crate, "proofs") + item.module)
        if item.kind in ("fn", "type"):
            self.renaming.moves += [(f"{folder}/{mark}{item.old}", f"{folder}/{mark}{item.new}") for mark in ("", "+")]
        elif item.kind == "method":
            for old in glob.glob(f"{ROOT}/crates/{item.crate}/proofs/**/{item.old}/", recursive=True):
                old = os.path.relpath(old, ROOT)
                new = f"{os.path.dirname(old)}/{item.new}"
                self.renaming.moves.append((old, new))
                modules = ["Rattle." + one[len("crates/"):].replace("/", ".") for one in (old, new)]
                replace_modules(self.renaming, {modules[0]: modules[1]})


def replace_modules(renaming, folders):
    """Replaces the beginnings of paths of modules, longest first."""
    if not folders:
        return
    form = re.compile("(?<![\\w.])(" + "|".join(re.escape(one) for one in sorted(folders, key=len, reverse=True)) + r")(?=[.\s;])")
    for path, text in renaming.texts.items():
        if path.endswith((".antt", ".rt")):
            for found in form.finditer(text):
                old, new = found[1].split("."), folders[found[1]].split(".")
                at = next(n for n, (a, b) in enumerate(zip(old, new)) if a != b)
                start = found.start() + len(".".join(old[:at])) + bool(at)
                renaming.replace(path, start, start + len(old[at]), new[at])


def rename_items(renaming, lines):
    for line in lines:
        if f"crates/{line[0]}" not in renaming.texts:
            renaming.stop(f"crates/{line[0]}", 0, "there is no such file")
    if not renaming.stops:
        Items(renaming, lines).rename()
        rename_in_documents(renaming, {(place_of(f"crates/{line[0]}")[0], line[-2]): line[-1] for line in lines})


def rename_in_documents(renaming, wanted):
    """Renames items between backticks in the page of their crate; elsewhere the places are listed."""
    olds = {old for _, old in wanted}
    for path, text in renaming.texts.items():
        if path.endswith(".md"):
            crate = path.split("/")[1] if path.startswith("crates/") else None
            for found in re.finditer(r"(?<=[`:(, ])(\w+)(?=[`(:,){ ])", text):
                if found[1] in olds and is_in_code(text, found.start()):
                    if (crate, found[1]) in wanted:
                        renaming.replace(path, found.start(1), found.end(1), wanted[(crate, found[1])])
                    else:
                        renaming.look_at(path, found.start(), found[1])


def is_in_code(text, offset):
    """Whether a place in a document is between backticks."""
    return text.count("`", text.rfind("\n", 0, offset) + 1, offset) % 2 == 1


def rename_files(renaming, pairs):
    rename_definition_files(renaming, [pair for pair in pairs if pair[0].endswith(".antt")])
    code, folders = Code(renaming), {}
    for old, new in [pair for pair in pairs if not pair[0].endswith(".antt")]:
        (crate, before), (_, after) = place_of(f"crates/{old}"), place_of(f"crates/{new}")
        is_taken = f"crates/{new}" in renaming.texts and new not in {one for one, _ in pairs}
        if f"crates/{old}" not in renaming.texts or is_taken:
            renaming.stop(f"crates/{old}", 0, "there is no such file, or the new one is there")
            continue
        for part in ("specs.declared", "proofs", "specs.contracts"):
            folders[".".join(("Rattle", crate, part) + before)] = ".".join(("Rattle", crate, part) + after)
        rename_module(renaming, code, crate, before, after[-1])
        rename_file_words(renaming, crate, old, new)
        renaming.moves.append((f"crates/{old}", f"crates/{new}"))
        proofs = "/".join(("crates", crate, "proofs"))
        renaming.moves.append(("/".join((proofs,) + before), "/".join((proofs,) + after)))
    replace_modules(renaming, folders)


def rename_definition_files(renaming, pairs):
    """Renames files of definitions and proofs, each in its folder, with the folders of the same name."""
    modules = {}
    for old, new in pairs:
        old, new = f"crates/{old}", f"crates/{new}"
        if old not in renaming.texts or new.lower() in {path.lower() for path in renaming.texts} or os.path.dirname(old) != os.path.dirname(new):
            renaming.stop(old, 0, "there is no such file, or the new one is there or in another folder")
            continue
        modules[module_of(old)] = module_of(new)
        renaming.moves += [(old, new), (old[:-len(".antt")], new[:-len(".antt")])]
        rename_path(renaming, old[len("crates/"):], new[len("crates/"):])
        rename_declaration(renaming, old, module_of(new).split(".")[-1])
    replace_modules(renaming, modules)
    for path in renaming.texts:
        if modules and path.endswith((".antt", ".rt")):
            rename_module_attributes(renaming, path, modules)
            rename_module_uses(renaming, path, modules)


def rename_declaration(renaming, old, new):
    """Renames a file of definitions or proofs where the file above it declares it."""
    folder, name = os.path.split(old[:-len(".antt")])
    for path in (f"{folder}/Lib.antt", f"{folder}.antt"):
        for found in re.finditer(rf"^(?:pub )?mod {re.escape(name)}$", renaming.texts.get(path, ""), re.M):
            renaming.replace(path, found.end() - len(name), found.end(), new)


def rename_path(renaming, old, new):
    """Renames a file of definitions or proofs in documents, wrong bodies and tools: where its path is, or its own crate names it."""
    crate, within = old.split("/", 1)
    for path, text in renaming.texts.items():
        is_own = path.startswith(f"crates/{crate}/")
        form = rf"(?<![\w/]){re.escape(within)}" if is_own else rf"(?<!\w){re.escape(old)}"
        form += rf"|(?<=`){re.escape(os.path.basename(within))}(?=`)" if is_own and path.endswith(".md") else ""
        for found in re.finditer(form, "" if path.endswith((".antt", ".rt")) else text):
            start = found.end() - len(os.path.basename(old))
            renaming.replace(path, start, found.end(), os.path.basename(new))


def rename_module_attributes(renaming, path, modules):
    """Renames modules of definitions in the attributes of code."""
    for found in ATTRIBUTE.finditer(renaming.texts[path] if path.endswith(".rt") else ""):
        crate = path.split("/")[1] if found[1] == "crate" else found[1]
        old = f"Rattle.{crate}.specs.{found[2][:-2].replace('::', '.')}"
        if old in modules:
            start = found.end(2) - 2 - len(old.split(".")[-1])
            renaming.replace(path, start, found.end(2) - 2, modules[old].split(".")[-1])


def rename_module_uses(renaming, path, modules):
    """Renames modules of definitions where terms name them."""
    text = renaming.texts[path]
    imported = {one.alias or one.module.split(".")[-1]: one for one in imports_of(text) if one.names is None}
    news = {name: modules[one.module].split(".")[-1] for name, one in imported.items() if one.alias is None and one.module in modules}
    if not news:
        return
    terms = [names_of(text)] if path.endswith(".antt") else [names_of_term(text, *clause[:3]) for clause in renaming.clauses(path)]
    for name in (name for term in terms for name in term):
        word = name.token.text
        if word in news and name.parts and name.role != "label" and not name.is_bound:
            renaming.replace(path, name.token.start, name.token.start + len(word), news[word])
    for new in set(news.values()) & set(imported):
        renaming.stop(path, imported[new].start, f"{new} is imported already")


def rename_module(renaming, code, crate, module, new):
    """Renames a module in the code of its crate: where it is declared, and in paths."""
    parent = code.modules[(crate, module[:-1])]
    for path, text in code.texts.items():
        if path.split("/")[1] != crate:
            continue
        form = rf"(?<=crate::){'::'.join(module)}\b(?=\s*(?:::|;|,|}}| as ))"
        if path == parent:
            form += rf"|^(?<=\n)((?:pub(?:\(crate\))? )?mod |(?:pub(?:\(crate\))? )?use |\s*){module[-1]}(?=::|;)|(?<![\w:.]){module[-1]}(?=::)"
        elif re.search(rf"\buse crate::(?:\w+::)*{module[-1]};", text):
            form += rf"|(?<![\w:.]){module[-1]}(?=::)"
        for found in re.finditer(form, text, re.M):
            start = found.end() - len(module[-1])
            renaming.replace(path, start, found.end(), new)


def rename_file_words(renaming, crate, old, new):
    """Renames a source file in documents and in wrong bodies."""
    (_, before), (_, after) = old.split("/src/"), new.split("/src/")
    for path, text in renaming.texts.items():
        is_own = path.startswith(f"crates/{crate}/")
        if path.endswith((".md", ".edit")):
            form = rf"(?<=src/){re.escape(before)}" if is_own else rf"(?<={crate}/src/){re.escape(before)}"
            form += rf"|(?<=`){re.escape(before)}(?=`)" if is_own and path.endswith(".md") else ""
            for found in re.finditer(form, text):
                renaming.replace(path, found.start(), found.end(), after)


def rename_crates(renaming, pairs):
    """Renames crates: their folders, their lines in crates.txt, and their names in paths and documents."""
    names = dict(pairs)
    for old, new in pairs:
        renaming.moves.append((f"crates/{old}", f"crates/{new}"))
    some = "|".join(sorted(names, key=len, reverse=True))
    for path, text in renaming.texts.items():
        own = path.split("/")[1] if path.startswith("crates/") else None
        if path == "crates.txt":
            form = rf"(?<![\w])({some})(?=[\s:]|$)"
        elif path.endswith((".antt", ".rt")):
            form = rf"(?<=Rattle\.)({some})(?=\.)"
        else:
            form = rf"(?<=crates/)({some})(?=/)|(?<=`)({some})(?=(?:::\w+)*(?:\([^`]*\))?`)|(?<=\")({some})(?=\")|(?<=rt ci )({some})\b"
        for found in re.finditer(form, text):
            renaming.replace(path, found.start(), found.end(), names[found[0]])
        if path.endswith(".rt"):
            rename_crate_paths(renaming, path, own, names)


def rename_crate_paths(renaming, path, own, names):
    """Renames crates at the beginnings of paths in code, where no module of the crate has the name."""
    text = renaming.texts[path]
    for found in re.finditer(rf"(?<![\w:.])({'|'.join(names)})(?=::)", text):
        line = text[text.rfind("\n", 0, found.start()) + 1:found.start()]
        is_use = re.fullmatch(r"\s*(?:pub(?:\([^)]*\))? )?use ", line)
        is_attribute = "#[" in line or "using(" in line or "unfolding(" in line
        is_module = f"crates/{own}/src/{found[0]}.rt" in renaming.texts and (path.endswith(("/lib.rt", "/main.rt")))
        is_local = re.search(rf"\b(?:mod|as) {found[0]}\b|\buse [\w:]+::{found[0]};", text)
        if is_attribute or not is_module and (is_use or not is_local):
            renaming.replace(path, found.start(), found.end(), names[found[0]])
