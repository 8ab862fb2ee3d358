"""The definitions of the repository, read from its files: where each stands, how long it is, and which others it names.

A definition stands in a crate's `specs/`; a type or a constant that definitions name stands in its `src/`. Names are followed
through `use` lines alone, so a bound variable that is called like a definition of its file counts as that definition: sizes are
good to a few in a hundred. Nothing of the kit is followed.
"""

import glob
import os
import re

ROOT = os.path.abspath(os.path.join(os.path.dirname(os.path.abspath(__file__)), ".."))

MARKS = r"(?:(?:pattern|unfoldable|abbrev|record|data|pub) )"
HEAD = re.compile(rf"^(?:{MARKS}+([^\s:(){{}}]+)|([^\s:(){{}}=]+) :)")
USE = re.compile(r"^(pub )?use Rattle\.([\w.«»]+?)(?:\.\{(.*?)\})?(?: as (\S+))?$", re.MULTILINE | re.DOTALL)
GHOST_USE = re.compile(r"^ghost use Rattle\.([\w.]+?)(?:\.\{(.*?)\});", re.MULTILINE | re.DOTALL)
ITEM = re.compile(r"^(?:pub )(?:struct|enum|const|type) (\w+)", re.MULTILINE)
TOKEN = re.compile(r"[^\s(){}\[\];,:=]+")


def read(path):
    with open(path, encoding="utf-8") as file:
        return file.read()


def is_code(line):
    """Whether a line of antt or of Rattle says something, comments aside."""
    return bool(line.strip()) and not line.strip().startswith(("--", "//"))


class Definition:
    """A definition, or a type or constant of a crate's `src/`: its comment and its text, as lines."""

    def __init__(self, name, file, comment, lines, is_source=False):
        self.name, self.file, self.comment, self.lines, self.is_source = name, file, comment, lines, is_source
        while self.lines and not self.lines[-1].strip():
            self.lines.pop()

    @property
    def crate(self):
        return self.file.split("/")[0]

    def code(self):
        return sum(map(is_code, self.lines))

    def whole(self):
        return len(self.comment) + sum(1 for line in self.lines if line.strip())

    def tokens(self):
        """The words of its text. What stands behind a dot is a field, and is left out."""
        for line in filter(is_code, self.lines):
            for token in TOKEN.findall(line.split(" -- ")[0]):
                yield token.split(".")[0] if not token.startswith(".") else ""

    def constructors(self):
        """The cases of a type of cases."""
        if not re.search(r"\bdata ", self.lines[0]):
            return []
        return re.findall(r"^  ([^\s:]+) :", "\n".join(self.lines), re.MULTILINE)


def listed(names):
    """The names of a `use` line's braces: under what each goes here, and what it is there."""
    for part in filter(None, (part.strip() for part in names.replace("\n", " ").split(","))):
        there, _, here = part.partition(" as ")
        yield (here or there).strip(), there.strip()


class Module:
    """A file of `specs/`: its definitions in order, and what its `use` lines bring."""

    def __init__(self, path):
        self.file = os.path.relpath(path, os.path.join(ROOT, "crates"))
        text = read(path)
        self.uses, self.passes_on = {}, {}
        for public, module, names, alias in USE.findall(text):
            for here, there in listed(names):
                self.uses[here] = (module, there)
                if public:
                    self.passes_on[here] = (module, there)
            if not names:
                self.uses[alias or module.split(".")[-1]] = (module, None)
        self.definitions = {}
        for found in self.cut(USE.sub("", text).split("\n")):
            self.definitions[found.name] = found
        self.homes = {case: name for name, found in self.definitions.items() for case in found.constructors()}

    def cut(self, lines):
        """The definitions, each with the comment above it."""
        comment, found = [], None
        for line in lines:
            head = HEAD.match(line)
            if line.startswith("--"):
                if found:
                    yield found
                    found, comment = None, []
                comment.append(line)
            elif head and not line.startswith(("unfolding", "module")):
                if found:
                    yield found
                found = Definition(head[1] or head[2], self.file, comment, [line])
                comment = []
            elif found:
                found.lines.append(line)
            elif not line.strip():
                comment = []
        if found:
            yield found


class Repository:
    """All definitions, and the types and constants of `src/`."""

    def __init__(self):
        self.modules, self.items = {}, {}
        for path in sorted(glob.glob(os.path.join(ROOT, "crates", "*", "specs", "**", "*.antt"), recursive=True)):
            if os.path.basename(path) != "Lib.antt":
                module = Module(path)
                self.modules[module.file] = module
        for path in sorted(glob.glob(os.path.join(ROOT, "crates", "*", "src", "**", "*.rt"), recursive=True)):
            for item in self.source_items(path):
                self.items.setdefault((item.crate, item.name), item)

    @staticmethod
    def source_items(path):
        """The public types and constants of a file of `src/`, each to the line that closes it."""
        file, lines = os.path.relpath(path, os.path.join(ROOT, "crates")), read(path).split("\n")
        for number, line in enumerate(lines):
            head = ITEM.match(line)
            if head:
                last = number
                while not re.search(r"[;}]$", lines[last]) or (last > number and lines[last].startswith(" ")):
                    last += 1
                yield Definition(head[1], file, [], lines[number:last + 1], is_source=True)

    def is_defined(self, name):
        return any(name in module.definitions for module in self.modules.values())

    def named(self, name):
        """The definition of a name, wherever it stands; a name is that of one definition."""
        found = [module.definitions[name] for module in self.modules.values() if name in module.definitions]
        if len(found) != 1:
            raise SystemExit(f"{name} is defined {len(found)} times")
        return found[0]

    def find(self, path, name):
        """What a name of a module is: a definition of it, what it passes on, or what `src/` declares."""
        crate, _, inside = path.partition(".specs.")
        if crate not in CRATES:
            return None
        if inside.startswith(("declared.", "contracts.")):
            parts = [part for part in inside.split(".") if part != "TheVariants"]
            wanted = name if parts[-1] == "TheConstants" else parts[-1]
            return self.items.get((crate, wanted))
        module = self.modules.get(f"{crate}/specs/{inside.replace('.', '/')}.antt")
        if module is None:
            return None
        if name in module.passes_on and name not in module.definitions:
            return self.find(*module.passes_on[name])
        return module.definitions.get(name) or module.definitions.get(module.homes.get(name))

    def names_in(self, definition):
        """The definitions that one names, itself aside."""
        if definition.is_source:
            words = set(re.findall(r"\w+", "\n".join(filter(is_code, definition.lines))))
            return [item for (crate, name), item in self.items.items() if name in words and item is not definition
                    and (crate == definition.crate or crate in BELOW.get(definition.crate, ()))]
        module, found = self.modules[definition.file], []
        for token in set(definition.tokens()):
            if token in module.definitions:
                found.append(module.definitions[token])
            elif token in module.homes:
                found.append(module.definitions[module.homes[token]])
            elif token in module.uses:
                found.append(self.find(*module.uses[token]))
        return [one for one in found if one is not None and one is not definition]

    def closure(self, roots):
        """All that is reached from these by names, in the order in which it was met."""
        met, waiting = {}, list(roots)
        while waiting:
            one = waiting.pop(0)
            if (one.file, one.name) not in met:
                met[one.file, one.name] = one
                waiting += self.names_in(one)
        return list(met.values())

    def cited_by(self, function):
        """The definitions that the `ensures` of a public function of `src/` name."""
        homes = [path for path in glob.glob(os.path.join(ROOT, "crates", "*", "src", "**", "*.rt"), recursive=True)
                 if re.search(rf"^pub fn {function}\b", read(path), re.MULTILINE)]
        if len(homes) != 1:
            raise SystemExit(f"{function} is declared in {len(homes)} files")
        text = read(homes[0])
        uses = {here: (module, there) for module, names in GHOST_USE.findall(text) for here, there in listed(names)}
        contract = re.search(rf"^pub fn {function}\b.*?^\{{", text, re.MULTILINE | re.DOTALL)
        clauses = contract[0][contract[0].index("ensures"):]
        cited = [self.find(*uses[token]) for token in dict.fromkeys(re.findall(r"\w+", clauses)) if token in uses]
        return [one for one in cited if one is not None]


def crates_below():
    """For each crate of the repository, those that it stands on."""
    below = {}
    for line in read(os.path.join(ROOT, "crates.txt")).splitlines():
        name, colon, needs = line.split("#")[0].partition(":")
        if colon:
            below[name.split()[0]] = needs.split()
    return below


BELOW = crates_below()
CRATES = set(BELOW)
