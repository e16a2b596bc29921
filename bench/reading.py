"""Reads definitions (specs/), and the types and contracts that code declares (src/), and follows the names in them."""
import os
import re
import shutil
import sys
from functools import cache

TOP = os.path.dirname(os.path.dirname(os.path.abspath(__file__)))
# the toolchain's folder, which has each of its crates
KIT = os.path.join(os.path.dirname(os.path.dirname(os.path.realpath(shutil.which("rt") or "/opt/rattle/bin/rt"))), "rattle")
STD = ("std", "core", "alloc")

MODIFIERS = ("abbrev", "pub", "unfoldable", "data", "record", "operator")
IMPORT = re.compile(r"(pub )?(?:ghost )?use +([\w.◌|-]+?)(?:\.\{(.*)\}|\s+as\s+(\S+))?$")
DECLARED = re.compile(r"[^\s(){}=:,]+(?: [^\s(){}=:,]+)* :(\s|$)")
TOKEN = re.compile(r"[^\s()\[\]{},;\"`]+")
RUST_TYPE = re.compile(r"^ *(?:pub(?:\(\w+\))? )?(?:struct|enum|trait|type) (\w+)", re.M)
BUILT_IN = ("Type", "Unit")


class Item:
    """A definition, a type that code declares, or a function with its contract."""

    def __init__(self, file, line, name, text, comment):
        self.file, self.line, self.name, self.text, self.comment = file, line, name, text, comment

    @property
    def count(self):
        return len([one for one in self.text.split("\n") if bare(one).strip()])

    def place(self):
        return f"{self.file.shown}:{self.line}"


def bare(line):
    """A line without its comment and without the contents of its strings."""
    line = re.sub(r'"(?:[^"\\]|\\.)*"', '""', line)
    return re.sub(r"(^|\s)(--|//).*", "", line)


def parts(text):
    return [one.strip() for one in text.split(",") if one.strip()]


class Source:
    """What a file of specs/ or src/ imports and declares."""

    def __init__(self, path, crate):
        self.path, self.crate = path, crate
        self.shown = os.path.relpath(path, TOP) if path.startswith(TOP + os.sep) else os.path.relpath(path, os.path.dirname(KIT))
        self.names, self.shared, self.items = {}, {}, {}
        with open(path, encoding="utf-8") as file:
            self.lines = file.read().split("\n")

    def import_from(self, line, public_only=False):
        """Notes what an import brings: under each name the module and the name there, which is None for a module."""
        found = IMPORT.match(line.rstrip(";").strip())
        if not found:
            return
        public, module, names, alias = found.groups()
        pairs = {}
        if names is not None:
            for one in parts(names):
                old, _, new = one.partition(" as ")
                pairs[(new or old).strip()] = (module, old.strip())
        else:
            pairs[alias or module.split(".")[-1]] = (module, None)
        self.names.update(pairs)
        if public:
            self.shared.update(pairs)


class Definitions(Source):
    """A file of specs/."""

    def __init__(self, path, crate):
        super().__init__(path, crate)
        self.inside, last, comment, shift = {}, None, [], 0
        for number, line in enumerate(self.lines, 1):
            if line.strip() and not line[0].isspace():
                shift = 2 if line.startswith("module _") else 0
                if shift:
                    last = None
                    continue
            line = line[shift:]
            if line.startswith("--"):
                comment.append(line)
            elif not line.strip():
                comment = []
            elif line[0].isspace() or line[0] in "})":
                if last:
                    last.text += "\n" + line
            elif re.match(r"(pub )?(use|mod)\b", line):
                self.import_from(line)
                last, comment = None, []
            elif self.declares(line):
                last = Item(self, number, self.declares(line), line, comment)
                self.items[f"mutual {number}" if last.name == "mutual" else last.name] = last
                comment = []
            elif last:
                last.text += "\n" + "".join(f"{one}\n" for one in comment) + line
                comment = []
        for item in self.items.values():
            if re.match(r"(?:(?:pub|abbrev|unfoldable) )*(data|mutual)\b", item.text):
                for names in re.findall(r"^ +(?:(?:pub|data|record|abbrev|unfoldable) )*([^:=]+) :(?:\s|$)", item.text, re.M):
                    self.inside.update(dict.fromkeys(names.split()[:1], item))

    @staticmethod
    def declares(line):
        words = line.split()
        if "mutual" in words[:2]:
            return "mutual"
        if words[0] in MODIFIERS:
            return next((word for word in words if word not in MODIFIERS), None)
        head = bare(line)
        return words[0] if DECLARED.match(head) and " = " not in head.split(" : ")[0] else None


class Code(Source):
    """A file of src/: the types that it declares, and functions with contracts."""

    def __init__(self, path, crate):
        super().__init__(path, crate)
        text = "\n".join(self.lines)
        for line in re.findall(r"^ *(?:pub )?(?:ghost )?use [^;]+;", text, re.M):
            line = " ".join(line.split())
            if line.startswith("ghost"):
                self.import_from(line)
        for found in RUST_TYPE.finditer(text):
            self.add_type(found.group(1), found.start())
        for found in re.finditer(r"^( *)pub (?:const )?fn (\w+)", text, re.M):
            self.add_function(found.group(1), found.group(2), found.start())

    def uses_type(self, name):
        return re.search(rf"^ *(pub )?use [^;]*\b{name}\b", "\n".join(self.lines), re.M)

    def comment_above(self, number, mark):
        first = number - 1
        while first > 0 and re.match(rf" *({mark}|#\[)", self.lines[first - 1]):
            first -= 1
        return [one for one in self.lines[first:number - 1] if not one.lstrip().startswith("#[")]

    def block(self, number):
        """The lines from one on until a line closes it at the same indent."""
        indent = len(self.lines[number - 1]) - len(self.lines[number - 1].lstrip())
        for end in range(number - 1, len(self.lines)):
            line = self.lines[end]
            if re.match(rf" {{{indent}}}(\}}|\S.*[;}}]$)", line):
                return self.lines[number - 1:end + 1]
        return self.lines[number - 1:]

    def add_type(self, name, start):
        """A type stands for its model's value, or, without a model, for its fields; a trait for its ghosts."""
        number = "\n".join(self.lines).count("\n", 0, start) + 1
        text = self.block(number)
        model = next((at for at, line in enumerate(self.lines, 1) if re.match(rf"impl.* Model for {name}\b", line)), None)
        if model:
            number, text = model, self.block(model)
            for line in text:
                if line.strip().startswith("ghost use"):
                    self.import_from(line.strip())
            values = [at for at in range(model, model + len(text)) if re.match(r" *ghost Value", self.lines[at - 1])]
            text = [text[0], *(self.block(values[0]) if values else []), "}"]
        elif text[0].startswith("pub trait"):
            text = [text[0]] + [one for one in text if re.match(r" *ghost (?!use)", one)] + ["}"]
        self.items.setdefault(name, Item(self, number, name, "\n".join(one for one in text if not re.match(r" *///?", one)), []))

    def add_function(self, indent, name, start):
        number = "\n".join(self.lines).count("\n", 0, start) + 1
        end = number
        while not re.match(rf"{indent}(\{{|\}})", self.lines[end - 1]) and not self.lines[end - 1].rstrip().endswith(("{}", "{", ";")):
            end += 1
        kept = end - 1 if self.lines[end - 1].strip() in ("{", "{}") else end
        owner = next((found.group(1) for line in reversed(self.lines[:number]) if (found := re.match(r"(?:impl.*?|pub trait) (\w+)(?:<.*>)?(?: \{|:|$)", line))), "")
        full = f"{owner}::{name}" if indent else name
        text = "\n".join(self.lines[number - 1:kept])
        self.items[full] = Item(self, number, full, text, self.comment_above(number, "///"))


@cache
def crates():
    with open(os.path.join(TOP, "crates.txt"), encoding="utf-8") as file:
        rows = [line.partition("#")[0].partition(":") for line in file]
    return {name.split()[0]: words.split() for name, _, words in rows if name.strip()}


def folder_of(crate):
    own = os.path.join(TOP, "crates", crate)
    return own if os.path.isdir(own) else os.path.join(KIT, crate)


@cache
def source(path, crate):
    return (Definitions if path.endswith(".antt") else Code)(path, crate)


def code_files(crate):
    for folder, _, files in sorted(os.walk(os.path.join(folder_of(crate), "src"))):
        yield from (os.path.join(folder, one) for one in sorted(files) if one.endswith(".rt"))


@cache
def type_of(crate, name):
    """A type that a crate declares, or shows from a crate below."""
    for path in code_files(crate):
        if name in source(path, crate).items:
            return source(path, crate).items[name]
    for path in code_files(crate):
        shown = re.search(rf"^ *pub use (\w+)::(?:[\w:]*::)?(?:\{{[^}}]*\b)?{name}\b", "\n".join(source(path, crate).lines), re.M)
        if shown and shown.group(1) != "crate" and os.path.isdir(folder_of(shown.group(1))):
            return type_of(shown.group(1), name)
    return next(filter(None, (type_of(one, name) for one in crates().get(crate, []))), None)


class Left(Exception):
    """A name of std, which is not followed."""


def in_module(module, name, seen=frozenset()):
    """The item that a name means in a module, as Rattle.CRATE.specs.FILE; None where there is none."""
    words = module.split(".")
    if words[0] != "Rattle" or len(words) < 3:
        return None
    crate, kind, rest = words[1], words[2], words[3:]
    if crate in STD:
        raise Left(name or module)
    if kind != "specs" or (module, name) in seen:
        return None
    if rest[:1] == ["declared"]:
        return declared(crate, rest[1:], name)
    path = os.path.join(folder_of(crate), kind, *(rest or ["Lib"])) + ".antt"
    if not os.path.exists(path):
        there, other = source(os.path.join(folder_of(crate), kind, "Lib.antt"), crate).shared.get(rest[0], (None, None))
        return in_module(".".join([there, *rest[1:]]), name, seen | {(module, name)}) if there and other is None else None
    file = source(path, crate)
    if name in file.items:
        return file.items[name]
    if name in file.inside:
        return file.inside[name]
    if name in file.shared:
        there, other = file.shared[name]
        return in_module(there, other, seen | {(module, name)})
    return None


def declared(crate, words, name):
    """A type of src/: the last capitalised word of the path, or the name there."""
    own = [word for word in words if word[0].isupper() and word != "TheVariants"]
    return type_of(crate, (own or [name])[-1])


def meaning(file, token):
    """What a word of a file's text means there, or None."""
    first, _, rest = token.partition(".")
    for word in (token, first):
        if word in file.items and "::" not in word:
            return file.items[word]
        if isinstance(file, Definitions) and word in file.inside:
            return file.inside[word]
        if word in file.names:
            module, name = file.names[word]
            if name is None:
                return in_module(module, rest.split(".")[0] or None)
            return in_module(module, name)
    if isinstance(file, Code) and re.match(r"[A-Z]\w+$", first) and file.uses_type(first):
        return type_of(file.crate, first)
    return None


def left_words(clause):
    """The words on the left of an equation."""
    left, equals, _ = re.sub(r"\s=\s", " = ", clause).partition(" = ")
    return TOKEN.findall(left) if equals and " : " not in left else []


def bound_in(clause):
    """The names that a clause binds: arguments on its left, those after λ, let and in do, and those before a colon in brackets."""
    found = {word for word in left_words(clause)[1:] if word[0].islower() and "." not in word}
    for names in re.findall(r"λ ([^.()]*)\.|[({]([^(){}:=]+?) :|let ([^=]*?) =\s|(?m:^| )(\S+|\([^()]*\)) ←", clause):
        found.update(re.findall(r"[^\s,|()]+", " ".join(names)))
    return found


def clauses(item):
    """The parts of an item in each of which a bound name means one thing, without comments, strings, and names of fields."""
    text = "\n".join(bare(line) for line in item.text.split("\n"))
    if isinstance(item.file, Code):
        text = re.sub(r"(?m)^    [A-Z]\w*", " ", text) if "enum " in text.split("\n")[0] else text
        return [re.sub(r"[<>&:!?]", " ", text)]
    text = re.sub(r"(?m)(?<=[{;])\s*[\w']+ =\s|^ +(pub )?[^\s()]+ :(?=\s)", " ", text)
    return re.split(r"\n(?=\s{0,2}[^\s})])" if item.name == "mutual" else r"\n(?=[^\s})])", text)


def uses(item, met=None, lost=None):
    """The items that an item's text names, in their order. Names of std go into `met`, and capitalised ones without a meaning into `lost`."""
    found = {}
    symbols = {part: name for name in item.file.names if "◌" in name for part in name.split("◌") if part}
    for clause in clauses(item):
        bound = bound_in(clause)
        for token in TOKEN.findall(clause):
            token = token.strip(".").lstrip("λ")
            if not token or token.split(".")[0] in bound:
                continue
            try:
                other = meaning(item.file, symbols.get(token, token))
            except Left as name:
                if met is not None:
                    met.add(str(name))
                continue
            if other and other is not item:
                found.setdefault(id(other), other)
            elif not other and lost is not None and isinstance(item.file, Definitions) and re.match(r"[A-Z]\w", token) and token not in (*BUILT_IN, *left_words(clause)):
                lost.add(f"{token} ({item.place()})")
    return list(found.values())


def reach(start):
    """The items that one reaches, each before those that it uses, the names of std that were met, and those without a meaning."""
    met, lost, order, seen = set(), set(), [], set()

    def visit(item):
        seen.add(id(item))
        for other in reversed(uses(item, met, lost)):
            if id(other) not in seen:
                visit(other)
        order.append(item)
    sys.setrecursionlimit(10000)
    visit(start)
    return order[::-1], sorted(met), sorted(lost)


def is_own(item):
    return item.file.crate in crates()


def called(wanted):
    """The functions and definitions of a name, or of a crate and a name."""
    crate, _, name = wanted.partition("::") if wanted.split("::")[0] in crates() else ("", "", wanted)
    found = []
    for one in [crate] if crate else crates():
        paths = [*code_files(one)]
        for folder, _, files in sorted(os.walk(os.path.join(folder_of(one), "specs"))):
            paths += [os.path.join(folder, file) for file in sorted(files) if file.endswith(".antt")]
        for path in paths:
            item = source(path, one).items.get(name)
            if item:
                found.append(item)
    return found


def is_inner(item):
    return is_own(item) and "/specs/inner/" in item.file.path


def find(wanted):
    """The function or definition of a name; a law before a definition, and a public promise before what is inner."""
    found = sorted(called(wanted), key=lambda item: (isinstance(item.file, Definitions), is_inner(item)))
    if not found:
        sys.exit(f"unfold: nothing is called {wanted}")
    if len(found) > 1 and isinstance(found[0].file, type(found[1].file)):
        sys.exit(f"unfold: which {wanted}: {', '.join(f'{item.file.crate}::{item.name} ({item.place()})' for item in found)}")
    return found[0]
