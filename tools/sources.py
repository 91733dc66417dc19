"""The definitions of specs/ and the items of src/, with the text and the comment of each, and what the names in it mean by the imports
of its file.

`Sources(top)` reads all crates, by the layout of `rt fmt`, and is not a compiler. `Sources(top, toolchain)` also reads the definitions
of the toolchain's library that these name.
"""
import hashlib
import re
from functools import cached_property

NAME = re.compile(r"[^\W\d]\w*")
USE = re.compile(r"(?:pub |ghost )?use ([\w.]+?)(?:\.\{(.*)\}| as (\w+));?$", re.S)
NEW = re.compile(r"((?:(?:abbrev|unfoldable|record|data|pub|def|axiom|postulate) )*)([^\s:{(}]+)")
ITEM = re.compile(r'(?P<pub>pub(?:\([^)]*\))? )?(?:unsafe |const (?=fn)|extern "\w*" )*(?P<kind>fn|struct|enum|trait|const|type|static) (?P<name>\w+)')
CLAUSE = re.compile(r"(requires|ensures|decreases)\*?(?: (\w+))? \{")
QUOTES = r"""[bc]?"(?:[^"\\]|\\.)*"|b?'(?:[^'\\\n]|\\[^\n]+?)'"""


def without_comments(text, mark="//"):
    return re.sub(rf"{QUOTES}|{mark}[^\n]*", lambda it: "" if it[0].startswith(mark) else it[0], text)


def one_line(text):
    """Returns a text as `rt fmt` would write it on one line."""
    text = re.sub(r"\s+", " ", text).strip()
    return re.sub(r",? ?([)>\]])", r"\1", re.sub(r"([(<\[]) ", r"\1", text))


def depth_of(line):
    line = re.sub(rf"{QUOTES}|//.*", "", line)
    return sum(map(line.count, "{([")) - sum(map(line.count, "})]"))


def imports_of(line):
    """Returns the names that a `use` of definitions imports, each with its module and its name there. An alias has no name there."""
    path, names, alias = USE.match(line).groups()
    pairs = [it.strip().partition(" as ") for it in (names or "").split(",") if it.strip()]
    return {here or there: (path, there) for there, _, here in pairs} | ({alias: (path, "")} if alias else {})


class Target:
    """A thing that has a name: `name` and `kind`, its `text` without comments, its `code` as it is laid out, its `comment`, and the file
    `scope`, by whose imports its names are read."""

    comment, code, line = "", "", 0

    @property
    def place(self):
        return f"{self.scope.crate}.{self.scope.name}"

    @cached_property
    def meanings(self):
        """The names in its text, each with what it means."""
        return self.scope.meanings(self.text)

    @property
    def uses(self):
        """The definitions and items of this repository that its text names, in that order, without itself."""
        return [it for it in dict.fromkeys(self.meanings.values()) if isinstance(it, Target) and it is not self]

    def checksum(self, text=None):
        """Returns a checksum of a text of it and of what the names there mean, which no layout or comment changes."""
        text = self.text if text is None else text
        known = {name: getattr(it, "path", it) for name, it in self.scope.meanings(text).items()}
        return hashlib.sha256(f"{one_line(text)} {sorted(known.items())}".encode()).hexdigest()[:16]


class Definition(Target):
    def __init__(self, module, kind, name, comment, line, section):
        self.scope, self.kind, self.name, self.comment, self.line, self.section, self.lines = module, kind, name, comment, line, section, []

    @property
    def path(self):
        return f"{self.place}.{self.name}"

    @cached_property
    def text(self):
        return without_comments("\n".join(self.lines), "--")

    @property
    def code(self):
        return "\n".join(self.lines).rstrip()

    @property
    def count(self):
        """The number of its lines without comments."""
        return sum(bool(it.strip()) for it in self.text.splitlines())


class Scope:
    """A file, whose imports say what its names mean."""

    def meanings(self, text):
        found = {}
        for name in dict.fromkeys([*NAME.findall(re.sub(r"\.\w+", "", text)), *(it for it in self.imports if "◌" in it)]):
            it = self.find(name)
            if it is not None and ("◌" not in name or all(part in text for part in name.split("◌"))):
                found[name] = it
        return found

    def places(self, text):
        """Yields each place in a text of a name that means a definition or an item."""
        for it in re.finditer(r"(?<![.\w])[^\W\d]\w*", text):
            found = self.find(it[0])
            # a field may have the name of a function
            if isinstance(found, Target) and not (found.kind == "fn" and re.match(r":(?!:)", text[it.end() :])):
                yield it, found


class Module(Scope):
    """A file of specs/: its imports, and its definitions in order."""

    def __init__(self, sources, crate, name, path):
        self.sources, self.crate, self.name, self.path, self.imports, self.definitions = sources, crate, name, path, {}, {}
        self.comment, current, comment, section = "", None, [], ""
        for at, line in enumerate(path.read_text(encoding="utf-8").splitlines(), 1):
            if is_use := USE.match(line):
                self.imports |= imports_of(line)
            if is_use or not line.strip():
                if comment and comment[0].startswith("---- "):
                    section = "\n".join(comment)[5:]
                elif comment and not self.comment and not self.definitions:
                    self.comment = "\n".join(comment)
                comment = []
            if line.startswith("--"):
                comment.append(line[2:].removeprefix(" "))
            elif is_use or re.match(r"(?:pub )?(?:use|mod) ", line):
                pass
            elif new := not line.startswith((" ", "}")) and NEW.match(line):
                # the lines of a definition after the one with its type begin with its name again
                if not current or current.name != new[2]:
                    current = Definition(self, new[1].replace("pub ", "").strip() or "def", new[2], "\n".join(comment), at, section)
                    self.definitions[new[2]] = current
                current.lines.append(line)
                comment = []
            elif current:
                current.lines.append(line)

    def find(self, name):
        return self.definitions.get(name) or (self.sources.meaning(*self.imports[name]) if name in self.imports else None)


class Item(Target):
    """A function, a type, a trait, a constant, a ghost member of a trait, or an impl of a trait. `owner` is the type or the trait that has it."""

    def __init__(self, file, kind, name, owner, is_public, text, code, comment, line):
        self.scope, self.kind, self.name, self.owner, self.is_public, self.text = file, kind, name, owner, is_public, text
        self.code, self.comment, self.line = code, comment, line
        # `said` has the comment above each clause, by its number
        self.clauses, self.said, self.head, self.signature, self.is_for_c = [], {}, "", "", 'extern "C"' in text

    @property
    def path(self):
        return f"{self.place}.{self.owner}.{self.name}" if self.owner else f"{self.place}.{self.name}"

    @property
    def members(self):
        """The public functions of a type or a trait, by their names."""
        return {it.name: it for it in self.scope.sources.items(self.scope.crate) if it.owner == self.name and it.kind == "fn" and it.is_public}

    @property
    def fields(self):
        """The public fields of a struct, each with its type."""
        found = {it[1]: one_line(it[2]) for it in re.finditer(r"(?m)^ *pub (\w+): (.*?),? *$", self.text)}
        parts = re.match(rf"(?:pub )?struct {self.name}(?:<[^>]*>)?\((.*?)\);", self.text)
        return found | {str(at): it.strip()[4:] for at, it in enumerate(parts[1].split(",") if parts else []) if it.strip().startswith("pub ")}

    @property
    def variants(self):
        body = re.sub(r"\{[^{}]*\}|\([^()]*\)|#\[[^\]]*\]", "", self.text[self.text.index("{") + 1 :]) if self.kind == "enum" else ""
        return re.findall(r"(?m)^ *([A-Z]\w*)", body)


class File(Scope):
    """A file of src/: its imports, and its items. `exports` are the paths that it re-exports, and `open` its public modules."""

    def __init__(self, sources, crate, path):
        self.sources, self.crate, self.name, self.source = sources, crate, path.stem, path
        self.imports, self.paths, self.exports, self.open, self.items, self.impls = {}, {}, {}, set(), [], {}
        lines = path.read_text(encoding="utf-8").splitlines()
        self.comment = "\n".join(it[3:].removeprefix(" ") for it in lines if it.startswith("//!"))
        self.read(lines, 0, "")

    def read(self, lines, before, owner, line=1, is_trait=False):
        at, comment = 0, []
        while at < len(lines):
            first, depth, is_open = at, 0, True
            while is_open and at < len(lines):
                bare, depth = re.sub(r"\s*//.*", "", lines[at]), depth + depth_of(lines[at])
                # an empty line, a comment or an attribute before an item, or the last line of one
                is_end = not bare.strip() and at == first or bare.endswith(";") or re.match(r"#|.*\}$", bare)
                is_open, at = depth != 0 or not is_end or bare.startswith(" ") and not bare.endswith(";"), at + 1
            text = without_comments("\n".join(lines[first:at])).strip()
            if text and not text.startswith("#"):
                self.take(text, lines[first:at], owner, is_trait, "\n".join(comment), line + before + first)
            if text.startswith("#"):
                continue
            if lines[first].startswith("///") or is_trait and lines[first].startswith("// "):
                comment.append(lines[first].lstrip("/").removeprefix(" "))
            elif not lines[first].startswith("//"):
                comment = []

    def take(self, text, lines, owner, is_trait, comment, line):
        if text.startswith("ghost use "):
            self.imports |= imports_of(text)
        elif used := re.match(r"(pub )?use (.*);", text, re.S):
            for path, name in paths(re.sub(r"\s+", "", used[2].replace(" as ", "@"))):
                self.paths[name] = path
                if used[1]:
                    self.exports[name] = path
        elif used := re.match(r"pub mod (\w+);", text):
            self.open.add(used[1])
        elif block := re.match(r"(?:unsafe )?impl\b(.*?)\{", text, re.S):
            head = re.sub(r"^<(?:[^<>]|<[^<>]*>)*>", "", block[1].strip()).strip()
            trait, _, name = head.rpartition(" for ")
            name = re.match(r"&?(?:'\w+ )?(?:mut )?(\w+)|", name)[1] or ""
            owner = f"{name}: {one_line(trait)}" if trait else name
            self.impls[owner] = text[: text.index("{")].strip()
            self.read(*inside(lines), owner, line)
        elif found := ITEM.match(text):
            item = Item(self, found["kind"], found["name"], owner, is_trait or (found["pub"] or "").strip() == "pub", text, "\n".join(lines), comment, line)
            self.items.append(item)
            if item.kind == "fn":
                read_function(item)
            elif item.kind == "trait":
                item.text = item.code = text[: text.index("{")].strip()
                self.read(*inside(lines), item.name, line, True)
        elif owner and (found := re.match(r"ghost (\w+)", text)):
            self.items.append(Item(self, "ghost", found[1], owner, True, text, "\n".join(lines), comment, line))

    @cached_property
    def own(self):
        return {it.name: it for it in self.items if not it.owner}

    def find(self, name):
        if name in self.imports:
            return self.sources.meaning(*self.imports[name])
        return self.own.get(name) or (self.sources.used(self.crate, self.paths[name]) if name in self.paths else None)

    def named(self, path):
        """Returns what a comment of this file names as `name`, `Type::member`, `module::name` or `crate::path`: an item, a file or the path
        of a use, or None."""
        first, *rest = path.removesuffix("()").split("::")
        if first in self.sources.order:
            there = self.sources.library(first)
            return self.sources.find(first, "::".join(rest)) or there and there is not self and there.named("::".join(rest)) if rest else there
        if first in ("crate", "self", "super"):
            return self.named("::".join(rest)) if rest else self.sources.library(self.crate)
        if module := self.sources.files.get((self.crate, first)):
            return module.named("::".join(rest)) if rest else module
        owner = self.find(first)
        every = [*self.items, *self.sources.items(owner.scope.crate if isinstance(owner, Item) else self.crate)]
        if rest:
            return next((it for it in every if it.name == rest[0] and it.owner.partition(": ")[0] == first), None) or next((it for it in every if it.name == first and re.search(rf"\b{rest[0]}\b", it.code)), None)
        return self.find(first) or self.paths.get(first) or next((it for it in every if it.name == first), None)


def inside(lines):
    """Returns the lines in the braces of an item, without their margin, and the number of lines before them."""
    first = next(at for at, line in enumerate(lines) if line.rstrip().endswith("{"))
    return [it.removeprefix("    ") for it in lines[first + 1 : -1]], first + 1


def paths(text):
    """Yields the paths of a `use`, without white space and with `@` for `as`, each with the name that it has here."""
    if found := re.fullmatch(r"([\w:]*?)(?:::)?\{(.*)\}", text):
        for part in re.findall(r"(?:[^,{}]|\{(?:[^{}]|\{[^{}]*\})*\})+", found[2]):
            for path, name in paths(part):
                yield f"{found[1]}::{path}".strip(":"), name
    else:
        path, _, name = text.partition("@")
        yield path, name or path.rpartition("::")[2]


def read_function(item):
    """Reads the signature of a function, and its clauses: the kind with the name, the text, and the comment above it."""
    lines, at, comment = item.code.splitlines(), 0, []
    while at < len(lines) and not CLAUSE.match(lines[at].strip()) and not lines[at].strip() == "{":
        at += 1
    head = without_comments("\n".join(lines[:at]))
    head = re.sub(r"\s*(\{.*|;)$", "", head, flags=re.S) if at == len(lines) else head
    item.head, item.signature = head, one_line(head[head.index("fn ") :])
    while at < len(lines):
        line = lines[at].strip()
        if line.startswith("//"):
            comment.append(line[2:].removeprefix(" "))
        elif not CLAUSE.match(line) and line:
            break
        if not CLAUSE.match(line):
            at += 1
            continue
        first, depth = at, 0
        while at == first or depth and at < len(lines):
            depth += depth_of(lines[at])
            at += 1
        text = without_comments("\n".join(lines[first:at]))
        if comment:
            item.said[len(item.clauses)], comment = "\n".join(comment), []
        item.clauses.append((" ".join(filter(None, CLAUSE.match(line).groups())), text[text.index("{") + 1 : text.rindex("}")]))
    item.text = "\n".join([item.signature, *(text for _, text in item.clauses)])


class Sources:
    def __init__(self, top, toolchain=None):
        self.modules, self.files, self.kept, self.toolchain, self.library_of_toolchain = {}, {}, {}, toolchain, {}
        self.order = re.findall(r"(?m)^(\w+)(?: \w+)?:", (top / "crates.txt").read_text(encoding="utf-8"))
        for crate in self.order:
            folder = top / "crates" / crate
            for path in sorted((folder / "specs").glob("*.antt")):
                self.modules[crate, path.stem] = Module(self, crate, path.stem, path)
            for path in sorted((folder / "src").rglob("*.rt")):
                self.files[crate, path.stem] = File(self, crate, path)

    def items(self, crate):
        return (it for (name, _), file in self.files.items() if name == crate for it in file.items)

    def library(self, crate):
        return self.files.get((crate, "lib")) or self.files.get((crate, "main"))

    def is_reached(self, item):
        """Returns whether callers of the crate reach an item: it is in an open module, or re-exported, or called by C, or of a program."""
        library, owner, is_of_impl = self.library(item.scope.crate), *item.owner.partition(": ")[:2]
        if not item.is_public and not is_of_impl:
            return library.name == "main" and bool(item.clauses)
        if library.name == "main" or item.is_for_c or item.scope is library or item.scope.name in library.open:
            return True
        exported = library.exports.get(owner or item.name, "")
        # a type may have an impl in another file than its own
        return bool(exported) if owner else exported.startswith(f"{item.scope.name}::")

    def public(self):
        """Yields the items that callers reach."""
        return (it for crate in self.order for it in self.items(crate) if self.is_reached(it))

    def used(self, crate, path):
        """Returns the item that a path of a `use` leads to, or None outside of this repository."""
        first, *rest = path.split("::")
        first, rest = (crate, rest) if first in ("crate", "self") else (first, rest)
        if (first, rest[0] if rest else "") in self.files and len(rest) == 2:
            return self.files[first, rest[0]].own.get(rest[1])
        if first == crate and len(rest) == 1 or (crate, first) in self.files and len(rest) == 1:
            return next((file.own[rest[0]] for (name, _), file in self.files.items() if name == crate and rest[0] in file.own), None)
        return self.find(first, rest[0]) if first in self.order and len(rest) == 1 else None

    def find(self, crate, path):
        """Returns the public item that callers reach as `crate::path`, or its type if the last name is a member of that, or the file of
        a public module. Otherwise None."""
        file, names = self.library(crate), path.split("::")
        if names[0] in file.open:
            file, names = self.files[crate, names[0]], names[1:]
        if not names:
            return file
        found = file.own.get(names[0])
        if not found or not found.is_public:
            found = self.used(crate, file.exports[names[0]]) if names[0] in file.exports else None
        is_whole = len(names) == 1 or found and names[1] in {*found.members, *found.fields, *found.variants}
        return found if is_whole else None

    def meaning(self, path, name):
        """Returns the definition or the item that an import means; for one of the toolchain its path."""
        if (path, name) not in self.kept:
            self.kept[path, name] = f"{path}.{name}"
            parts = path.split(".")
            if parts[0] == "Rattle" and parts[1] in self.order and parts[2] == "specs":
                self.kept[path, name] = self.meaning_here(parts[1], parts[3:], name) or f"{path}.{name}"
            elif self.toolchain and NAME.fullmatch(name):
                self.kept[path, name] = self.meaning_there(parts, name) or f"{path}.{name}"
        return self.kept[path, name]

    def meaning_here(self, crate, parts, name):
        if parts[:1] == ["declared"]:
            owners = [it for it in (parts[-1], parts[-2], name) if it not in ("TheVariants", "TheInside")]
            return next((it for owner in owners for it in self.items(crate) if it.name == owner and not it.owner), None)
        if module := self.modules.get((crate, ".".join(parts))):
            return module.find(name)
        # a constructor of a type of definitions
        data = self.modules.get((crate, ".".join(parts[:-1])))
        return data and data.find(parts[-1])

    def meaning_there(self, parts, name):
        """Returns a definition of the toolchain's library, or None."""
        if parts[0] == "lib":
            crate, parts, folder = "lib", parts[1:], self.toolchain / "logic/Lib"
        elif parts[0] == "Rattle" and parts[2:3] == ["specs"]:
            crate, parts, folder = parts[1], parts[3:], self.toolchain / parts[1] / "specs"
        else:
            return None
        path, passes = folder.joinpath(*parts).with_suffix(".antt"), folder / "Lib.antt"
        if path.exists():
            module = self.library_of_toolchain.setdefault((crate, *parts), None)
            if not module:
                module = self.library_of_toolchain[crate, *parts] = Module(self, crate, ".".join(parts), path)
            return module.find(name)
        # a module of another library that this one has too
        passed = passes.exists() and re.search(rf"(?m)^pub use (Rattle\.[\w.]*\.{parts[0]})$", passes.read_text(encoding="utf-8"))
        return self.meaning_there([*passed[1].split("."), *parts[1:]], name) if passed else None


def closure(roots, kind=Target):
    """Returns these targets, those of this kind that they use, and those that these use."""
    found, left = {}, [*roots]
    while left:
        it = left.pop()
        if it not in found:
            found[it] = None
            left += (used for used in it.uses if isinstance(used, kind))
    return [*found]
