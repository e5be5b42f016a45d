"""What the files of definitions and proofs (.antt) and of code (.rt) say, as far as their text alone tells."""
import dataclasses
import functools
import pathlib
import re

TOP = pathlib.Path(__file__).resolve().parent.parent
CRATES = TOP / "crates"

WORD = re.compile(r"[^\s(){}\[\],.;:]+")
UNSAID = re.compile(r"(?m)^\s*(?:--.*|(?:pub )?(?:ghost )?use .*)$")
IN_WORDS = set("abcdefghijklmnopqrstuvwxyzABCDEFGHIJKLMNOPQRSTUVWXYZ0123456789_-'")
PLAIN = re.compile(r"[\w'-]+")
DOTTED = re.compile(r"([A-Za-z_][\w'-]*)\.([A-Za-z_][\w'◌-]*)")
IMPORT = re.compile(r"^\s*(?:pub )?(?:ghost )?use ([\w.+«»'-]+?)\.\{(.*?)\};?\s*$")
ALIAS = re.compile(r"^\s*(?:pub )?(?:ghost )?use ([\w.+«»'-]+) as ([\w'-]+);?\s*$")
HEAD = re.compile(
    r"^(?P<indent>\s*)(?P<words>(?:(?:abbrev|unfoldable|opaque|private|pub)\s+)*)"
    r"(?P<kind>data\s+|record\s+)?(?P<after>(?:pub\s+)?)(?P<name>[^\s(){}:]+)(?=[\s({]).*?\s:(?:\s|$)"
)
CONSTRUCTOR = re.compile(r"^\s+(?:pub )?([^\s(){}:=]+) :(?:\s|$)")


def crate_names():
    """The crates, in the order of crates.txt."""
    lines = (TOP / "crates.txt").read_text(encoding="utf-8").splitlines()
    return [line.split(":")[0] for line in lines if re.match(r"[a-z]", line)]


def files(ending, *parts):
    """The files with this ending in the folders `crates/NAME/PART`, but for those that were built."""
    for crate in sorted(path for path in CRATES.iterdir() if path.is_dir()):
        for part in parts:
            for path in sorted((crate / part).rglob("*" + ending)):
                if path.is_file():
                    yield path


def imports(lines):
    """The names that are imported, each with its module and its name there; and the modules that are."""
    names, modules = {}, {}
    for line in lines:
        if "use " not in line:
            continue
        if found := IMPORT.match(line):
            for name in split_names(found[2]):
                there, _, here = name.partition(" as ")
                names[(here or there).strip()] = (found[1], there.strip())
        elif found := ALIAS.match(line):
            modules[found[2]] = found[1]
    return names, modules


def split_names(text):
    return [name.strip() for name in text.split(",") if name.strip()]


def is_import(line):
    return line.lstrip().startswith(("use ", "pub use ", "ghost use ", "pub ghost use "))


def occurs(name, words):
    """Whether a name stands among these words; of one with places for its operands, each of its parts."""
    if "◌" in name:
        return all(part in words for part in name.split("◌") if part)
    return name in words


def without_imports(text):
    """A text without its imports and, where it is of definitions or proofs, its comments."""
    return UNSAID.sub("", text)


def says(text, name):
    """Whether a text says a name as a word of its own; of one with places for its operands, each of its parts."""
    return all(says_part(text, part) for part in name.split("◌") if part)


def says_part(text, part):
    at = text.find(part)
    if not (part[0].isalnum() and part[-1].isalnum()):
        return at >= 0
    while at >= 0:
        if text[at - 1 : at] not in IN_WORDS and text[at + len(part) : at + len(part) + 1] not in IN_WORDS:
            return True
        at = text.find(part, at + 1)
    return False


def words_of(lines):
    """The words of a text without its comments and imports, and the names behind a name and a dot."""
    text = without_imports("\n".join(lines))
    words = set(WORD.findall(text)) | set(PLAIN.findall(text))
    if "[]" in text:
        words.add("[]")
    return words, set(DOTTED.findall(text))


@dataclasses.dataclass
class Definition:
    """A definition, a type or a lemma of a file."""

    name: str
    path: pathlib.Path
    line: int
    kind: str  # "data", "record" or ""
    comment: list = dataclasses.field(default_factory=list)
    lines: list = dataclasses.field(default_factory=list)
    public: bool = True
    head_of_module: str = ""
    parts: list = dataclasses.field(default_factory=list)

    @property
    def crate(self):
        return self.path.relative_to(CRATES).parts[0]


class File:
    """A file of definitions or proofs."""

    def __init__(self, path):
        self.path = path
        self.text = path.read_text(encoding="utf-8").split("\n")
        parts = path.relative_to(CRATES).with_suffix("").parts
        self.module = "Rattle." + ".".join(parts)
        self.names, self.modules = imports(self.text)
        self.comment = head_comment(self.text)

    @functools.cached_property
    def definitions(self):
        return list(self.read())

    @functools.cached_property
    def own(self):
        """The names of the file's own definitions and of their parts."""
        return {name: (self.module, name) for one in self.definitions for name in [one.name, *one.parts]}

    def read(self):
        comment, current, module, module_indent = [], None, "", -1
        for number, line in enumerate(self.text, 1):
            bare = line.strip()
            indent = len(line) - len(line.lstrip())
            if not bare:
                comment, current = [], current if current and current.kind else None
                continue
            if is_import(line):
                comment = []
                continue
            if bare.startswith("--"):
                if not (current and current.kind and indent > current_indent):
                    comment.append(bare.lstrip("-").strip() if not bare.startswith("-- ----") else "")
                    comment = [] if bare.startswith("-- ----") else comment
                continue
            if module and indent <= module_indent:
                module = ""
            if bare.startswith("module "):
                module, module_indent, current, comment = line, indent, None, []
                continue
            found = HEAD.match(line)
            inside = current is not None and indent > current_indent
            if found and self.is_head(found, line, inside, inside and bool(current.kind)):
                current = Definition(found["name"], self.path, number, (found["kind"] or "").strip(), comment, [line])
                current.public = "pub" in (found["words"] + found["after"]).split()
                current.head_of_module = module
                current_indent, comment = indent, []
                yield current
            elif current is not None:
                current.lines.append(line)
                if current.kind and inside and (part := CONSTRUCTOR.match(line)):
                    current.parts.append(part[1])

    @staticmethod
    def is_head(found, line, inside, in_type):
        """Whether a line begins a definition, and isn't an equation, a field, a constructor or a further line of one."""
        if in_type:
            return False
        if found["words"].strip() or found["kind"]:
            return True
        return not inside and "=" not in line.split(" : ")[0].split() and bool(re.match(r"[\w◌]", found["name"]))


def head_comment(lines):
    """The first sentence or so of the comment at the head of a file."""
    taken = []
    for line in lines:
        if not line.startswith("-- ") or line.startswith("-- ----"):
            break
        taken.append(line[3:].strip())
    return " ".join(taken)


def declared(module, name):
    """Of a name of a type of code as contracts see it: the file of the code, and the type. Else nothing."""
    crate, found, rest = module.removeprefix("Rattle.").partition(".specs.declared.")
    if not found:
        return None
    parts = rest.split(".")
    for count in range(len(parts), 0, -1):
        path = CRATES / crate / "src" / ("/".join(parts[:count]) + ".rt")
        if path.is_file():
            kind = parts[count] if count < len(parts) else name
            return path, name if kind.startswith("The") else kind
    path = CRATES / crate / "src" / "lib.rt"
    return (path, parts[0] if parts and not parts[0].startswith("The") else name) if path.is_file() else None
