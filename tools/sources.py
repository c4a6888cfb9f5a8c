"""The sources of the workspace, read once: each file's definitions with their lines, its imports, and what it cites.

checks/trusted, checks/noted, checks/unused and checks/documents ask different questions about the same files. What a definition, an
import and a public contract are is said here alone, so that they agree on it.
"""
import collections
import functools
import itertools
import os
import pathlib
import re
import shutil

from tools.workspace import CRATES

# (with its quotes, so that a string of one word names no definition)
NAME = r"[^\s(){}\[\];,:.&]+"
WORD = re.compile(NAME)
QUALIFIED = re.compile(rf"({NAME})\.({NAME})")
COMMENT = {".rt": re.compile(r"//.*"), ".antt": re.compile(r"(?:^|(?<=\s))--.*", re.M)}
LIBRARIES = "Rattle|base|mir|mathlib|antt"
IMPORT = re.compile(
    rf"^ *(?:pub )?(?:ghost )?use ((?:{LIBRARIES})\.[\w.-]+)(?:\.\{{([^}}]*)\}}| as (\S+?);?$)",
    re.M,
)
# A source names a lemma by its path: `crate::proofs::File::name`.
PATH = re.compile(rf"\b(crate|age_\w+)((?:\s*::\s*\w+)+)\s*::\s*({NAME})")
KEYWORDS = r"(?:(?:abbrev|unfoldable|opaque|pub|rec) )*"
RECORD = re.compile(rf"^( *){KEYWORDS}(?:record|data) (?:pub )?({NAME})")
VALUE = re.compile(rf"^( *){KEYWORDS}({NAME}) :(?: |$)")
# A type of the code: specs import it from `declared`, its file and its name, and its variants from below that.
TYPE = re.compile(
    r"^pub(?:\([^)]*\))? (?:struct|enum) (\w+)[^;{]*(?:\{.*?^\}|\{[^\n]*\}|;)", re.M | re.S
)
DECLARED = re.compile(r"(Rattle\.\w+\.specs\.declared\..*?\.(\w+?))(?:\.TheVariants)?")
# What a file passes on: a crate's definitions are imported from their folder, whose Lib.antt or inner.antt does so.
PASSED = re.compile(r"^(?:unfoldable )?pub use ([\w.]+)\.(\{.*\}|\*)$", re.M)
FUNCTION = re.compile(r'^ *(pub )?(?:const )?(?:unsafe )?(?:extern "C" )?fn (\w+)')
# Members of an impl that no contract shows.
HIDDEN = {"coded", "inverse", "also_owns", "valid", "from_gives"}


class Source:
    """A file of a crate: its definitions with the lines of each, those lines that belong to none, and its imports."""

    def __init__(self, path, root=CRATES):
        self.path, self.is_code, self.raw = path, path.suffix == ".rt", path.read_text()
        self.crate, self.folder, *parts = path.relative_to(root).with_suffix("").parts
        self.name = ".".join(parts)
        self.module = f"Rattle.{self.crate}.{self.folder}.{self.name}"
        text = COMMENT[path.suffix].sub("", self.raw)
        self.names, self.aliases = collections.defaultdict(list), {}
        for module, names, alias in IMPORT.findall(text):
            if alias:
                self.aliases[alias] = module
            for part in filter(None, (it.strip() for it in names.split(","))):
                self.names[part.split(" as ")[-1].strip()].append(
                    (module, part.split(" as ")[0].strip())
                )
        self.text = IMPORT.sub(lambda found: "\n" * found[0].count("\n"), text)
        self.definitions, self.heads = {}, {}
        self.outside = self.text.splitlines() if self.is_code else []
        if not self.is_code:
            self.cut()

    def cut(self):
        """Gives each definition its lines, and the heads of the modules with parameters that it stands in.

        A field of a record looks like a definition, so what is indented deeper than a record belongs to it.
        """
        owner, record, modules = None, None, [(-1, self.outside)]
        for line in filter(str.strip, self.text.splitlines()):
            indent = len(line) - len(line.lstrip())
            modules = [it for it in modules if it[0] < indent]
            kind, value = RECORD.match(line), VALUE.match(line)
            if line.startswith("module ", indent):
                owner, record = None, None
                modules.append((indent, []))
            elif kind:
                owner, record = kind[2], indent
            elif value and (record is None or indent <= record):
                owner, record = value[2], None
            if owner:
                self.definitions.setdefault(owner, []).append(line)
                self.heads[owner] = [head for _, head in modules]
            else:
                modules[-1][1].append(line)

    def cited_in(self, text, owner=None):
        """The definitions, by module and name, that a part of this file names: a part of `owner`, if it has one."""
        for word in set(WORD.findall(text)):
            yield from (definition(*it) for it in self.names.get(word, ()))
            if word in self.definitions and word != owner:
                yield self.module, word
        for alias, word in QUALIFIED.findall(text):
            if alias in self.aliases:
                yield definition(self.aliases[alias], word)
        yield from (definition(*it) for it in self.named_in(text))

    def named_in(self, text):
        """What a part of a source names by a path, such as `crate::proofs::File::name`."""
        for crate, path, word in PATH.findall(text) if self.is_code else ():
            yield ".".join(
                ["Rattle", self.crate if crate == "crate" else crate, *re.findall(r"\w+", path)]
            ), word

    @functools.cached_property
    def cites(self):
        """What each definition cites, itself or by the heads above it; and under None, what the other lines cite."""
        parts = {
            name: [*lines, *itertools.chain(*self.heads[name])]
            for name, lines in self.definitions.items()
        }
        parts[None] = self.outside
        return {name: set(self.cited_in("\n".join(lines), name)) for name, lines in parts.items()}

    @property
    def heading(self):
        """What the comment at the head of the file says, up to its first empty line."""
        return re.match(r"(?:-- .*\n)*", self.raw)[0].replace("-- ", "").replace("\n", " ").strip()

    def types(self):
        """The types that the code declares, each like a file that defines it alone, and cites nothing."""
        for found in TYPE.finditer(self.raw):
            lines = [
                it for it in found[0].splitlines() if it.strip() and not re.match(r" *(//|#\[)", it)
            ]
            module = f"Rattle.{self.crate}.specs.declared.{self.name}.{found[1]}"
            yield Type(self.crate, module, {found[1]: lines}, {found[1]: set()})

    def contracts(self, exported):
        """The name and text of each contract that a user of the crate sees, where these names are exported; ghost fields of types too."""
        lines, owner, is_trait = self.text.split("#[cfg(test)]")[0].splitlines(), None, False
        for i, line in enumerate(lines):
            trait = re.match(r"^pub trait (\w+)", line)
            block = re.match(r"^pub (?:struct|enum) (\w+).*\{$", line) or re.match(
                r"^impl\b(?:<.*?>)? (?:[\w:]+(?:<.*>)? for )?(\w+)", line
            )
            if trait or block or line == "}":
                owner = (trait or block).group(1) if trait or block else None
                is_trait = bool(trait) or bool(block and " for " in line)
            is_seen = owner is None or owner in exported
            ghost, function = re.match(r"^    ghost (\w+)", line), FUNCTION.match(line)
            if ghost and owner and is_seen and ghost[1] not in HIDDEN:
                yield f"{owner}::{ghost[1]}", until_closed(lines, i)
            elif (
                function
                and is_seen
                and (function[1] or is_trait)
                and (owner or function[2] in exported)
            ):
                yield f"{owner}::{function[2]}" if owner else function[2], until_body(lines, i)


Type = collections.namedtuple("Type", "crate module definitions cites")
source = functools.cache(Source)


def sources(folder, crate="*"):
    """The files of a folder (src, specs or proofs) of one crate or of all, in the order of their paths."""
    ending = "rt" if folder == "src" else "antt"
    return [source(it) for it in sorted(CRATES.glob(f"{crate}/{folder}/**/*.{ending}"))]


def kit_specs():
    """The definitions of the kit's crates."""
    folder = pathlib.Path(os.path.realpath(shutil.which("rt"))).parent.parent / "rattle"
    return [Source(it, folder) for it in sorted(folder.glob("*/specs/**/*.antt"))]


@functools.cache
def passed_on(module):
    """What a module passes on from others, or a crate's folder of specs, of inner ones or of lemmas from its files: each name's definition."""
    _, crate, *within = module.split(".")
    folder = CRATES.joinpath(crate, *within)
    file = next(
        (it for it in (folder / "Lib.antt", folder.with_suffix(".antt")) if it.exists()), None
    )
    names = {}
    for home, several in PASSED.findall(file.read_text()) if file else ():
        home = home if home.startswith("Rattle.") else f"{module}.{home}"
        if several == "*":
            defined = source(CRATES.joinpath(*home.split(".")[1:]).with_suffix(".antt")).definitions
            names |= {name: (home, name) for name, lines in defined.items() if "pub " in lines[0]}
        else:
            names |= {
                it.split(" as ")[-1]: (home, it.split(" as ")[0])
                for it in several[1:-1].split(", ")
            }
    return names


def definition(module, name):
    """A definition by its module and name, wherever it is imported from; of a type of the code, whichever of its names is used."""
    if re.match(r"Rattle\.age_", module):
        module, name = passed_on(module).get(name, (module, name))
    declared = DECLARED.fullmatch(module)
    return (declared[1], declared[2]) if declared else (module, name)


def used(tree):
    """The paths that a tree of `use` names: each ends in a name, as it was before an `as`, or in `*`."""
    outer, path = [()], ()
    for token in [*re.findall(r"[{},*]|\w+", re.sub(r"\bas \w+", "", tree)), ","]:
        if token == "{":
            outer.append(path)
        elif token not in ("}", ","):
            path += (token,)
        else:
            if path not in ((), outer[-1]):
                yield path
            # (what a closing brace belongs to has been told)
            path = outer.pop() and () if token == "}" else outer[-1]


def exported_names(crate, name=None):
    """What the crate's root makes public, or one of its modules, with what it takes from others."""
    files = [
        it
        for it in sources("src", crate)
        if it.name == name or name is None and it.name in ("lib", "main")
    ]
    text = "\n".join(it.text for it in files)
    names = set(re.findall(r"pub (?:const )?(?:fn|struct|enum|trait|type) (\w+)", text))
    within = f"{name}." if name else ""
    for module in re.findall(r"\bpub mod (\w+);", text):
        names |= exported_names(crate, within + module)
    for *path, last in (it for tree in re.findall(r"pub use ([^;]+);", text) for it in used(tree)):
        module = ".".join(it for it in path if it not in ("crate", "self"))
        of_root = path[:1] == ["crate"]
        if last in ("*", "self"):
            names |= exported_names(crate, module if of_root else within + module)
        else:
            names.add(last)
    return names


def loose_files(crate):
    """The files of src that no module names, and that no check reads."""
    named = {"lib", "main"}
    for file in sources("src", crate):
        within = "" if file.name in named & {"lib", "main"} else f"{file.name}."
        named |= {within + it for it in re.findall(r"\bmod (\w+);", file.text)}
    return [it for it in sources("src", crate) if it.name not in named]


def until_body(lines, start):
    """A function's head: its lines from start up to its body, or to the semicolon of a trait's function."""
    head, depth = [], 0
    for line in lines[start:]:
        if head and not depth and re.match(r"^ *\{", line):
            break
        head.append(line)
        code = re.sub(r"//.*", "", line).rstrip()
        depth += code.count("{") - code.count("}")
        # (a comment between two clauses may end in a semicolon, and so may a record's field within one)
        is_closed = re.search(r"(^|\W)\{\}$", code) or not depth and code.endswith(";")
        if is_closed or depth == 1 and re.search(r"(^|\W)\{$", code):
            break
    return "\n".join(head)


def until_closed(lines, start):
    """A ghost member: its lines from start until its braces are closed."""
    member = ""
    for line in lines[start:]:
        member += line + "\n"
        if member.count("{") == member.count("}"):
            break
    return member
