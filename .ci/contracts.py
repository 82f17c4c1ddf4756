# Reads the contracts in the sources of the crates: functions, types and traits, with their clauses.
# .ci/promises looks up what the documents name.
import glob
import os
import re
import sys
from collections import defaultdict

# The crates that a user depends on: no examples, no callers and no tests.
LIBRARY = re.compile(r"utf16|utf8|dethrux")

# The layout of `rt fmt`: an item of a module begins in the first column, its members in the fifth.
PUB = r"(?P<pub>pub(?:\(\w+\))? )?"
TYPE = rf"{PUB}(?:unsafe )?(?:trait|struct|enum) (\w+)"
IMPL = r"(?:unsafe )?impl\b(?:<.*?>(?= ))? (.*?) ?\{"
BLOCK = re.compile(f"{TYPE}|{IMPL}")
FUNCTION = re.compile(rf"(?P<deep>    )?{PUB}(?:(?:const|unsafe|final|extern \"C\") )*fn (\w+)")
CLAUSE = re.compile(
    r" +(?:requires|ensures)\*? (?:(?P<name>\w+) )?\{|    ghost (?P<member>\w+)(?: =|:) \{"
)
USE = re.compile(r"^ *(?:ghost |pub )?use Rattle\.(\w+)\.specs\.(\w+)(?:\.\{(.*)\})?;?$", re.M)
WORD = re.compile(r"[^\W\d][\w-]*")
# What names something: in a source the word after such a word, in a module the first word.
DECLARED = re.compile(r"\b(?:fn|struct|enum|trait|const|mod|type|ghost) (\w+)|pub use ([^;]*);")
DEFINED = re.compile(r"^ *(?:(?:pub|abbrev|unfoldable|record|data|ruleset) +)*([^\s:({]+)", re.M)


def read(path):
    with open(path, encoding="utf-8") as it:
        return it.read()


def files_below(folder, ending):
    return sorted(glob.glob(f"{folder}/**/*{ending}", recursive=True))


class Item:
    """A function, a type, a trait or a trait's impl, with the texts of its clauses by name."""

    def __init__(self, crate, path, name, owner, trait, is_public):
        self.crate, self.path, self.name = crate, path, name
        self.owner, self.trait, self.is_public = owner, trait, is_public
        self.modules = path.split("/src/")[1][: -len(".rt")].split("/")
        self.scope = {crate, trait or owner, *self.modules}
        self.clauses = defaultdict(str)
        self.is_type = False

    def is_at(self, path):
        """Whether it can have this path. A function of a trait's impl has the trait's path."""
        return {*path} <= self.scope and (bool(path) or self.trait in (None, self.name))

    def is_of(self, place):
        return place in (self.crate, self.owner)

    def says(self):
        return f"{self.path}: {self.owner + '::' if self.owner else ''}{self.name}"


class Crate:
    def __init__(self, name):
        self.name, self.items = name, []
        self.sources = files_below(f"crates/{name}/src", ".rt")
        self.specs = files_below(f"crates/{name}/specs", ".antt")
        for path in self.sources:
            self.add_items(path)
        self.add_members()
        proofs = files_below(f"crates/{name}/proofs", ".antt")
        self.names = set()
        for path in self.sources:
            self.names |= {*WORD.findall(" ".join(map(" ".join, DECLARED.findall(read(path)))))}
        for path in (*self.specs, *proofs):
            self.names |= {os.path.basename(path)[: -len(".antt")], *DEFINED.findall(read(path))}
            self.names |= {it[1] for it in USE.findall(read(path)) if path.endswith("Lib.antt")}

    def add_items(self, path):
        block = item = None
        lines = read(path).split("\n")
        for at, line in enumerate(lines):
            if found := BLOCK.match(line):
                block = item = self.block(path, found)
                self.items.append(item)
            elif found := FUNCTION.match(line):
                item = self.function(path, found, block if found["deep"] else None)
                self.items.append(item)
            elif item and (found := CLAUSE.match(line)):
                owner = block if found["member"] else item
                name = found["name"] or found["member"] or ""
                owner.clauses[name] += text_of_clause(lines, at)
            elif line.startswith("}"):
                block = item = None
            elif re.match(r"(unsafe )?impl\b", line):
                sys.exit(f"contracts: {path}:{at + 1}: this head of an impl has several lines")

    def block(self, path, found):
        is_public = found["pub"] == "pub "
        if found[2]:
            item = Item(self.name, path, found[2], None, None, is_public)
            item.is_type = True
            return item
        trait, _, owner = re.sub(r"<.*?>+|\w+::", "", found[3]).rpartition(" for ")
        owner = WORD.match(owner)[0]
        return Item(self.name, path, trait or None, owner, trait or None, bool(trait))

    def function(self, path, found, block):
        if not block:
            return Item(self.name, path, found[3], None, None, found["pub"] == "pub ")
        # A function of a trait or of its impl is as public as the trait.
        is_public = found["pub"] == "pub " or block.is_public
        return Item(self.name, path, found[3], block.owner or block.name, block.trait, is_public)

    def add_members(self):
        """Hides the impls of private traits, and gives each type the members of its impls."""
        blocks = {it.name: it for it in self.items if it.is_type}
        for it in self.items:
            if it.trait in blocks and not blocks[it.trait].is_public:
                it.is_public = False
            if it.is_public and it.trait and it.trait == it.name and it.owner in blocks:
                for name, text in it.clauses.items():
                    blocks[it.owner].clauses[name] += text


def text_of_clause(lines, at):
    """A clause that begins in this line, up to the bracket that closes it."""
    depth, found = 0, []
    for line in lines[at:]:
        found.append(line)
        depth += line.count("{") - line.count("}")
        if depth <= 0:
            return "\n".join(found)


def module_of(crate, name):
    """The file of a module of definitions, which its crate may only re-export."""
    path = f"crates/{crate}/specs/{name}.antt"
    if os.path.isfile(path):
        return path
    library = f"crates/{crate}/specs/Lib.antt"
    uses = USE.findall(read(library)) if os.path.isfile(library) else []
    return next((module_of(it[0], name) for it in uses if it[1] == name), None)


def imports(path):
    """The modules of definitions that a file imports from, by the names that it imports."""
    found = {}
    for crate, module, names in USE.findall(read(path)):
        path = module_of(crate, module)
        found.update({it.strip(): path for it in names.split(",") if path})
    return found


class Crates:
    def __init__(self):
        rows = [it.split("#")[0].strip() for it in read("crates.txt").splitlines()]
        self.all = {it.name: it for it in (Crate(re.match(r"\w+", row)[0]) for row in rows if row)}
        self.items = defaultdict(list)
        for crate in self.all.values():
            for it in crate.items:
                self.items[it.name].append(it)
        # What may follow "of": a crate, a type or a trait.
        types = {it.name for its in self.items.values() for it in its if it.is_type}
        self.places = {*self.all, *types}

    def call(self, path, places, heading):
        """The items that a call means, one for each place; a LookupError if it is not just one."""
        *scope, name = path.split("::")
        its = [it for it in self.items[name] if it.is_at(scope)]
        if places:
            return [self.only([it for it in its if it.is_of(place)]) for place in places]
        crates = [it for it in (*scope, *heading) if it in self.all]
        types = [] if scope else [it for it in heading if it in self.places and it not in self.all]
        is_near = lambda it: it.crate in crates if crates else not it.crate.startswith("tests")
        is_of = lambda it: not types or not it.owner or it.owner in types
        return [self.only([it for it in its if is_near(it) and is_of(it)])]

    def only(self, its):
        # A trait's own function comes before the ones of its impls.
        its = [it for it in its if not it.trait] or its
        if not its:
            raise LookupError("is not there")
        if len(its) > 1:
            places = f"{its[0].says()} and {its[1].says()}"
            raise LookupError(f"is there twice, {places}: name its type or crate")
        return its[0]

    def has(self, name, crate):
        """Whether a crate has this name: a file, a module, a function, a definition or a lemma."""
        if re.search(r"[./]", name):
            files = (f"{at}/{name}{ending}" for at in (".", "src") for ending in ("", ".antt"))
            return any(glob.glob(f"crates/{crate}/{it}") for it in files)
        *scope, last = name.split("::")
        if not scope:
            return last in self.all[crate].names
        return any({crate, *scope} <= {*it.scope, it.owner} for it in self.items[last])
