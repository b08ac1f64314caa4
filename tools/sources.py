"""Reads the sources of this repository: what a file of Rattle shows to callers, with its comments and clauses.

`File` is one file. `clauses` yields each clause as one line of text, by the place that it is known by. `items`
yields each item as it stands, with its comment. The scripts of this folder and bench/growth import this module.
"""

import bisect
import collections
import dataclasses
import functools
import re

# What may hold a brace that is none: comments, strings, raw strings and characters.
OPAQUE = re.compile(
    r"//[^\n]*|/\*.*?\*/|b?r(#*)\".*?\"\1|b?\"(?:\\.|[^\"\\])*\"|b?'(?:\\(?:u\{[^}]*\}|x..|.)|[^'\\\n])'", re.DOTALL
)
COMMENT = re.compile(r"//[^\n]*|/\*.*?\*/", re.DOTALL)
# A pattern that says first by which letters it begins is found three times as fast.
PUBLIC = r"(?<![\w#])(?P<pub>pub(?:\([^)]*\))?\s+)?"
# An array in the head of an impl has a `;` of its own.
BLOCK = re.compile(
    r"(?=[puit])" + PUBLIC + r"(?:unsafe\s+)?(?P<word>impl|trait)\b(?P<head>(?:[^{;\[]|\[[^\]{}]*\])*)\{"
)
FUNCTION = re.compile(r"(?=[pcuf])" + PUBLIC + r"(?:const\s+|unsafe\s+)*fn\s+(?P<name>\w+)")
ITEM = re.compile(
    r"(?=[psectum])(?<![\w#])(?P<pub>pub\s+)?"
    r"(?P<word>struct|enum|type|const|static|use|mod)\s+(?!fn\b|unsafe\b)(?P<name>\w*)"
)
CLAUSE = re.compile(r"\s*(?P<kind>(?:requires|ensures)\*?|ghost(?=\s))\s*(?P<name>[^\s:{]*)\s*:?\s*\{")
GHOST = re.compile(r"(?=g)\bghost\s+(?!use\b)(?P<name>[\w-]+)\s*[:=]\s*\{")
FIELD = re.compile(r"\s*(?:pub(?:\([^)]*\))?\s+)?(?P<ghost>ghost\s+)?(?P<name>\w+)\s*:(?!:)")
VARIANT = re.compile(r"\s*(?P<name>\w+)")
END_OF_SIGNATURE = re.compile(r"\b(?:requires|ensures|ghost)\b|[{;]")
BLANK = re.compile(r"\s*")
HEAD = re.compile(r"->|\bwhere\b|[<>{(;]")
STOP = re.compile(r"[][(){},;]")
WORDS = re.compile(r"(?=g)(?<!\w)ghost\s+use\s+(?P<path>[^;]*);")
MACRO = re.compile(r"(?=m)(?<!\w)macro_rules!\s*(?P<name>\w+)")
BODY = re.compile(r"\s*([{;])")
ATTRIBUTE = re.compile(r"#\[\s*(?P<name>[\w:]+)")


class Failure(Exception):
    """A source or a revision that cannot be read."""


@dataclasses.dataclass(frozen=True)
class Place:
    """What a clause is known by: a type, a trait or a module, a function of it, and a name of its own."""

    of: str
    function: str
    clause: str

    def __str__(self):
        return " ".join(it for it in (self.of, self.function, self.clause) if it)


def libraries_in(crates_txt):
    """The crates that another crate uses, in the order of their lines in a text of crates.txt."""
    lines = [line.split(":", 1) for line in crates_txt.splitlines() if re.match(r"\w+\s*:", line)]
    used = {name for _, uses in lines for name in uses.split()}
    return [name.strip() for name, _ in lines if name.strip() in used]


def plain(text):
    """A text without comments and layout: what ends a line, as the last `;` of a record, may be left out."""
    return " ".join(re.sub(r";(?=\s*\})", " ", COMMENT.sub(" ", text)).split())


def masked(text):
    """The text without what stands in comments and strings, and as long."""
    return OPAQUE.sub(lambda it: re.sub(r"[^\n]", " ", it[0]), text)


def end_of(mask, start):
    """Where the brace that opens before `start` is closed."""
    return end_of_part(mask, start, "}")


def end_of_part(mask, start, stops):
    """Where the first of some letters stands that is in no brackets which open behind `start`."""
    depth = 0
    for it in STOP.finditer(mask, start):
        if not depth and it[0] in stops:
            return it.start()
        depth += 1 if it[0] in "([{" else -1 if it[0] in ")]}" else 0
    raise Failure("a bracket is never closed")


def parts(mask, start, end):
    """Where each part of a list lies that commas part, but for those in brackets."""
    first, open_ones = start, []
    for it in re.finditer(r"->|[][(){}<>,]", mask[start:end]):
        # In braces stand terms, where `<` is no bracket.
        if it[0] in ("[", "(", "{") or it[0] == "<" and "{" not in open_ones:
            open_ones.append(it[0])
        elif it[0] in ("]", ")", "}") or it[0] == ">" and "{" not in open_ones:
            open_ones.pop()
        elif it[0] == "," and not open_ones:
            yield first, start + it.start()
            first = start + it.end()
    if mask[first:end].strip():
        yield first, end


def name_of(head):
    """The trait and the type of an impl or a trait, without what stands in angle brackets before them."""
    head = plain(head).split(" where ")[0]
    depth, start = 0, 0
    if head.startswith("<"):
        for at, letter in enumerate(head.replace("->", "  ")):
            depth += {"<": 1, ">": -1}.get(letter, 0)
            if not depth:
                start = at + 1
                break
    return re.sub(r"'\w+\s?", "'_ ", head[start:].strip()).replace("'_ ,", "'_,").replace("'_ >", "'_>")


@dataclasses.dataclass(frozen=True)
class Block:
    """An impl or a trait: where it and its members begin and end, and whether its members are public by it."""

    word: str
    start: int
    inner: int
    end: int
    name: str
    head: str
    is_public: bool

    @property
    def is_impl_of_trait(self):
        return self.word == "impl" and self.is_public


@dataclasses.dataclass(frozen=True)
class Item:
    """What callers see of an item: its comment, its head as it stands with the clauses of a function, the impl or
    the trait around it, the modules in braces around it, and of a type its fields or variants. Its word is its
    keyword, or `field`, `ghost` or `variant`."""

    word: str
    name: str
    start: int
    docs: list
    head: list
    is_hidden: bool
    block: Block | None
    modules: tuple
    parts: tuple
    # Of a type what stands behind its head, `;`, `(` or `{`, and whether a field is private.
    shape: str = ";"
    has_private: bool = False

    def declaration(self):
        """The lines of what declares a type, a constant or a macro: `..` stands for what is private, and a value of
        several lines is left out."""
        *before, last = [f"macro_rules! {self.name}"] if self.word == "macro" else self.head
        if self.word in ("const", "static") and before:
            return [before[0].partition(" = ")[0] + ";"]
        if self.shape == ";":
            return [*before, last + ("" if self.word == "macro" else ";")]
        left_out = [".."] if self.has_private else []
        if self.shape == "(":
            return [*before, f"{last}({', '.join([part.head[0] for part in self.parts] + left_out)});"]
        lines = []
        for part in self.parts:
            lines += [f"    /// {line}".rstrip() for line in part.docs] + [f"    {line}" for line in part.head]
            lines[-1] += ","
        if not lines:
            return [*before, f"{last} {{ .. }}"]
        return [*before, last + " {", *lines, *(f"    {it}" for it in left_out), "}"]


class File:
    """A file of a library."""

    def __init__(self, module, text):
        self.module = module
        self.text = text
        self.mask = masked(text)
        # The attributes of what begins at a place, and where each begins that ends at a place.
        self.attributes = collections.defaultdict(list)
        self.attribute_starts = {}
        self.read_attributes()
        self.blocks = list(self.read_blocks())
        # Where functions have their bodies, in which nothing is public. No body has another of these in it.
        self.bodies = []
        self.functions = list(self.read_functions())
        self.others = [it for it in ITEM.finditer(self.mask) if not self.is_in_body(it.start())]
        # The modules in braces: by where each begins its name and where it ends.
        self.inline = {}
        for it in self.others:
            body = BODY.match(self.mask, it.end()) if it["word"] == "mod" else None
            if body and body[1] == "{":
                self.inline[it.start()] = it["name"], end_of(self.mask, body.end())

    def read_attributes(self):
        found = []
        for it in ATTRIBUTE.finditer(self.mask):
            end = end_of_part(self.mask, it.end(), "]") + 1
            found.append((it["name"], plain(self.text[it.start() : end])))
            self.attribute_starts[end] = it.start()
            behind = BLANK.match(self.mask, end).end()
            if not self.mask.startswith("#[", behind):
                self.attributes[behind] = found
                found = []

    def read_blocks(self):
        """The impls and traits."""
        for it in BLOCK.finditer(self.mask):
            # In a signature `impl` begins a type.
            before = self.end_before(it.start())
            if before and self.mask[before - 1] not in ";{}]":
                continue
            head = plain(self.text[it.start("head") : it.end("head")])
            is_trait = it["word"] == "trait"
            is_public = it["pub"] == "pub " if is_trait else " for " in head
            name = re.match(r"\w*", head)[0] if is_trait else name_of(head)
            yield Block(it["word"], it.start(), it.end(), end_of(self.mask, it.end()), name, head, is_public)

    def block_at(self, at):
        """The innermost block that has a place in it, if any."""
        around = [block for block in self.blocks if block.inner <= at < block.end]
        return around[-1] if around else None

    def block_around(self, at):
        """The name and the head of the innermost block that has a place in it, and whether it is public."""
        block = self.block_at(at)
        return (block.name, block.head, block.is_public) if block else ("", "", False)

    def end_before(self, at):
        """Where the text before a place ends, without the white space behind it."""
        while at and self.mask[at - 1].isspace():
            at -= 1
        return at

    def is_in_body(self, at):
        before = bisect.bisect_left(self.bodies, (at, 0))
        return before > 0 and at < self.bodies[before - 1][1]

    def attributes_at(self, at, of, function="", before=""):
        """The attributes and derives of what begins at a place."""
        for name, said in self.attributes.get(at, []):
            if name not in ("derive", "derive_where"):
                yield Place(of, function, f"{before}#[{name}]"), said
                continue
            start = said.index("(") + 1
            traits, semicolon, bounds = said[start:-2].partition(";")
            for its in filter(None, map(str.strip, traits.split(","))):
                yield Place(of, function, f"{before}derive {its}"), f"{name}({its}{semicolon}{bounds})"

    def clauses(self):
        """Yields the places and the texts of the clauses of the file."""
        yield from self.clauses_of_functions()
        for block in self.blocks:
            if block.is_public:
                yield Place(block.name, "", block.word), block.head
                yield from self.attributes_at(block.start, block.name)
        for it in GHOST.finditer(self.mask):
            of, _, is_public = self.block_around(it.start())
            if is_public and not self.is_in_body(it.start()):
                end = end_of_part(self.mask, it.start(), ";}")
                yield Place(of, "", f"ghost {it['name']}"), plain(self.text[it.start() : end])
        for it in self.others:
            yield from self.clauses_of_item(it)

    def read_functions(self):
        """Of each function the match of its name, its clauses, and where its head ends."""
        for it in FUNCTION.finditer(self.mask):
            if not self.is_in_body(it.start()):
                found, head_end, end = clauses_of_function(self.text, self.mask, it)
                self.bodies.append((it.end(), end))
                yield it, found, head_end

    def clauses_of_functions(self):
        for it, found, _ in self.functions:
            of, head, is_public = self.block_around(it.start())
            if is_public or is_pub(it):
                for clause, said in found:
                    yield Place(of, it["name"], clause), said
                # The head of a trait, and of an impl of one, is a clause of its own.
                if not is_public and ":" in head.replace("::", ""):
                    yield Place(of, it["name"], "bounds"), head
                yield from self.attributes_at(it.start(), of, it["name"])

    def clauses_of_item(self, it):
        of, _, is_public = self.block_around(it.start())
        word, name = it["word"], it["name"]
        if not (it["pub"] or is_public and word in ("type", "const")):
            return
        if word in ("struct", "enum"):
            yield from self.clauses_of_type(it)
            return
        if word == "mod":
            # It may have its items in braces behind it, which are read as others are.
            yield Place(self.module, "", f"pub mod {name}"), "pub mod"
            yield from self.attributes_at(it.start(), self.module, "", f"pub mod {name} ")
            return
        said = plain(self.text[it.start() : end_of_part(self.mask, it.end(), ";")])
        if word == "use":
            for its, path in used_names(said.removeprefix("pub use ")):
                yield Place(self.module, "", f"pub use {its}"), path
                yield from self.attributes_at(it.start(), self.module, "", f"pub use {its} ")
        else:
            yield Place(of, "", f"{word} {name}"), said
            yield from self.attributes_at(it.start(), of, "", f"{word} {name} ")

    def clauses_of_type(self, it):
        """What a struct or an enum shows of itself."""
        word, name = it["word"], it["name"]
        yield from self.attributes_at(it.start(), name)
        opened, end = self.ends_of_type(it)
        head = plain(self.text[it.start("name") : opened])
        if self.mask[opened] == "(":
            # Behind the fields of a tuple stand its bounds.
            head = f"{head} {plain(self.text[end + 1 : end_of_part(self.mask, end + 1, ';')])}".strip()
        yield Place(name, "", word), head
        order = []
        for kind, its, start, stop in self.parts_of_type(word, opened, end):
            if kind:
                yield Place(name, "", f"{kind} {its}"), plain(self.text[start:stop])
                yield from self.attributes_at(start, name, "", f"{kind} {its} ")
            if kind != "ghost" and (kind or order[-1:] != [".."]):
                order.append(its if kind else "..")
        yield Place(name, "", "variants" if word == "enum" else "fields"), ", ".join(order) or "none"

    def ends_of_type(self, it):
        """Where the head of a struct or an enum ends, and where its list of fields or variants does."""
        opened = end_of_head(self.mask, it.end())
        return opened, opened if self.mask[opened] == ";" else end_of_part(self.mask, opened + 1, "})")

    def parts_of_type(self, word, opened, end):
        """Of each field or variant what it is, or nothing if it is private, its name, and where it lies."""
        for number, (start, stop) in enumerate(parts(self.mask, opened + 1, end)):
            start = behind_attributes(self.mask, start)
            match = (VARIANT if word == "enum" else FIELD).match(self.mask, start)
            yield *part_of_type(word, match, number, plain(self.text[start:stop])), start, stop

    @functools.cached_property
    def items(self):
        """What callers may see of the file, in its order: each public item and each member of a public trait and
        of an impl of a trait, whether or not its module is public."""
        return sorted([*self.items_of_functions(), *self.other_items()], key=lambda it: it.start)

    def items_of_functions(self):
        for it, _, head_end in self.functions:
            block = self.block_at(it.start())
            if is_pub(it) or block and block.is_public:
                yield self.item("fn", it["name"], it.start(), head_end)

    def other_items(self):
        for it in self.others:
            block = self.block_at(it.start())
            if not (it["pub"] or block and block.is_public):
                continue
            word = it["word"]
            if word in ("struct", "enum"):
                opened, end = self.ends_of_type(it)
                its = list(self.parts_of_type(word, opened, end))
                parts_seen = [self.item(kind, name, *place) for kind, name, *place in its if kind]
                type_item = self.item(word, it["name"], it.start(), opened, parts_seen)
                has_private = len(parts_seen) < len(its)
                yield dataclasses.replace(type_item, shape=self.mask[opened], has_private=has_private)
            elif word not in ("mod", "use"):
                yield self.item(word, it["name"], it.start(), end_of_part(self.mask, it.end(), ";"))
        for it in GHOST.finditer(self.mask):
            block = self.block_at(it.start())
            if block and block.is_public and not self.is_in_body(it.start()):
                yield self.item("ghost", it["name"], it.start(), end_of_part(self.mask, it.start(), ";}"))
        for it in MACRO.finditer(self.mask):
            if ("macro_export", "#[macro_export]") in self.attributes.get(it.start(), []):
                yield self.item("macro", it["name"], it.start(), it.end())
        for block in self.blocks:
            if block.word == "trait" and block.is_public:
                yield self.item("trait", block.name, block.start, block.inner - 1)

    def item(self, word, name, start, end, its=()):
        docs, head, is_hidden = self.docs_at(start), self.lines_of(start, end), self.is_hidden(start)
        return Item(word, name, start, docs, head, is_hidden, self.block_at(start), self.modules_at(start), tuple(its))

    def is_hidden(self, start):
        return any("doc(hidden)" in said for _, said in self.attributes.get(start, []))

    def line_at(self, at):
        """The number of the line of a place."""
        return self.text.count("\n", 0, at) + 1

    def lines_of(self, start, end):
        """The lines of a part of the text, without the indentation of the first one."""
        indent = " " * (start - self.text.rfind("\n", 0, start) - 1)
        return [line.removeprefix(indent) for line in self.text[start:end].rstrip().split("\n")]

    def docs_at(self, at):
        """The comment of what begins at a place: its lines without the slashes."""
        lines = []
        while True:
            # In the text a comment ends there, which the mask has not.
            while at and self.text[at - 1].isspace():
                at -= 1
            if at in self.attribute_starts:
                at = self.attribute_starts[at]
                continue
            start = self.text.rfind("\n", 0, at) + 1
            line = self.text[start:at].strip()
            if not line.startswith("///"):
                return lines[::-1]
            lines.append(line[3:].removeprefix(" "))
            at = start

    def docs(self):
        """The comment of the file itself."""
        lines = (line.strip() for line in self.text.split("\n"))
        return [line[3:].removeprefix(" ") for line in lines if line.startswith("//!")]

    def modules(self):
        """The modules that the file declares: of each the name, whether it is public, whether it stands in braces
        here, and the modules in braces around it."""
        for it in self.others:
            if it["word"] == "mod":
                yield it["name"], bool(it["pub"]), it.start() in self.inline, self.modules_at(it.start())

    def modules_at(self, at):
        """The names of the modules in braces around a place."""
        return tuple(name for start, (name, end) in self.inline.items() if start < at < end)

    def uses(self):
        """The names that `use` brings into the file: of each the path behind it, whether callers see it, and the
        modules in braces around it."""
        for it in self.others:
            if it["word"] == "use" and not self.mask.endswith("ghost", 0, self.end_before(it.start())):
                said = plain(self.text[it.start() : end_of_part(self.mask, it.end(), ";")])
                is_seen = bool(it["pub"]) and not self.is_hidden(it.start())
                for name, path in used_names(re.sub(r"^(pub )?use ", "", said)):
                    yield name, path, is_seen, self.modules_at(it.start())

    def words(self):
        """The words that `ghost use` brings into the file for its clauses, and the module that has each."""
        for it in WORDS.finditer(self.mask):
            module, _, names = plain(self.text[it.start("path") : it.end("path")]).partition(".{")
            for name in names.rstrip(" }").split(","):
                yield name.split(" as ")[-1].strip(), module


def type_name(name):
    """The name of a type without what stands in angle brackets."""
    depth = 0
    kept = ""
    for letter in name.replace("->", "  "):
        depth += letter == "<"
        kept += "" if depth else letter
        depth -= letter == ">"
    return kept.strip()


def is_pub(match):
    return (match["pub"] or "").strip() == "pub"


def end_of_head(mask, start):
    """Where what follows the name of a struct or an enum, and its parameters and bounds, begins."""
    depth = 0
    stops = "{(;"
    for it in HEAD.finditer(mask, start):
        if it[0] == "where":
            stops = "{;"
        elif not depth and it[0] in stops:
            return it.start()
        depth += {"<": 1, ">": -1}.get(it[0], 0)
    raise Failure("a type has no end")


def behind_attributes(mask, start):
    """Where what has attributes before it begins."""
    start = BLANK.match(mask, start).end()
    while mask.startswith("#[", start):
        start = BLANK.match(mask, end_of_part(mask, start + 2, "]") + 1).end()
    return start


def part_of_type(word, match, number, said):
    """Whether a part of a type is a variant, a public field, a ghost field, or else, and its name."""
    if word == "enum":
        return "variant", match["name"]
    is_public = said.startswith("pub ")
    if match and match["ghost"] and not is_public:
        return "ghost", match["name"]
    return "field" if is_public else None, match["name"] if match else str(number)


def used_names(tree, path=""):
    """The names that a `use` makes, and the paths behind them."""
    tree = tree.strip()
    before, brace, inner = tree.partition("{")
    if brace:
        inner = inner.rstrip().removesuffix("}")
        for start, end in parts(inner, 0, len(inner)):
            yield from used_names(inner[start:end], path + before)
        return
    before, _, name = (path + tree).partition(" as ")
    before = before.removesuffix("::self")
    yield name or before.split("::")[-1], before


def clauses_of_function(text, mask, function):
    """The clauses of a function with its signature, where these end, and where its body ends."""
    at = function.end()
    stop = END_OF_SIGNATURE.search(mask, at)
    # An array's length has a `;` that ends nothing.
    while stop and stop[0] == ";" and mask.count("[", at, stop.start()) > mask.count("]", at, stop.start()):
        stop = END_OF_SIGNATURE.search(mask, stop.end())
    if not stop:
        raise Failure(f"{function['name']} has no body")
    found = [("signature", plain(text[function.start() : stop.start()]))]
    at = stop.start()
    counts = collections.Counter()
    while it := CLAUSE.match(mask, at):
        end = end_of(mask, it.end())
        name = f"{it['kind']} {it['name']}".strip()
        counts[name] += 1
        number = f" {counts[name]}" if counts[name] > 1 else ""
        found.append((name + number, plain(text[it.end() : end])))
        at = end + 1
    body = BODY.match(mask, at)
    if not body:
        raise Failure(f"what stands behind the clauses of {function['name']} is neither a body nor a clause")
    if body[1] == ";":
        return found, body.end(), body.end()
    return found, body.start(), end_of(mask, body.end())
