"""Says which items callers of a library name, and by which paths: its modules, and what `pub use` gives on.

`Libraries` has the modules of all of them. A name that comes from the kit is found nowhere.
"""

import collections
import dataclasses
import os

from sources import File, Item, libraries_in, type_name


@dataclasses.dataclass(eq=False)
class Definition:
    """An item with a name: where it is declared, and of a type or a trait the members and the impls."""

    module: "Module"
    item: Item
    members: list = dataclasses.field(default_factory=list)
    # The impls of traits for a type, and those of a trait: of each the module, the block and its members.
    impls: list = dataclasses.field(default_factory=list)

    @property
    def name(self):
        return self.item.name


class Module:
    """A module: its file, and by their names what it declares and what it brings in."""

    def __init__(self, crate, names, path, file, parent=None):
        self.crate = crate
        self.names = names
        self.path = path
        self.file = file
        self.parent = parent
        self.children = {}
        self.public = set()
        self.definitions = {}
        self.uses = {}

    @property
    def is_in_braces(self):
        return self.parent is not None and self.parent.path == self.path

    @property
    def inner(self):
        """The names of the modules in braces that it is, in its file."""
        return (*self.parent.inner, self.names[-1]) if self.is_in_braces else ()

    def docs(self):
        return [] if self.is_in_braces else self.file.docs()

    def with_children(self):
        yield self
        for child in self.children.values():
            yield from child.with_children()


class Libraries:
    """The modules of libraries, of which each is read when it is first asked for."""

    def __init__(self, top):
        self.top = top
        with open(os.path.join(top, "crates.txt"), encoding="utf-8") as it:
            self.names = libraries_in(it.read())
        self.roots = {}
        self.exported = {}

    def root(self, crate):
        if crate not in self.roots:
            self.roots[crate] = root = self.read(crate, (), f"crates/{crate}/src/lib.rt")
            self.attach(root)
        return self.roots[crate]

    def read(self, crate, names, path, parent=None):
        """A module from its file, with those below it."""
        with open(os.path.join(self.top, path), encoding="utf-8") as it:
            file = File("::".join([crate, *names]), it.read())
        return self.fill(Module(crate, names, path, file, parent))

    def fill(self, module):
        items = [item for item in module.file.items if item.modules == module.inner]
        for item in items:
            if not item.block or item.word == "trait":
                # A macro may have the name of another item.
                name = f"{item.name}!" if item.word == "macro" else item.name
                module.definitions[name] = Definition(module, item)
        for name, path, is_seen, inner in module.file.uses():
            if inner == module.inner:
                module.uses[name] = (path, is_seen)
        folder = module.path.removesuffix("lib.rt").removesuffix(".rt")
        for name, is_public, is_here, inner in module.file.modules():
            if inner != module.inner:
                continue
            names, path = (*module.names, name), os.path.join(folder, f"{name}.rt")
            if is_here:
                child = self.fill(Module(module.crate, names, module.path, module.file, module))
            else:
                child = self.read(module.crate, names, path, module)
            module.children[name] = child
            module.public |= {name} if is_public else set()
        return module

    def attach(self, root):
        """Gives the types and traits of a crate their members and impls."""
        for module in root.with_children():
            blocks = collections.defaultdict(list)
            for item in module.file.items:
                if item.block and item.modules == module.inner and item.word != "trait":
                    blocks[item.block].append(item)
            for block in [*blocks, *(it for it in module.file.blocks if it.is_impl_of_trait and it not in blocks)]:
                if module.file.modules_at(block.start) == module.inner:
                    self.attach_block(module, block, blocks[block])

    def attach_block(self, module, block, members):
        if not block.is_impl_of_trait:
            owner = self.find(module, [type_name(block.name)])
            if isinstance(owner, Definition):
                owner.members.extend((module, member) for member in members)
            return
        trait, _, its = block.name.partition(" for ")
        for name in (its, trait):
            owner = self.find(module, type_name(name).split("::"))
            if isinstance(owner, Definition) and owner.module.crate == module.crate:
                owner.impls.append((module, block, members))
                return

    def find(self, module, path, seen=frozenset()):
        """What a path names in a module: a `Module`, a `Definition`, or nothing."""
        first, *rest = path
        found = {"crate": self.root_of(module), "self": module, "super": module.parent}.get(first)
        found = found or self.find_name(module, first, seen)
        for name in rest:
            if not isinstance(found, Module):
                break
            found = self.find_name(found, name, seen)
        return found

    def find_name(self, module, name, seen):
        if name in module.children:
            return module.children[name]
        if name in module.definitions:
            return module.definitions[name]
        if name in module.uses and (module, name) not in seen:
            found = self.find(module, module.uses[name][0].split("::"), seen | {(module, name)})
            if found:
                return found
        return self.root(name) if name in self.names and name != module.crate else None

    @staticmethod
    def root_of(module):
        while module.parent:
            module = module.parent
        return module

    def exports(self, crate):
        """What callers of a crate name: the modules and the definitions, each with its paths."""
        if crate not in self.exported:
            self.exported[crate] = collections.defaultdict(list), collections.defaultdict(list)
            self.walk(self.root(crate), crate, (), *self.exported[crate])
        return self.exported[crate]

    def walk(self, module, path, trail, modules, found):
        if module in trail:
            return
        modules[module].append(path)
        its = [(name, definition) for name, definition in module.definitions.items()]
        its += [(name, module.children[name]) for name in module.children if name in module.public]
        its += [(name, self.find(module, [name])) for name, (_, is_seen) in module.uses.items() if is_seen]
        for name, it in its:
            if isinstance(it, Module):
                self.walk(it, f"{path}::{name}", (*trail, module), modules, found)
            elif it and not it.item.is_hidden:
                found[it].append(f"{path}::{name}")
