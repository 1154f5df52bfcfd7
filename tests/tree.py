"""What a name leads to, in the repository's crates and in the toolchain's library.

The name of a definition leads to a Declaration of antt.py, that of a type of the code to a Declared
of rattle.py, one of the toolchain's library to a Tool, and one that the prover makes from a function to
a Made. Anything else, and an import that leads nowhere, is a Fault.

If the text is ambiguous, more is taken as cited: an operator's part cites all operators in scope that
have it.
"""

import functools
import glob
import json
import os
import re
import subprocess
from collections import deque, namedtuple

from antt import Citing, Declaration, Fault, grouped, lex, pieces, read_file
from rattle import Declared, read_code, types_in

Tool = namedtuple("Tool", "name")
Made = namedtuple("Made", "name")  # by the prover, of a function's code
OWNER = "Rattle"  # the first name of the path to a crate's module: Rattle.CRATE.specs.M

# The names of antt's prelude that are used here; its text isn't part of the toolchain's kit.
PRELUDE = set("IsProp IsSet ⊥ absurd ¬◌ Dec yes no Discrete ∥◌∥₁ ∣◌∣₁ squash₁ Unit tt Id J Path refl".split())
PRELUDE |= set("rw rw⁻¹ simp search grw cc omega grind hlevel assumption first_of cap".split())
# What every clause of a contract has without a `ghost use` (`rattle check --help`), with the result of an `ensures`.
LENT = set("⌜◌⌝ ∀ₛ ∃ₛ ◌∧ₛ◌ ◌∨ₛ◌ ◌→ₛ◌ ◌∗◌ ◌-∗◌ ⊤ₛ ⊥ₛ ◌>>=◌ ◌>>◌ 𝓤 𝓛 result Some None Ok Err".split())


def kit():
    """The folder that has the toolchain's sources of the logic and of its crates."""
    guide = subprocess.run(["rt", "doc"], capture_output=True, text=True, check=True).stdout.strip()
    return os.path.join(os.path.dirname(guide), "rattle")


def crate_of(path):
    """The crate that the name of a module, or of what is in one, begins with, and its side; or None."""
    return path[1:3] if path[0] == OWNER and len(path) > 2 and path[2] in ("specs", "proofs") else None


class Scope:
    """What a file's names mean: its declarations, then its imports, then what it is lent."""

    def __init__(self, tree, where, uses, module=(), declarations=(), mods=(), lent=frozenset()):
        self.tree, self.where, self.module, self.mods, self.lent = tree, where, module, mods, lent | PRELUDE
        self.names, self.aliases, self.parts = {}, {}, {}
        for use in uses:
            if use.kind == "module":
                self.aliases[use.name] = use.path
        for declaration in declarations:
            for name in declaration.names + declaration.members:
                self.bring(name, declaration)
        for use in uses:
            path = self.absolute(use.path, use)
            if use.kind == "item":
                self.bring(use.name, tree.item(path, f"{where}:{use.line}"), path[-1])
            elif use.kind == "module" and not tree.is_module(path):
                raise Fault(f"{where}:{use.line}: `use {'.'.join(use.path)}` leads nowhere")
            elif use.kind == "glob":
                for name in tree.public(path, f"{where}:{use.line}"):
                    if name not in self.names:
                        self.bring(name, tree.item(path + (name,), where))

    def bring(self, name, target, own=None):
        """A name here, what it leads to, and what it is called there."""
        self.names[name] = target, own or name
        for piece in pieces(name):
            self.parts.setdefault(piece, []).append((target, own or name))

    def absolute(self, path, use=None):
        """A path from its library on: it may begin with a child or with a name that a `use` line brings."""
        if path[0] == "package":
            return path[1:]
        if path[0] in self.mods:
            return self.module + path
        if path[0] in self.aliases and self.aliases[path[0]] != (use.path if use else None):
            return self.absolute(self.aliases[path[0]], use) + path[1:]
        return path

    def brought(self, name):
        """What the file declares or brings in by a name, an operator's part or a section."""
        if name in self.names:
            return [self.names[name]]
        return self.parts.get(name) or [row for piece in pieces(name) for row in self.parts.get(piece, [])]

    def single(self, name):
        """What one word leads to: a list, since an operator's part may be that of several."""
        if self.brought(name):
            return [target for target, _ in self.brought(name)]
        lent = {name} | pieces(name)
        if any(lent & ({word} | pieces(word)) for word in self.lent):
            return [Tool("Prim." + name)]
        return []

    def targets(self, parts, line=0):
        """What a name that is written here leads to."""
        where, found, path = f"{self.where}:{line}", self.single(parts[0]), self.absolute(parts)
        if len(parts) == 1 and not found:
            raise Fault(f"{where}: the name `{parts[0]}` leads nowhere (the prelude's stand in tests/tree.py)")
        if len(parts) == 1 or found and (path == parts or parts[1] in members(found[0])):
            return found  # with a dot: a member of a type, or a field
        if path != parts or parts[0] == "package" or self.tree.is_library(path[0]):
            return [self.tree.item(path, where)]
        raise Fault(f"{where}: the name `{'.'.join(parts)}` leads nowhere")

    def is_constructor(self, name):
        """Whether a name in a pattern is a constructor's; a name of the toolchain's is taken to be."""
        for target, own in self.brought(name):
            if isinstance(target, Declaration):
                return own in target.constructors
            return isinstance(target, Tool) or own in members(target)
        return False


def members(target):
    """The names that may follow a type's name and a dot."""
    if isinstance(target, Declared):
        return target.variants
    return target.members if isinstance(target, Declaration) else ()


def project(folder):
    """The project file of a library of the logic."""
    with open(os.path.join(folder, "antt-project.json")) as text:
        return json.load(text)


def mounts(folder):
    """The libraries that a project mounts: name to folder."""
    return {name: os.path.normpath(os.path.join(folder, to)) for name, to in project(folder)["mounts"].items()}


def source_of(folder):
    return os.path.normpath(os.path.join(folder, project(folder).get("src", "src")))


# std passes on the types of core.
PASSED_ON = {"std": ("std", "core")}


class Tree:
    def __init__(self, root):
        self.root, self.home = root, kit()
        with open(os.path.join(root, "crates.txt")) as lines:
            self.crates = [found.group(1) for line in lines if (found := re.match(r"\s*(\w+)\b[^:#]*:", line))]
        self.libraries = {name: source_of(folder) for name, folder in mounts(os.path.join(self.home, "logic")).items()}
        self.kit_crates = {name for name in os.listdir(self.home) if os.path.isdir(os.path.join(self.home, name, "src"))}

    def is_library(self, name):
        return name in self.libraries or name in (OWNER, "Prim")

    def read(self, path):
        with open(os.path.join(self.root, path)) as text:
            return text.read()

    # Modules.

    def file_of(self, path):
        """The file of a module's whole name, or None: relative to the root for a crate's."""
        if crate_of(path):
            crate, side = crate_of(path)
            folder, rest = os.path.join("crates" if crate in self.crates else self.home, crate, side), path[3:]
        elif path[0] in self.libraries:
            folder, rest = self.libraries[path[0]], path[1:]
        else:
            return None
        for file in (os.path.join(folder, *rest), os.path.join(folder, *rest, "Lib")):
            if rest and os.path.isfile(os.path.join(self.root, file + ".antt")):
                return file + ".antt"
        top = os.path.join(folder, "Lib.antt")
        return top if not rest and os.path.isfile(os.path.join(self.root, top)) else None

    def is_made(self, path):
        """Whether the prover makes the module, from a function, a cycle of functions or a type."""
        if not crate_of(path) or len(path) < 4:
            return False
        crate, side = crate_of(path)
        if side == "specs":
            return path[3] == "contracts"
        if crate in self.kit_crates - set(self.crates):
            return True
        for k in range(3, len(path)):
            code = self.code(crate, path[3:k])
            names = set(path[k].strip("+").split("+"))
            if code and names <= {*code.functions, *code.types, *code.cycles}:
                return True
        return False

    def declared(self, path):
        """The type that specs.declared.PATH.T leads to, with what is left of the path, or None."""
        if not crate_of(path) or path[2:4] != ("specs", "declared") or path[1] not in self.crates:
            return None
        for k in range(4, len(path)):
            code = self.code(path[1], path[4:k])
            if code and path[k] in code.types:
                return code.types[path[k]], path[k + 1:]
        return None

    def is_constant(self, path):
        """Whether specs.declared.PATH.TheConstants.C stands in the code of a crate of the repository."""
        if not crate_of(path) or path[2:4] != ("specs", "declared") or path[1] not in self.crates or path[-2] != "TheConstants":
            return False
        code = self.code(path[1], path[4:-2])
        return bool(code) and path[-1] in code.constants

    def is_kits_type(self, path):
        """Whether specs.declared.PATH.T, or a variant there, stands in the code of a crate of the toolchain."""
        if not crate_of(path) or path[2:4] != ("specs", "declared") or path[1] in self.crates or len(path) < 6:
            return False
        inner = path[4:-2] if path[-2] != "TheVariants" else path[4:-3]
        sources = [os.path.join(self.home, crate, "src", *inner) for crate in PASSED_ON.get(path[1], (path[1],))]
        ends = (".rt", "/mod.rt") if inner else ("/lib.rt",)
        files = [source + end for source in sources for end in ends]
        texts = [self.read(file) for file in files if os.path.isfile(file)]
        word = rf"\b(?:struct|enum) {path[-1]}\b" if path[-2] != "TheVariants" else rf"(?m)^ +{path[-1]}\b"
        return any(re.search(word, text) for text in texts)

    def is_module(self, path):
        if path[0] == "Prim" or self.file_of(path) or self.is_made(path):
            return True
        found = self.declared(path)
        return bool(found) and found[1] in ((), ("TheVariants",))

    @functools.lru_cache(maxsize=None)
    def antt(self, path):
        """The file of antt at that path."""
        return read_file(self.read(path), os.path.relpath(path, self.home) if os.path.isabs(path) else path)

    @functools.lru_cache(maxsize=None)
    def code(self, crate, modules):
        """The file of Rattle code of a module, or None."""
        source = os.path.join("crates", crate, "src")
        names = [os.path.join(source, *modules) + ".rt", os.path.join(source, *modules, "mod.rt")]
        if not modules:
            names = [os.path.join(source, "lib.rt"), os.path.join(source, "main.rt")]
        found = [name for name in names if os.path.isfile(os.path.join(self.root, name))]
        return read_code(self.read(found[0]), found[0]) if found else None

    # Names of modules.

    def exported(self, path):
        """name -> declaration of a module's file, and its uses that pass names on."""
        file = self.antt(self.file_of(path))
        own = {name: d for d in file.declarations for name in d.names + d.members}
        return own, [use for use in file.uses if use.public], file

    def public(self, path, where):
        """The names that a glob of that module brings."""
        if not self.file_of(path):
            raise Fault(f"{where}: `use {'.'.join(path)}.*` leads nowhere")
        own, passed, file = self.exported(path)
        names = [name for d in file.declarations if d.public for name in d.names + d.members]
        for use in passed:
            names += self.public(path + use.path, where) if use.kind == "glob" else [use.name]
        return names

    def item(self, path, where):
        """What a whole name leads to."""
        nowhere = Fault(f"{where}: `{'.'.join(path)}` leads nowhere")
        if path[0] == "Prim" and len(path) > 1:
            return Tool(".".join(path))
        if len(path) < 2 or not self.is_library(path[0]):
            raise nowhere
        declared = self.declared(path)
        if declared:
            kind, rest = declared
            if rest == (kind.name,) or rest[:1] == ("TheVariants",) and rest[1:] and rest[1] in kind.variants:
                return kind
            raise nowhere
        if self.is_constant(path):
            return Made(".".join(path))
        if self.is_kits_type(path):
            return Tool(".".join(path))
        if self.is_made(path[:-1]) and not self.file_of(path[:-1]):
            return (Made if path[1] in self.crates else Tool)(".".join(path))
        file = next((file for k in range(len(path) - 1, 0, -1) if (file := self.file_of(path[:k]))), "")
        return self.tool(path, nowhere) if os.path.isabs(file) else self.defined(path, where, nowhere)

    def defined(self, path, where, nowhere):
        """A definition of a crate: in the module that the path names, or in a type of it."""
        for k in range(len(path) - 1, 1, -1):
            if self.file_of(path[:k]):
                own, passed, file = self.exported(path[:k])
                if path[k] in own:
                    return own[path[k]]
                scope = Scope(self, file.path, [], path[:k], mods=file.mods)
                for use in passed:
                    if use.kind == "item" and use.name == path[k]:
                        return self.item(scope.absolute(use.path), where)
                    if use.kind == "module" and use.name == path[k] and k + 1 < len(path):
                        return self.item(scope.absolute(use.path) + path[k + 1:], where)
                    if use.kind == "glob" and path[k] in self.public(scope.absolute(use.path), where):
                        return self.item(scope.absolute(use.path) + path[k:], where)
                break
        raise nowhere

    def tool(self, path, nowhere):
        """A name of the toolchain's library, which must have it: any word of a file that can't be read."""
        for k in range(len(path) - 1, 0, -1):
            file = self.file_of(path[:k])
            if file:
                try:
                    read = self.antt(file)
                    names = {name for d in read.declarations for name in d.names + d.members}
                    names |= {use.name for use in read.uses if use.public} | set(read.mods)
                    for use in read.uses:
                        if use.public and use.kind == "glob":
                            names |= set(self.public(path[:k] + use.path, file))
                except Fault:
                    names = {part for token in lex(self.read(file), file) for part in token.parts}
                if path[k] in names:
                    return Tool(".".join(path))
                break
        raise nowhere

    # What is reached.

    @functools.lru_cache(maxsize=None)
    def scope(self, file):
        """The scope of a crate's file of antt."""
        read = self.antt(file)
        crate, *rest = file[len("crates/"):-len(".antt")].split("/")
        module = (OWNER, crate) + tuple(part for part in rest if part != "Lib")
        return Scope(self, file, read.uses, module, read.declarations, tuple(read.mods))

    def cited(self, declaration, statement=False):
        """What a definition leads to, or its statement alone."""
        scope = self.scope(declaration.file)
        citing = Citing(declaration.file, scope.is_constructor)
        (citing.statement if statement else citing.declaration)(declaration)
        return [target for parts, line in citing.found.items() for target in scope.targets(parts, line)]

    def type_of(self, code, path):
        """The type that a name of Rattle code means."""
        crate, modules = place_of(code.path)
        if path[0] in code.uses:
            path = code.uses[path[0]] + path[1:]
        elif len(path) == 1 and path[0] in code.types:
            return code.types[path[0]]
        elif len(path) == 1 and path[0] in code.constants:
            return None
        elif path[0] in code.aliases:
            raise Fault(f"{code.path}: `{path[0]}` is another name for a type: a shape that isn't known")
        if path[0] == "crate":
            path, modules = path[1:], ()
        elif path[0] in self.crates and path[0] not in code.mods:
            crate, path, modules = path[0], path[1:], ()
        elif path[0] == "super":
            path, modules = path[1:], modules[:-1]
        found = path and self.code(crate, modules + path[:-1])
        if found and path[-1] in found.constants:
            return None
        if not found or path[-1] not in found.types:
            raise Fault(f"{code.path}: the type `{'::'.join(path)}` leads nowhere")
        return found.types[path[-1]]

    def constants_in(self, code, text):
        """The constants that a text of Rattle code names, its file's own and those of other crates, as items."""
        for name in sorted({*re.findall(r"\b[A-Z][A-Z0-9_]*\b", text)}):
            crate, *path = code.uses.get(name, (None, name))
            there = self.code(crate, tuple(path[:-1])) if crate in self.crates else code
            if there and path[-1] in there.constants:
                yield there.constants[path[-1]]

    def types_of(self, declared):
        """The types of a declared type's fields."""
        code = self.code(*place_of(declared.file))
        return [found for path in declared.types if (found := self.type_of(code, path))]

    def contract(self, code, function):
        """What a function's contract and its types lead to."""
        scope = Scope(self, code.path, code.ghost, lent=frozenset(LENT))
        found = []
        for clause in function.clauses:
            where = f"{code.path}:{clause.line}"
            citing = Citing(where, scope.is_constructor)
            bound = {*function.parameters, *function.ghosts}
            citing.walk(grouped(lex(clause.text, code.path, clause.line), where), bound)
            for parts, line in citing.found.items():
                found += scope.targets(parts, line)
        for text in [*function.parameters.values(), function.result]:
            found += [kind for path in types_in(text) if (kind := self.type_of(code, path))]
        return found

    def sources(self, crate):
        """The files of Rattle code of a crate."""
        pattern = os.path.join(self.root, "crates", crate, "src", "**", "*.rt")
        for file in sorted(glob.glob(pattern, recursive=True)):
            crate, modules = place_of(os.path.relpath(file, self.root))
            yield self.code(crate, modules)

    def code_faults(self, crate):
        """What is unknown in a crate's code, or leads nowhere from its contracts: the first fault, or none."""
        try:
            for code in self.sources(crate):
                Scope(self, code.path, code.ghost)
        except Fault as fault:
            return [str(fault)]
        return []

    def reached(self, start):
        """All that some targets lead to, each with who cites it and what it was reached from."""
        met, found, queue = set(), [], deque(start)
        while queue:
            target, by, root = queue.popleft()
            key = id(target) if isinstance(target, Declaration) else target[:3]
            if key in met:
                continue
            met.add(key)
            found.append((target, by, root))
            if isinstance(target, (Tool, Made)):
                continue
            onward = self.cited(target) if isinstance(target, Declaration) else self.types_of(target)
            queue += [(t, target.name, root) for t in onward]
        return found


def place_of(path):
    """The crate and the modules of a file of Rattle code."""
    parts = path[:-len(".rt")].split("/")
    modules = tuple(parts[3:])
    if modules[-1:] == ("mod",) or modules in (("lib",), ("main",)):
        modules = modules[:-1]
    return parts[1], modules
