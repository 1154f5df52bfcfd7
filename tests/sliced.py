"""Writes what was reached, and nothing else of the repository, as one crate for the checker to read.

The crate `slice` holds the reached definitions and types, word for word, each in a module of its
file's name; the contracts that everything was reached from, on functions that only call themselves; and
the theorems' statements. If the checker finds every name in it, nothing that a contract depends on is
missing from what was reached.
"""

import os
import re
from collections import defaultdict

from antt import Declaration
from checker import command, crates, said
from rattle import Declared
from tree import Scope, Tool, place_of

SPECS = "Rattle.slice.specs"
OWN = re.compile(rf"\bRattle\.({'|'.join(crates())})\.specs\.(declared\.)?")

# What is said of each function of the slice.
OPEN = re.compile(r"fn slice::\S+: no proof: expected a measure in ")


def moved(text):
    """Whole names in a text, as the slice has them."""
    return OWN.sub(lambda m: f"{SPECS}.{m.group(2) or ''}{m.group(1)}.", text)


def module_of(file):
    """The slice's module of a file of definitions."""
    crate, *rest = file[len("crates/"):-len(".antt")].split("/")
    return (crate, *[part for part in rest[1:] if part != "Lib"])


class Slice:
    def __init__(self, tree, reached, roots, theorems):
        self.tree, self.theorems = tree, theorems
        self.definitions, self.types = defaultdict(list), defaultdict(list)
        self.roots = defaultdict(list)  # the functions by their file
        for target, _, _ in reached:
            if isinstance(target, Declaration):
                self.definitions[target.file].append(target)
            elif isinstance(target, Declared):
                self.types[target.file].append(target)
        for crate, code, function in roots:
            self.roots[code.path].append(function)

    def has(self, target):
        if isinstance(target, Declaration):
            return target in self.definitions.get(target.file, ())
        if isinstance(target, Declared):
            return target.name in {t.name for t in self.types.get(target.file, ())}
        return isinstance(target, Tool)

    # What a file brings in.

    def path_of(self, target, name):
        """The module and the name of a target in the slice."""
        if isinstance(target, Tool):
            return target.name[:-len(name) - 1], name
        if isinstance(target, Declaration):
            return ".".join((SPECS, *module_of(target.file))), name
        module = ".".join((SPECS, "declared", *parts_of(target.file), target.name))
        return (module, name) if name == target.name else (module + ".TheVariants", name)

    def brought(self, scope, uses):
        """The `use` lines of a file, without what wasn't reached."""
        for use in uses:
            path = scope.absolute(use.path, use)
            if use.kind == "item":
                target = self.tree.item(path, scope.where)
                if self.has(target):
                    module, name = self.path_of(target, path[-1])
                    yield f"use {module}.{{{name}{'' if name == use.name else ' as ' + use.name}}}"
            elif use.kind == "module" and self.keeps(path):
                yield f"use {moved('.'.join(path) + '.').rstrip('.')} as {use.name}"
            elif use.kind == "glob":
                for name in self.tree.public(path, scope.where):
                    target = self.tree.item(path + (name,), scope.where)
                    if self.has(target):
                        yield f"use {self.path_of(target, name)[0]}.{{{name}}}"

    def keeps(self, path):
        """Whether a module has something in the slice; those of the toolchain stay."""
        declared = self.tree.declared(path)
        file = self.tree.file_of(path)
        return self.has(declared[0]) if declared else file in self.definitions or os.path.isabs(file or "/")

    # Files.

    def text_of(self, file):
        """A file of definitions with only those that were reached, each on its own line."""
        read, lines = self.tree.antt(file), self.tree.read(file).split("\n")
        kept, names = set(), set()
        for d in self.definitions[file]:
            names |= {*d.names, *d.members}
            for first, last in (*d.block, *d.spans):
                kept |= set(range(first, last + 1))
        for words, line in read.fixities:
            if names & set(words):
                kept.add(line)
        header = list(self.brought(self.tree.scope(file), read.uses))
        return header + [moved(line) if k in kept else "" for k, line in enumerate(lines, 1)]

    def statement(self, d):
        """A theorem's telescopes and type, on a function that takes a proof of it."""
        lines = self.tree.read(d.file).split("\n")
        headers = [line for first, last in d.block for line in lines[first - 1:last]]
        first, last = d.spans[0]
        type_of = " ".join(lines[first - 1:last]).split(" : ", 1)[1]
        indent = "  " * len(d.block)
        header = list(self.brought(self.tree.scope(d.file), self.tree.antt(d.file).uses))
        return header + [""] + [moved(line) for line in headers] + [
            f"{indent}pub taken : ({moved(type_of)}) → Unit {{0}}", f"{indent}taken proof = tt"
        ]

    def code_of(self, file):
        """A file of Rattle code with the types that were reached, and the functions to start from."""
        code, lines = self.tree.code(*place_of(file)), []
        for name, path in code.uses.items():
            if re.fullmatch("[A-Z].*", path[-1]) and self.has(kind := self.tree.type_of(code, (name,))):
                lines.append("use " + "::".join(("crate", *parts_of(kind.file), kind.name)) + ";")
        if self.roots.get(file):
            scope = Scope(self.tree, file, code.ghost)
            lines += [f"ghost {line};" for line in self.brought(scope, code.ghost)]
        texts = [item.text for item in (*self.types.get(file, ()), *self.roots.get(file, ()))]
        lines += self.tree.constants_in(code, "\n".join(texts))
        lines += [t.text for t in self.types.get(file, ())]
        for function in self.roots.get(file, ()):
            lines += [function.text, "{", f"    {function.name}({', '.join(function.parameters)})", "}"]
        return lines

    def written(self, folder):
        """Writes the crate; its folder."""
        antt, code = {}, {}
        for file in self.definitions:
            antt[module_of(file)] = self.text_of(file)
        for theorem in self.theorems:
            antt[("Stated" + theorem.name.capitalize(),)] = self.statement(theorem)
        for file in {*self.types, *self.roots}:
            code[parts_of(file)] = self.code_of(file)
        crate = os.path.join(folder, "slice")
        write_modules(os.path.join(crate, "specs"), antt, "Lib", ".antt", "pub mod {}")
        write_modules(os.path.join(crate, "src"), code, "lib", ".rt", "pub mod {};")
        return crate


def parts_of(file):
    """The crate and modules of a file of code, as one path."""
    crate, modules = place_of(file)
    return crate, *modules


def write_modules(folder, texts, root, end, line):
    """Writes modules as files, each with the lines that name its children."""
    every = {module[:k] for module in texts for k in range(len(module) + 1)}
    for module in every:
        children = sorted(m[-1] for m in every if m and m[:-1] == module)
        path = os.path.join(folder, *module) if module else os.path.join(folder, root)
        os.makedirs(os.path.dirname(path), exist_ok=True)
        with open(path + end, "w") as out:
            out.write("\n".join([line.format(child) for child in children] + texts.get(module, [])) + "\n")


def check(folder):
    """The checker's errors about the crate. It must object to nothing but that no call of a function by itself is shown to end."""
    status, lines = said(folder, [*command("slice"), "--jobs", "2"])
    open_proofs = [line for line in lines if OPEN.match(line)]
    others = [line for line in lines if re.match(r"(fn|struct|enum) ", line) and not OPEN.match(line) and not line.endswith(": proved")]
    errors = [line for line in lines if re.search(r"\berror\b", line)]
    if status == 1 and lines[-1] == "logic=not-proved" and open_proofs and not others + errors:
        return []
    return [line[:400] for line in errors or others] or lines[-5:]
