"""Reads antt text: its `use` lines, its declarations, and the names that each of them cites.

It follows the toolchain's guide (primer-language.md, sections 4.1 to 4.8). A shape that it doesn't
know is a Fault, so that nothing is overlooked. A name counts as cited if it is written and isn't bound
by a λ, a `let`, a pattern, a binder `(x : A)`, a `where` block or a parameter. A field (`r .x`) or the
label of one (`record { x = .. }`) isn't a name.
"""

import re
from collections import namedtuple
from dataclasses import dataclass, field

Token = namedtuple("Token", "kind text parts line col first")
Use = namedtuple("Use", "kind path name public line")  # kind: item, module or glob
Group = namedtuple("Group", "open nodes line")

PART = r'(?:«[^»\n]*»|[^\s(){}.;,@"«»]+)'
LEX = re.compile(
    rf"(?P<space>[ \t\r\n]+)|(?P<note>--[^\n]*)|(?P<block>\{{-)"
    rf'|(?P<text>"(?:[^"\\]|\\.)*")|(?P<proj>\.{PART}(?:\.{PART})*)|(?P<dot>\.)'
    rf"|(?P<name>{PART}(?:\.{PART})*)|(?P<sign>[(){{}},;@])"
)
MARKS = {"pub", "abbrev", "unfoldable", "axiom"}
CLOSER = {"(": ")", "{": "}", "[": "]"}
WORDS = set(
    "data record deriving module where use mod pub package open as unfoldable abbrev axiom unfold unfolding "
    "ruleset mutual infix infixl infixr elim let in do λ ∀ Type 𝕀 𝔽 coe fcoe tcoe hcom com ∨ ∧ "
    ": = → × ↔ ↦ | ← _ ⊔ [ ] ⟦ ⟧".split()
)
NUMBER = re.compile(r"[0-9][0-9a-fA-FxobX_]*$")


class Fault(Exception):
    """Something that the reader doesn't know, or that leads nowhere."""


def plain(part):
    """«x» is x if x needs no quotes."""
    inner = part[1:-1] if part.startswith("«") else None
    return inner if inner and inner not in WORDS else part


def past_block(text, at, where):
    """The place after the comment {- .. -} that starts at `at`; they nest."""
    depth = 0
    for found in re.finditer(r"\{-|-\}", text[at:]):
        depth += 1 if found.group() == "{-" else -1
        if not depth:
            return at + found.end()
    raise Fault(f"{where}: a comment that doesn't end")


def lex(text, where, line=1):
    """The tokens of a text, without its comments."""
    tokens, at, start, fresh = [], 0, 0, True
    while at < len(text):
        found = LEX.match(text, at)
        if not found:
            raise Fault(f"{where}:{line}: not read: {text[at:at + 20]!r}")
        kind, end = found.lastgroup, found.end()
        if kind == "block":
            end = past_block(text, at, f"{where}:{line}")
        elif kind not in ("space", "note"):
            parts = tuple(map(plain, re.findall(PART, found.group()))) if kind in ("name", "proj") else ()
            tokens.append(Token(kind, found.group(), parts, line, at - start, fresh))
            fresh = False
        passed = text[at:end]
        if "\n" in passed:
            line, fresh, start = line + passed.count("\n"), True, at + passed.rindex("\n") + 1
        at = end
    return tokens


def is_word(token, *words):
    return isinstance(token, Token) and token.kind in ("name", "sign", "dot") and token.text in words


def grouped(tokens, where):
    """Tokens with each bracket and its contents as one Group."""
    stack = [Group("", [], tokens[0].line if tokens else 0)]
    for token in tokens:
        if is_word(token, "(", "{", "["):
            stack.append(Group(token.text, [], token.line))
        elif is_word(token, ")", "}", "]"):
            group = stack.pop()
            if not stack or CLOSER[group.open] != token.text:
                raise Fault(f"{where}:{token.line}: a bracket that wasn't opened")
            stack[-1].nodes.append(group)
        else:
            stack[-1].nodes.append(token)
    if len(stack) > 1:
        raise Fault(f"{where}:{stack[-1].line}: a bracket that isn't closed")
    return stack[0].nodes


def split(nodes, *words):
    """The parts of a row of nodes between those words."""
    parts = [[]]
    for node in nodes:
        if is_word(node, *words):
            parts.append([])
        else:
            parts[-1].append(node)
    return parts


def place(nodes, *words):
    """The place of the first of those words, or None."""
    return next((k for k, node in enumerate(nodes) if is_word(node, *words)), None)


# Use lines.


def is_name(node):
    return isinstance(node, Token) and node.kind == "name" and (node.text not in WORDS or node.text == "_")


def uses_in(nodes, public, where):
    """What a `use` line brings: items, modules, globs. nodes: what follows the word `use`."""
    line = nodes[0].line if nodes else 0
    unknown = Fault(f"{where}:{line}: a `use` line of a shape that isn't known")
    if not nodes or not is_name(nodes[0]):
        raise unknown
    head, rest = nodes[0].parts, nodes[1:]
    if not rest:
        if head[-1] == "*":
            return [Use("glob", head[:-1], "*", public, line)]
        return [Use("module", head, head[-1], public, line)]
    if len(rest) == 2 and is_word(rest[0], "as") and is_name(rest[1]) and len(rest[1].parts) == 1:
        return [Use("module", head, rest[1].parts[0], public, line)]
    if len(rest) == 2 and is_word(rest[0], ".") and isinstance(rest[1], Group) and rest[1].open == "{":
        return items_in(head, rest[1], public, where)
    raise unknown


def items_in(head, group, public, where):
    """The items of a list in braces, which may have lists in it."""
    rows = split(group.nodes, ",")
    if rows and not rows[-1]:
        rows.pop()
    found = []
    for row in rows:
        unknown = Fault(f"{where}:{group.line}: a `use` line of a shape that isn't known")
        if not row or not is_name(row[0]):
            raise unknown
        path, rest = head + row[0].parts, row[1:]
        if not rest:
            found.append(Use("item", path, path[-1], public, group.line))
        elif len(rest) == 2 and is_word(rest[0], "as") and is_name(rest[1]) and len(rest[1].parts) == 1:
            found.append(Use("item", path, rest[1].parts[0], public, group.line))
        elif len(rest) == 2 and is_word(rest[0], ".") and isinstance(rest[1], Group) and rest[1].open == "{":
            found += items_in(path, rest[1], public, where)
        else:
            raise unknown
    if not found:
        raise Fault(f"{where}:{group.line}: a `use` line that brings nothing")
    return found


# Declarations.


@dataclass
class Declaration:
    """A definition: its name, the telescopes around it, its signature and its clauses."""

    kind: str  # definition, data, record, axiom, open, ruleset
    names: list
    file: str
    telescopes: list = field(default_factory=list)
    levels: list = field(default_factory=list)
    signature: list = field(default_factory=list)
    unfolding: list = field(default_factory=list)
    clauses: list = field(default_factory=list)
    rows: list = field(default_factory=list)  # constructors or fields: names and type
    members: list = field(default_factory=list)  # names that lead to this declaration
    spans: list = field(default_factory=list)  # lines, first and last
    block: tuple = ()  # the lines of the `module _` headers around it
    public: bool = False
    parts: list = field(default_factory=list)  # the declarations of a `mutual` block

    @property
    def name(self):
        return self.names[0]

    @property
    def constructors(self):
        return [name for d in self.parts or [self] if d.kind == "data" for name in d.members]


@dataclass
class File:
    """A file of antt: what it brings in and what it declares, in order."""

    path: str
    uses: list = field(default_factory=list)
    mods: list = field(default_factory=list)
    declarations: list = field(default_factory=list)
    fixities: list = field(default_factory=list)  # names and line


def rows_at(tokens, col, where):
    """The tokens cut where a line starts at that column, outside brackets."""
    rows, depth = [], 0
    for token in tokens:
        if token.first and token.col == col and not depth:
            rows.append([])
        if not rows or token.first and token.col < col:
            raise Fault(f"{where}:{token.line}: a line left of its block")
        rows[-1].append(token)
        depth += is_word(token, "(", "{", "[") - is_word(token, ")", "}", "]")
    return rows


def read_file(text, path):
    """The file of a text."""
    file = File(path)
    read_block(file, lex(text, path), 0, [], ())
    return file


def read_block(file, tokens, col, telescopes, block):
    """Declarations of a file, a `module _` or a `mutual` block: those of one block are told."""
    last = None
    for row in rows_at(tokens, col, file.path):
        marks = set()
        while row and is_word(row[0], *MARKS) and row[0].text not in marks:
            marks.add(row[0].text)
            row = row[1:]
        last = read_row(file, row, marks, telescopes, block, last)


def span(row):
    return row[0].line, row[-1].line


def read_row(file, row, marks, telescopes, block, last):
    """One row of a block; the declaration that rows after it belong to."""
    head = row[0].text if row else ""
    if head == "use":
        file.uses += uses_in(grouped(row[1:], file.path), "pub" in marks, file.path)
    elif head == "mod" and len(row) == 2 and is_name(row[1]):
        file.mods.append(row[1].parts[0])
    elif head in ("infix", "infixl", "infixr"):
        file.fixities.append(([t.parts[-1] for t in row[1:] if t.kind == "name"], row[0].line))
    elif head == "module":
        read_module(file, row, telescopes, block)
    elif head == "mutual":
        read_mutual(file, row, telescopes, block)
    elif head in ("data", "record", "open", "ruleset"):
        read_named(file, row, head, telescopes, block, "pub" in marks)
    elif head == "unfolding":
        if not last:
            raise Fault(f"{file.path}:{row[0].line}: an `unfolding` line that stands alone")
        last.unfolding += row[1:]
        last.spans.append(span(row))
        return last
    else:
        return read_definition(file, row, marks, telescopes, block, last)
    return None


def under(row, where):
    """What comes before a row's first outer `where`, the block under it, and its column."""
    depth = 0
    for k, token in enumerate(row):
        depth += is_word(token, "(", "{", "[") - is_word(token, ")", "}", "]")
        if not depth and is_word(token, "where"):
            if k + 1 == len(row):
                return row[:k], [], 0
            if not row[k + 1].first:
                raise Fault(f"{where}:{token.line}: a block on the line of its `where`")
            return row[:k], row[k + 1:], row[k + 1].col
    return row, None, 0


def read_module(file, row, telescopes, block):
    head, body, col = under(row, file.path)
    if body is None or len(head) < 2 or not is_word(head[1], "_"):
        raise Fault(f"{file.path}:{row[0].line}: a `module` of a shape that isn't known")
    read_block(file, body, col, telescopes + [grouped(head[2:], file.path)], block + (span(head),))


def read_mutual(file, row, telescopes, block):
    """A `mutual` block counts as one declaration: citing one part of it cites all."""
    if len(row) < 2 or not row[1].first:
        raise Fault(f"{file.path}:{row[0].line}: a `mutual` of a shape that isn't known")
    inner, body, opened = File(file.path), row[1:], []
    if is_word(body[0], "unfolding"):
        first, *others = rows_at(body, body[0].col, file.path)
        opened, body = first[1:], [token for other in others for token in other]
    read_block(inner, body, body[0].col, telescopes, block)
    first, *others = inner.declarations
    every = [name for d in inner.declarations for name in d.names + d.members]
    merged = Declaration("mutual", first.names, file.path, block=block, public=first.public, unfolding=opened)
    merged.members = [name for name in every if name not in first.names]
    merged.parts, merged.spans = inner.declarations, [span(row)]
    file.fixities += inner.fixities
    file.declarations.append(merged)


def read_named(file, row, kind, telescopes, block, public):
    """A `data`, `record`, `open` or `ruleset`."""
    head, body, col = under(row, file.path)
    d = Declaration(kind, [], file.path, telescopes, spans=[span(row)], block=block, public=public)
    nodes = grouped(head[1:], file.path)
    if kind == "open":
        return read_open(file, d, nodes)
    if kind == "ruleset":
        at = place(nodes, "=", "where") or 1
        d.names, d.clauses = [nodes[0].parts[-1]], [([], grouped(row[1:], file.path)[at:], [])]
        return file.declarations.append(d)
    at = place(nodes, ":")
    if body is None or at is None or not is_name(nodes[0]):
        raise Fault(f"{file.path}:{row[0].line}: a `{kind}` of a shape that isn't known")
    d.names, d.signature = [nodes[0].parts[-1]], nodes[at + 1:]
    d.levels = [n for n in nodes[1:at] if isinstance(n, Group) and n.open == "{" and place(n.nodes, ":") is None]
    d.telescopes = telescopes + [[n for n in nodes[1:at] if n not in d.levels]]
    for line in rows_at(body, col, file.path) if body else []:
        read_member(d, line, file.path)
    file.declarations.append(d)


def read_member(d, row, where):
    """A constructor, a field, or what is derived."""
    while is_word(row[0], "pub"):
        row = row[1:]
    nodes = grouped(row, where)
    if is_word(nodes[0], "deriving"):
        if len(nodes) == 4 and is_word(nodes[2], "as"):
            d.rows.append(([], [nodes[1]]))
            d.members += nodes[3].parts
            return
        raise Fault(f"{where}:{row[0].line}: a `deriving` of a shape that isn't known")
    if is_word(nodes[0], "infix", "infixl", "infixr"):
        return
    at = place(nodes, ":")
    if at is None or not at or not all(is_name(n) for n in nodes[:at]):
        raise Fault(f"{where}:{row[0].line}: a row of a `{d.kind}` of a shape that isn't known")
    names = [n.parts[-1] for n in nodes[:at]]
    d.rows.append((names, nodes[at + 1:]))
    if d.kind == "data":
        d.members += names


def read_open(file, d, nodes):
    """open t use {x, y as z, f.{a}}: each name cites t."""
    at = place(nodes, "use")
    if not at or at + 2 != len(nodes) or not isinstance(nodes[-1], Group) or nodes[-1].open != "{":
        raise Fault(f"{file.path}:{d.spans[0][0]}: an `open` of a shape that isn't known")
    d.names = [use.name for use in items_in((), nodes[-1], False, file.path)]
    d.clauses = [([], nodes[:at], [])]
    file.declarations.append(d)


def read_definition(file, row, marks, telescopes, block, last):
    """A signature, which starts a definition, or a clause of the one before it."""
    head, body, _ = under(row, file.path)
    nodes = grouped(head, file.path)
    at = place(nodes, ":", "=")
    if at is not None and is_word(nodes[at], ":"):
        names = [n for n in nodes[:at] if isinstance(n, Token)]
        if body is not None or not names or not all(is_name(n) and len(n.parts) == 1 for n in names):
            raise Fault(f"{file.path}:{row[0].line}: a signature of a shape that isn't known")
        d = Declaration("axiom" if "axiom" in marks else "definition", [n.parts[0] for n in names], file.path)
        d.telescopes, d.block, d.public = telescopes, block, "pub" in marks
        d.levels = [n for n in nodes[:at] if isinstance(n, Group)]
        d.signature, d.spans = nodes[at + 1:], [span(row)]
        file.declarations.append(d)
        return d
    if last is None or at is None or not heads(nodes[:at], last.names):
        raise Fault(f"{file.path}:{row[0].line}: neither a declaration nor a clause of one")
    last.clauses.append((nodes[:at], nodes[at + 1:], body or []))
    last.spans.append(span(row))
    return last


def pieces(name):
    """The parts of an operator's name, or of a section of it: `◌+◌` and `◌+` have `+`."""
    return set() if name.startswith("«") else set(name.split("◌")) - {"", name}


def heads(left, names):
    """Whether the left side of a clause has one of the names, or a part of an operator."""
    words = {t.parts[0] for t in left if isinstance(t, Token) and t.kind == "name"}
    return any(words & {name, *pieces(name)} for name in names)


# What a declaration cites.


class Citing:
    """Gathers the names that some nodes cite. `is_constructor` says whether a name in a pattern is one."""

    def __init__(self, where, is_constructor):
        self.where, self.is_constructor, self.found = where, is_constructor, {}

    def cite(self, parts, line, bound):
        if parts[0] not in bound and not pieces(parts[0]) & bound:
            self.found.setdefault(parts, line)

    def bound_by(self, names):
        return {word for name in names for word in (name, *pieces(name))}

    def bind(self, nodes, bound, binders=False):
        """A pattern, or binders, which may have a constructor's name: adds what it binds to `bound`."""
        for at, node in enumerate(nodes):
            if isinstance(node, Group):
                self.bind_group(node, bound, at > 0 and is_word(nodes[at - 1], "record"))
            elif node.kind == "name" and node.text not in WORDS and not NUMBER.match(node.text):
                if len(node.parts) > 1 or not binders and self.is_constructor(node.parts[0]):
                    self.cite(node.parts, node.line, set())
                else:
                    bound |= self.bound_by(node.parts)

    def bind_group(self, group, bound, labelled):
        for row in split(group.nodes, ",", ";"):
            at = place(row, ":", "=")
            if at is None:
                self.bind(row, bound, group.open == "{")
            elif is_word(row[at], ":"):
                self.walk(row[at + 1:], bound)
                self.bind(row[:at], bound, True)
            elif labelled or group.open == "{":
                self.bind(row[at + 1:], bound)
            else:
                raise Fault(f"{self.where}:{group.line}: a pattern of a shape that isn't known")

    def walk(self, nodes, bound):
        """A term: `bound` is what is bound before it."""
        bound, at = set(bound), 0
        while at < len(nodes):
            node, at = nodes[at], at + 1
            if isinstance(node, Group):
                self.group(node, bound)
            elif node.kind != "name" or NUMBER.match(node.text):
                continue
            elif node.text == "λ":
                at = self.binders(nodes, at, bound)
            elif node.text == "let":
                at = self.let(nodes, at, bound)
            elif node.text == "record" and at < len(nodes) and isinstance(nodes[at], Group):
                at = self.record(nodes, at, bound)
            elif node.text in ("do", "open", "⟦", "⟧"):
                raise Fault(f"{self.where}:{node.line}: `{node.text}` in a term: a shape that isn't known")
            elif node.text not in WORDS:
                self.cite(node.parts, node.line, bound)

    def binders(self, nodes, at, bound):
        end = next((k for k in range(at, len(nodes)) if is_word(nodes[k], ".")), None)
        if end is None:
            raise Fault(f"{self.where}:{nodes[at - 1].line}: a λ without its dot")
        self.bind(nodes[at:end], bound, True)
        return end + 1

    def let(self, nodes, at, bound):
        """let pattern = e in: the pattern is bound from the `in` on."""
        depth, end = 1, at
        while end < len(nodes) and depth:
            depth += is_word(nodes[end], "let") - is_word(nodes[end], "in")
            end += 1
        row = nodes[at:end - 1]
        equal = place(row, "=")
        if depth or equal is None:
            raise Fault(f"{self.where}:{nodes[at - 1].line}: a `let` of a shape that isn't known")
        self.walk(row[equal + 1:], bound)
        typed = place(row[:equal], ":")
        if typed is not None:
            self.walk(row[typed + 1:equal], bound)
        self.bind(row[:equal if typed is None else typed], bound, True)
        return end

    def record(self, nodes, at, bound):
        """record { x = e; .. }, a value, or record { x : A; .. }, a type: later fields see the earlier."""
        inner = set(bound)
        for row in split(nodes[at].nodes, ";"):
            mark = place(row, ":", "=")
            if row and (mark is None or not mark):
                raise Fault(f"{self.where}:{nodes[at].line}: a record of a shape that isn't known")
            if row:
                self.walk(row[mark + 1:], inner)
                if is_word(row[mark], ":"):
                    inner |= self.bound_by(n.parts[0] for n in row[:mark])
        return at + 1

    def group(self, group, bound):
        """The contents of brackets; a binder (x : A) is bound after them too."""
        if group.open == "[":
            for row in split(group.nodes, "|"):
                self.case(row, bound)
            return
        for row in split(group.nodes, ","):
            mark = place(row, ":", "=")
            if mark is not None and all(is_name(n) for n in row[:mark]) and mark:
                self.walk(row[mark + 1:], bound)
                if is_word(row[mark], ":"):
                    bound |= self.bound_by(n.parts[0] for n in row[:mark])
            else:
                self.walk(row, bound)

    def case(self, row, bound):
        at = place(row, "↦")
        if at is None:
            return self.walk(row, bound)
        inner = set(bound)
        self.bind(row[:at], inner)
        self.walk(row[at + 1:], inner)

    def clause(self, left, right, where, bound):
        inner = set(bound)
        self.bind(left, inner)
        if where:
            self.helpers(where, inner)
        self.walk(right, inner)

    def helpers(self, tokens, bound):
        """A `where` block: its names are bound in it and in the clause."""
        block = File(self.where)
        read_block(block, tokens, tokens[0].col, [], ())
        if block.uses or block.mods:
            raise Fault(f"{self.where}:{tokens[0].line}: a header in a `where` block")
        for d in block.declarations:
            bound |= self.bound_by(d.names + d.members)
        for d in block.declarations:
            self.declaration(d, bound)

    def statement(self, d, bound=()):
        """The telescopes around a declaration and its signature; what is bound after the telescopes."""
        inner = set(bound)
        for nodes in d.telescopes:
            self.bind(nodes, inner, True)
        self.bind(d.levels, inner)
        self.walk(d.signature, inner)
        return inner

    def declaration(self, d, bound=()):
        for part in d.parts or [d]:
            inner = self.statement(part, bound)
            for token in d.unfolding + part.unfolding:
                self.cite(token.parts, token.line, set(bound))
            for names, nodes in part.rows:
                self.walk(nodes, inner)
                if part.kind == "record":
                    inner |= self.bound_by(names)
            for left, right, where in part.clauses:
                named = bool(left) and isinstance(left[0], Token) and left[0].parts[:1] == (part.name,)
                self.clause(left[1:] if named else left, right, where, inner)
