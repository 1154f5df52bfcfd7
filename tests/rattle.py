"""Reads Rattle code: what a file imports, its declared types, its functions with their contracts.

Only what is outside of bodies is read. An item of an unknown shape is a Fault.
"""

import re
from collections import namedtuple
from dataclasses import dataclass, field

from antt import Fault, grouped, lex, uses_in

Clause = namedtuple("Clause", "kind name text line")
Function = namedtuple("Function", "name exported public parameters ghosts result clauses line text")
Declared = namedtuple("Declared", "kind name file lines variants types text")  # a struct or an enum

LITERAL = r"b?'(?:\\.|[^'\\\n])'|b?\"(?:\\.|[^\"\\])*\""
NOTE = re.compile(rf"({LITERAL})|//[^\n]*|/\*.*?\*/", re.S)
INNER = re.compile(r"#!\[[^\]\n]*\]")
ITEM = re.compile(
    r"(?:#\[[^\]\n]*\]\s*)*"
    r"(?:(?P<ghost>ghost use)\b|(?:pub(?:\([a-z]+\))?\s+)?(?:(?P<use>use)|(?P<mod>mod)|(?P<type>struct|enum)"
    r"|(?P<const>(?:const|static)(?!\s+fn\b))|(?P<alias>type)|(?P<impl>impl|trait)"
    r"|(?:const\s+)?(?:(?P<extern>extern \"C\")\s+)?(?P<fn>fn))\b)"
)
RESULT = re.compile(r"\s*(?:->\s*(?P<type>[^{]+?)\s*(?=\{|\bwhere\b|\brequires\b|\bensures\b|\bghost\b))?(?:where\b[^{]*?(?=\{|\brequires\b|\bensures\b|\bghost\b))?", re.S)
BRACKET = re.compile(rf"{LITERAL}|[(\[{{}}\])]")
BUILT_IN = set("u8 u16 u32 u64 usize i8 i16 i32 i64 isize f32 f64 bool mut static Option Result".split())
PATH = re.compile(r"'\w+|\d\w*|[A-Za-z_]\w*(?:::[A-Za-z_]\w*)*")


@dataclass
class Code:
    """A file of Rattle code."""

    path: str
    ghost: list = field(default_factory=list)
    uses: dict = field(default_factory=dict)  # name to path
    mods: list = field(default_factory=list)
    constants: dict = field(default_factory=dict)  # name to the item's text
    aliases: set = field(default_factory=set)
    types: dict = field(default_factory=dict)
    functions: dict = field(default_factory=dict)
    cycles: set = field(default_factory=set)  # of functions that call one another


def blanked(text):
    """The text with its comments as blanks, line for line."""
    return NOTE.sub(lambda m: m.group(1) or re.sub(r"[^\n]", " ", m.group()), text)


def closing(text, at, where):
    """The place after the bracket that closes the one at `at`."""
    depth = 0
    for found in BRACKET.finditer(text, at):
        if found.group() in "([{":
            depth += 1
        elif found.group() in ")]}":
            depth -= 1
            if not depth:
                return found.end()
    raise Fault(f"{where}: a bracket that isn't closed")


def past_angles(text, at):
    """The place after the type parameters at a place, if there are any, and after blanks."""
    depth, end = 0, at
    for found in re.finditer(r"->|[<>]|[^<>-]+|-", text[at:] if text[at:at + 1] == "<" else ""):
        depth += {"<": 1, ">": -1}.get(found.group(), 0)
        end = at + found.end()
        if not depth:
            break
    return end + len(text[end:]) - len(text[end:].lstrip())


def semicolon(text, at, where):
    """The place of the next semicolon outside of brackets."""
    while text[at:at + 1] not in ("", ";"):
        found = re.compile(LITERAL).match(text, at)
        at = found.end() if found else closing(text, at, where) if text[at] in "([{" else at + 1
    if at >= len(text):
        raise Fault(f"{where}: an item that doesn't end")
    return at


def read_code(text, path):
    code, text, at = Code(path), blanked(text), 0
    while text[at:].strip():
        at += len(text[at:]) - len(text[at:].lstrip())
        inner = INNER.match(text, at)
        if inner:
            at = inner.end()
            continue
        line = text.count("\n", 0, at) + 1
        found = ITEM.match(text, at)
        if re.match(r'(?:pub\s+)?extern\s+"C"\s*\{', text[at:at + 40]):
            raise Fault(f"{path}:{line}: C functions are declared, and nothing proves what they are said to do")
        if not found:
            raise Fault(f"{path}:{line}: an item of a shape that isn't known: {text[at:at + 40].split(chr(10))[0]}")
        at = read_item(code, text, at, found, line)
    return code


def read_item(code, text, at, found, line):
    """Reads one item; the place after it."""
    where, kind = f"{code.path}:{line}", found.lastgroup
    if kind == "fn":
        return read_function(code, text, found, line)
    if kind == "type":
        return read_type(code, text, found)
    if kind == "impl":
        end = closing(text, text.index("{", at), where)
        if "extern" in text[at:end]:
            raise Fault(f"{where}: an exported method: a shape that isn't known")
        return end
    tests = re.compile(r"\s+\w+\s*(?=\{)").match(text, found.end()) if kind == "mod" and "#[cfg(test)]" in found.group() else None
    if tests:
        return closing(text, tests.end(), where)
    end = semicolon(text, found.end(), where)
    inner = text[found.end():end].strip()
    if kind == "ghost":
        code.ghost += uses_in(grouped(lex(inner, code.path, line), where), False, code.path)
    elif kind == "use":
        read_use(code, inner, where)
    elif kind == "mod" and re.fullmatch(r"\w+", inner):
        code.mods.append(inner)
    elif kind == "const":
        code.constants[re.match(r"\w+", inner).group()] = f"const {inner};"
    elif kind == "alias":
        code.aliases.add(re.match(r"\w+", inner).group())
    else:
        raise Fault(f"{where}: an item of a shape that isn't known")
    return end + 1


def read_use(code, inner, where):
    """use a::b::C; use a::{self, B as E, c::{D}};"""
    found = re.fullmatch(r"(\w+(?:::\w+)*)(?: as (\w+))?|((?:\w+::)+)\{(.+)\}", inner, re.S)
    if not found:
        raise Fault(f"{where}: a `use` of a shape that isn't known: {inner}")
    if found.group(3):
        for part in parts_of(found.group(4), where):
            read_use(code, found.group(3) + part, where)
        return
    path = tuple(part for part in found.group(1).split("::") if part != "self" or found.group(1) == "self")
    code.uses[found.group(2) or path[-1]] = path


def parts_of(text, where):
    """Cuts at the commas outside brackets, those of type arguments too."""
    parts, at, start, angles = [], 0, 0, 0
    while at < len(text):
        if text[at] in "([{":
            at = closing(text, at, where)
            continue
        if text[at] in "<>" and text[at - 1:at + 1] != "->":
            angles += 1 if text[at] == "<" else -1
        if text[at] == "," and not angles:
            parts.append(text[start:at])
            start = at + 1
        at += 1
    return [p.strip() for p in parts + [text[start:]] if p.strip()]


def types_in(text):
    """The names of the types in a type, without the built-in ones."""
    words = [w for w in PATH.findall(text) if w[0] not in "'0123456789"]
    return [tuple(w.split("::")) for w in words if w not in BUILT_IN]


def fields_in(text, where):
    """The types of a struct's or a variant's fields: { a: T, pub b: U } or (T, pub U)."""
    types = []
    for part in parts_of(text[1:-1], where):
        part = re.sub(r"^pub\s+", "", part)
        types += types_in(part.split(":", 1)[1] if text[0] == "{" else part)
    return types


def read_type(code, text, found):
    line = text.count("\n", 0, found.end()) + 1
    where, kind = f"{code.path}:{line}", found.group("type")
    head = re.compile(r"\s+(\w+)\s*(?:<[^>]*>)?\s*(?=[{(;])").match(text, found.end())
    if not head:
        raise Fault(f"{where}: a {kind} of a shape that isn't known")
    at = end = head.end()
    if text[at] != ";":
        end = closing(text, at, where)
    body, variants = text[at:end], []
    if kind == "struct":
        types = fields_in(body, where) if body else []
        end = text.index(";", at) + 1 if text[at] != "{" else end
    else:
        types = []
        for part in parts_of(body[1:-1], where):
            part = re.sub(r"^#\[\w+\]\s*", "", part)
            name = re.match(r"\w+", part).group()
            variants.append(name)
            rest = part[len(name):].strip()
            types += fields_in(rest, where) if rest[:1] in ("(", "{") and rest else []
    lines = line, text.count("\n", 0, end) + 1
    name, whole = head.group(1), text[found.start():end]
    code.types[name] = Declared(kind, name, code.path, lines, variants, types, whole)
    return end


def read_function(code, text, found, line):
    where = f"{code.path}:{line}"
    head = re.compile(r"\s+(\w+)\s*").match(text, found.end())
    start = past_angles(text, head.end()) if head else 0
    if not head or text[start:start + 1] != "(":
        raise Fault(f"{where}: a function of a shape that isn't known")
    end = closing(text, start, where)
    parameters = {}
    for part in parts_of(text[start + 1:end - 1], where):
        name, _, kind = part.partition(":")
        parameters[re.sub(r"^mut\s+", "", name.strip())] = kind.strip()
    word = RESULT.match(text, end)
    result, at, clauses, ghosts = word.group("type") or "", word.end(), [], []
    while True:
        clause = re.compile(r"\s*((?:requires|ensures|ghost)\b\*?)\s*(\w+)?(\s*:)?\s*(?=\{)").match(text, at)
        if not clause:
            break
        at = closing(text, clause.end(), where)
        first = text.count("\n", 0, clause.end()) + 1
        if (clause.group(1) == "ghost") != bool(clause.group(3)):
            raise Fault(f"{where}: a clause of a shape that isn't known")
        ghosts += [clause.group(2)] if clause.group(3) else []
        clauses.append(Clause(clause.group(1), clause.group(2) or "", text[clause.end() + 1:at - 1], first))
    if not text[at:].lstrip().startswith("{"):
        raise Fault(f"{where}: a contract of a shape that isn't known")
    whole = found.group()
    code.cycles.update(re.findall(r"#\[cycle\((\w+)\)\]", whole))
    code.functions[head.group(1)] = Function(
        head.group(1), bool(found.group("extern")), "pub" in whole.split(), parameters, ghosts, result, clauses, line,
        text[found.start():at].rstrip(),
    )
    return closing(text, text.index("{", at), where)
