#!/usr/bin/env python3
"""Counts the places of issue 32's points in crates/*/src: the functions, types and constants with a line that a search finds.
docs/DESIGN-PASS.md says what became of them.

    tools/places.py             how many places each search finds
    tools/places.py POINT..     the same for some points, with each place
"""

import glob
import os
import re
import sys

os.chdir(os.path.dirname(os.path.dirname(os.path.abspath(__file__))))

ITEM = re.compile(r"^(?:    )?(?:pub(?:\(\w+\))? )?(?:unsafe )?(?:extern \"C\" )?(fn|struct|enum|const) (\w+)")
STEPS = "arena|copy|count_facts|emit|emit_records|equal_arms|facts|gate|hop_br|hop_cond_br|note|note_entries|output|reach|run|search|shorten|shortening|thread|tidy"
# Point, what is searched for, the crates, and the expression. Comments and `ghost use` lines are left out.
SEARCHES = [
    (1, "enums of the program's own", ".*", r"^\s*(pub )?enum \w+"),
    (1, "a refusal by its number", ".*", r"\bnumber: \w+(\.\w+)*,|\bnumber [!=]= 0|\brefused\(\w|\bnumber: u32"),
    (1, "a class or kind by its number", "codec|items|record_rules|layout|parts|replies|read|reasons|inst", r"\bclass: u32|\bclass [!=]= |^\s*\d+( \| \d+)* => |\brow\(\d+,|^(pub )?const \w+: u(8|32) = \d+;|\b(layout|parts)::\w+\(.*, \d\)|\b(span|start_of)\(.*, \d\)"),
    (1, "an op by its number", "ops", r"^\s*(\d|_) => |=> \d,$"),
    (1, "0 or another number for none", "facts|halivomue|replies|options|tidy|quote", r"\b(at|from|unknown|command|only\.at|value) [!=]= 0\b|\bBlockId\(160\)|\b160u32\b|NO_KIND|::Unknown|class == 0|WRONG|\bv < 2\b|ws\[k\] = 1"),
    (1, "a flag beside a value", ".*", r"^\s*(pub )?(good|more|edited|joined|hidden|tidy|moved): (bool|u32)"),
    (2, "functions that differ in a type, a size or a constant", ".*", r"^\s*(pub )?fn (refused|wide|retain_\w+|find|find_copy|add_value|add_copy|\w+_kept|copy|put_front|write_optional|read_optional|read_as|write_as|rewrite_\w+|next_hop|next_meeting|put_word|put_konst|shorten_(small|medium|half|large)|is_name|is_command|is_end|is_valued|too_long|one|two|three|row|put_digits)\("),
    (3, "while", ".*", r"\bwhile\b"),
    (4, "numbers of two values compared", ".*", r"\b\w+(\.\w+)*\.0 (==|!=) \w+(\.\w+)*\.0\b"),
    (4, "least, most, wide, bit, either, less", ".*", r"\bgeneral::least\(|\bmost\(|\bwide\(|\bbit\(|\beither\(|\bless\("),
    (4, "a test spelled out arm by arm", ".*", r"=> (true|false),$"),
    (4, "conversions and bytes by hand", ".*", r"fn \w+_(of|num|arg)\((op|x|kind): |\b(4294967296|16777216)\b"),
    (5, "six or more parameters", ".*", None),
    (5, "a fact in a contract", ".*", r"\b(Roomy|OneMore|NoMore|Kept|Fit|Four|Five|LaidOut|Sized|Room|Fits|n ≤ 4)\b"),
    (6, "arrays with a length or a partner", STEPS + "|roles|visit_mut|inst|shorten", r"\[(Reg|Code|BlockId|u32|bool|u64|u8); (4|5|160|320|756)\]"),
    (6, "words or bytes as a table", "facts|count_facts|note_entries", r"ROW|\[2 \* "),
    (7, "a switch on which question, step or form", ".*", r"\bmatch (question|part)\b|\bwhich == "),
]


def code_of(line):
    code = line.split("//")[0].rstrip()
    return "" if code.lstrip().startswith("ghost use") else code


def wide_functions(text):
    """The functions of a file with six or more parameters."""
    for found in re.finditer(r"\bfn (\w+)(?:<[^(]*>)?\(((?:[^()]|\([^()]*\))*)\)", text):
        if 6 <= len(re.findall(r"\w+: |\bself\b", re.sub(r"\([^()]*\)", "", found.group(2)))):
            yield found.group(1)


def places(crates, expression):
    for path in sorted(glob.glob("crates/*/src/**/*.rt", recursive=True)):
        if not re.fullmatch(crates, path.split("/")[1]):
            continue
        with open(path) as file:
            text = file.read()
        if expression is None:
            yield from (f"{path}: {name}" for name in wide_functions(text))
            continue
        item, seen = "", set()
        for line in map(code_of, text.split("\n")):
            item = m.group(2) if (m := ITEM.match(line)) else item
            if re.search(expression, line) and item not in seen:
                seen.add(item)
                yield f"{path}: {item}"


for point, what, crates, expression in SEARCHES:
    if len(sys.argv) > 1 and str(point) not in sys.argv[1:]:
        continue
    found = list(places(crates, expression))
    print(f"{point} {len(found):4}  {what}")
    if len(sys.argv) > 1:
        print("\n".join(f"        {place}" for place in found))
