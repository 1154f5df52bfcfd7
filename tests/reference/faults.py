"""Single faults in the published text: each changes one condition, one line or one name.

A fault is a file, a place, the text there and the text that replaces it. The published text itself
isn't kept here; the faults are found in it by rules.
"""

import re
from dataclasses import dataclass

STEPS = ["counts", "dupable", "small", "latch", "reads_konst", "code", "edit", "thread",
         "emit", "note", "equal_arms", "may_thread", "has_back_edge", "slice_tests", "run"]
KINDS = ["Const", "ConstF", "Move", "AddrOf", "Select", "Cmp", "Bool", "Bin", "BinRange", "Load",
         "Store", "Check", "MakeDope", "DopeLen", "BoundsLen", "Alloc", "TakeBounds", "CallNative",
         "Br", "CondBr", "Case", "Ret", "Unreachable", "Stmt"]


@dataclass
class Fault:
    file: str
    where: str
    start: int
    end: int
    new: str
    what: str

    def apply(self, text):
        return text[:self.start] + self.new + text[self.end:]

    def name(self):
        return f"{self.where} {self.what}"


def function(text, name):
    """Start and end of a function; of `run`, what comes before the first call that is turned off."""
    m = re.search(rf"^( *)(pub(\([a-z]+\))? )?fn {name}\b", text, re.M)
    end = text.index(f"\n{m[1]}}}\n", m.start())
    stop = text.find("\n    if moved && crate::level::", m.start(), end)
    return m.start(), end if stop < 0 else stop


def uncommented(text):
    """The text with comments, the tally's probes and the switch of slice_tests blanked, places kept."""
    probes = "hop|br|decided|kept|turned|sent|gate|bounded|sliced|overwritten|before_noting|direction|made"
    return re.sub(rf"//[^\n]*|(&& )?crate::probe::({probes})\([^\n]*|&& crate::level::slice_tests\(\)", lambda m: " " * len(m[0]), text)


def spots(text, start, end, pattern):
    return [m for m in re.compile(pattern).finditer(text, start, end)]


RELATIONS = {"==": ["!="], "!=": ["=="], "<=": ["<", ">"], "<": ["<=", ">="], ">=": [">", "<"], ">": [">=", "<="]}
TWINS = [("t", "e"), ("t2", "f2"), ("nt", "ne"), ("dst", "src"), ("n0", "nb"), ("known", "copy"),
         ("a", "l"), ("a", "b"), ("defs", "uses"), ("code", "loc"), ("c", "l"), ("dst", "a"), ("old", "nr"),
         ("x", "y"), ("kc", "known"), ("lc", "ll"), ("l", "r"), ("left", "right"), ("mk", "bounds"),
         ("len_of", "bounds"), ("a", "z"), ("at", "dope"), ("dst", "dope"), ("a2", "b2")]
WORDS = {"true": ["false"], "false": ["true"], "break": ["continue"], "continue": ["break"],
         "any": ["all"], "all": ["any"], "is_some": ["is_none"], "is_empty": ["is_some"],
         "last": ["first"], "saturating_add": ["wrapping_add"], "Def": ["Use"], "Use": ["Def"],
         "And": ["Or", "Xor"], "Or": ["And", "Xor"], "Xor": ["Or"], "Not": ["And"],
         "Some": ["None"], "I64": ["F64"], "Ptr": ["Handle"], "Add": ["Mul"], "Sub": ["Mul"],
         "Up": ["Pkg"], "Eq": ["Ne"], "Ne": ["Eq"], "Lt": ["Le"], "Le": ["Lt"], "Gt": ["Ge"], "Ge": ["Gt"]}


def by_rules(file, where, text, start, end):
    """The faults that the rules find between two places."""
    def fault(m, new, rule, group=0):
        line = text.count("\n", start, m.start(group))
        column = m.start(group) - text.rindex("\n", 0, m.start(group)) - 1
        old = " ".join(m[group].split())
        return Fault(file, where, m.start(group), m.end(group), new, f"{line}:{column} {rule}: {old[:24].strip() or 'nothing'} -> {new.strip()[:24] or 'nothing'}")

    for m in spots(text, start, end, r" (==|!=|<=|<|>=|>) "):
        yield from (fault(m, new, "relation", 1) for new in RELATIONS[m[1]])
    for m in spots(text, start, end, r"&&|\|\|(?! \{)(?=[ \n])"):
        yield fault(m, "||" if m[0] == "&&" else "&&", "junction")
    for m in spots(text, start, end, r"(?m)^ *(&&|\|\|) [^\n]*$"):
        if balanced(m[0]):
            yield fault(m, "", "line")
    for m in spots(text, start, end, r"(?<=[ (])(?:[^\s()]|\([^()]*\))+ (&&|\|\|) (?=[^{])"):
        yield fault(m, "", "left side")
    for m in spots(text, start, end, r" (&&|\|\|) (?:[^\s(){}]|\([^()]*\))+(?=[ )\n;])"):
        yield fault(m, "", "right side")
    for m in spots(text, start, end, r"(?<![\w.])\d+\b(?!u8|u32|usize)"):
        n = int(m[0])
        yield from (fault(m, str(v), "number") for v in ([n + 1, n - 1] if n else [1]))
    for m in spots(text, start, end, r"(?<=\d)\b(?=u8|u32)|(?<![\w.])0(?=u8|u32|usize)"):
        if m[0]:
            yield fault(m, "1", "number")
    for m in spots(text, start, end, r"(?<=\.)[01]\b"):
        yield fault(m, "1" if m[0] == "0" else "0", "part")
    for m in spots(text, start, end, r"(?<![\w])\.\.=(?=\w)"):
        yield fault(m, "..", "range")
    for m in spots(text, start, end, r"\bMAX_(COPY|HOPS)\b"):
        yield fault(m, f"({m[0]} + 1)", "number")
        yield fault(m, f"({m[0]} - 1)", "number")
    for m in spots(text, start, end, r"!(?=[a-z(])(?!=)"):
        if not re.search(r"[a-z]$", text[:m.start()]):
            yield fault(m, "", "negation")
    for m in spots(text, start, end, r"\b(matches!)(?=\()"):
        if text[m.start() - 1] != "!":
            yield fault(m, "!matches!", "negation")
    for m in spots(text, start, end, r"(?<=if )(?!let)(?=[a-z])"):
        yield fault(m, "!", "negation")
    for m in spots(text, start, end, r"\|\s*Inst::\w+(?: \{[^{}]*\})?(?=\s*[|)=,])"):
        yield fault(m, "", "alternative")
    for m in spots(text, start, end, r"Inst::\w+(?: \{[^{}]*\})?\s*\|(?!\|)\s*"):
        yield fault(m, "", "alternative")
    for m in spots(text, start, end, r"(IntOp|RegTy|CmpOp)::\w+ \| |\s\| (IntOp|RegTy|CmpOp)::\w+"):
        yield fault(m, "", "alternative")
    for m in spots(text, start, end, r"(?m)^ +[^\n]*;$"):
        if balanced(m[0]) and not re.match(r" *(let|\}|return)\b", m[0]):
            yield fault(m, "", "line")
    for word, others in WORDS.items():
        for m in spots(text, start, end, rf"\b{word}\b"):
            yield from (fault(m, o, "word") for o in others)
    for one, other in TWINS:
        for old, new in [(one, other), (other, one)]:
            for m in spots(text, start, end, rf"(?<![\w.]){old}\b(?!:|\()"):
                yield fault(m, new, "name")
    for m in spots(text, start, end, r"\.iter\(\)(?=\s*\.(find|any|enumerate)\()"):
        if m[1] == "find":
            yield fault(m, ".iter().rev()", "order")
    for m in spots(text, start, end, r"\.(take|skip)\(|\.filter\(\|&t\| t < nb\)|\.checked_sub\(1\)|\.then\(\|\|"):
        if m[1] == "take":
            yield fault(m, ".skip(", "word")


def balanced(s):
    return all(s.count(a) == s.count(b) for a, b in ["()", "[]", "{}"])


def roles(text):
    """Faults in the roles of the 24 kinds and in the lists."""
    start, end = function(text, "visit_mut")
    kind = None
    at = start
    for line in text[start:end].splitlines(keepends=True):
        m = re.match(r" {12}(?:\| )?Inst::(\w+)", line)
        if m:
            names = set(re.findall(r"Inst::(\w+)", line))
            kind = next((k for k in KINDS if k in names), None)
        if kind:
            for r in re.finditer(r"\b([df])\((\w+), (?:(Use), )?([^;]*?)\)(;|,$)", line):
                role = "Use" if r[3] else "Def"
                s, e = at + r.start(), at + r.end()
                label = f"{kind} {r[2]}"
                gone = "{}" + ("," if r[5] == "," else "")
                yield Fault("inst.rs", "roles", s, e, gone, f"{label}: {role} left out")
                other = f"f({r[2]}, {'Def' if role == 'Use' else 'Use'}, {r[4]}){r[5]}"
                yield Fault("inst.rs", "roles", s, e, other, f"{label}: {role} exchanged")
        at += len(line)
    for name in ["list", "targets"]:
        start, end = function(text, name)
        for f in by_rules("inst.rs", name, text, start, end):
            if re.search("MakeDope|CallNative|Br|vec", text[f.start - 30:f.end + 30]):
                yield f


def by_hand(cfg):
    """Faults of meaning that no rule finds: what document 01 warns about, and the like. Each is a piece
    of the text, found once between the function's start and end, and what replaces it."""
    sent = "{ let r = f.blocks.values()[l]; f.code[r.start as usize..r.end as usize].to_vec() }"
    listed = [
        ("thread", "bl.code(l).to_vec()", sent, "copies the target as first sent"),
        ("thread", "!small(bl.code(l))", f"!small(&{sent})", "small asks the target as first sent"),
        ("thread", "reads_konst(bl.code(l), &kdef)", f"reads_konst(&{sent}, &kdef)", "reads_konst asks the target as first sent"),
        ("thread", "*bl.code(edge.0 as usize)", "f.code[f.blocks.values()[edge.0 as usize].start as usize..f.blocks.values()[edge.0 as usize].end as usize]", "lone CondBr as first sent"),
        ("thread", "(l + 1 < nb).then(|| bl.code(l + 1))", "(l + 1 < nb).then(|| { let r = f.blocks.values()[l + 1]; &f.code[r.start as usize..r.end as usize] })", "latch asks the next block as first sent"),
        ("thread", "Some(c) => c.1.clone(),", "Some(c) => { let mut v = c.1.clone(); let r = f.blocks.values()[l]; for (k, x) in v.iter_mut().enumerate() { if k < (r.end - r.start) as usize { *x = f.loc[r.start as usize + k]; } } v }", "statements as first sent"),
        ("thread", "f.code.len() / 2 + 32", "f.code.len().div_ceil(2) + 32", "budget rounded up"),
        ("thread", "f.code.len() / 2 + 32", "f.blocks.len() / 2 + 32", "budget by blocks"),
        ("thread", "f.code.len() / 2 + 32", "f.code.len() + 32", "budget not halved"),
        ("thread", "if skip {", "grown += usize::from(skip); if skip {", "left-out constants count as grown"),
        ("thread", "blk.1.push(ll[k]);", "blk.1.push(ll[lc.len() - 1]);", "copies carry the last statement"),
        ("thread", "blk.1.push(ll[k]);", "blk.1.push(ll[0]);", "copies carry the first statement"),
        ("thread", "blk.1.push(ll[k]);", "let s = *blk.1.last().unwrap_or(&ll[k]); blk.1.push(s);", "copies carry the taker's statement"),
        ("thread", "new_regs.push(ty);", "new_regs.push(RegTy::I64);", "new numbers are I64"),
        ("thread", "local.push((old.0, nr.0));", "local.retain(|x| x.0 != old.0); local.push((old.0, nr.0));", "reads go through the last new number"),
        ("thread", "local.push((old.0, nr.0));", "local.insert(0, (old.0, nr.0));", "reads go through the newest number"),
        ("thread", "if now == last {", "if now == last || matches!((now, last), (Inst::CondBr { t: p, f: q, .. }, Inst::CondBr { t: r, f: s, .. }) if p == r && q == s) {", "c replaced is no edit"),
        ("thread", "Inst::CondBr { c, t: nt, f: ne }", "Inst::CondBr { c: match last { Inst::CondBr { c, .. } => c, _ => c }, t: nt, f: ne }", "c isn't replaced"),
        ("thread", "if matches!(now, Inst::CondBr { .. }) {", "if true {", "no hop follows a made Br"),
        ("thread", "if matches!(now, Inst::CondBr { .. }) {", "if false {", "hops go on after a lone CondBr"),
        ("thread", "for _ in 0..MAX_HOPS {", "for _ in 0..usize::MAX {", "hops without end"),
        ("thread", "for a in 0..nb {", "for a in (0..nb).rev() {", "blocks descending"),
        ("thread", "if bl.changed.is_empty() {", "if grown == 0 {", "emit only where something was copied"),
        ("thread", "if bl.changed.is_empty() {", "if false {", "emit always"),
        ("thread", "|| pause.is_some() && reads_konst", "|| reads_konst", "constants stop copies without a body too"),
        ("thread", "uses[d] == cnt", "uses[d] >= cnt", "uses at least those in the block"),
        ("thread", "[(&mut nt, true), (&mut ne, false)]", "[(&mut nt, false), (&mut ne, true)]", "the other arm of a lone CondBr"),
        ("thread", "[(&mut nt, true), (&mut ne, false)]", "[(&mut nt, true)]", "only the true arm"),
        ("thread", "[(&mut nt, true), (&mut ne, false)]", "[(&mut ne, false)]", "only the false arm"),
        ("emit", "loc.push(l[0]);", "loc.push(*l.last().unwrap());", "an emptied block's last statement"),
        ("emit", "loc.push(l[0]);", "loc.push(f.loc[f.blocks.values()[b].start as usize]);", "an emptied block's first statement as sent"),
        ("emit", "keep.push((*i, *st));", "keep.insert(0, (*i, *st));", "rescued in reverse"),
        ("emit", "keep.push((*i, *st));", "keep.push((*i, l[0]));", "rescued with the block's first statement"),
        ("emit", "code.splice(0..0, ci);", "let end = ranges[0].1 as usize - 1; code.splice(end..end, ci);", "rescued to block 0's end"),
        ("emit", "let mut stack = vec![0usize];", "let mut stack: Vec<usize> = std::iter::once(0).chain(f.body.map(|b| b.0 as usize)).collect();", "the body counts as reached"),
        ("emit", "let mut stack = vec![0usize];", "let mut stack: Vec<usize> = (0..nb).collect();", "every block counts as reached"),
        ("emit", ".chain(std::iter::once(t.default.0 as usize))", "", "defaults don't reach"),
        ("emit", "t.arms\n                            .iter()", "t.arms[..0].iter()", "arms don't reach"),
        ("emit", "ranges[0].0 = 0;", "ranges[0].0 = n;", "rescued before block 0"),
        ("equal_arms", "f.code[last] = Inst::Br { to: tt };", "f.code[last] = Inst::Br { to: t };", "joined to the first arm's own target"),
        ("equal_arms", "let mut any = false;", "let mut any = false; let first = crate::Func { reg_ty: f.reg_ty.clone(), blocks: crate::Numbered(f.blocks.values().to_vec()), code: f.code.clone(), loc: f.loc.clone(), operands: f.operands.clone(), body: f.body };", "earlier edits unseen (see below)"),
        ("equal_arms", "if to != b => b = to", "=> b = to", "a Br to itself is followed"),
        ("note", "src } if dst != src =>", "src } =>", "a Move to itself is noted"),
        ("note", "copy.push((dst.0, src));", "copy.push((dst.0, match *i { Inst::Move { src, .. } => src, _ => src }));", "a copy's own source, not the first"),
        ("run", "let mut moved = equal_arms(f);", "let early = counts(f); let mut moved = equal_arms(f);", "counts before equal arms (see below)"),
        ("run", "let looped = has_back_edge(f);", "let looped = true;", "no back edge asked"),
        ("run", "looped && may_thread(f)", "looped", "may_thread not asked"),
        ("run", "moved |= thread", "moved = thread", "equal arms forgotten in moved"),
        ("run", "moved |= thread", "moved |= true | thread", "moved wherever the gate opens"),
        ("has_back_edge", "t.0 as usize <= b", "t.0 as usize == b", "only loops of one block"),
        ("slice_tests", "mk.insert(at.0, (l, r, dv == 1));", "mk.entry(at.0).or_insert((l, r, dv == 1));", "the first of two MakeDopes stays"),
        ("slice_tests", "match i {\n                Inst::BoundsLen", "if let Inst::MakeDope { at, .. } = i { mk.remove(&at.0); }\n            match i {\n                Inst::BoundsLen", "a MakeDope that isn't noted forgets"),
        ("slice_tests", "let i = f.code[pc];\n            if let Inst::Cmp", "let i = f.code[pc];\n            for_defs(&i, |d| { mk.remove(&d.0); len_of.remove(&d.0); bounds.remove(&d.0); });\n            if let Inst::Cmp", "a Cmp is looked at after its write"),
        ("slice_tests", "kc[z.0 as usize] == Some(0)", "kc[z.0 as usize].is_none_or(|v| v == 0)", "any register may be zero"),
        ("run", "if looped   ", "if has_back_edge(f)   ", "looped asked after threading"),
        ("run", "let looped = has_back_edge(f);", "let looped = has_back_edge(f); let early = counts(f).0;", "counts before threading (see below)"),
    ]
    again = {
        "earlier edits unseen (see below)": ("(target(f, t), target(f, e))", "(target(&first, t), target(&first, e))"),
        "counts before threading (see below)": ("moved |= slice_tests(f, &c.0)", "moved |= slice_tests(f, &{ let mut d = early; d.resize(f.reg_ty.len(), 1); d })"),
        "counts before equal arms (see below)": ("let c = counts(f);\n        moved |= thread", "let c = early;\n        moved |= thread"),
    }
    for where, old, new, what in listed:
        start, end = function(cfg, where)
        assert cfg.count(old, start, end) == 1, (where, old, cfg.count(old, start, end))
        at = cfg.index(old, start)
        stop = at + len(old)
        if what in again:
            old2, new2 = again[what]
            next_at = cfg.index(old2, stop)
            new = new + cfg[stop:next_at] + new2
            stop = next_at + len(old2)
            what = what.replace(" (see below)", "")
        yield Fault("cfg.rs", where, at, stop, new, what)


def all_faults(cfg, inst):
    found = []
    plain = uncommented(cfg)
    for name in STEPS:
        found += by_rules("cfg.rs", name, plain, *function(plain, name))
    found += by_hand(plain)
    found += roles(uncommented(inst))
    seen = set()
    for f in found:
        text = f.apply(plain if f.file == "cfg.rs" else inst)
        if text not in seen:
            seen.add(text)
            yield f
