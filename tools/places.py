#!/usr/bin/env python3
"""tools/places.py [-l]: counts the places in crates/*/src that read like an older language, by the points of docs/DESIGN-PASS.md.
With -l each place is listed. A place is found by its text alone, so that a commit can be held against another."""
import re
import sys
from glob import glob

files = sorted(glob("crates/*/src/*.rt"))
listed = "-l" in sys.argv[1:]


def code(line):
    return not line.lstrip().startswith("//")


def lines_with(pattern, within=files):
    found = []
    for name in within:
        for at, line in enumerate(open(name), 1):
            if code(line):
                found += [(name, at, line.strip())] * len(re.findall(pattern, line))
    return found


def enums(wanted):
    """The enums whose variants, as (name, has values) pairs, are the wanted ones."""
    found = []
    for name in files:
        text = re.sub(r"//[^\n]*", lambda m: " " * len(m.group()), open(name).read())
        for m in re.finditer(r"\benum (\w+)[^{]*\{", text):
            depth, end = 1, m.end()
            while depth:
                depth += {"{": 1, "}": -1}.get(text[end], 0)
                end += 1
            body = re.sub(r"\([^()]*\)|\{[^{}]*\}", "!", text[m.end() : end - 1])
            variants = [(v.strip().rstrip("!").strip(), "!" in v) for v in body.split(",") if v.strip()]
            if wanted(variants):
                found.append((name, text.count("\n", 0, m.start()) + 1, m.group(1)))
    return found


NOTHING = {"None", "Wrong", "Bad", "Refused", "Nothing", "Unknown", "Unfit", "Unlisted", "Unpassed", "Foreign", "Unheard"}
two = lambda vs: len(vs) == 2 and any(has for _, has in vs)
failing = lambda vs: len(vs) > 2 and any(v in NOTHING for v, _ in vs)


def twins():
    """The functions whose bodies are the same but for names and numbers: each beyond the first of its shape."""
    words = set("if else match let mut return while for in as".split())
    shapes, found = {}, []
    for name in files:
        text = re.sub(r"//[^\n]*", "", open(name).read())
        for m in re.finditer(r"\bfn \w+", text):
            start = re.compile(r"[)\w>\]] \{\n|\n\s*\{\n").search(text, m.end())
            if not start:
                continue
            depth, end = 1, start.end()
            while depth:
                depth += {"{": 1, "}": -1}.get(text[end], 0)
                end += 1
            body = re.sub(r"b?'[^']*'|b?\"[^\"]*\"|\b\d\w*", "#", text[start.end() : end - 1])
            body = re.sub(r"[A-Za-z_]\w*", lambda w: w.group() if w.group() in words else "x", body)
            body = re.sub(r"\s", "", re.sub(r"(?:x::)+x", "x", body))
            if len(body) >= 14:
                if body in shapes:
                    found.append((name, text.count("\n", 0, m.start()) + 1, m.group() + ", as " + shapes[body]))
                shapes.setdefault(body, m.group())
    return found


def answering(names, result):
    """The functions of these names that answer this."""
    found = []
    for name in files:
        text = re.sub(r"//[^\n]*", "", open(name).read())
        for m in re.finditer(rf"\bfn ({names})(?:<[^>]*>)?\([^{{}}]*?\) -> ({result})\s", text):
            found.append((name, text.count("\n", 0, m.start()) + 1, m.group(1)))
    return found


points = [
    ("1", "enums of two variants, at least one with values", enums(two)),
    ("1", "enums of more, one of which says that there is nothing, or a refusal", enums(failing)),
    ("1", "functions that answer a refusal's number, 0 for none", answering(r"\w*_fault|\w*_code|refusal|refuse|make|update|tell|keel_\w+", r"u8|u32|u64")),
    ("1", "fields that are a refusal's number", lines_with(r"^\s*(?:pub )?code: u8,")),
    ("1", "tests of a refusal's number", lines_with(r"\b(?:code|counts|list|path|held|answer\.code) [!=]= 0\b")),
    ("1", "parameters that are a kind's number", lines_with(r"\bkind: u32\b")),
    ("2", "functions whose bodies differ in names and numbers alone", twins()),
    ("3", "while loops", lines_with(r"^\s*(?:'\w+: )?while ")),
    ("4", "bytes of a number by hand: % 256", lines_with(r"% 256\b")),
    ("4", "numbers of bytes by hand: * 256, * 65536", lines_with(r"\* (?:256|65536|16777216)\b(?! \+ 2)")),
    ("4", "and, or and choice as functions: both, either, refuse", lines_with(r"octets::(?:both|either|refuse)\(")),
    ("4", "numbers of two values compared", lines_with(r"\.number\(\) [!=]= ")),
    ("5", "requires clauses", lines_with(r"^\s*requires ")),
    ("5", "tables lent side by side: seqs, then lists", lines_with(r"\bseqs: &.*\blists: &")),
    ("5", "text and place side by side", lines_with(r"\btext: &\[u8\], (?:\w+: \w+, )*at: Place")),
    ("6", "an output and a place in it, side by side", lines_with(r"\b(?:out|text): &mut \[u8\], at: usize")),
    ("6", "a count beside the array that it is of", lines_with(r"^\s*(?:pub )?count: usize,")),
    ("7", "values that say which step to run: Lent, Named, wanted", lines_with(r"\b(?:lent: Lent|named: Named|wanted: bool)\b")),
]
proofs = len({p.rsplit("/", 1)[0] for p in glob("crates/*/proofs/**/*.antt", recursive=True) if re.search(r"/(Answers|Invariants)\.antt$", p)})
for point, what, found in points:
    print(f"{point}  {len(found):4}  {what}")
    if listed:
        for name, at, line in found:
            print(f"            {name}:{at}: {line}")
print(f"8  {proofs:4}  functions with a proof of their own")
print(f"8  {sum(len(open(p).readlines()) for p in glob('crates/*/proofs/**/*.antt', recursive=True)):4}  lines of proofs")
