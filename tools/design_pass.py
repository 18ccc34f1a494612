#!/usr/bin/env python3
"""tools/design_pass.py [POINT] [--list]: counts, in crates/*/src, the places that docs/DESIGN-PASS.md speaks of.

One way of counting each point, by the text alone; what it finds is read by hand, and the page says what stays and why."""
import re
import sys
from collections import defaultdict
from pathlib import Path

ROOT = Path(__file__).resolve().parent.parent
FILES = sorted(ROOT.glob("crates/*/src/*.rt"))
NUMBER = r"(?:u8|u16|u32|u64|usize|i32|i64)"


def name(path):
    return str(path.relative_to(ROOT / "crates")).replace("/src", "")


def bare(text):
    """The code without comments, `ghost use` items and attributes."""
    text = re.sub(r"//[^\n]*", "", text)
    text = re.sub(r"^ghost use [^\n]*\n", "", text, flags=re.M)
    return re.sub(r"#!?\[[^\n]*\]\n", "", text)


def functions(text):
    """(name, signature, body) of each function; clauses stand with neither."""
    for m in re.finditer(r"\bfn (\w+)", text):
        depth, i, sign_end = 0, m.end(), None
        while i < len(text):
            c = text[i]
            if c in "([":
                depth += 1
            elif c in ")]":
                depth -= 1
            elif depth == 0 and (c in "{;" or re.match(r"\b(?:requires|ensures)\b", text[i:])):
                break
            i += 1
        sign = text[m.end() : i]
        # the body is the last brace group before the next item: clauses are `word name? { .. }`
        while i < len(text):
            k = re.match(r"\s*(?:requires|ensures)\s*\w*\s*\{", text[i:])
            if not k:
                break
            i += k.end()
            depth = 1
            while depth:
                depth += {"{": 1, "}": -1}.get(text[i], 0)
                i += 1
        b = re.match(r"\s*\{", text[i:])
        if not b:
            continue
        i += b.end()
        start, depth = i, 1
        while depth:
            depth += {"{": 1, "}": -1}.get(text[i], 0)
            i += 1
        yield m.group(1), sign, text[start : i - 1]


def variants(body):
    """Each variant of an enum with the number of things that it holds."""
    body = re.sub(r"\{[^{}]*\}", "{}", body)
    for v in re.finditer(r"^\s*([A-Z]\w*)\s*(\(([^()]*(?:\([^()]*\))?[^()]*)\)|\{\})?\s*,", body, re.M):
        held = v.group(2)
        yield v.group(1), 0 if not held else (2 if held == "{}" or "," in (v.group(3) or "") else 1)


def point1():
    for path in FILES:
        text = bare(path.read_text())
        for m in re.finditer(r"\benum (\w+) \{(.*?)\n\}", text, re.S):
            held = sorted(h for _, h in variants(m.group(2)))
            if held in ([0, 1], [1, 1]):
                yield path, f"enum {m.group(1)}: two cases, as an Option or a Result"
        for m in re.finditer(r"\bstruct (\w+)[^{;]*\{(.*?)\n\}", text, re.S):
            fields = re.findall(r"(\w+): ([^,\n]+),", m.group(2))
            if len(fields) == 2 and any(t == "bool" for _, t in fields):
                yield path, f"struct {m.group(1)}: a flag with a value beside it"
            if [n for n, _ in fields] == ["value", "at"]:
                yield path, f"struct {m.group(1)}: a value, and a place that may be none"
            for n, t in fields:
                if n in ("same", "has_row"):
                    yield path, f"struct {m.group(1)}: the flag {n} with values beside it"
                if n in ("number", "cause", "kind", "device", "attribute") and re.fullmatch(NUMBER, t):
                    yield path, f"struct {m.group(1)}: {n} by its number"
        run = re.findall(r"\bconst ((?!MOST|LEAST|LA|TICK|HALF|DIGIT|CLOCK_LIMIT)[A-Z_0-9]+): (?:u8|u64) = \d+;", text)
        for n in run if len(run) > 1 else []:
            yield path, f"const {n}: a kind, a notice or a cause as a number"
        for n, sign, body in functions(text):
            if re.search(r"\b(number|cause|device|kind): " + NUMBER + r"\b", sign):
                yield path, f"fn {n}: takes a cause, a notice or a kind as a number"
            elif n in ("first_cause", "first_of", "limit_cause", "slice_cause", "place_cause") and re.search(r"-> u8", sign):
                yield path, f"fn {n}: gives a cause as a number"


def shape(sign, body):
    """A function with its types, numbers, texts and capitals taken out."""
    s = sign + body
    s = re.sub(r'b?"(?:\\.|[^"\\])*"|b\'.\'', "S", s)
    s = re.sub(r"\b(?:u8|u16|u32|u64|usize|i32|i64|bool)\b", "T", s)
    s = re.sub(r"\b[A-Z]\w*(?:::[A-Z]\w*)*", "T", s)
    s = re.sub(r"\b\d[\d_]*\b", "N", s)
    s = re.sub(r"(\w)_(?:8|16|32|64)\b", r"\1", s)
    return re.sub(r"\s+", "", s)


def point2():
    groups = defaultdict(list)
    for path in FILES:
        text = bare(path.read_text())
        for n, sign, body in functions(text):
            if len(body.split()) >= 4:
                groups[shape(sign, body)].append((path, f"fn {n}"))
        for m in re.finditer(r"\bstruct (\w+)[^{;]*\{(.*?)\n\}", text, re.S):
            fields = ",".join(re.findall(r"(\w+): ", m.group(2)))
            if fields:
                groups["struct " + fields].append((path, f"struct {m.group(1)}"))
    for members in groups.values():
        if len(members) > 1:
            for path, what in members:
                yield path, f"{what}: one of {len(members)} that differ in types, names or numbers"


def point3():
    for path in FILES:
        for n, sign, body in functions(bare(path.read_text())):
            for m in re.finditer(r"\bwhile ([^{]+)\{", body):
                yield path, f"fn {n}: while {m.group(1).strip()}"
            for m in re.finditer(r"\bfor \w+ in ([\w.]+\.\.[^{]+)\{", body):
                yield path, f"fn {n}: for .. in {m.group(1).strip()}"


def point4():
    for path in FILES:
        text = bare(path.read_text())
        for n, sign, body in functions(text):
            if n in ("number", "of_number", "color_mode_of", "flag", "of_flag", "bit", "plus", "minus", "abs_diff", "sign_of", "size_of"):
                yield path, f"fn {n}: a conversion by hand"
            elif n in ("modes_agree", "is", "first_of", "least", "within_limit", "limited", "is_filled"):
                yield path, f"fn {n}: equality or order by hand"
            elif re.search(r"\bout: &mut \[u8\], at: usize", sign):
                yield path, f"fn {n}: printing by hand"


def point5():
    pairs = {
        "out: &mut [u8], at: usize": r"out: &mut \[u8\],\s*at: usize",
        "line: &[u8], at: usize": r"line: &\[u8\],\s*(?:name: usize,\s*)?(?:at|from): usize",
        "options_mask, options_override, on_off, clock": r"options_mask: u8,\s*options_override: u8,\s*(?:is_enhanced: bool,\s*)?(?:enhanced_hue: u16,\s*)?on_off: OnOff,\s*clock: u64",
        "line, out, to": r"line: &mut \[u8\],\s*out: &mut \[u8\],\s*to: &mut impl Write",
    }
    for path in FILES:
        for n, sign, body in functions(bare(path.read_text())):
            for what, pattern in pairs.items():
                if re.search(pattern, sign):
                    yield path, f"fn {n}: {what}"


def point6():
    for path in FILES:
        text = bare(path.read_text())
        for m in re.finditer(r"\bstruct (\w+)[^{;]*\{(.*?)\n\}", text, re.S):
            fields = dict(re.findall(r"(\w+): ([^,\n]+),", m.group(2)))
            if any("[" in t for t in fields.values()) and any(n in ("len", "count", "at") for n in fields):
                yield path, f"struct {m.group(1)}: a buffer with its length beside it"
            elif {"len", "at"} <= set(fields):
                yield path, f"struct {m.group(1)}: the lengths of buffers that lie elsewhere"


def point7():
    for path in FILES:
        for n, sign, body in functions(bare(path.read_text())):
            k = len(re.findall(r"\bif (?:words::is\(|name == b|self\.kind (?:==|<=)|kind ==)", body))
            if k >= 3:
                yield path, f"fn {n}: {k} tests of one word or kind, one after the other"


POINTS = [point1, point2, point3, point4, point5, point6, point7]


def main():
    wanted = [int(a) for a in sys.argv[1:] if a.isdigit()] or range(1, 8)
    for k in wanted:
        found = list(POINTS[k - 1]())
        print(f"point {k}: {len(found)}")
        if "--list" in sys.argv:
            for path, what in found:
                print(f"    {name(path)}: {what}")
    answers = list(ROOT.glob("crates/*/proofs/**/Answers.antt")) + list(ROOT.glob("crates/*/proofs/**/Invariants.antt"))
    if not any(a.isdigit() for a in sys.argv[1:]):
        lines = sum(len(a.read_text().splitlines()) for a in answers if "/out/" not in str(a))
        print(f"point 8: {len(answers)} files of answers and invariants, {lines} lines")


if __name__ == "__main__":
    main()
