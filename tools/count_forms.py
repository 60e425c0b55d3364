#!/usr/bin/env python3
"""Counts places in crates/*/src that may be written in a plainer form.

    python3 tools/count_forms.py            the counts
    python3 tools/count_forms.py --list     each place, with its file and line
    python3 tools/count_forms.py --list 3   those of one heading

It goes by text: a place that it counts is one to be read, and not one that is wrong.
"""
import collections
import pathlib
import re
import sys

ROOT = pathlib.Path(__file__).resolve().parent.parent


def sources():
    for path in sorted(ROOT.glob("crates/*/src/**/*.rt")):
        text = path.read_text()
        code = re.sub(r"//[^\n]*", lambda m: " " * len(m.group()), text)
        yield path.relative_to(ROOT), code


def line_of(code, at):
    return code.count("\n", 0, at) + 1


def functions(code):
    """Each function: its name, its head up to the body, its contract, its body, and where it begins."""
    for found in re.finditer(r"\bfn\s+(\w+)", code):
        start = found.start()
        depth, at = 0, found.end()
        while at < len(code):
            c = code[at]
            if c in "([":
                depth += 1
            elif c in ")]":
                depth -= 1
            elif c in "{;" and depth == 0:
                break
            at += 1
        head = code[start:at]
        signature = re.split(r"\n\s*(?:requires|ensures)\b", head)[0]
        # clauses are braces too: walk past each of them
        clauses = []
        at = start + len(signature)
        while True:
            clause = re.compile(r"\s*(requires|ensures)\*?(?:\s+(\w+))?\s*\{").match(code, at)
            if not clause:
                break
            depth, end = 1, clause.end()
            while depth:
                depth += {"{": 1, "}": -1}.get(code[end], 0)
                end += 1
            clauses.append((clause.group(1), " ".join(code[clause.end():end - 1].split())))
            at = end
        body = ""
        opening = re.compile(r"\s*\{").match(code, at)
        if opening:
            depth, end = 1, opening.end()
            while depth and end < len(code):
                depth += {"{": 1, "}": -1}.get(code[end], 0)
                end += 1
            body = code[opening.end():end - 1]
        yield found.group(1), signature, clauses, body, start


def parameters(signature):
    inner = signature[signature.find("(") + 1:]
    parts, depth, part = [], 0, ""
    for c in inner:
        if c == ")" and depth == 0:
            break
        if c in "([<":
            depth += 1
        if c in ")]>":
            depth -= 1
        if c == "," and depth == 0:
            parts.append(part)
            part = ""
        else:
            part += c
    parts.append(part)
    return [" ".join(p.split()) for p in parts if ":" in p]


def shape(text):
    """The tokens of a body, with every name and number put as one letter."""
    tokens = re.findall(r"[A-Za-z_]\w*|\d[\d_]*|'[^']*'|\"[^\"]*\"|b'[^']*'|[^\sA-Za-z_0-9]", text)
    words = {"let", "mut", "for", "in", "if", "else", "while", "match", "return", "loop", "true", "false", "self", "Ok", "Err", "Some", "None"}
    return tuple(t if t in words or not re.match(r"[\w'\"]", t) else "x" for t in tokens)


def places():
    found = collections.defaultdict(list)
    clauses_at = collections.defaultdict(list)
    groups_at = collections.defaultdict(list)
    shapes = collections.defaultdict(list)
    for path, code in sources():
        def put(heading, at, what):
            found[heading].append((str(path), line_of(code, at), what))

        for name, signature, clauses, body, start in functions(code):
            answer = signature.rsplit("->", 1)[1].strip() if "->" in signature else ""
            given = parameters(signature)
            lent = [p for p in given if "&mut " in p] or "&mut self" in signature
            if answer == "bool" and lent:
                put("1 bool answers beside what is written through a &mut", start, name)
            if re.search(r"Result<.*,\s*(usize|i64|u64)>", answer):
                put("1 numbers for errors", start, name)
            for p in given:
                if p.endswith(": bool"):
                    put("1, 7 bool parameters that pick a step", start, f"{name}: {p}")
                if re.match(r"(number|refused): usize", p):
                    put("1 numbers for refusals", start, f"{name}: {p}")
            for kind, clause in clauses:
                if kind == "requires":
                    clauses_at[clause].append((str(path), line_of(code, start), name))
            if len(given) > 6:
                put("5 functions with more than six parameters", start, f"{name}: {len(given)}")
            names = sorted(set(given))
            for i, one in enumerate(names):
                for other in names[i + 1:]:
                    groups_at[(one, other)].append((str(path), line_of(code, start), name))
            if len(shape(body)) >= 20:
                shapes[shape(body)].append((str(path), line_of(code, start), name))
            if re.fullmatch(r"refusal|word|to_\w+|as_\w+|sign", name) and "self" in signature or name in ("word", "sign", "word_of"):
                put("4 conversions and printing by hand", start, name)
        for m in re.finditer(r"\bfor\s+(\w+)\s+in\s+([^{\n]*?\.\.)", code):
            block = code[m.end():m.end() + 600]
            if re.search(r"\w\[[^\]]*\b%s\b[^\]]*\]" % m.group(1), block.split("\n    }\n")[0]):
                put("3 loops over a range that index by hand", m.start(), m.group().strip())
            else:
                put("3 loops over a range whose number is what counts", m.start(), m.group().strip())
        for m in re.finditer(r"\bfor\s+\((\w+),[^)]*\)\s+in\s+[^{]*enumerate\(\)", code):
            block = code[m.end():m.end() + 600].split("\n    }\n")[0]
            if re.search(r"\w\[[^\]]*\b%s\b[^\]]*\]" % m.group(1), block):
                put("3 enumerated loops that index another list", m.start(), " ".join(m.group().split()))
        for m in re.finditer(r"\bwhile\s+(?!let)[^{]*", code):
            put("3 while loops", m.start(), " ".join(m.group().split()))
        for m in re.finditer(r"Err\(_\)\s*=>\s*[\w(]|else\s*\{\s*return\s+(Err|None)|\.is_err\(\)\s*\{", code):
            put("1 errors taken apart by hand", m.start(), " ".join(m.group().split()))
        for m in re.finditer(r"None\s*=>\s*(None|Err\([^)]*\)),", code):
            put("1 errors taken apart by hand", m.start(), " ".join(m.group().split()))
        for m in re.finditer(r"\b(reached|anew|forward): bool", code):
            put("1 flags with values beside them", m.start(), m.group())
        for m in re.finditer(r"\b(PAST_ALL|NO_SPOT|NO_STEPS|NO_SQUARE|BLANK)\b\s*:", code):
            put("1 values that stand for none", m.start(), m.group(1))
        for m in re.finditer(r"\bas (usize|i64|u64|u8|i32|u32)\b", code):
            put("4 casts", m.start(), m.group())
        for m in re.finditer(r"\b\w+: \[[^\]]*; [^\]]*\],", code):
            put("6 arrays in structs", m.start(), m.group())
        for m in re.finditer(r"let mut \w+ = \[[^\]]*; [^\]]*\];", code):
            put("6 arrays that are filled by hand", m.start(), m.group())
    for clause, at in clauses_at.items():
        if len(at) >= 3:
            found["5 clauses that three or more functions require"].append(("", 0, f"{len(at)} × {clause}"))
    for group, at in groups_at.items():
        if len(at) >= 3:
            found["5 pairs of parameters that three or more functions take"].append(("", 0, f"{len(at)} × {group[0]}, {group[1]}"))
    for tokens, at in shapes.items():
        if len(at) > 1:
            found["2 bodies of one shape"].append((at[0][0], at[0][1], " = ".join(name for _, _, name in at)))
    return found


def proofs():
    answers = list(ROOT.glob("crates/*/proofs/**/Answers.antt"))
    lines = sum(len(p.read_text().splitlines()) for p in ROOT.glob("crates/*/proofs/**/*.antt"))
    count = sum(len(re.findall(r"^pub [\w-]+ : goal\.", p.read_text(), re.M)) for p in answers)
    lemmas = collections.Counter()
    text = {p: p.read_text() for p in ROOT.glob("crates/*/**/*.antt")}
    text.update({p: p.read_text() for p in ROOT.glob("crates/*/src/**/*.rt")})
    everything = "\n".join(text.values())
    words = collections.Counter(re.findall(r"[\w₀-₉'′-]+", everything))
    unused = []
    for p, t in text.items():
        if "/proofs/" in str(p) and p.suffix == ".antt" and p.parent.name == "proofs":
            for m in re.finditer(r"^\s*pub ([\w-]+) :", t, re.M):
                if len(re.findall(r"(?<![\w-])%s(?![\w-])" % re.escape(m.group(1)), everything)) <= 2:
                    unused.append((str(p.relative_to(ROOT)), 0, m.group(1)))
    return {
        "8 files of answers": [("", 0, "")] * len(answers),
        "8 answers": [("", 0, "")] * count,
        "8 lemmas that nothing cites": unused,
    }, lines


def main():
    found = places()
    more, lines = proofs()
    found.update(more)
    listed = "--list" in sys.argv
    only = sys.argv[-1] if sys.argv[-1][0].isdigit() else ""
    for heading in sorted(found):
        if only and not heading.startswith(only):
            continue
        print(f"{len(found[heading]):5}  {heading}")
        if listed:
            for path, line, what in found[heading]:
                if what:
                    print(f"         {path}:{line}  {what}" if path else f"         {what}")
    if not only:
        print(f"{lines:5}  8 lines of proofs")


main()
