#!/usr/bin/env python3
"""Lists the places in crates/*/src that each point of docs/DESIGN-PASS.md speaks of.

    python3 tools/design_places.py [ROOT]

Each line is a place to look at: the point, the file and line, and what stands there. A list goes by the text, so it
names more than there is to change; docs/DESIGN-PASS.md says of each place what became of it."""
import collections
import pathlib
import re
import sys

ROOT = pathlib.Path(sys.argv[1] if len(sys.argv) > 1 else ".")


def sources():
    for path in sorted(ROOT.glob("crates/*/src/**/*.rt")):
        yield path, path.read_text()


def functions(text):
    """Each function: its line, its doc comment, its signature without clauses, its clauses, its body."""
    for found in re.finditer(r"^(\s*)(?:pub(?:\([a-z]+\))? )?(?:extern \"C\" )?fn (\w+)", text, re.M):
        start = found.start() + len(found.group(1))
        indent = found.group(1).replace("\n", "")
        end = re.compile(r"^%s\}|;$|\{\}$" % re.escape(indent), re.M).search(text, found.end())
        whole = text[start : end.end() if end else len(text)]
        lines = whole.split("\n")
        clauses = [l.strip() for l in lines if re.match(r"\s*(requires|ensures)\b", l)]
        rest = "\n".join(l for l in lines if not re.match(r"\s*(requires|ensures)\b", l))
        signature, _, body = rest.partition("{")
        before = text[: found.start()].rstrip().split("\n")
        doc = []
        while before and before[-1].strip().startswith(("///", "#[")):
            doc.append(before.pop().strip())
        yield text[:start].count("\n") + 1, found.group(2), " ".join(reversed(doc)), signature, clauses, body


def say(point, path, line, what):
    print(f"{point}  {path.relative_to(ROOT)}:{line}  {what}")


def point_1():
    for path, text in sources():
        for number, line in enumerate(text.split("\n"), 1):
            if re.match(r"\s+(pub )?\w+: bool,", line):
                say(1, path, number, "flag in a struct: " + line.strip())
            if re.match(r"\s*(pub |pub\(\w+\) )?(enum|const \w+: char)", line):
                say(1, path, number, "enum or letter: " + line.strip())
        for line, name, doc, signature, _, body in functions(text):
            if "&mut" in signature and signature.rstrip().endswith("-> bool"):
                say(1, path, line, f"fn {name}: a flag for what it did")
            if len(re.findall(r"=> -?\d[\d_]*,|\d+ => ", body)) > 1 or re.search(r"\bas u8\b,?$", body, re.M):
                say(1, path, line, f"fn {name}: numbers for cases")
            if re.search(r"-> (\()?[ui]\d+|-> usize", signature) and re.search(
                r"\b0[,;]? (if|where|and)|\bor 0\b|or the count|below zero|0 if", doc
            ):
                say(1, path, line, f"fn {name}: a number that says there is none")


def normal(code):
    code = re.sub(r"//.*", "", code)
    code = re.sub(r"\b\d[\d_]*\b", "N", code)
    names = {}
    kept = {"fn", "let", "mut", "for", "in", "if", "else", "match", "return", "self", "Self", "Ok", "Err", "Some", "None", "as"}

    def name(found):
        word = found.group(0)
        if word in kept or word == "N":
            return word
        return names.setdefault(word, f"x{len(names)}")

    return re.sub(r"\s+", " ", re.sub(r"[A-Za-z_]\w*", name, code)).strip()


def say_shared(point, groups, least):
    """Each place of a group that has at least so many, with how many they are where its words say {count}."""
    for group in groups.values():
        if len(group) >= least:
            for path, line, what in group:
                say(point, path, line, what.replace("{count}", str(len(group))))


def point_2():
    groups = collections.defaultdict(list)
    for path, text in sources():
        for line, name, _, signature, _, body in functions(text):
            if body.strip() and len(re.findall(r"\w+", body)) > 3:
                groups[normal(signature + "{" + body)].append((path, line, "one of {count} alike: fn " + name))
        for found in re.finditer(r"^(?:pub )?(struct \w+[^{;]*\{[^}]*\}|const \w+: [^;]*;)", text, re.M):
            head = found.group(1).split("\n")[0]
            groups[normal(found.group(1))].append((path, text[: found.start()].count("\n") + 1, "one of {count} alike: " + head))
    say_shared(2, groups, 2)


def point_3():
    for path, text in sources():
        for number, line in enumerate(text.split("\n"), 1):
            if re.search(r"for \w+ in \d+\.\.|^\s*while |^\s*loop \{|\w+ \+= 1;|\.enumerate\(\)", line):
                say(3, path, number, line.strip())


def point_4():
    for path, text in sources():
        for number, line in enumerate(text.split("\n"), 1):
            if re.search(r"= Fault::(Reader|Book|Ledger)\(|Err\(Fault::|fn (same|copy_\w+|from_\w+|to_\w+|number|code|refused|refusal)\b", line):
                say(4, path, number, line.strip())


def point_5():
    facts = collections.defaultdict(list)
    together = collections.defaultdict(list)
    for path, text in sources():
        crate = path.relative_to(ROOT).parts[1]
        for line, name, _, signature, clauses, _ in functions(text):
            for clause in clauses:
                if clause.startswith("requires"):
                    fact = re.sub(r"^requires( \w+)? \{ | \}$", "", clause)
                    facts[crate, fact].append((path, line, f"fn {name} requires {fact}"))
            inside = re.search(r"\((.*)\)", re.sub(r"\s+", " ", signature))
            given = re.findall(r"(\w+): ([^,]+?)(?:,|$)", inside.group(1)) if inside else []
            for i, first in enumerate(given):
                for second in given[i + 1 :]:
                    together[crate, first, second].append((path, line, f"fn {name} takes {first[0]} and {second[0]}"))
    say_shared(5, facts, 3)
    say_shared(5, together, 3)


def point_6():
    for path, text in sources():
        for number, line in enumerate(text.split("\n"), 1):
            if re.search(r"(: |= )(&'a mut )?\[[^\]]*(; \w+)?\]\s*[,;]$|\[.*; [A-Z_]\w*\]", line) and "fn " not in line and "ghost" not in line:
                say(6, path, number, line.strip())


def point_7():
    for path, text in sources():
        for found in re.finditer(r"enum (\w+)[^{]*\{([^}]*)\}", text):
            if "(" not in found.group(2) and "{" not in found.group(2):
                say(7, path, text[: found.start()].count("\n") + 1, f"enum {found.group(1)} of plain cases")


for point in (point_1, point_2, point_3, point_4, point_5, point_6, point_7):
    point()
