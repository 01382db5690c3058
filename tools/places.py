#!/usr/bin/env python3
"""Counts in crates/*/src what an older Rattle had no better form for. From the top of the repository:

    python3 tools/places.py          the counts, a line for each kind of place
    python3 tools/places.py -v       each place too, as FILE:LINE

It goes by the text: what it lists is to be looked at, and docs/DESIGN-PASS.md says what was found. With a folder as the last argument it counts there.
"""
import glob
import os
import re
import sys

KEYWORDS = set("fn let mut if else match for in while return impl struct enum trait pub self Self Ok Err Some None true false as use where move ref const".split())


def sources(top):
    for path in sorted(glob.glob(os.path.join(top, "crates/*/src/**/*.rt"), recursive=True)):
        yield os.path.relpath(path, top), open(path, encoding="utf-8").read()


def line_of(text, at):
    return text.count("\n", 0, at) + 1


def functions(text):
    """Each function as (name, line, signature, clauses, body); a trait's function without a body has an empty one."""
    for m in re.finditer(r"^[ ]*(?:pub(?:\([a-z]+\))? )?(?:final )?fn (\w+)", text, re.M):
        depth, at = 0, m.end()
        clauses_at = None
        while at < len(text):
            c = text[at]
            if c in "([":
                depth += 1
            elif c in ")]":
                depth -= 1
            elif depth == 0 and re.match(r"\s(requires|ensures)\b", text[at : at + 10]):
                clauses_at = clauses_at or at
                at = end_of(text, text.index("{", at))
                continue
            elif depth == 0 and c in "{;":
                break
            at += 1
        body = text[at : end_of(text, at)] if text[at : at + 1] == "{" else ""
        yield m.group(1), line_of(text, m.start(1)), text[m.start() : clauses_at or at], text[clauses_at or at : at], body


def end_of(text, at):
    depth = 0
    for k in range(at, len(text)):
        depth += {"{": 1, "}": -1}.get(text[k], 0)
        if depth == 0:
            return k + 1
    return len(text)


def shape(body):
    """A body with its names and numbers left out."""
    body = re.sub(r"//.*", "", body)
    tokens = re.findall(r"[A-Za-z_]\w*|\d[\w.]*|\"[^\"]*\"|'[^']*'|[^\s\w]", body)
    return tuple(t if t in KEYWORDS or not re.match(r"[\w\"']", t) else "_" for t in tokens)


def parameters(signature):
    inside = signature[signature.index("(") + 1 :] if "(" in signature else ""
    return re.findall(r"\b(\w+): ([^,]+?)(?=,|\)\s*(?:->|$))", inside, re.S)


def by_pattern(files, pattern):
    return [(p, line_of(t, m.start())) for p, t in files for m in re.finditer(pattern, t, re.M)]


def crate(path):
    return path.split("/")[1]


def twins(files):
    groups = {}
    for p, t in files:
        for name, line, _, _, body in functions(t):
            s = shape(body)
            if len(s) >= 12:
                groups.setdefault(s, []).append((p, line, name))
    found = [g for g in groups.values() if len(g) > 1]
    return [(p, line) for g in found for p, line, _ in g]


def repeated_clauses(files):
    groups = {}
    for p, t in files:
        for name, line, _, clauses, _ in functions(t):
            for kind, clause in re.findall(r"(requires)\s*\w*\s*\{(.*)\}", clauses):
                for part in re.split(r" × ", clause.strip(" ()")):
                    key = (crate(p), re.sub(r"\b\w+\.(now|old|new)\b", "_", part.strip(" ()")))
                    groups.setdefault(key, []).append((p, line))
    return [place for g in groups.values() if len(set(g)) > 2 for place in sorted(set(g))]


def travelling(files):
    groups = {}
    for p, t in files:
        for name, line, signature, _, _ in functions(t):
            names = [n for n, _ in parameters(signature) if n not in ("heap", "rt", "f")]
            if len(names) > 2:
                for a in range(len(names)):
                    for b in range(a + 1, len(names)):
                        for c in range(b + 1, len(names)):
                            groups.setdefault((crate(p), names[a], names[b], names[c]), set()).add((p, line))
    return sorted({place for g in groups.values() if len(g) > 2 for place in g})


def lengths_beside(files):
    found = []
    for p, t in files:
        for name, line, signature, _, _ in functions(t):
            kinds = parameters(signature)
            if any(n in ("n", "len", "count") and k.strip() == "usize" for n, k in kinds) and any("[" in k for _, k in kinds):
                found.append((p, line))
    return found


def flags(files):
    return [(p, line) for p, t in files for name, line, signature, _, _ in functions(t) if "-> bool" in signature and "&mut" in signature]


def kinds(files):
    propagated = by_pattern(files, r"else \{\s*return (None|Err\(.*|Ok\(None\));") + by_pattern(files, r"(Err\(\w+\)|None) => return ") + by_pattern(files, r"Ok\(\(\)\) => Ok\(\(\)\)|Ok\((\w+)\) => Ok\(\1\)")
    yield "1", "enums", by_pattern(files, r"^ *(pub(\([a-z]+\))? )?enum \w+")
    yield "1", "an error or a missing value handed on by hand", sorted(propagated)
    yield "1", "a pair as an error", by_pattern(files, r"Result<[^;{]*, \(")
    yield "1", "a bool beside a changed argument", flags(files)
    yield "1", "a number for each variant", by_pattern(files, r"\w+::\w+ => \d+,")
    yield "2", "functions whose bodies have the shape of another's", twins(files)
    yield "3", "loops over a range of numbers", by_pattern(files, r"\bfor \w+ in [^{\n]*\.\.")
    yield "3", "while with a test", by_pattern(files, r"\bwhile (?!let)")
    yield "3", "enumerate", by_pattern(files, r"\.enumerate\(\)")
    yield "4", "impls of equality, order, copying, printing and conversion", by_pattern(files, r"^impl.* (?:\w+::)*(PartialEq|Eq|PartialOrd|Ord|Hash|Clone|Copy|Debug|Display|Default|From<.*>|TryFrom<.*>|FromStr) for")
    yield "4", "functions that convert or print", by_pattern(files, r"\bfn (from_\w+|to_\w+|into_\w+|as_\w+|text|number|reason|bytes|verdict)\b")
    yield "5", "functions with a requirement that three or more of the crate have", repeated_clauses(files)
    yield "5", "functions with three parameters that three or more of the crate have together", travelling(files)
    yield "6", "a length beside a slice or an array", lengths_beside(files)
    yield "6", "two indices in one", by_pattern(files, r"\[\d+ \* \w+ ?\+")
    yield "6", "fixed arrays that are made", by_pattern(files, r"= \[[^;\]]+; [A-Z0-9_]+\];|: \[[^;\]]+; [A-Z0-9_]+\],$")
    yield "7", "a match that picks which to call", by_pattern(files, r"\bmatch (way|cipher|mode|kind|command|step)\b")


def answers(top):
    count = lines = 0
    for path in glob.glob(os.path.join(top, "crates/*/proofs/**/*.antt"), recursive=True):
        text = open(path, encoding="utf-8").read()
        lines += text.count("\n")
        if path.endswith("Answers.antt"):
            count += len(re.findall(r"^(?:abbrev )?pub [^\n]* : goal\.", text, re.M))
    return count, lines


def main():
    arguments = [a for a in sys.argv[1:] if a != "-v"]
    top = arguments[0] if arguments else "."
    files = list(sources(top))
    for point, what, found in kinds(files):
        print(f"{point}  {len(found):4}  {what}")
        if "-v" in sys.argv:
            for p, line in found:
                print(f"           {p}:{line}")
    count, lines = answers(top)
    print(f"8  {count:4}  answers, in {lines} lines of proofs")


main()
