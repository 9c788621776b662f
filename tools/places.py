#!/usr/bin/env python3
"""Lists the places of the design pass in crates/*/src, point by point, and counts them.

    python3 tools/places.py            the working tree
    python3 tools/places.py COMMIT     that commit

A line that is listed is a candidate: docs/DESIGN-PASS.md says of each whether it is a place of its point.
Tests (`tests.rt`, `*_tests.rt`) are left out.
"""
import re
import subprocess
import sys
from collections import defaultdict

WORDS = set("""as bool break const continue crate else enum fn for if impl in let loop match mod move mut pub ref return self
Self static struct trait true false type use where while u8 u16 u32 u64 usize Some None Ok Err Option Result Vec final""".split())


def sources(commit):
    if commit:
        names = subprocess.run(["git", "ls-tree", "-r", "--name-only", commit, "crates"], capture_output=True, text=True, check=True).stdout.split()
    else:
        names = subprocess.run(["git", "ls-files", "crates"], capture_output=True, text=True, check=True).stdout.split()
    for name in sorted(names):
        if re.fullmatch(r"crates/\w+/src/\w+\.rt", name) and not name.endswith("tests.rt"):
            if commit:
                text = subprocess.run(["git", "show", f"{commit}:{name}"], capture_output=True, text=True, check=True).stdout
            else:
                text = open(name).read()
            yield name.removeprefix("crates/").replace("/src/", "/"), text


def plain(text):
    """The text without comments and imports, line by line."""
    for at, line in enumerate(text.split("\n"), 1):
        kept = re.sub(r"\s*//.*", "", line)
        if kept.strip() and not re.match(r"\s*(pub )?(ghost )?use ", kept):
            yield at, kept.strip()


def without_clauses(text):
    return [(at, line) for at, line in plain(text) if not re.match(r"(requires|ensures|ghost)\b", line)]


def functions(text):
    """Name, head and body of each function that has a body."""
    code = "\n".join(line for _, line in plain(text))
    for found in re.finditer(r"\bfn (\w+)", code):
        opening, depth = None, 0
        at = found.end()
        head_end = None
        while at < len(code):
            rest = code[at:]
            clause = re.match(r"(requires|ensures)\b[^{]*\{", rest)
            if depth == 0 and clause:
                if head_end is None:
                    head_end = at
                inner, at = 1, at + clause.end()
                while inner:
                    inner += {"{": 1, "}": -1}.get(code[at], 0)
                    at += 1
                continue
            if depth == 0 and code[at] == ";":
                break
            if code[at] == "{":
                if opening is None:
                    opening = at
                    head_end = at if head_end is None else head_end
                depth += 1
            if code[at] == "}":
                depth -= 1
                if depth == 0:
                    yield found.group(1), code[found.start():head_end], code[found.end():opening], code[opening:at + 1]
                    break
            at += 1


def skeleton(head, body):
    """The body with each name and number replaced by the order in which it first stands."""
    names = {}
    tokens = re.findall(r"\w+|[^\w\s]", body)
    return " ".join(t if t in WORDS or not re.match(r"\w", t) else "n%d" % names.setdefault(t, len(names)) for t in tokens)


LINES = {
    "1 own enums": r"^(pub(\(crate\))? )?enum ",
    "1 numbers for kinds or refusals": r"const \w+: u\d+ = 0x|\bfn \w+\([^)]*\) -> u8$|: &'\w+ \[u\d+\],|heights: ",
    "1 results and options taken apart by hand": r"Ok\((\w+)\) => Ok\(\1\)|None => (Ok\()?None|Err\(\w+\) =>|return None;|return Err\(|Err\(_\) =>|Some\(\w+\) => |\} else \{ None \}",
    "3 loops": r"(^|\s|: )(for [^{]* in|while|loop)\b",
    "4 casts": r"\bas (u8|u16|u32|u64|usize)\b",
    "4 impls of conversion, printing, order, copying": r"^impl.* (From<.*>|TryFrom<.*>|fmt::Display|PartialEq|Eq|Ord|PartialOrd|Clone|Copy) for ",
    "4 order and equality spelt out": r"\|\| \(.*==.*&&|== .* \|\| .* ==|\w+ < \d+ \|\| \w+ > \d+|\d+ <= \w+ && \w+ <= \d+|< \w+ \|\| \w+ <",
    "6 arrays, index tables, positions reckoned": r"\[[^\]]*; \w+\]|Vec<u16>|Vec<CarrierRow>|\b2 \* |/ 2\b|\+= \d|/ 8\b|\+ 7\) / 8",
    "7 matches on an own kind": r"match (self|\*self|end|side|kind|floor)\b",
}


def main():
    commit = sys.argv[1] if len(sys.argv) > 1 else None
    files = list(sources(commit))
    for point, pattern in LINES.items():
        hits = []
        for name, text in files:
            lines = without_clauses(text)
            hits += [(name, at, line) for at, line in lines if re.search(pattern, line)]
        print(f"== {point}: {len(hits)}")
        for name, at, line in hits:
            print(f"   {name}:{at}: {line}")
    shapes = defaultdict(list)
    together = defaultdict(set)
    clauses = defaultdict(set)
    for name, text in files:
        crate = name.split("/")[0]
        for function, head, whole, body in functions(text):
            shapes[skeleton(head, body)].append(f"{name} {function}")
            pars = re.findall(r"(\w+): ([^,()]+)", head[head.find("("):])
            for i, a in enumerate(pars):
                for b in pars[i + 1:]:
                    together[(crate, a[0] + ": " + a[1].strip(), b[0] + ": " + b[1].strip())].add(function)
            for clause in re.findall(r"requires \w*\s*\{(.*?)\}\n", whole + "\n", re.S):
                for fact in re.split(r"\s×\s", clause):
                    clauses[(crate, re.sub(r"\s+", " ", re.sub(r"\.(now|old|new)|[()]", "", fact)).strip())].add(function)
    groups = [g for s, g in shapes.items() if len(g) > 1]
    print(f"== 2 functions with bodies of one shape: {sum(map(len, groups))} in {len(groups)} groups")
    for group in groups:
        print("   " + ", ".join(group))
    many = {k: v for k, v in together.items() if len(v) > 2}
    print(f"== 5 parameters that travel together in three or more functions: {len(many)}")
    for (crate, a, b), fs in sorted(many.items()):
        print(f"   {crate}: {a} with {b}: {', '.join(sorted(fs))}")
    often = {k: v for k, v in clauses.items() if len(v) > 2}
    print(f"== 5 facts required by three or more functions: {len(often)}")
    for (crate, fact), fs in sorted(often.items()):
        print(f"   {crate}: {fact}: {', '.join(sorted(fs))}")


main()
