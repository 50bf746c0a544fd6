#!/usr/bin/env python3
"""Lists the places in crates/*/src where an older form of the language may stand, point by point, and counts them.

usage: python3 tools/places.py [POINT]      at the top of the repository; without a point only the counts
"""

import collections
import glob
import re
import sys

LINES = {
    "1 enums": r"^\s*(?:pub(?:\(crate\))? )?enum \w+",
    "1 numbers for a kind": r"\.(?:mark|side|flag|tag) (?:==|!=|<=|>|<) |^\s*(?:pub )?(?:mark|side|flag|tag): |\bplace, kept, [01]\)|\bplace, [01]\)",
    "1 ladders": r"\bNone => None\b|\bSome\(_\) => None\b|\bErr\(\w+\) => Err\(|\bOk\(\w+\) => Ok\(|\bNone => (?:Err\(|Ok\(\(\)\)|false|true|0\b)|\bSome\(\w+\) => (?:Some|Err|Ok)\(|^\s*None$|^\s*Some\(\w*$|is_some\(\)",
    "2 impls": r"^impl\b.* for ",
    "2 constants": r"\bconst \w+|65_535|4_?294_?967_?296|1_099_511_627_775",
    "3 loops": r"^\s*(?:'\w+: )?(?:for|while|loop)\b",
    "4 by hand": r"^impl(?:<.*>)? (?:Ranked|From<.*>|PartialEq|Eq|PartialOrd|Ord|Clone|Copy|Default|Display)\b.* for|fn (?:number|of|at|blank\w*|layer|record)\(|\b\w+: (?:old|frontier|front|state|self|rest)\.\w+,",
    "6 buffers": r"\], (?:n|opened|records): usize|opened: usize, table|count: usize, list|\[\w+; 4096\],|^\s*(?:pub )?(?:note|parent): u32,",
    "7 steps": r"\bfn\(|\bdyn\b|enum (?:Next|Step|Op)\b",
}


def sources():
    return sorted(glob.glob("crates/*/src/**/*.rt", recursive=True))


def by_line(pattern):
    found = []
    for path in sources():
        for number, line in enumerate(open(path), 1):
            if re.search(pattern, line) and not line.lstrip().startswith(("//", "ghost", "requires", "ensures")):
                found.append(f"{path}:{number}: {line.strip()}")
    return found


def heads():
    """Each function's head: where it stands, its parameters and its clauses."""
    for path in sources():
        text = open(path).read()
        for m in re.finditer(r"\bfn (\w+)(?:<[^(]*>)?\(([^{;]*?)\)(?: -> [^{;]*?)?\n((?:\s+(?:requires|ensures)[^\n]*\n)*)", text):
            yield f"{path}: {m[1]}", m[2], m[3]


def repeated_facts():
    """A required fact that stands in three or more functions of a crate."""
    seen = collections.defaultdict(set)
    for where, _, clauses in heads():
        for m in re.finditer(r"requires(?: \w+)? \{ (.*) \}", clauses):
            for fact in m[1].split(" × "):
                seen[where.split("/")[1], fact.strip(" ()")].add(where)
    return [f"{crate}: {fact}: {len(w)} functions" for (crate, fact), w in sorted(seen.items()) if len(w) > 2]


def travelling():
    """Two or more parameters that stand together, in order, in three or more functions of a crate."""
    seen = collections.defaultdict(set)
    for where, parameters, _ in heads():
        names = [p.split(":")[0].strip() for p in parameters.split(",") if ":" in p]
        for a, b in zip(names, names[1:]):
            seen[where.split("/")[1], a, b].add(where)
    return [f"{crate}: {a}, {b}: {len(w)} functions" for (crate, a, b), w in sorted(seen.items()) if len(w) > 2]


def products():
    """A clause that joins facts by a product."""
    return [f"{where}: {m[0].strip()}" for where, _, clauses in heads() for m in re.finditer(r"requires(?: \w+)? \{ .* × .* \}", clauses)]


def answers():
    found = []
    for path in sorted(glob.glob("crates/*/proofs/**/*.antt", recursive=True)):
        for m in re.finditer(r"^pub ([\w'-]+) : goal", open(path).read(), re.M):
            found.append(f"{path}: {m[1]}")
    return found


def lemmas():
    found = []
    for path in sorted(glob.glob("crates/*/proofs/*.antt")):
        for m in re.finditer(r"^(?:abbrev )?(?:pub )?([\w'-]+) :(?!=)", open(path).read(), re.M):
            found.append(f"{path}: {m[1]}")
    return found


def main():
    lists = {name: by_line(pattern) for name, pattern in LINES.items()}
    lists["5 facts"] = repeated_facts()
    lists["5 parameters"] = travelling()
    lists["5 products"] = products()
    lists["8 answers"] = answers()
    lists["8 lemmas"] = lemmas()
    for name in sorted(lists):
        if len(sys.argv) > 1 and not name.startswith(sys.argv[1]):
            continue
        print(f"{name}: {len(lists[name])}")
        for place in lists[name] if len(sys.argv) > 1 else []:
            print("   ", place)


main()
