#!/usr/bin/env python3
"""Lists the places in crates/*/src at a commit that a pass over the design looks at, by kind.

    python3 tools/places.py COMMIT [KIND]

Without a kind it prints how many lines there are of each kind; with one, the lines. What a line says is read by hand
after that: this only finds them.
"""
import collections
import re
import subprocess
import sys

KINDS = {
    "1-flags-and-numbers": r"^\s*(pub(\(crate\))? )?enum |: bool\b|-> bool\b|-> u8\b|: u8\b.*=>|= 255;|=> [0-9]+,|== \"",
    "3-index-loops": r"\bwhile\b|\bfor \w+ in [^{]*\.\.|\+= 1;|\[\*?[a-z_]+(\.[a-z_]+)*( as usize)?( [-+*/] \w+)?\](?!\])",
    "4-by-hand": r"\bfn (eq|cmp|partial_cmp|clone|from|fmt|before|default)\b|\bas (u8|u16|u32|u64|usize)\b|\.push_str\(",
    "6-buffers": r"\[[A-Za-z0-9]\w*; ?\w+\]|\b(len|count): usize,|Vec<Vec|\) / 2|timelines: Vec|remaining: Vec",
    "7-switches": r"\bfn\(|\bdyn\b|\bFn(Mut|Once)?\(|== \"|match words|over: Kind|words\.next",
}


def git(*words):
    return subprocess.run(["git", *words], check=True, capture_output=True, text=True).stdout


def sources(commit):
    names = git("ls-tree", "-r", "--name-only", commit, "crates").split()
    return [n for n in names if re.fullmatch(r"crates/\w+/src/.*\.rt", n)]


def lines_of(commit):
    for name in sources(commit):
        for number, line in enumerate(git("show", f"{commit}:{name}").splitlines(), 1):
            code = line.split("//")[0]
            yield name, number, code


def functions(commit):
    """Each function's name, its parameters and the facts of its clauses."""
    head = re.compile(r"\bfn (\w+)(?:<[^({]*>)?\(")
    for name in sources(commit):
        text = git("show", f"{commit}:{name}")
        text = re.sub(r"//[^\n]*", "", text)
        starts = [m for m in head.finditer(text)]
        for at, m in enumerate(starts):
            end = starts[at + 1].start() if at + 1 < len(starts) else len(text)
            part = text[m.end():end]
            depth, close = 1, 0
            for close, c in enumerate(part):
                depth += (c == "(") - (c == ")")
                if depth == 0:
                    break
            params = re.findall(r"(?:^|,)\s*(?:mut )?(\w+)\s*:", part[:close]) 
            clauses = re.findall(r"(?:requires|ensures)\*?[ \w]*\{((?:[^{}]|\{[^{}]*\})*)\}", part[close:])
            yield name, m.group(1), params, [" ".join(c.split()) for c in clauses]


def repeated(commit):
    """Facts that stand in the contracts of three functions or more, by the word they begin with or end in, and groups
    of parameters that do."""
    facts, groups = collections.defaultdict(set), collections.defaultdict(set)
    words = {
        "Ordered": "the entries of a queue are in order",
        "ghost_name": "a queue stays over the same loan",
        "Bounded": "the segment is within the limits",
        "Following": "the followers are those of the segment",
        r"cells_of ready.new\) ≡ length": "the queue has as many cells as before",
        "OnCard": "a refusal is on the card",
        r"IfOk result \(λ \w\. vec_len \w(\.0)? ≡ \w+\)": "as many are read as were asked for",
    }
    for name, function, params, clauses in functions(commit):
        for word in words:
            if any(re.search(word, c) for c in clauses):
                facts[words[word]].add(f"{name}:{function}")
        kept = [p for p in params if p not in ("heap", "self")]
        for i, a in enumerate(kept):
            for b in kept[i + 1:]:
                groups[tuple(sorted((a, b)))].add(f"{name}:{function}")
    for title, table in (("fact", facts), ("parameters", groups)):
        for key, where in sorted(table.items(), key=lambda x: -len(x[1])):
            if len(where) >= 3:
                yield title, key if isinstance(key, str) else " and ".join(key), sorted(where)


def main():
    commit = sys.argv[1]
    only = sys.argv[2] if len(sys.argv) > 2 else None
    for kind, pattern in KINDS.items():
        found = [(n, i, c) for n, i, c in lines_of(commit) if re.search(pattern, c) and "ghost" not in c
                 and "ensures" not in c and "requires" not in c and not re.match(r"\s*(use |#\[)", c)]
        if only is None:
            print(f"{kind}: {len(found)}")
        elif kind.startswith(only):
            for n, i, c in found:
                print(f"{n}:{i}: {c.strip()}")
    rows = list(repeated(commit))
    if only is None:
        print(f"5-repeated: {len(rows)}")
    elif only.startswith("5"):
        for title, key, where in rows:
            print(f"{title}: {key}: {len(where)}: {' '.join(where)}")


if __name__ == "__main__":
    main()
