"""Counts places in crates/*/src that the design pass is about: `python3 tools/places.py [FOLDER] [-v]`.

Each pattern finds lines that may be a place of the point it stands under; docs/DESIGN-PASS.md says which of them are.
"""

import re
import sys
from pathlib import Path

PATTERNS = [
    ("1 error cases told apart by hand", r"\.is_err\(\)|Err\(_\)|return Err\(AllocError\)|=> Err\(AllocError\)|Err\(AllocError\)"),
    ("1 an error turned by a match or an if let", r"Err\((place|fault|refusal|status)\) =>|if let Err\("),
    ("1 own enums", r"^(pub )?(\(crate\) )?enum |^pub\(crate\) enum "),
    ("1 flags in structs and parameters", r"^\s*(pub |pub\(crate\) )?[a-z_]+: bool,|[(,] ?[a-z_]+: bool[,)]"),
    ("1 numbers for kinds and refusals", r"fn (number|layer|own_code|code)\(|code: u8|relation: u8|claims: u8|CODE: u8|Post\(u8|Total\(u8"),
    ("2 functions of one name in several places", None),
    ("3 loops over an index or a hand-kept place", r"for _?[a-z_]+ in [^{]*(len\(\)|count|bits)\b|while |for (p|q|k|n|x) in "),
    ("3 loops that search by hand", None),
    ("4 comparisons, copies and orders written by hand", r"^impl.* (PartialEq|Eq|PartialOrd|Ord|Clone|Copy|Debug|Hash) for|fn (copy|rank|in_order)\b"),
    ("4 casts and conversions written by hand", r" as (u8|u16|u32|usize|i32|u64)\b|fn (pass_up|number|layer|lit_of|stop_line|refusal_line)\("),
    ("5 fact: the roots are as many as the bits", r"length \(roots_of [a-z.]+\) ≡ total_bits"),
    ("5 fact: an encoder or its numbers are ready", r"\bReady \(|Numbers (f|\()"),
    ("5 parameters that travel: variables with ties or roots", r"variables: &(.. )?Variables"),
    ("5 parameters that travel: a code with items", r"_?code: u8, _?items"),
    ("5 parameters that travel: a text with a part or place of it", r"text: &(.. )?\[u8\], (rest|line|from)"),
    ("6 places in other buffers", r"\b(from|to|start|end): (u16|usize),|Vec<(Entry|Span|Part)>"),
    ("6 entries found by an index that may be absent", r"match [a-z_.]+\.(get|last)\("),
    ("7 a case or flag that says which step to run", r"\b(down|first): bool|link: Link|self, p: u16"),
]


def sources(folder):
    for path in sorted(Path(folder).glob("crates/*/src/**/*.rt")):
        yield path, path.read_text().splitlines()


def twins(folder):
    """Names of functions that stand in several files, but for trait methods."""
    found = {}
    for path, lines in sources(folder):
        inside = False
        for number, line in enumerate(lines, 1):
            if re.match(r"^(pub )?trait |^impl.* for ", line):
                inside = True
            elif line == "}":
                inside = False
            match = re.match(r"\s*(?:pub(?:\(crate\))? )?fn ([a-z_]+)", line)
            if match and not inside and match[1] not in ("new", "len", "of", "main"):
                found.setdefault(match[1], []).append((path, number, line))
    for places in found.values():
        if len(places) > 1:
            yield from places


def searches(folder):
    """A `for` whose body is one `if` with a return of a constant."""
    for path, lines in sources(folder):
        for k in range(len(lines) - 2):
            if re.match(r"\s*for .* \{$", lines[k]) and re.match(r"\s*if .*\{$", lines[k + 1]):
                if re.match(r"\s*return (true|false|Some\(.*\));$", lines[k + 2]):
                    yield path, k + 1, lines[k]


def places(folder, name, pattern):
    if pattern is None:
        yield from (twins if name.startswith("2") else searches)(folder)
        return
    for path, lines in sources(folder):
        for number, line in enumerate(lines, 1):
            if re.search(pattern, line) and not line.lstrip().startswith("//"):
                yield path, number, line


def main():
    folder = next((a for a in sys.argv[1:] if a != "-v"), ".")
    for name, pattern in PATTERNS:
        found = list(places(folder, name, pattern))
        print(f"{len(found):4} {name}")
        if "-v" in sys.argv:
            for path, number, line in found:
                print(f"       {path}:{number}: {line.strip()}")


main()
