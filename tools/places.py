#!/usr/bin/env python3
"""Lists the places of docs/DESIGN-PASS.md in the sources of a commit: python3 tools/places.py [-v] [COMMIT]

For each point one or more patterns over the lines of crates/*/src/*.rt (tests left out). The patterns only find candidates; the
page says what each of them is. -v prints the lines, not only how many."""
import re
import subprocess
import sys

POINTS = {
    "1 kinds and refusals as numbers": r"fn (number|place|from_number)\(|number: u8,? ?place|number: (u8|u32),$",
    "1 none as 0, or as an empty slice": r"(above|left|right) == 0|partner > 0|heads\[letter\] > 0|if row\.is_empty\(\)|siblings\.fill\(0\)|heads\.fill\(0\)",
    "1 a value or the most, for none": r"degree == cap|fn degree\(",
    "2 twins": r"fn (check|write_rights|write_lefts|put_left|put_right|gather|gather_in_place|form|form_in_place|digit|from_hex|report|exchanged|refusal|number|place|fault_text)\(|fn (check|gather|form|gather_in_place|form_in_place)<",
    "3 loops that count by hand": r"^\s*(while\b|loop\b)",
    "3 loops over a range of indices": r"for _?\w+ in .*\.\.",
    "3 loops over items": r"for (\(|[a-z]\w* in (?!.*\.\.))",
    "4 order by hand": r"Ord::cmp\(|by_zone|== Ordering::|Ordering::(Less|Equal|Greater)",
    "4 conversion by hand": r" as (u8|u16|u32|u64|usize|i8|i32)\b",
    "4 a match that is a method of Option or Result": r"(Some|Ok|Err)\((\w+|_|\(\))\) => .*(Some|Ok|Err|true|false|None)\b|None => (None|Ok\(None\)|Err|false)|=> unreachable\(\)|Err\(_\) =>",
    "4 printing by hand": r"fn put_(decimal|text|spelled|commas|row)|fn spelled_len|\"fault \{number\}|b\"fault",
    "6 a buffer with a length beside it": r"count \+= 1|first -= 1|let mut (count|end|first) = |\[0\.\.(count|length|letters|n - first)\]",
    "6 a sorted list searched by hand": r"low < high",
    "6 parallel parts of memory": r"split_at_mut\(",
    "7 steps passed on": r"trait Sink|sink: &mut S|\bdyn\b|impl Fn|FnMut|FnOnce",
}


def sources(commit):
    names = subprocess.run(["git", "ls-tree", "-r", "--name-only", commit], capture_output=True, text=True, check=True).stdout.split()
    for name in names:
        if re.fullmatch(r"crates/\w+/src/.*\.rt", name) and not name.endswith("tests.rt"):
            yield name, subprocess.run(["git", "show", f"{commit}:{name}"], capture_output=True, text=True, check=True).stdout


def clauses(text):
    """The clauses of a file without their names, and with what the parameter is called after the value that is meant."""
    for line in text.splitlines():
        found = re.match(r"\s*(requires|ensures)(?: \w+)? \{ (.*) \}$", line)
        if found:
            yield found.group(1), found.group(2)


def main():
    verbose = "-v" in sys.argv
    commits = [word for word in sys.argv[1:] if word != "-v"]
    files = list(sources(commits[0] if commits else "HEAD"))
    for point, pattern in POINTS.items():
        places = [(name, number, line.strip()) for name, text in files for number, line in enumerate(text.splitlines(), 1)
                  if re.search(pattern, line) and not line.strip().startswith("//")]
        print(f"{len(places):4}  {point}")
        if verbose:
            for name, number, line in places:
                print(f"        {name}:{number}: {line}")
    seen = {}
    for name, text in files:
        for kind, clause in clauses(text):
            key = re.sub(r"\b(left|right|own|word|self|pair|self\.now|strip|earlier|later)\b", "x", re.sub(r"\.(now|old|entry|new)\b", "", clause))
            seen.setdefault((kind, key), []).append(name)
    many = {key: names for key, names in seen.items() if len(names) >= 3}
    print(f"{len(many):4}  5 clauses that stand in three or more contracts, up to the names of parameters ({sum(len(n) for n in many.values())} places)")
    if verbose:
        for (kind, key), names in sorted(many.items(), key=lambda entry: -len(entry[1])):
            print(f"        {len(names)} x {kind} {key}")
    wide = [(name, fn) for name, text in files for fn, args in re.findall(r"fn (\w+)(?:<[^>]*>)?\(([^)]*)\)", text)
            if len([a for a in args.split(",") if ":" in a]) >= 5]
    print(f"{len(wide):4}  5 functions of five parameters or more")
    if verbose:
        for name, fn in wide:
            print(f"        {name}: {fn}")


main()
