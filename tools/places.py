#!/usr/bin/env python3
"""Counts the places in crates/*/src that an older form of the language may have left. -v prints each place.

    tools/places.py [-v] [FOLDER]

FOLDER is a checkout; without it, this one. A line of the output is the point, what is looked for, and how many there are.
"""
import itertools
import pathlib
import re
import sys

FINDS = [
    ("1", "functions that answer a number where they answer nothing", r"\(\) -> u8$"),
    ("1", "a number for a kind, as a field or a parameter", r"\brelation: u32"),
    ("1", "a number for `blank` that code tests or writes", r"(?<!const )\bBLANK\b(?!: u16)"),
    ("1", "a number for `settled` that code tests or writes", r"marks\[\w+\] (?:=|!=|==)"),
    ("1", "a refusal told as a number", r"=> [1-5][0-9],"),
    ("1", "a value in place of none", r"unwrap_or\(|^        0$|\bnext: 0,|\blinks: 0,|\bdelay: 0,|^    used$|\.len\(\)$"),
    ("1", "a flag that a call answers", r"\) -> bool"),
    ("3", "a range that counts an index", r"for \w+ in [\w(].*\.\."),
    ("3", "a while or a loop", r"^\s*(?:let \w+ = )?(?:while|loop)\b"),
    ("3", "a count kept by hand", r"\+= 1;|-= 1;|\+= \*|saturating_add\(1\)"),
    ("3", "an index kept by enumerate", r"\.enumerate\(\)"),
    ("4", "an order or an equality by hand", r"fn (?:less|joins|is_less|is_sooner|pays)\b"),
    ("4", "a conversion by hand", r"fn (?:relation_named|class_number|class|number_in|number|size)\b| as (?:u8|u16|u32|u64|usize)\b"),
    ("4", "printing by hand", r"fn (?:\w*_words|put_\w+|print_\w+|\w+_text|\w+_line|\w*refused|path_head|page_of)\b"),
    ("6", "a length, a count or a position beside a slice or an array", r"^\s*(?:pub(?:\(\w+\))? )?(?:used|count|position|tallies|lines|calls): "),
    ("6", "a sorted list searched by hand", r"fn (?:place_in|row_in|find_row|spot_of|stands_at|find)\b"),
    ("7", "an arm that only runs a step", r"=> (?:Ok\()?(?:Call::\w+\()?(?:\w+::)*(?:link|recost|unlink|play_read|edit_board|\w+_of)\b"),
]


def functions(text):
    """Name, parameters as `name: type`, and clauses of each function."""
    for found in re.finditer(r"^( *)(?:pub(?:\([a-z]+\))? )?fn (\w+)", text, re.M):
        rest = text[found.end():]
        end = re.search(r"^%s\{|;\s*$" % found.group(1), rest, re.M) or re.search(r"\{", rest)
        head = rest[: end.start()]
        clauses = re.findall(r"(requires|ensures)\*? ?\w* ?\{(.*)\}", head)
        sign = head.split("requires")[0].split("ensures")[0]
        names = re.findall(r"(\w+): (&?(?:'\w+ )?(?:mut )?[^,()]+)", sign.split("->")[0].split("(", 1)[-1])
        yield found.group(2), {"%s: %s" % (n, t.strip()) for n, t in names}, {c[1].strip() for c in clauses}


def files(top):
    return sorted(p for p in pathlib.Path(top).glob("crates/*/src/**/*.rt"))


def crate_of(path, top):
    return path.relative_to(top).parts[1]


def travellers(top):
    """Parameters of three functions or more of a crate, none of which comes without the others."""
    crates = {}
    for path in files(top):
        for name, names, _ in functions(path.read_text()):
            crates.setdefault(crate_of(path, top), []).append((name, names))
    for crate, all_functions in crates.items():
        where = {}
        for index, (_, names) in enumerate(all_functions):
            for one in names:
                where.setdefault(one.split(":")[0], set()).add(index)
        groups = {}
        for one, places in where.items():
            if len(places) >= 3:
                groups.setdefault(frozenset(places), []).append(one)
        for places, group in groups.items():
            if len(group) >= 2:
                yield "%s: %s in %s" % (crate, ", ".join(sorted(group)), ", ".join(all_functions[i][0] for i in sorted(places)))


def facts(top):
    """Clauses that stand in the contracts of three functions or more of a crate."""
    seen = {}
    for path in files(top):
        for name, _, clauses in functions(path.read_text()):
            for clause in clauses:
                plain = re.sub(r"\.(?:old|new|now)\b", "", clause)
                seen.setdefault((crate_of(path, top), plain), set()).add("%s::%s" % (path.stem, name))
    for (crate, clause), names in sorted(seen.items()):
        if len(names) >= 3:
            yield "%s: %s in %s" % (crate, clause[:100], ", ".join(sorted(names)))


def lines_with(top, pattern):
    for path in files(top):
        for number, line in enumerate(path.read_text().splitlines(), 1):
            if not line.lstrip().startswith("//") and not line.startswith(("ghost use", "use ")) and re.search(pattern, line):
                yield "%s:%d: %s" % (path.relative_to(top), number, line.strip())


def main():
    words = [w for w in sys.argv[1:] if w != "-v"]
    top = pathlib.Path(words[0]) if words else pathlib.Path(__file__).resolve().parent.parent
    finds = [(point, what, list(lines_with(top, pattern))) for point, what, pattern in FINDS]
    finds.append(("5", "parameters that always travel together", list(travellers(top))))
    finds.append(("5", "a fact in three contracts or more", list(facts(top))))
    for point, group in itertools.groupby(sorted(finds), key=lambda f: f[0]):
        for _, what, places in group:
            print("%s  %3d  %s" % (point, len(places), what))
            if "-v" in sys.argv:
                for place in places:
                    print("       " + place)


main()
