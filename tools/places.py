"""Lists the places that docs/DESIGN-PASS.md counts, point by point.

    python3 tools/places.py          the number of places that each rule finds
    python3 tools/places.py 3        the places of point 3, as file:line: text
"""
import glob
import itertools
import re
import sys
from collections import Counter, defaultdict

RULES = {
    1: [r"\b\w+: bool\b", r"fn (number|from_number|code)\b|\(u32, usize\)|\bmech: u32|\b(legs|height): u8", r"^\s*(pub )?enum \w+"],
    3: [r"for \w+ in [^{]*\.\.", r"\bwhile\b|\bloop\b", r"\b(?!self)\w+ \+= 1;"],
    4: [r"impl\b.* (PartialEq|Eq|Ord|PartialOrd|Clone|Copy|Debug|Default) for", r"fn (from_\w+|number|code|name|oid|bytes|spelled|\w+_word|refuse|refusal|refused)\b"],
    6: [r"\w*len: usize,?$", r"(: |-> |mut )\[\w[\w:]*; \w+\]", r"= \[.*\];$"],
    7: [r"\bfn\(|dyn |impl Fn", r"match (\*?self|kind|side|self\.side|kerberos, ntlm) \{"],
}


def functions(text):
    """Each function with a body: its line, signature and body, clauses left out."""
    for m in re.finditer(r"^([ ]*)(?:pub(?:\(crate\))? )?(?:const )?fn (\w+)", text, re.M):
        pad = m.group(1)
        end = re.search(r"^%s\}$|;$" % pad, text[m.start():], re.M)
        whole = text[m.start():m.start() + end.end()] if end else text[m.start():]
        lines = [l for l in whole.split("\n") if not re.match(r"\s*(ensures|requires)\b", l)]
        whole = "\n".join(lines)
        body = re.search(r"\n%s\{|\{\n" % pad, whole)
        if body:
            yield text[:m.start()].count("\n") + 1, m.group(2), whole[:body.start()], whole[body.start():]


def shape(sig, body):
    """The function with every name, number and text blotted out: twins have the same shape."""
    body = re.sub(r"//.*", "", body)
    body = re.sub(r'b?"[^"]*"|b?\'[^\']*\'|\b0x\w+|\b\d+\b', "#", body)
    return re.sub(r"\s+", " ", re.sub(r"\b(?!if|else|for|in|match|return|while|let|Some|None|Ok|Err)[A-Za-z_]\w*", "n", body))


def main():
    only = int(sys.argv[1]) if len(sys.argv) > 1 else None
    found = defaultdict(list)
    shapes, groups = defaultdict(list), defaultdict(set)
    for path in sorted(glob.glob("crates/*/src/**/*.rt", recursive=True)):
        text = open(path).read()
        for no, line in enumerate(text.split("\n"), 1):
            bare = line.split("//")[0]
            for point, rules in RULES.items():
                for k, rule in enumerate(rules):
                    if re.search(rule, bare) and not bare.startswith("ghost use"):
                        found[point, k].append("%s:%d: %s" % (path, no, line.strip()))
        for no, name, sig, body in functions(text):
            where = "%s:%d: %s" % (path, no, name)
            if len(body) > 60:
                shapes[shape(sig, body)].append(where)
            params = re.findall(r"(\w+): ([^,()]+(?:\([^)]*\))?)", sig.split("->")[0])
            params = {p for p in params if p[0] not in ("rt", "self")}
            for pair in itertools.combinations(sorted(params), 2):
                groups[pair].add(where)
    for s, where in shapes.items():
        if len(where) > 1:
            found[2, 0].append("; ".join(where))
    for pair, where in sorted(groups.items()):
        if len(where) > 2:
            found[5, 0].append("%s: %s" % (", ".join("%s: %s" % p for p in pair), "; ".join(sorted(where))))
    for path in sorted(glob.glob("crates/*/proofs/**/*.antt", recursive=True)):
        if path.endswith("Answers.antt"):
            found[8, 0].append(path)
        elif not path.endswith(("Lib.antt", "Invariants.antt")):
            found[8, 1].append("%s: %d lines" % (path, open(path).read().count("\n")))
    for key in sorted(found):
        if only in (None, key[0]):
            print("point %d, rule %d: %d" % (key[0], key[1] + 1, len(found[key])))
            if only:
                print("\n".join("  " + f for f in found[key]))


main()
