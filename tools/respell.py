#!/usr/bin/env python3
"""Respells the repository's own definitions, fields and lemmas once: words in snake case, a dash only between two names.

usage: python3 tools/respell.py [--list]

It is run at the top of the repository, after the kit's port.py. Types, records and modules keep their names, and so do all names of src/, strings, inputs and outputs.
With --list it changes nothing and prints each name, old and new.
"""
import glob
import re
import sys

WORD = re.compile(r"(?<![\w'-])\.?[A-Za-z_][\w']*(?:-[\w'*≤<]+)*")
HEAD = re.compile(r"^(?:abbrev |unfoldable )?(?:pub )?(?:abbrev |unfoldable )?(record |data )?([A-Za-z_][^\s:(){}]*)\s+(?:[({].*)?:\s*(.*)$")
FIELD = re.compile(r"^  (?:pub )?([a-z][\w'-]*) :")
LIBRARY = {"length", "take", "drop", "append", "replicate", "set", "eqb", "leb", "ltb", "cond", "min", "slice_get"}
# where the rule gives a name that is taken beside it, or takes a plain word for a definition
BY_HAND = {
    "entry-inside": "entry_inside",
    "choice-refused": "choice_refused",
    "header-short": "header_short",
    "header-length": "header_length",
    "refused-element": "refused_element",
    "arcs-inside": "arcs_inside",
    "refused-optional": "refused_optional",
    "refused-take": "refused_take",
    "short-header": "short_header",
    "padded-put": "padded_put",
    "padded-whole": "padded_whole",
    "oids-refused": "oids_refused",
    "starts-front": "starts_front",
    "refused-field": "refused_field",
    "refused-sequence": "refused_sequence",
    "short-field": "short_field",
    "pieces-cut": "pieces_cut",
    "answer_at": "answer_at_lem",
    "fields_read": "fields_read_lem",
    "list_read": "list_read_lem",
    "clientKey": "next_client_key",
    "byte-behind": "byte_behind_lem",
    "element-len": "element_len_lem",
    "empty-list": "empty_list_lem",
    "field-len": "field_len_lem",
    "fields-len": "fields_len_lem",
    "init-content": "init_content_lem",
    "init-read": "init_read_lem",
    "inside-len": "inside_len_lem",
    "kerberos-alone": "kerberos_alone_lem",
    "let-in": "let_in_lem",
    "long-length": "long_length_lem",
    "mech-oid": "oid-mech_oid",
    "name-layer": "name_layer_lem",
    "one-element": "one_element_lem",
    "part-read": "part_read_lem",
    "sequence-len": "sequence_len_lem",
    "seven-groups": "seven_groups_lem",
    "targ-read": "targ_read_lem",
    "zero-in-front": "zero_in_front_lem",
}


def snake(name):
    return re.sub(r"(?<=[a-z0-9])([A-Z])", lambda m: "_" + m.group(1).lower(), name)


def texts():
    return sorted(glob.glob("crates/*/specs/**/*.antt", recursive=True) + glob.glob("crates/*/proofs/**/*.antt", recursive=True))


def declared():
    """Each own name, with whether it is a definition (in specs/) and not a lemma."""
    names, fields = {}, set()
    for path in texts():
        if path.endswith("Lib.antt") or re.search(r"/proofs/.*/(Answers|Invariants|Proof)\.antt$", path):
            continue
        for line in open(path, encoding="utf-8"):
            head, field = HEAD.match(line), FIELD.match(line)
            if head and head.group(2) not in ("use", "where", "let"):
                names[head.group(2)] = names.get(head.group(2), False) or "/specs/" in path
            elif field:
                fields.add(field.group(1))
    return names, fields


def table():
    names, fields = declared()
    known = LIBRARY | {snake(n) for n, is_spec in names.items() if is_spec and "-" not in n}
    to = {}
    for name in sorted(set(names) | fields):
        if name[0].isupper():
            continue
        parts = [snake(p) for p in name.split("-")]
        new = parts[0]
        for before, part in zip(parts, parts[1:]):
            new += ("-" if before in known and part in known else "_") + part
        new = BY_HAND.get(name, new)
        if new != name:
            to[name] = new
    return to, {name for name in fields if name in to}


def respelled(text, to, fields):
    def new(m):
        word = m.group(0)
        if not word.startswith("."):
            return to.get(word, word)
        return "." + to[word[1:]] if word[1:] in fields else word

    return WORD.sub(new, text)


def code(line, to, fields):
    """A line of src/: strings and comments stay."""
    parts = re.split(r'("(?:[^"\\]|\\.)*")', line)
    for i in range(0, len(parts), 2):
        before, mark, comment = parts[i].partition("//")
        parts[i] = respelled(before, to, fields) + mark + comment
        if mark:
            break
    return "".join(parts)


def main():
    to, fields = table()
    if "--list" in sys.argv:
        for old, new in sorted(to.items()):
            print(old, new)
        return
    for path in texts():
        text = open(path, encoding="utf-8").read()
        new = "\n".join(line if line.lstrip().startswith("--") else respelled(line, to, fields) for line in text.split("\n"))
        if new != text:
            open(path, "w", encoding="utf-8").write(new)
    for path in sorted(glob.glob("crates/*/src/**/*.rt", recursive=True) + glob.glob("crates/*/must-fail/*.edit")):
        text = open(path, encoding="utf-8").read()
        new = "\n".join(code(line, to, fields) for line in text.split("\n"))
        if new != text:
            open(path, "w", encoding="utf-8").write(new)


main()
