#!/usr/bin/env python3
"""Spells the repository's own definitions, lemmas and fields in snake case, by names.tsv beside this file.

usage: tools/respell.py [--table] [ROOT]

It is run once, right after the kit's port.py. A row of names.tsv is an old name, a tab and the new one. In specs/ and in
the lemma files of proofs/ each whole word turns. In a function's own proof a word turns where the file imports it, and
behind a dot where it is a field of a record of the repository: every other word there is a name that the prover makes.
In sources and documents only a name with a capital inside turns, and a name with a dash only between backquotes.
With --table names.tsv is made anew from what stands in ROOT, and no other file is written.
"""
import collections
import glob
import os
import re
import sys

HERE = os.path.dirname(os.path.realpath(__file__))
TABLE = os.path.join(HERE, "names.tsv")
WORD = r"[^\s(){}.;,@\"«»]+"
DECLARED = re.compile(
    r"(?m)^( *)((?:(?:pub|abbrev|unfoldable|private|record|data) +)*)([^\s(){}.;,@\"«»:]+)(?: \{[^{}\n]*\})* :(?= )"
)
TOKEN = re.compile(r"(?<![^\s(){}.;,@\"«»])--[^\n]*|\"(?:[^\"\\\n]|\\.)*\"|" + WORD)


def read(path):
    with open(path, encoding="utf-8", newline="") as it:
        return it.read()


def write(path, text):
    if read(path) != text:
        with open(path, "w", encoding="utf-8", newline="") as it:
            it.write(text)
        print(path)


def below(root, *patterns):
    return sorted(p for it in patterns for p in glob.glob(os.path.join(root, it), recursive=True) if "/out/" not in p)


def lemma_files(root):
    return below(root, "crates/*/specs/**/*.antt", "crates/*/proofs/*.antt")


def own_proofs(root):
    return below(root, "crates/*/proofs/*/**/*.antt")


def code(text):
    return re.sub(r"(?m)(?<![^\s(){};,@])--.*$", "", text)


def in_snake_case(name):
    name = name.replace("getD", "get_or")
    return re.sub(r"(?<=[a-z0-9'])[A-Z]", lambda m: "_" + m[0].lower(), name).replace("-", "_")


def make_table(root):
    """Where a lemma's new name is that of a definition, the lemma gets _lem."""
    declared, words, where = set(), {}, collections.defaultdict(set)
    fields = set()
    for p in lemma_files(root):
        text = code(read(p))
        words[p] = set(re.findall(WORD, text))
        in_record = False
        for line in text.split("\n"):
            if re.match(r"(pub )?record\b", line):
                in_record = True
            elif line and not line.startswith(" "):
                in_record = False
            m = DECLARED.match(line)
            if m and re.match(r"[a-z]", m[3]):
                declared.add(m[3])
                where[m[3]].add(p)
                if in_record and m[1]:
                    fields.add(m[3])
    turned = {n: in_snake_case(n) for n in declared if in_snake_case(n) != n}
    by_new = collections.defaultdict(list)
    for old, new in turned.items():
        by_new[new].append(old)
    rows = {}
    for new, olds in sorted(by_new.items()):
        # what has the new name already: another row's definition, or a word of a file that has the old one
        olds.sort(key=lambda it: ("-" in it, it))
        taken = new in declared
        for old in olds:
            if not taken and "-" not in old:
                rows[old], taken = new, True
            elif not taken and not any(old in w and new in w for w in words.values()):
                rows[old], taken = new, True
            elif "-" in old:
                rows[old] = new + "_lem"
            else:
                # a definition keeps the plain name: the lemma that has it gets _lem
                rows[old], rows[new] = new, new + "_lem"
    with open(TABLE, "w", encoding="utf-8") as it:
        for old, new in sorted(rows.items()):
            it.write(f"{old}\t{new}\t{'field' if old in fields else ''}\n".replace("\t\n", "\n"))
    print(len(rows), "names;", sum(n.endswith("_lem") for n in rows.values()), "with _lem:", [o for o, n in rows.items() if n.endswith("_lem")])


def rows():
    out, fields = {}, set()
    for line in read(TABLE).splitlines():
        old, new, *kind = line.split("\t")
        out[old] = new
        if kind == ["field"]:
            fields.add(old)
    return out, fields


def prose(text, table):
    """Names with a capital inside, and between backquotes names with a dash too."""
    text = re.sub(r"`[^`\n]*`", lambda m: re.sub(WORD.replace(r"\"", r"\"`"), lambda w: table.get(w[0], w[0]), m[0]), text)
    return re.sub(r"(?<![\w'-])[a-z][a-z0-9]*[A-Z]\w*(?![\w'-])", lambda m: table.get(m[0], m[0]), text)


def antt(text, table, turns=lambda name, dotted: True):
    def one(m):
        it = m[0]
        if it.startswith("--"):
            return prose(it, table)
        if it.startswith('"') or it not in table:
            return it
        dotted = m.start() > 0 and text[m.start() - 1] == "."
        return table[it] if turns(it, dotted) else it

    return TOKEN.sub(one, text)


def own_proof(text, table, fields):
    imported = set()
    for m in re.finditer(r"(?m)^use Rattle\.[^\n{]*\{([^}]*)\}", text):
        imported |= {it.split(" as ")[0].strip() for it in m[1].split(",")}
    return antt(text, table, lambda name, dotted: name in fields if dotted else name in imported or name in fields and re.search(rf"(?m)^ *{re.escape(name)} = ", text) is not None)


def main(argv):
    make = "--table" in argv
    root = ([it for it in argv if not it.startswith("--")] + ["."])[0]
    if make:
        return make_table(root)
    table, fields = rows()
    for p in lemma_files(root):
        write(p, antt(read(p), table))
    for p in own_proofs(root):
        write(p, own_proof(read(p), table, fields))
    for p in below(root, "crates/*/src/**/*.rt", "README.md", "docs/**/*.md"):
        write(p, prose(read(p), table))


if __name__ == "__main__":
    main(sys.argv[1:])
