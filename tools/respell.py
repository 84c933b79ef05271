#!/usr/bin/env python3
"""Brings the names of this repository to the spelling of today's Rattle: words in snake case, modules in camel case.

usage: tools/respell.py             applies tools/respell.tsv once, over definitions, proofs, clauses and must-fail edits
       tools/respell.py --table     writes that table anew, over a tree as port.py leaves it: each name that changes, and what it becomes

The table here was made over the tree as port.py left it, and names that were found later were added by hand: docs/PORT.md says
which. A lemma that would have its function's name gets `_lem`. Functions of
src/, exported names, strings and quotations keep their spelling: only names that specs/ and proofs/ declare are in the table.
"""

import collections
import os
import re
import sys

ROOT = os.path.dirname(os.path.dirname(os.path.realpath(__file__)))
TABLE = os.path.join(ROOT, "tools", "respell.tsv")
NAME = re.compile(r"(?<!\d)[^\W\d_][\w'\-·]*")
DECLARED = re.compile(r"^ *(?:unfoldable |abbrev |pub |record |data |ruleset )*([^\W\d_][\w'\-·]*(?: [^\W\d_][\w'\-·]*)*) :", re.M)
# Folders of specs/ and proofs/ that are modules of their own; the other folders of proofs/ have the names of files of src/.
MODULES = [(r"\w+", "specs", "inside"), ("log", "proofs", "calls"), ("log", "proofs", "logging"), ("log", "proofs", "store"), ("log", "proofs", "tables")]
# Lemmas that had their function's name but for the hyphen, in the library of proofs that declares them.
LEMMAS = {
    "moved_down": "log",
    "moved_up": "log",
    "row_told": "cuwelfra",
    "same_id": "merging",
    "slots_at": "merge",
}


def files(*endings):
    for folder, folders, names in os.walk(os.path.join(ROOT, "crates")):
        folders[:] = sorted(d for d in folders if d != "out")
        for name in sorted(names):
            if name.endswith(endings):
                yield os.path.join(folder, name)


def read(path):
    with open(path, encoding="utf-8") as f:
        return f.read()


def write(path, text):
    with open(path, "w", encoding="utf-8") as f:
        f.write(text)


def snake(name):
    """`getU8` is get_u8, `rows-logged` is rows_logged."""
    out = ""
    for before, letter in zip(" " + name, name):
        if letter == "-":
            out += "_"
        elif letter.isupper():
            out += ("" if before in "-_ " or before.isupper() else "_") + letter.lower()
        else:
            out += letter
    return out


def old(name):
    return name[0].islower() and ("-" in name or re.search("[A-Z]", name))


def table():
    """Names that this repository declares or binds, and that are not spelled as today's Rattle spells them."""
    own = tuple("Rattle." + crate + "." for crate in os.listdir(os.path.join(ROOT, "crates")))
    foreign, declared, met = set(), set(), set()
    for path in files(".antt"):
        text = re.sub(r"--.*", "", read(path))
        for line in re.findall(r"^(?:pub )?use (.*)$", text, re.M):
            named = line[line.index("{") + 1 : line.rindex("}")].split(",") if line.endswith("}") else [line]
            for item in named:
                name, _, alias = (word.strip() for word in item.partition(" as "))
                if "." not in name and not line.startswith(own):
                    foreign.add(name)
                declared.update([alias] if alias else [])
        for names in DECLARED.findall(text):
            declared.update(names.split())
        met.update(NAME.findall(text))
    turned = {name: snake(name) for name in met if old(name) and name not in foreign and ("-" not in name or name in declared)}
    images = collections.Counter(turned.values())
    for name, image in turned.items():
        if "-" in name and (images[image] > 1 or image in declared):
            turned[name] = image + "_lem"
    return turned


def turned(text, names):
    return NAME.sub(lambda m: names.get(m.group(0), m.group(0)), text)


def outside_quotes(text, names):
    """Turns names outside quotation marks; a quotation ends with its line."""
    return "\n".join('"'.join(part if i % 2 else turned(part, names) for i, part in enumerate(line.split('"'))) for line in text.split("\n"))


def modules(path, text):
    for crate, library, name in MODULES:
        text = re.sub(rf"(Rattle\.{crate}\.{library}\.){name}(?![\w'])", lambda m: m.group(1) + name.capitalize(), text)
        if re.search(rf"/crates/{crate}/{library}/Lib\.antt$", path):
            text = re.sub(rf"^((?:pub )?mod ){name}$", lambda m: m.group(1) + name.capitalize(), text, flags=re.M)
        text = re.sub(rf"^(file: {library}/){name}/", lambda m: m.group(1) + name.capitalize() + "/", text, flags=re.M)
    return text


def spell(path, names):
    text = read(path)
    for lemma, crate in LEMMAS.items():
        if f"/crates/{crate}/proofs/" in path or f"Rattle.{crate}.proofs" in text and path.endswith(".antt"):
            text = re.sub(rf"(?<![\w.·'\-]){lemma}(?![\w·'\-])", lemma + "_lem", text)
    write(path, modules(path, outside_quotes(text, names)))


def move_modules():
    for crate in sorted(os.listdir(os.path.join(ROOT, "crates"))):
        for pattern, library, name in MODULES:
            at = os.path.join(ROOT, "crates", crate, library)
            if re.fullmatch(pattern, crate) and os.path.exists(os.path.join(at, name + ".antt")):
                for ending in (".antt", ""):
                    os.rename(os.path.join(at, name + ending), os.path.join(at, name.capitalize() + ending))


def main(words):
    if words == ["--table"]:
        write(TABLE, "".join(f"{name}\t{image}\n" for name, image in sorted(table().items())))
        return
    names = dict(line.split("\t") for line in read(TABLE).splitlines())
    for path in files(".antt", ".rt", ".edit"):
        spell(path, names)
    move_modules()


if __name__ == "__main__":
    main(sys.argv[1:])
