#!/usr/bin/env python3
"""Brings the repository's own definitions, lemmas and fields to snake case, after port.py and once.

usage: python3 tools/port_names.py          at the top of the repository

A name keeps its capital where it begins with one, since then it is a type or a fact. Where a lemma and a definition of one file would
get one name, the lemma gets _lem. Names of src/, exported names, strings, inputs and outputs stay.
"""

import collections
import glob
import re

# Words of the desk's language and of outputs, which pages quote beside the names.
SAID = {"bus-error", "not-read", "not-ready", "not-yet", "nothing-started"}
NAME = r"[^\s(){}.;,@\"«»\[\]\\:]+"
TOKEN = re.compile(r"\"(?:[^\"\\]|\\[\s\S])*\"|--[^\n]*|//[^\n]*|" + NAME)
DECLARED = re.compile(r"^( *)(?:(?:abbrev|unfoldable|opaque|pub|ruleset|instance)\s+)*([A-Za-z_][^\s:(){}.,]*)\s*:\s")
RECORD = re.compile(r"^( *)(?:(?:abbrev|unfoldable|pub)\s+)*(record|data)\s+(\S+)")
# Laws that would have the name of a definition in another file of their crate.
APART = {"answers/specs/SaidLaws": ["packet-outcome"], "asking/specs/AskingLaws": ["exchange-outcome"], "index/specs/EntryLaws": ["entry-count", "entry-word"],
         "promises/specs/RunHistoryLaws": ["reply-at"], "waits_laws/specs/FileSameLaws": ["same_line"]}


def read(path):
    with open(path, encoding="utf-8") as it:
        return it.read()


def below(pattern):
    return sorted(glob.glob(pattern, recursive=True))


def proofs_and_specs():
    return below("crates/*/specs/**/*.antt") + below("crates/*/proofs/**/*.antt")


def declared(text):
    """The names that a file declares, its records' fields among them."""
    for line in text.split("\n"):
        if RECORD.match(line):
            continue
        it = DECLARED.match(line)
        if it and not line.strip().startswith("--") and it[2] not in ("let", "in", "where"):
            yield it[2]


def respelled(name):
    if not (name[0].islower() or name[0] == "_"):
        return name
    name = name.replace("getD", "get_or").replace("′", "'")
    name = re.sub(r"([a-z0-9'])-(?=\w)", r"\1_", name)
    return re.sub(r"(?<=[a-z0-9])([A-Z])", lambda it: "_" + it[1].lower(), name)


def without_paths(text):
    text = re.sub(r"--.*", "", text)
    return re.sub(r"(?m)^((?:pub )?use )[^\s{]+", r"\1", text)


def plan(texts):
    """The new name of each name, and for single files the names that another one of the file would fall together with."""
    every = {name for text in texts.values() for name in declared(text)}
    new = {name: respelled(name) for name in every if respelled(name) != name}
    alone = collections.defaultdict(dict)
    for path, text in texts.items():
        together = collections.defaultdict(set)
        for name in set(re.findall(NAME, without_paths(text))):
            if name in every:
                together[new.get(name, name)].add(name)
        for to, names in together.items():
            if len(names) > 1:
                kept = next((it for it in sorted(names) if re.search("[A-Z]", it)), to)
                for lemma in names - {kept}:
                    if "-" in lemma:
                        new[lemma] = to + "_lem"
                    elif lemma in set(declared(text)):
                        alone[path][lemma] = to + "_lem"
    for module, names in APART.items():
        alone[f"crates/{module}.antt"].update((it, respelled(it) + "_lem") for it in names)
    # A lemma that is renamed in its own file alone is so where that file is imported.
    for path, names in list(alone.items()):
        module = "Rattle." + path[len("crates/"):-len(".antt")].replace("/", ".")
        for other, text in texts.items():
            for it in re.finditer(r"(?m)^(?:pub )?use " + re.escape(module) + r"\.\{([^}]*)\}", text):
                for name in re.findall(NAME, it[1]):
                    if name in names:
                        alone[other][name] = names[name]
    return new, alone


def turned(text, new):
    def one(it):
        word = it[0]
        if word[0] == '"':
            return word
        if word.startswith(("--", "//")):
            return re.sub(r"(?<![\w-])[a-z][a-z0-9]*[A-Z]\w*(?![\w-])", lambda w: new.get(w[0], w[0]), word)
        return new.get(word, word)

    return TOKEN.sub(one, text)


def main():
    texts = {path: read(path) for path in proofs_and_specs()}
    new, alone = plan(texts)
    for path in below("crates/*/src/**/*.rt"):
        texts[path] = read(path)
    for path in below("crates/*/must-fail/*.edit"):
        texts[path] = read(path)
    # An edit stands as it landed: the names that port.py turned are turned there too.
    every = {new.get(name, name) for path in proofs_and_specs() for name in declared(texts[path])}
    for path, text in texts.items():
        names = dict(new)
        if path.endswith(".edit"):
            words = set(re.findall(NAME, text))
            names.update((it, respelled(it)) for it in words if it not in names and respelled(it) in every)
        names.update(alone.get(path, {}))
        after = turned(text, names)
        if after != text:
            with open(path, "w", encoding="utf-8") as it:
                it.write(after)
    for path in ["README.md"] + below("docs/**/*.md"):
        text = read(path)
        one = lambda it: it[0] if it[0] in SAID else new.get(it[0], respelled(it[0]) if respelled(it[0]) in every else it[0])
        after = re.sub(r"`[^`\n]+`", lambda it: re.sub(r"(?<![\w./-])[a-z][\w-]*(?![\w/-])", one, it[0]), text)
        if after != text:
            with open(path, "w", encoding="utf-8") as it:
                it.write(after)
    print(f"{len(new)} names; {sum(map(len, alone.values()))} in single files")


if __name__ == "__main__":
    main()
