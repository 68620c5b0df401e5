"""What the refusal of a wrong edit rests on, as a set of texts with one SHA-256: tools/planted.py keeps it beside the edit.

These are the edit's own text; the whole text of each function that it changes or that was refused; the clauses, types and constants of
its crate; of the crates below the clauses of the functions and the types that those texts name; and the definition files that all these
cite, through the crates below. Comments, layout, the other bodies and the places of files are no part of it: none of them decides
whether a contract refuses the edit. What the kit's own libraries say is the kit's logic, which a record names beside.
"""
import functools
import hashlib
import os
import re

from rattle_text import Source, cited, normal_antt, normal_rust

WORD = re.compile(r"[A-Za-z_]\w*")
# (what begins each text of a sum, so that none is taken for another kind)
EDIT, BODY, ITEM, BELOW, DEFINITION = "edit: ", "function: ", "item: ", "below: ", "definition: "


class Sources:
    """A tree of crates, as its files say."""

    def __init__(self, top):
        self.top, self.uses = top, {}
        with open(os.path.join(top, "crates.txt"), encoding="utf-8") as lines:
            for line in lines:
                name, colon, libraries = line.split("#")[0].partition(":")
                if colon:
                    self.uses[name.split()[0]] = libraries.split()

    @functools.lru_cache(maxsize=None)
    def below(self, crate):
        """The crates of this tree on which one depends, at any depth."""
        found = set()
        for name in self.uses.get(crate, []):
            if name in self.uses:
                found |= {name, *self.below(name)}
        return frozenset(found)

    @functools.lru_cache(maxsize=None)
    def files(self, crate):
        """The sources of a crate, by their place in it."""
        found, root = {}, os.path.join(self.top, "crates", crate)
        for folder, _, names in sorted(os.walk(os.path.join(root, "src"))):
            for name in sorted(it for it in names if it.endswith(".rt")):
                path = os.path.join(folder, name)
                with open(path, encoding="utf-8") as text:
                    found[os.path.relpath(path, root)] = Source(text.read())
        return found

    @functools.lru_cache(maxsize=None)
    def items(self, crate):
        """The items of a crate: clauses, types, constants and imports of definitions."""
        return frozenset(it for source in self.files(crate).values() for it in source.items())

    @functools.lru_cache(maxsize=None)
    def by_name(self, crate):
        """Of each function and type of a crate, by its own name: its text for crates above, and the modules that its file cites."""
        found = {}
        for source in self.files(crate).values():
            cites = frozenset(cited(normal_rust(source.text)))
            for it in source.functions:
                found.setdefault(it.short, []).append((it.head, cites))
            for name, text in source.types().items():
                found.setdefault(name, []).append((text, cites))
        return found

    @functools.lru_cache(maxsize=None)
    def specs(self, crate):
        """The definition files of a crate, by their module's words behind `specs`."""
        found, root = {}, os.path.join(self.top, "crates", crate, "specs")
        for folder, _, names in sorted(os.walk(root)):
            for name in sorted(it for it in names if it.endswith(".antt")):
                path = os.path.join(folder, name)
                words = os.path.relpath(path, root)[: -len(".antt")].split(os.sep)
                with open(path, encoding="utf-8") as text:
                    found[tuple(words)] = normal_antt(text.read())
        return found

    @functools.lru_cache(maxsize=None)
    def module(self, words):
        """The crate and file of a module of definitions, through the `pub use` lines of the crates between; None, if none has it."""
        crate, inside = words[0], words[2:]
        if crate not in self.uses:
            return None
        if inside and inside[0] == "declared":
            return crate, ("declared", next((it for it in reversed(inside) if it in self.by_name(crate)), inside[-1]))
        for most in range(len(inside), 0, -1):
            if inside[:most] in self.specs(crate):
                return crate, inside[:most]
        for passed in sorted(cited(self.specs(crate).get(("Lib",), ""))):
            if inside and passed[-1] == inside[0]:
                return self.module(passed + tuple(inside[1:]))
        return None

    def definition(self, crate, inside):
        """The text of a definition file, or of a type that the code of a crate declares."""
        if inside[0] != "declared":
            return self.specs(crate)[inside]
        return " ".join(sorted(text for text, _ in self.by_name(crate).get(inside[1], [])))

    def definitions(self, modules):
        """The texts of the files and types that these modules are, and of all that they cite."""
        found, left = {}, {it for it in map(self.module, modules) if it}
        while left:
            crate, inside = left.pop()
            if (crate, inside) in found:
                continue
            text = found[crate, inside] = self.definition(crate, inside)
            left |= {it for it in map(self.module, cited(text)) if it and it not in found}
        return found


def functions_named(sources, crate, names):
    """The functions of a crate that have one of these names, with or without their type's."""
    every = [it for source in sources.files(crate).values() for it in source.functions]
    return [it for it in every if it.name in names or it.short in names]


def parts(sources, crate, edit, refused):
    """The texts on which a refusal rests: of an edit (its pairs of texts and the functions that it changes) by these functions."""
    changed = functions_named(sources, crate, {*edit.functions, *refused})
    found = {EDIT + " => ".join(normal_rust(it) for it in pair[1:]) for pair in edit.pairs}
    found |= {BODY + it.whole for it in changed}
    found |= {ITEM + it for it in sources.items(crate)}
    named = {word for it in changed for word in WORD.findall(it.whole)} | {word for _, _, new in edit.pairs for word in WORD.findall(new)}
    modules = {module for source in sources.files(crate).values() for module in cited(normal_rust(source.text))}
    for lower in sources.below(crate):
        by_name = sources.by_name(lower)
        for word in named & by_name.keys():
            for text, cites in by_name[word]:
                found.add(BELOW + text)
                modules |= cites
    found |= {DEFINITION + it for it in sources.definitions(frozenset(modules)).values()}
    return found


def digest(texts):
    """One SHA-256 of a set of texts."""
    return hashlib.sha256("\n".join(sorted(texts)).encode()).hexdigest()


def renamed(texts, names):
    """The texts with each whole word of `names` in its place's new one."""
    return {WORD.sub(lambda it: names.get(it.group(), it.group()), text) for text in texts}
