"""What a text rests on: the definitions that it names, by the imports of its file, and those that these name in turn.

What is named is told as a tuple: ("definition", path, name), ("type", crate, name) for a type that a crate declares,
("library", module, name), or ("proof", module, name) for a name of a proofs/ folder, which no statement may have.
"""
import re

import antt

# The public calls: those of documents 01 and 02, and all of the crate for C.
CALLS = [("reader", "read"), ("recorder", "record"), ("converter", "convert"), ("replay", "replay"), ("judge", "judge")]
FOR_C = "capi"
PROMISES = "crates/promises/proofs/Promises.antt"
WORD = re.compile(r"\|\||\[\]|[^\s(){}\[\],;|⌜⌝]+")
LABEL = re.compile(r"(?<=[{;])\s*\S+ =|^  pub \S+ :", flags=re.M)  # of a field: it may have a definition's name


# What stands in a module's path for the variants of a type.
VARIANTS = ("TheVariants", "the-variants")


def spellings(word):
    """The names that a word may have in an import: its own, or that of an operator, today's and that of before the port.

    `a ← l` in a `do` block is a use of the operator `>>=`."""
    operator = ">>=" if word == "←" else word
    return word, f"◌{operator}◌", f"_{operator}_"


def calls(path, text):
    """The public calls of a file: name to signature and contract."""
    crate = path.split("/")[1]
    if path != f"crates/{crate}/src/lib.rt":
        return {}
    return {name: lines for name, lines in antt.contracts(text).items() if crate == FOR_C or (crate, name) in CALLS}


def imports(text):
    """The names that a file brings in, each with the module and the name there; and its short names for modules."""
    names, modules = {}, {}
    for line in re.findall(r"^(?:pub )?(?:ghost )?use ([^;\n]*);?$", text, flags=re.M):
        group = re.fullmatch(r"(\S+)\.\{(.*)\}", line)
        if group:
            for name in group.group(2).split(","):
                names[name.strip()] = (group.group(1), name.strip())
        elif " as " in line:
            path, short = line.split(" as ")
            modules[short.strip()] = path.strip()
        else:
            modules[line.split(".")[-1].strip()] = line.strip()
    return names, modules


class File:
    """A file: its imports and, in a specs/ folder, its definitions, each by its name and by its constructors' names."""

    def __init__(self, path, text):
        self.names, self.modules = imports(text)
        self.items = antt.definitions(text) if "/specs/" in path else {}
        self.of = {item: item for item in self.items}
        for item, lines in self.items.items():
            for line in lines[1:] if lines[0].startswith("pub data ") else []:
                constructors = re.match(r"  (\S[^:]*) : ", line)
                for name in constructors.group(1).split() if constructors else []:
                    self.of.setdefault(name, item)


class Tree:
    """The files of the crates, path to text, and what is named in them."""

    def __init__(self, texts):
        self.texts, self.files, self.known = texts, {}, {}
        self.crates = {path.split("/")[1] for path in texts}

    def file(self, path):
        if path not in self.files:
            self.files[path] = File(path, self.texts[path])
        return self.files[path]

    def is_proof(self, module):
        """Whether a module stands in a proofs/ folder of these crates. The toolchain has definitions in its own ones."""
        crate = re.match(r"Rattle[·.](\w+)", module)
        return ".proofs." in f"{module}." and crate is not None and crate.group(1) in self.crates

    def meant(self, module, name):
        """What a name of a module is, or None if the module's file neither defines it nor passes it on (`pub use`)."""
        if self.is_proof(module):
            return ("proof", module, name)
        own = re.fullmatch(r"Rattle[·.](\w+)(?:·specs)?\.specs\.(.*)", module)
        crate, rest = own.groups() if own else ("", "")
        if rest.startswith("declared."):
            return ("type", crate, [part for part in rest.split(".") if part not in VARIANTS][-1])
        path = f"crates/{crate}/specs/{rest.replace('.', '/')}.antt"
        if path not in self.texts:
            return ("library", module, name)
        file = self.file(path)
        if name in file.of:
            return ("definition", path, file.of[name])
        return self.meant(*file.names[name]) if name in file.names else None

    def named(self, path, text):
        """What a text of a file names."""
        file, found = self.file(path), set()
        for word in WORD.findall(LABEL.sub("", text)):
            head, _, rest = word.partition(".")
            spelled = spellings(word)
            if here := [file.of[one] for one in spelled if one in file.of]:
                found.add(("definition", path, here[0]))
            elif there := [file.names[one] for one in spelled if one in file.names]:
                found.add(self.meant(*there[0]))
            elif rest and head in file.modules:
                found.add(self.meant(file.modules[head], rest.split(".")[-1]))
            elif rest and head in file.names:
                found.add(self.meant(*file.names[head]))
        return found - {None}

    def inside(self, one):
        """What the text of a definition names."""
        kind, path, name = one
        if kind != "definition":
            return set()
        if one not in self.known:
            self.known[one] = self.named(path, "\n".join(self.file(path).items[name]))
        return self.known[one]

    def behind(self, named):
        """What is named, and what stands behind it."""
        found, left = set(), list(named)
        while left:
            one = left.pop()
            if one not in found:
                found.add(one)
                left.extend(self.inside(one))
        return found


def working_tree(root):
    """The crates as they stand in the folder of the project."""
    parts = [folder / part for folder in (root / "crates").iterdir() for part in ("src", "specs", "proofs", "must-fail")]
    paths = [path for part in parts for path in part.rglob("*") if path.suffix in (".rt", ".antt", ".edit")]
    return Tree({path.relative_to(root).as_posix(): path.read_text(encoding="utf-8") for path in paths})
