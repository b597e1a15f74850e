"""The parts of a Rattle or antt file that a reader goes by, each by its name: definitions, laws, contracts, types.

Files are read in today's spelling and in that of before the port (docs/PORT.md), which the landings' commits have."""
import re
import typing

FUNCTION = r'^( *)(pub )?(?:extern "C" )?fn (\w+)(.*?)\{\}? *$'
BODY = re.compile(r"\{\}? *$", flags=re.M)
METHODS_OR_FUNCTION = re.compile(rf"^impl (\w+)|{FUNCTION}", flags=re.M | re.S)
CLAUSE = re.compile(r"\b(requires|ensures)(?: \w+)? \{")
BRACE = re.compile(r"[{}]")
TYPE = re.compile(r"^(?:pub )?(?:struct|enum) (\w+)(.*?(?:;|^\})) *$", flags=re.M | re.S)
DECLARATION = re.compile(r"(abbrev |unfoldable )?(pub )?(record |data )?(\S+)(.*)")
SIGNATURE = re.compile(r"(?: \{[^}]*\})? :(?: |$)")


class Declared(typing.NamedTuple):
    """A declaration of a proofs/ folder: a definition or a law, its statement and its proof, in lines."""
    defines: bool
    statement: list
    proof: list


def without_comments(text, mark):
    return re.sub(re.escape(mark) + r".*", "", text)


def definitions(text):
    """The definitions of a file of specs/: name to lines, in their order, without comments."""
    items, item = {}, None
    for line in without_comments(text, "--").split("\n"):
        declared = re.match(r"(?:unfoldable |abbrev )?pub (?:record |data )?(\S+)", line)
        if declared and not line.startswith(("pub mod", "pub use")):
            item = declared.group(1)
            items[item] = []
        elif line.startswith(("use ", "pub use ")):
            item = None
        if item and line.strip():
            items[item].append(line.rstrip())
    return items


def declaration(bare):
    """The name that a line declares, whether as a definition, and the rest of the line; or None."""
    kind, public, sort, name, rest = DECLARATION.fullmatch(bare).groups()
    if public and name not in ("mod", "use") or sort or SIGNATURE.match(rest):
        return name, bool(kind or sort), rest.strip()
    return None


def parameters(modules):
    """The parameters of modules that stand in each other, as those of a statement."""
    return [" ".join(lines).removeprefix("module _").removesuffix("where") for _, lines in modules] + ["→"]


def declarations(text):
    """The declarations of a file of proofs/, by name. A statement has the parameters of the modules around it."""
    found, modules, part = {}, [], []
    for line in without_comments(text, "--").split("\n"):
        bare, indent = line.strip(), len(line) - len(line.lstrip())
        if not bare:
            continue
        modules = [(at, lines) for at, lines in modules if at < indent]
        if indent > (modules[-1][0] + 2 if modules else 0):
            part.append(bare)
        elif bare.startswith("module _"):
            part = [bare]
            modules.append((indent, part))
        elif declared := declaration(bare):
            name, defines, rest = declared
            part = [":", *parameters(modules), rest.removeprefix(":")] if modules else [rest]
            found[name] = Declared(defines, part, [])
        elif found and not bare.startswith(("use ", "pub use ")):
            part = found[name].proof
            part.append(bare)
    return found


def statements(text):
    """The theorems of a page: name to statement."""
    return {name: declared.statement for name, declared in declarations(text).items()}


def functions(text):
    """The functions of a file: name (a method's with its type) to whether it is public, its signature and contract."""
    found, methods_of, at, text = {}, None, 0, without_comments(text, "//")
    while match := METHODS_OR_FUNCTION.search(text, at):
        of, indent, public, name, rest = match.groups()
        at = match.end()
        if of:
            methods_of = of
            continue
        while "⌜" not in rest and rest.count("{") != rest.count("}"):  # the line ends in a brace of a clause
            start, at = match.start(5), BODY.search(text, at).end()
            rest = re.sub(r"\{\}? *$", "", text[start:at])
        found[f"{methods_of}::{name}" if indent else name] = (bool(public), rest.split("\n"))
    return found


def contracts(text):
    """The public functions of a file: name to signature and contract."""
    return {name: lines for name, (public, lines) in functions(text).items() if public}


def closing(text, at):
    """Where the brace is that closes the one before this place."""
    depth = 1
    for brace in BRACE.finditer(text, at):
        depth += 1 if brace.group() == "{" else -1
        if depth == 0:
            return brace.start()
    return None


def clauses_by_kind(lines):
    """The clauses of a contract, each by its kind, `requires` or `ensures`, and its text."""
    text, at = "\n".join(lines), 0
    while clause := CLAUSE.search(text, at):
        at = closing(text, clause.end())
        if at is None:
            return  # before the port, where a line of a clause ends in a brace
        yield clause.group(1), text[clause.end():at].strip()


def clauses(lines):
    """What a contract asks and ensures, without the signature."""
    return "\n".join(text for _, text in clauses_by_kind(lines))


def types(text):
    """The types that a file of a program declares: name to text."""
    return dict(TYPE.findall(without_comments(text, "//")))
