#!/usr/bin/env python3
"""The names that README, PROOFS, ARCHITECTURE and AUDIT give, held against the sources: functions, types, clauses, laws, definitions,
files. Each file and heading that any page links must be there, and each call of the library for C that one names; each call with a
condition in the table of LIBRARY; and each library that is to be used must be named in crates.txt and called.

Each complaint names the page, the name, and where it was looked for. In a list of names, as PROOFS has them, names in front of a
colon are functions, types or modules, and those behind it their clauses, the laws of a module, or definitions that their contracts
cite; `over` is followed by definitions. What has no colon is a function, a type, or a clause of what is named beside it.

`tests/gate/named.py` prints what is wrong; `tests/gate/named.py --clauses CRATE` the public functions of a crate with their
clauses.
"""

import collections
import functools
import glob
import os
import re
import sys

HERE = os.path.dirname(os.path.dirname(os.path.dirname(os.path.realpath(__file__))))
FN = re.compile(r"^( *)(?:pub(?:\([a-z ]+\))? )?(?:const |final |unsafe |extern \"C\" )*fn (\w+)")
PUBLIC = re.compile(r"^ *pub (?:const |final |unsafe |extern \"C\" )*fn ")
TYPE = re.compile(r"^ *(?:pub(?:\([a-z ]+\))? )?(struct|enum|trait|type|const) (\w+)")
BLOCK = re.compile(r"^(?:pub(?:\([a-z ]+\))? )?(?:unsafe )?(impl|trait|struct|enum)\b")
CLAUSE = re.compile(r"^ *(?:ensures|requires) (\w+) \{")
GHOST = re.compile(r"^ *(?:pub )?ghost (?!use\b)(\w+)(?: =|:)")
# Each library with what it is for: the files that call it for that, and how.
LIBRARIES = {
    "base64": {"opgp_armor/src/letters.rt": r"STANDARD\.decode", "opgp_armor/src/writing.rt": r"STANDARD\.encode"},
    "memchr": {"opgp_armor/src/reader.rt": r"memchr\(b'\\n'", "opgp_armor/src/lines.rt": r"memchr\(b':'"},
    "sha1": {"opgp_hash/src/hashers.rt": r"\bSha1\b"},
    "sha2": {"opgp_hash/src/digesting.rt": r"digest_by::<Sha512>"},
    "hex": {"opgp_octets/src/hexadecimal.rt": r"hex::encode_to_slice\("},
    "thiserror": {"opgp_codec/src/engine_error.rt": r"derive\([^)]*\bError\b"},
    "clap": {"opgp_words/src/command.rt": r"\bArg::new\(", "opgp_tool/src/task.rt": r"try_get_matches_from"},
    "byteorder": {"opgp_tests/src/report.rt": r"BigEndian::write_u"},
}
PLAIN = ("Err", "Send")  # of std
MEASURED = "opgp_bench"  # the crate that bench/ makes
DEFINED = re.compile(r"^(?: *abbrev |unfoldable |)pub (?:(?:record|data) )?(\w+)")
FIELD = re.compile(r"^ +pub (\w+)")
# A function with its owners (the type and the trait of its `impl`), its module, the names of its clauses, and its contract's text.
# What a type, a trait or an `impl` states of itself is one without a name; a definition is one whose clauses are its fields.
Fn = collections.namedtuple("Fn", "owners name module clauses text is_public", defaults=(False,))


def read(path):
    with open(f"{HERE}/{path}", encoding="utf-8") as it:
        return it.read()


def files(pattern):
    """The files of the repository whose paths are so."""
    return sorted(os.path.relpath(it, HERE) for it in glob.glob(f"{HERE}/{pattern}"))


def owners_of(line):
    """The type and the trait that a line opens a block of."""
    while (plain := re.sub(r"<[^<>]*>|\([^()]*\)", "", line.replace("->", ""))) != line:
        line = plain
    words = re.findall(r"[\w:]+", line.split("{")[0].split(" where ")[0].split(": ")[0])
    return frozenset(it.rpartition("::")[2] for it in words if it[0].isupper() or "::" in it)


def contract(lines, at, indent):
    """The lines of a function from its head to where its body begins."""
    first = at
    while at < len(lines):
        line, is_clause = lines[at], re.match(r" *(?:ensures|requires|ghost)\b", lines[at])
        if line in (f"{indent}{{", f"{indent}{{}}") or line.endswith(";") or not is_clause and line.endswith((" {", " {}")):
            break
        at += 1
    return lines[first : at + 1]


def functions_of(path):
    """The functions of a file, and what its types, traits and `impl`s state of themselves."""
    module, lines, found, owners, shown = os.path.basename(path)[:-3], read(path).split("\n"), [], frozenset(), PUBLIC
    for at, line in enumerate(lines):
        if BLOCK.match(line):
            owners, shown = owners_of(line), FN if line.startswith("pub trait") else PUBLIC
        elif line == "}":
            owners = frozenset()
        if it := GHOST.match(line):
            found.append(Fn(owners, "", module, {it[1]}, line))
        if it := FN.match(line):
            text = contract(lines, at, it[1])
            clauses = {name[1] for row in text if (name := CLAUSE.match(row))}
            found.append(Fn(owners, it[2], module, clauses, "\n".join(text), bool(shown.match(line))))
    return found


def definitions_of(path):
    """The definitions of a file in specs/."""
    found = []
    for line in read(path).split("\n"):
        if it := DEFINED.match(line):
            found.append(Fn(frozenset(), it[1], "", set(), line))
        elif found and (it := FIELD.match(line)):
            found[-1].clauses.add(it[1])
    return found


class Crate:
    """What a crate's sources and definitions name."""

    def __init__(self, name):
        self.name = name
        sources, specs = files(f"crates/{name}/src/*.rt"), files(f"crates/{name}/specs/*.antt")
        self.definitions = [it for path in specs for it in definitions_of(path)]
        self.functions = [it for path in sources for it in functions_of(path)]
        texts = [line for path in sources for line in read(path).split("\n")]
        self.types = {it[2] for line in texts if (it := TYPE.match(line))} | {it for f in self.functions for it in f.owners}
        self.aliases = dict(re.findall(r"^pub type (\w+)\b.* = (\w+)<", "\n".join(texts), re.M))
        self.variants = {it[1] for line in texts if (it := re.match(r" +([A-Z]\w*)(?:\(.*\)|,| \{| = \d+,)", line))}
        self.modules = {os.path.basename(path)[:-3] for path in sources}

    def found(self, name):
        """The functions that a name stands for: of that name, of a type or a trait, or of a module of laws. None: it names nothing."""
        owner, _, own = re.sub(r"<.*>", "", name).rpartition("::")
        if name.endswith("laws") and name in self.modules:
            return [it for it in self.functions if it.module == name]
        them = [it for it in self.functions if it.name == own and (not owner or {owner, self.aliases.get(owner)} & it.owners)]
        if not owner:
            them += [it for it in self.functions if own in it.owners] + [it for it in self.definitions if it.name == own]
        return them if them or not owner and own in self.types | self.variants else None


@functools.cache
def crates():
    return {name: Crate(name) for name in sorted(os.listdir(f"{HERE}/crates"))}


def names_in(text):
    """The names in a text, each between backquotes: words, perhaps with a type in front."""
    return [it for it in re.findall(r"`([^`]+)`", text) if re.fullmatch(r"[A-Za-z_]\w*(<\w+>)?(::\w+)?", it)]


class Claims:
    """A list of names in a page, as `function`: `clause`; what is wrong with it is kept."""

    def __init__(self, page, beside):
        self.page, self.beside, self.wrong, self.held = page, beside, [], 0

    def tell(self, holds, name, where):
        self.held += 1
        if not holds:
            self.wrong.append(f"{self.page}: `{name}` isn't {where}")

    def read(self, text, named):
        """The list in a text, of the crates that are named before it."""
        before = []
        for group in re.split(r"; ", text):
            if own := [it for it in names_in(group) if it in crates()]:
                named = own
            before = self.group(group, [crates()[it] for it in named], before)

    def group(self, text, within, before):
        """What stands between semicolons, behind names that stood before it; the names that clauses behind it are of."""
        where = " or ".join(it.name for it in within)
        front, *over = re.split(r"(?:^| )over ", text)
        subjects, colon, clauses = front.partition(": ")
        clauses, *more = clauses.split(" of ")
        subjects, clauses = ([it for it in names_in(part) if it not in crates()] for part in (subjects + " ".join(more), clauses))
        subjects = subjects if subjects or not colon else before
        asked = [(it, [crate.found(it) for crate in within]) for it in (*subjects, *names_in(self.beside))]
        known = {it: [f for them in found for f in them or []] for it, found in asked if any(them is not None for them in found)}
        own = [f for it in (subjects if colon else known) for f in known.get(it, [])]
        if "of each" in text:
            own += [f for crate in within for f in crate.functions]
        for name in subjects:
            holds = name in known or not colon and any(name in f.clauses for f in own)
            more = "" if colon else ", nor a clause of what is named beside it"
            self.tell(holds, name, f"a function, a type, a module or a definition of {where}{more}")
        for name in clauses:
            holds = any(name in f.clauses or f.name == name and f.module.endswith("laws") for f in own)
            holds |= any(re.search(rf"\b{name}\b", f.text) for f in own) and is_defined(name)
            self.tell(holds, name, f"a clause or a law of {', '.join(subjects)} in {where}, nor a definition that their contracts cite")
        for name in names_in(" ".join(over)):
            self.tell(is_defined(name) or name in known or any(name in crate.types for crate in within), name, "a definition in specs/ of a crate")
        return subjects


@functools.cache
def definitions():
    return {it.name for crate in crates().values() for it in crate.definitions}


def is_defined(name):
    return name in definitions()


def is_known(name):
    """Whether some crate has a function, a type, a clause or a definition of that name, or is called so."""
    return name in crates() or any(it.found(name) is not None or any(name in f.clauses for f in it.functions) for it in crates().values())


def paths_in(text):
    """The files and folders of the repository that a text names in backquotes or as a link's end; none is made by a build."""
    found = re.findall(r"`((?:\.ci|bench|build|c|completions|crates|docs|examples|man|packaging|python|tests)/[^ `]*)`", text)
    found += [it.split("#")[0] for it in re.findall(r"\]\(([^):]+)\)", text) if not it.startswith("#")]
    return [it for it in found if "/out" not in it and not re.search(r"[A-Z]{4,}|<", os.path.basename(it.removesuffix(".md")))]


def in_links():
    """Each file, folder and heading of the repository that a page names or links is there."""
    found = []
    for page in (*files("*.md"), *files("docs/*.md")):
        text, folder = re.sub(r"```.*?```", "", read(page), flags=re.S), os.path.dirname(page)
        found.append(Claims(page, ""))
        for it in paths_in(text):
            found[-1].tell(any(glob.glob(f"{HERE}/{at}{it}") for at in ("", f"{folder}/")), it, "a file or a folder of the repository")
        for path, name in re.findall(r"\]\(([^):#]*)#([^)]+)\)", text):
            other = os.path.normpath(os.path.join(folder, path)) if path else page
            headings = re.findall(r"^#+ (.*)", read(other), re.M) if os.path.isfile(f"{HERE}/{other}") else []
            found[-1].tell(name in [re.sub(r"[^\w -]", "", it.lower()).replace(" ", "-") for it in headings], name, f"a heading of {other}")
    return found


def complaints_of_prose(page, text):
    """What is wrong with names outside of lists: each that isn't a plain word is some crate's."""
    claims = Claims(page, "")
    text = re.sub(r"```.*?```", "", text, flags=re.S)
    within = [it for it in names_in(text) if it in crates()] or list(crates())
    for it in re.findall(r"`(\w+\.rt)`", text):
        claims.tell(any(os.path.isfile(f"{HERE}/crates/{crate}/src/{it}") for crate in within), it, f"in src/ of {' or '.join(within)}")
    for name, crate in re.findall(r"`([\w:]+)` of `(opgp_\w+)`", text):
        holds = crate in crates() and crates()[crate].found(name) is not None
        claims.tell(holds, name, f"a function, a type or a definition of {crate}")
    for name in names_in(text):
        if re.search(r"_|::|^[A-Z][a-z]{2}", name) and name not in PLAIN and not name.startswith("x_"):
            claims.tell(is_known(name), name, "a function, a type, a clause or a definition of any crate")
    return claims


def in_proofs():
    """The rows of the page of proofs, each of the crate of its heading, and what stands between them."""
    page, named, found = "docs/PROOFS.md", [], []
    text = read(page).split("## Wrong bodies that are refused")[0]
    for line in text.split("\n"):
        if it := re.match(r"## `(\w+)`", line):
            named = [it[1]] if it[1] in crates() else []
        cells = line.strip("| ").split(" | ")
        if line.startswith("| ") and len(cells) == 2 and "`" in cells[1]:
            found.append(Claims(page, cells[0]))
            found[-1].read(cells[1], named)
            line = cells[0]
        found.append(complaints_of_prose(page, line))
    return found


def in_readme():
    """What README names of the sources; PROOFS has the names of its promises."""
    return [complaints_of_prose("README.md", read("README.md"))]


def in_audit():
    """The lines that the page for auditors quotes stand in the file that it named before; what it checks is a function there."""
    page, found, file = "docs/AUDIT.md", [], ""
    text = read(page)
    found.append(complaints_of_prose(page, text))
    for part in re.split(r"(```.*?```)", text, flags=re.S):
        if not part.startswith("```"):
            named = [it for it in paths_in(part) if it.startswith("crates/") and os.path.isfile(f"{HERE}/{it}")]
            file = (named or [file])[-1]
            continue
        found.append(Claims(page, ""))
        for crate, module, name in re.findall(r"rt check --only (\w+)::(\w+)::(\w+)", part):
            holds = any(f.name == name and f.module == module for f in crates()[crate].functions)
            found[-1].tell(holds, f"{crate}::{module}::{name}", "a function")
        if not part.startswith("```sh"):
            for line in part.split("\n")[1:-1]:
                found[-1].tell(" ".join(line.split()) in " ".join(read(file).split()), line.strip(), f"in {file}")
    return found


def stands_on():
    """What each crate stands on, by crates.txt."""
    lines = [line.partition(": ") for line in read("crates.txt").split("\n") if line and line[0] != "#"]
    return {crate.split()[0]: below.split() for crate, _, below in lines}


def in_architecture():
    """The map: its crates, in an order in which each stands on those above it; in which file each rule is; and the names between."""
    page = "docs/ARCHITECTURE.md"
    text = read(page)
    found = [of_crates(page, section(text, "The crates")), of_rules(page, section(text, "Where each rule lives"))]
    for block in re.findall(r"^```.*?^```", text, re.M | re.S):
        found.append(of_diagram(page, block))
    for part in re.sub(r"^```.*?^```|^\| .*\.(?:antt|rt)`.*\n", "", text, flags=re.M | re.S).split("\n\n"):
        found.append(complaints_of_prose(page, part))
    return found


def section(text, title):
    """What stands below a heading of the second level."""
    return text.split(f"\n## {title}\n")[1].split("\n## ")[0]


def cells_of(text):
    """The cells of the rows of the tables in a text."""
    return [[it.strip() for it in line.strip()[1:-1].split("|")] for line in text.split("\n") if line.startswith("|")]


def of_crates(page, text):
    """The table of the crates has each of them, below all that it stands on."""
    claims, stands, above = Claims(page, ""), stands_on(), []
    for cells in cells_of(text):
        if cells[0].startswith("`"):
            named = [it for it in names_in(cells[0]) if it in stands]
            for crate in named:
                late = [it for it in stands[crate] if it in stands and it not in above]
                claims.tell(not late, crate, f"in its place: it stands on {', '.join(late)}, which aren't in rows above it")
            above += named
    for crate in stands:
        claims.tell(crate in above, crate, "in the table of the crates, though crates.txt has it")
    return claims


def of_rules(page, text):
    """The files of each rule: definitions in specs/ and code in src/ of the crate whose row stands before it."""
    claims, crate, told = Claims(page, ""), "", {}
    for cells in cells_of(text):
        if it := re.fullmatch(r"\*\*`(opgp_?\w*)`\*\*", cells[0]):
            crate = it[1]
            claims.tell(crate in crates(), crate, "a crate")
            continue
        for ending, folder in (("antt", "specs"), ("rt", "src")):
            for file in re.findall(rf"`(\w+\.{ending})`", " ".join(cells)):
                where = f"crates/{crate}/{folder}/{file}"
                claims.tell(os.path.isfile(f"{HERE}/{where}"), file, f"in crates/{crate}/{folder}")
                told.setdefault(where, cells[0])
    claims.tell(len(told) > 200, "Where each rule lives", f"a table of more than 200 files, but of {len(told)}")
    return claims


def of_diagram(page, text):
    """Each name in a diagram is one of the sources."""
    claims = Claims(page, "")
    for name in re.findall(r"\b(?:[a-z]+_[a-z_]+|(?:[A-Z][a-z]+){2,})\b(?!\.)", text):
        claims.tell(is_known(name), name, "a function, a type, a clause or a definition of any crate")
    for file in re.findall(r"\b\w+\.rt\b", text):
        claims.tell(bool(files(f"crates/*/src/{file}")), file, "in src/ of any crate")
    return claims


def is_called(crate, library):
    """Whether the sources of a crate call what they import of a library, or derive by it."""
    for path in files(f"crates/{crate}/src/*.rt"):
        text = re.sub(r"//.*|^ *ghost use .*", "", read(path), flags=re.M)
        imported = re.findall(rf"^ *use {library}::([^;]*);", text, re.M)
        names = "|".join({library, *re.findall(r"\w+", " ".join(imported))})
        plain = re.sub(r"^ *use [^;]*;", "", text, flags=re.M)
        if re.search(rf"\b(?:{names})(?:(?:::|\.)\w+)*(?:::<[^;(]*>)?\(|derive\([^)]*\b(?:{names})\b", plain):
            return True
    return False


def in_calls():
    """Each name that begins with opgp_, in any page and in its code too, is one of the library for C's header or a crate's."""
    declared, found = set(re.findall(r"\bopgp_\w+", read("c/opgp.h"))), []
    for page in (*files("*.md"), *files("docs/*.md")):
        found.append(Claims(page, ""))
        for name in sorted(set(re.findall(r"\bopgp_[a-z]\w*", read(page)))):
            found[-1].tell(name in declared or name in crates() or name == MEASURED, name, "in c/opgp.h, nor a crate")
    return found


def in_crates():
    """Each of the libraries is named in crates.txt by a crate that calls it."""
    found = Claims("crates.txt", "")
    for library in LIBRARIES:
        users = [crate for crate, below in stands_on().items() if library in below]
        where = f"named by a crate that calls it ({', '.join(users) or 'no crate names it'})"
        found.tell(any(is_called(crate, library) for crate in users), library, where)
        for path, use in LIBRARIES[library].items():
            found.tell(re.search(use, read(f"crates/{path}")), library, f"called in crates/{path} for what it is for")
    digits = [path for path in files("crates/*/src/*.rt") if re.search("0123456789abcdef", read(path), re.I)]
    found.tell(not digits, "hex", f"what writes digits, and no table of {digits}")
    return [found]


def in_library():
    """Each call of `opgp` that has a condition is in the table of conditions: with its type, behind `each`, or by `each call of` its type."""
    page, exported = "docs/LIBRARY.md", set(re.findall(r"\w+", read("crates/opgp/src/lib.rt")))
    table = re.findall(r"^\| (.*) \| .* \|$", read(page).split("## What a caller must know")[1].split("\n## ")[0], re.M)
    listed = r"((?:`\w+`(?:, | and )?)+)"
    behind = (re.findall(front + listed, "\n".join(table)) for front in ("each ", "each call of "))
    each, whole = ({it for them in found for it in names_in(them)} for found in behind)
    rows = [{word for it in names_in(cell) for word in it.split("::")} for cell in table]
    found = Claims(page, "")
    for crate in crates().values():
        for f in crate.functions:
            owners = set(f.owners) | {alias for alias, of in crate.aliases.items() if of in f.owners}
            if f.is_public and " requires " in f.text and exported & (owners or {f.name}):
                holds = f.name in each or owners & whole or any(f.name in words and (not owners or owners & words) for words in rows)
                found.tell(holds, "::".join([*sorted(f.owners), f.name]), f"in the table of conditions, and has one in {crate.name}")
    return [found]


def in_facade():
    """Each name that a library below `opgp` makes public, and each of its files of definitions that others may name, is one of `opgp`'s too."""
    page, found = "crates/opgp/src/lib.rt", Claims("crates/opgp", "")
    for crate in stands_on()["opgp"]:
        room = {"opgp_keyring": "ring"}.get(crate, crate.removeprefix("opgp_"))
        text = re.sub(r"//.*", "", read(f"crates/{crate}/src/lib.rt"))
        paths = [it for it in re.findall(r"^pub use ([^;]*);", text, re.M) if not it.startswith("opgp_")]
        names = {name for it in paths for name in re.findall(r"\w+", it.partition("{")[2] or it.split("::")[-1])}
        names |= set(re.findall(r"^pub mod (\w+);", text, re.M))
        told = re.search(rf"^pub mod {room} \{{(.*?)^\}}", read(page), re.M | re.S)
        for name in sorted(names):
            found.tell(bool(told) and name in re.findall(r"\w+", told[1]), name, f"in {page}, and is public in {crate}")
        told = read(f"crates/opgp/specs/{room.capitalize()}.antt")
        for name in re.findall(r"^pub mod (\w+)", read(f"crates/{crate}/specs/Lib.antt"), re.M):
            found.tell(f".{name}\n" in told, name, f"in crates/opgp/specs/{room.capitalize()}.antt, and is public in {crate}")
    return [found]


def clauses_of(name):
    """A line for each public function of a crate, with its file, and the names of its clauses; of a clause without a name, the
    definitions that it cites, or its text. Behind `keeps` comes what a type states of its values, and a trait of what implements it."""
    crate, found = crates()[name], {}
    public = {it[1] for path in files(f"crates/{name}/src/*.rt") for it in re.finditer(r"^pub (?:struct|enum|trait) (\w+)", read(path), re.M)}
    for f in crate.functions:
        called, said = f"{f.module}.rt {'::'.join([*sorted(f.owners), f.name]).strip(':')}", []
        if not f.name:
            if f.owners & public:
                found.setdefault(called, ["keeps "])[0] += ("" if found[called] == ["keeps "] else ", ") + ", ".join(f.clauses)
            continue
        for kind in ("requires", "ensures"):
            bodies = re.split(r"^ *(requires|ensures)\b ?(\w*) ?(?=\{)", f.text.split("\n", 1)[-1], flags=re.M)[1:]
            them = [own or without_name(body) for which, own, body in zip(bodies[::3], bodies[1::3], bodies[2::3]) if which == kind]
            said += [f"{kind} {', '.join(them)}"] if them else []
        if f.is_public:
            found[called] = said or ["no clause"]
    return sorted(f"{called}: {'; '.join(said)}" for called, said in found.items())


def without_name(body):
    """The definitions that a clause cites, in parentheses; of one that cites none its text."""
    cited = dict.fromkeys(it for it in re.findall(r"[A-Za-z_]+", body) if is_defined(it))
    return f"({' '.join(cited)})" if cited else " ".join(body.split("}")[0].split()) + " }"


def claims():
    """All that the pages say of names, and the libraries in use."""
    return [*in_readme(), *in_proofs(), *in_architecture(), *in_audit(), *in_library(), *in_facade(), *in_links(), *in_calls(), *in_crates()]


def main(words):
    if len(words) == 2 and words[0] == "--clauses" and words[1] in crates():
        print("\n".join(clauses_of(words[1])))
        return 0
    if words:
        print(f"usage: tests/gate/named.py [--clauses CRATE], of {' '.join(crates())}", file=sys.stderr)
        return 2
    them = claims()
    wrong = [it for each in them for it in each.wrong]
    print("\n".join([*wrong, f"{sum(it.held for it in them) - len(wrong)} passed, {len(wrong)} failed"]))
    return int(bool(wrong))


if __name__ == "__main__":
    sys.exit(main(sys.argv[1:]))
