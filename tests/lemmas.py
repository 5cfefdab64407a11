"""Which lemmas of the crates' proofs/ no other proof names, for tests/layout.

A definition of a file below proofs/ is named where its own file has the name outside the definition; where another file
imports it and has it, under its own or the other name that the import gives it, outside the imports; or where code
names it for the tactics, as in `using(crate::proofs::Powers::nearest_raised)`. What `rt` asks for by name, the answers
and invariants whose type begins with `goal.` and what stands in a file Proof.antt, is none of these lemmas. Nor are
worked examples, which show what definitions say and are named by nothing: those of a file Facts.antt, or of a file
whose first line begins `-- Worked`.
"""
import collections
import os
import re

USE = re.compile(r"^[ \t]*(pub )?(?:ghost )?use ([^\s{;]+?)(?:\.\{([^}]*)\})?(?: as (\S+?))?;?[ \t]*$", re.M)
COMMENT = re.compile(r"(?:(?<=\s)|^)--[^\n]*|^\s*//[^\n]*", re.M)
MODIFIERS = re.compile(r"^(?:(?:pub|abbrev|unfoldable) )+")
TOKEN = re.compile(r"[^\s(){}\[\],;.:=⟦⟧<>&]+")
# A name behind a module's, as in `cert.second_on`.
BEHIND = re.compile(r"(?<![^\s(){}\[\],;.])([^\s(){}\[\],;.]+)\.([^\s(){}\[\],;.]+)")
NAME = re.compile(r"[^\W\d][\w'-]*\Z")
# A lemma that code names for the tactics: the crate, the module in it, the name.
USING = re.compile(r"\b(\w+)::(proofs(?:::\w+)+)::(\w+)\b")
NO_NAMES = ("use", "module", "record", "data", "open", "mod", "unfolding")

# A file: the definitions by name, each with its lines; the names in its text outside imports, with how often; those
# behind a module's name, each with it; its imports; the lemmas that it names for the tactics, each a module and a name;
# whether it has worked examples.
Source = collections.namedtuple("Source", "blocks counts behind imports using is_worked")
# An import: the module, the name in it (None where it is the module itself), the name here, whether it is passed on.
Import = collections.namedtuple("Import", "module name alias is_public")


def imports_of(text):
    """Returns the imports of a file."""
    found = []
    for is_public, path, names, alias in USE.findall(text):
        if not names:
            found.append(Import(path, None, alias or path.rpartition(".")[2], bool(is_public)))
        for item in filter(None, (it.strip() for it in names.split(","))):
            name, _, other = item.partition(" as ")
            found.append(Import(path, name.strip(), other.strip() or name.strip(), bool(is_public)))
    return found


def blocks_of(text):
    """Returns, by name, the text of each definition at the left margin or in a `module _` there."""
    blocks, name, margin = collections.OrderedDict(), None, 0
    for line in text.split("\n"):
        stripped = line.lstrip(" ")
        indent = len(line) - len(stripped)
        if stripped and indent <= margin:
            if indent == 0:
                margin = 2 if stripped.startswith("module _") else 0
            head = MODIFIERS.sub("", stripped).split(" ", 1)[0].partition(":")[0]
            if head == "unfolding":
                continue
            name = head if NAME.match(head) and head not in NO_NAMES else None
        if name:
            blocks[name] = blocks.get(name, "") + line + "\n"
    return blocks


def read(path):
    """Returns a file's definitions, names and imports."""
    with open(path, encoding="utf-8") as file:
        text = file.read()
    is_worked = path.endswith(("/Facts.antt", "/Proof.antt")) or text.startswith("-- Worked")
    text = COMMENT.sub("", text)
    imports, text = imports_of(text), USE.sub("", text)
    blocks = blocks_of(text) if path.endswith(".antt") else {}
    behind = collections.defaultdict(set)
    for module, name in BEHIND.findall(text):
        behind[module].add(name)
    return Source(blocks, collections.Counter(TOKEN.findall(text)), behind, imports, using_of(path, text), is_worked)


def using_of(path, text):
    """Returns the lemmas that code names for the tactics."""
    own = re.search(r"crates/([^/]+)/", path)[1]
    return {("Rattle." + ".".join([own if crate == "crate" else crate, *at.split("::")]), name) for crate, at, name in USING.findall(text)}


def module_of(path):
    """Returns the module of a file `crates/CRATE/proofs/A/B.antt`: Rattle.CRATE.proofs.A.B."""
    return "Rattle." + path[len("crates/") : -len(".antt")].replace("/", ".")


def named_by(source):
    """Returns the pairs of a module and a name in it that a file names outside its imports."""
    found = set(source.using)
    for it in source.imports:
        module = it.module if it.name is None else f"{it.module}.{it.name}"
        found.update((module, word) for word in source.behind.get(it.alias, ()))
        if it.name is not None and (it.is_public or source.counts[it.alias]):
            found.add((it.module, it.name))
    return found


def sources_of(root):
    """Returns, by path from the root, all files of code, definitions and proofs of the crates."""
    paths = []
    for folder, folders, names in os.walk(os.path.join(root, "crates")):
        folders[:] = sorted(it for it in folders if it not in ("out", "must-fail"))
        paths += [os.path.join(folder, it) for it in sorted(names) if it.endswith((".rt", ".antt"))]
    return {os.path.relpath(it, root): read(it) for it in paths}


def unused(root):
    """Returns the lemmas that nothing names: the file and the name of each."""
    sources = sources_of(root)
    named = set().union(*(named_by(it) for it in sources.values()))
    found = []
    for path, source in sources.items():
        if "/proofs/" not in path or source.is_worked:
            continue
        for name, block in source.blocks.items():
            own = collections.Counter(TOKEN.findall(block))[name]
            is_named = source.counts[name] > own or (module_of(path), name) in named
            if not is_named and f"{name} : goal." not in block:
                found.append((path, name))
    return found
