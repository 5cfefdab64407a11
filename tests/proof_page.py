"""The part of docs/PROOF.md that tests/believed writes: the definitions under an acceptance.

The prose at the head of the page is written by hand. Behind the line MARK stands what is made here:
each module that the sentence of an acceptance leads to, in an order in which no definition comes
before one that it cites, with the sentences and the text of its definitions as they stand in their
file; the structs that they speak of; and, module by module, what it takes to believe that the three
texts are read as what they mean.
"""
import os
import re

PAGE = os.path.join("docs", "PROOF.md")
MARK = "<!-- tests/believed --proof writes all that is below this line. -->"
SAFE = ("mill_verify", "Claims", "CutsSafely")
PLAIN = ("mill_verify", "Plain", "PlainIsPlain")
ACCEPTED = ("mill_answer", "Verify", "AcceptsSafely")
# The names that a reader of the page meets in place of "declared" modules: a struct or an enum of the code.
STRUCT = re.compile(r"declared\.([\w.]+?)\.(\w+)(?:\.TheVariants)?$")


def text_of(path):
    with open(path, encoding="utf-8") as file:
        return file.read()


class Page:
    """What the page is made of: the root's path, the definitions, and two readers of tests/believed."""

    def __init__(self, root, specs, cited, sentences):
        self.root, self.specs, self.cited, self.sentences = root, specs, cited, sentences

    def under(self, name):
        """The definitions that a definition leads to, with itself."""
        found = [one for one in self.specs.texts if one == name]
        return set(self.specs.reached([(one, "the page") for one in found]))

    def named(self, one):
        """What a definition names: definitions, and structs by their modules."""
        known, own = self.specs.modules[one[:2]]
        return self.cited(self.specs.texts[one], known, one.crate, one.module, own)

    def path(self, crate, module):
        return os.path.join("crates", crate, "specs", *module.split(".")) + ".antt"

    def count(self, ones):
        """How many definitions, lines, modules and crates these are, in words."""
        lines = sum(self.specs.texts[one].count("\n") + 1 for one in ones)
        modules, crates = {one[:2] for one in ones}, {one.crate for one in ones}
        return f"{len(ones)} definitions, {lines} lines, in {len(modules)} modules of {len(crates)} crates"


def in_reading_order(page, ones):
    """The modules of definitions, each behind those that it cites."""
    edges = {}
    for one in ones:
        below = {other[:2] for other in page.named(one) if other in ones and other[:2] != one[:2]}
        edges.setdefault(one[:2], set()).update(below)
    order, seen = [], set()

    def visit(module):
        if module in seen:
            return
        seen.add(module)
        for below in sorted(edges[module]):
            visit(below)
        order.append(module)

    for module in sorted(edges):
        visit(module)
    return order


def head_of(text):
    """The comment at the head of a specs file, as one sentence."""
    lines = []
    for line in text.split("\n"):
        if not line.startswith("--"):
            break
        lines.append(line[2:].strip())
    return " ".join(lines)


def module_lines(page, module, ones):
    """A module's heading, and the text of those of its definitions that count."""
    text = text_of(os.path.join(page.root, page.path(*module)))
    out = ["", f"### {module[0]}, [{module[1]}](../{page.path(*module)})", "", head_of(text), "", "```"]
    is_first = True
    for comment, names in page.sentences(text):
        kept = [one for name in dict.fromkeys(names) for one in ones if one[:2] == module and one.name == name]
        if kept:
            out += [*([] if is_first else [""]), *([f"-- {comment}"] if comment else [])]
            out += [page.specs.texts[one] for one in kept]
            is_first = False
    return [*out, "```"]


def structs(page, ones):
    """The structs and enums of the code that definitions name, as (crate, file, name)."""
    found = set()
    for one in ones:
        known, _ = page.specs.modules[one[:2]]
        for other in page.named(one) | set(known.names.values()):
            match = STRUCT.match(other.module)
            words = re.findall(r"[\w◌]+", page.specs.texts[one])
            if match and (other.name in words or match[2] in words):
                found.add((other.crate, match[1].replace(".", "/"), match[2]))
    return sorted(found)


def struct_text(page, crate, file, name):
    """A struct or an enum as it stands in the code, without what derives and comments, or None."""
    path = os.path.join(page.root, "crates", crate, "src", f"{file}.rt")
    match = re.search(rf"^pub (?:struct|enum) {name} \{{.*?^\}}", text_of(path), re.M | re.S) if os.path.exists(path) else None
    if match is None:
        return None
    lines = [line for line in match[0].split("\n") if not line.strip().startswith(("///", "#["))]
    ghost = next((at for at, line in enumerate(lines) if line.strip().startswith("ghost ")), None)
    return "\n".join(lines if ghost is None else [*lines[:ghost], "}"])


def data_lines(page, ones):
    """The structs and enums that the definitions speak of."""
    texts = [struct_text(page, *it) for it in structs(page, ones)]
    return ["", "### The data that they speak of", "", "As the code declares it.", "", "```", "\n\n".join(filter(None, texts)), "```"]


def added_lines(page, more):
    """What an acceptance adds to these definitions, a row a module."""
    out = ["", "| module | definitions | says |", "|---|---|---|"]
    for module in in_reading_order(page, more):
        count = sum(one[:2] == module for one in more)
        link = f"{module[0]}, [{module[1]}](../{page.path(*module)})"
        out.append(f"| {link} | {count} | {head_of(text_of(os.path.join(page.root, page.path(*module))))} |")
    return out


def made(page):
    """All that stands behind the line MARK."""
    safe, accepted = page.under(SAFE), page.under(ACCEPTED)
    plain = page.under(PLAIN) - safe
    out = [MARK, "", "## The definitions under `CutsSafely`", "", f"{page.count(safe)}."]
    out += data_lines(page, safe)
    for module in in_reading_order(page, safe):
        out += module_lines(page, module, safe)
    out += ["", "## Without slack, overcut and graze", "", f"Beside these stand {page.count(plain)}: the same seven statements of the program's own path, and the law by which `CutsSafely` gives them."]
    for module in in_reading_order(page, plain):
        out += module_lines(page, module, plain)
    out += ["", "## What `AcceptsSafely` adds", "", f"{page.count(accepted - safe)}: what it means that the three texts read as a job, a part and moves."]
    out += added_lines(page, accepted - safe)
    return "\n".join(out) + "\n"


def faults(page, is_written):
    """Writes the page below its line, or says where it isn't so; and where README.md has another count."""
    path = os.path.join(page.root, PAGE)
    text = text_of(path) if os.path.exists(path) else ""
    head, _, _ = text.partition(MARK)
    wanted = head + made(page)
    out = []
    if is_written:
        with open(path, "w", encoding="utf-8") as file:
            file.write(wanted)
    elif text != wanted:
        out.append([f"{PAGE} is not what tests/believed --proof writes"])
    count = page.count(page.under(SAFE))
    for name, said in (("README.md", text_of(os.path.join(page.root, "README.md"))), (PAGE, head)):
        if count not in said:
            out.append([f"{name} doesn't say: {count}"])
    return out
