#!/usr/bin/env python3
"""Compares include/camtool.h with what mill_ffi exports, of mill_ffi_data's types: each function with its arguments,
each struct with its fields, each status and the limit. It prints what differs, and ends with 0 where nothing does.

Pass the exported symbols, a line each, on standard input (nm -g --defined-only).
"""
import os
import re
import sys

ROOT = os.path.dirname(os.path.dirname(os.path.abspath(__file__)))
CALLS = os.path.join(ROOT, "crates", "mill_ffi", "src")
TYPES = os.path.join(ROOT, "crates", "mill_ffi_data", "src")


def text_of(*path):
    with open(os.path.join(*path), encoding="utf-8") as file:
        return file.read()


def c_name(name):
    """A Rust name of a type or a variant, as C's is spelled: RawTool is camtool_tool."""
    return "camtool_" + re.sub(r"(?<!^)(?=[A-Z])", "_", name.removeprefix("Raw")).lower()


def c_argument(argument):
    """An argument as C declares it; none for the allocator, which takes no bytes."""
    name, kind = (word.strip() for word in argument.split(":"))
    if kind == "Global":
        return []
    found = re.fullmatch(r"(&?)(mut )?(\[)?(\w+)\]?", kind)
    lent, written, many, of = found.groups()
    of = {"i32": "int32_t", "u8": "uint8_t", "u32": "uint32_t", "u64": "uint64_t", "usize": "size_t"}.get(of) or c_name(of)
    declared = f"{of} *{name}" if lent else f"{of} {name}"
    if lent and not written:
        declared = f"const {declared}"
    return [declared] + ([f"size_t {name}_count"] if many else [])


def exports():
    """What the crate's sources declare for C, as C declares it."""
    declared = {}
    for file in sorted(os.listdir(CALLS)):
        if file.endswith(".rt"):
            text = text_of(CALLS, file)
            for name, arguments in re.findall(r'pub extern "C" fn (\w+)\(([^)]*)\) -> i32', text):
                given = [argument for argument in arguments.split(",") if argument.strip()]
                declared[name] = ", ".join(word for argument in given for word in c_argument(argument))
    return declared


def structs(text):
    """The structs of repr(C), and their fields, as C declares them."""
    found = re.findall(r"#\[repr\(C\)\]\n(?:#\[[^\n]*\n)*pub struct (\w+) \{\n(.*?)\n\}", text, re.S)
    return {c_name(name): [c_argument(field)[0] for field in re.findall(r"pub (\w+: \w+),", fields)] for name, fields in found}


def bare(text):
    """C's text with no comments, and one space for each gap."""
    return re.sub(r"\s+", " ", re.sub(r"/\*.*?\*/", " ", text, flags=re.S))


def main():
    header, faults = bare(text_of(ROOT, "include", "camtool.h")), []

    def compare(what, ours, theirs):
        if ours != theirs:
            faults.append(f"{what}: the crate has {ours}, the header {theirs}")

    declared = exports()
    functions = {name: arguments.strip() for name, arguments in re.findall(r"int32_t (camtool_\w+)\(([^)]*)\);", header)}
    compare("functions", declared, functions)
    symbols = {line.split()[-1] for line in sys.stdin if line.split()[-1:] and " T " in line}
    compare("symbols", sorted(declared), sorted(name for name in symbols if not name.startswith("rattle_")))

    found = re.findall(r"typedef struct (\w+) \{ (.*?) \} \1;", header)
    compare("structs", structs(text_of(TYPES, "raw.rt")), {name: [field.strip() for field in fields.split(";") if field.strip()] for name, fields in found})

    codes = re.findall(r"Fault::(\w+) => (\d+),", text_of(TYPES, "fault.rt"))
    ours = [("CAMTOOL_OK", "0")] + [(c_name(name).upper(), code) for name, code in codes]
    listed = re.search(r"enum camtool_status \{(.*?)\}", header).group(1)
    compare("statuses", ours, re.findall(r"(\w+) = (\d+)", listed))

    limit = re.search(r"MAX_COORDINATE: u32 = ([\d_]+);", text_of(ROOT, "crates", "mill_base", "src", "limits.rt"))
    compare("the limit", limit.group(1).replace("_", ""), re.search(r"CAMTOOL_MAX_COORDINATE (\d+)", header).group(1))
    print("\n".join(faults), end="\n" if faults else "")
    return 1 if faults else 0


if __name__ == "__main__":
    sys.exit(main())
