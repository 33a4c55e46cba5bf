#!/usr/bin/env python3
"""Checks that include/tozbirem.h, the exports of crates/dsp_c and the Python package declare the same.

    tools/library/declarations.py     prints what differs, and ends with 1

Functions are compared by their arguments in order, records by their fields, statuses and kinds of faults by number.
"""
import ctypes
import glob
import os
import re
import sys

TOP = os.path.dirname(os.path.dirname(os.path.dirname(os.path.abspath(__file__))))
RECORDS = {"Answer": "answer", "Handle": "handle", "Plan": "plan", "MeasureRow": "measure", "Lengths": "lengths"}
WORDS = {"u8": "uint8_t", "bool": "uint8_t", "*mut ()": "void*", "u32": "uint32_t", "u64": "uint64_t", "i64": "int64_t"}


def text_of(path):
    with open(path) as file:
        return file.read()


def sources():
    return sorted(glob.glob(f"{TOP}/crates/*/src/**/*.rt", recursive=True))


def c_types(kind):
    """The C parameters of a Rattle one: a slice is a pointer and a length; the memory is no parameter."""
    kind = kind.strip()
    if kind == "Global":
        return []
    slice_of = re.fullmatch(r"&(mut )?\[(\w+)\]", kind)
    if slice_of:
        const = "" if slice_of[1] else "const "
        element = "void" if slice_of[2] == "u8" else c_name(slice_of[2])
        return [f"{const}{element}*", "size_t"]
    pointed = re.fullmatch(r"&(mut )?(\w+)", kind)
    if pointed:
        return [("" if pointed[1] else "const ") + c_name(pointed[2]) + "*"]
    return [c_name(kind)]


def c_name(name):
    return f"struct tozbirem_{RECORDS[name]}" if name in RECORDS else WORDS[name]


def members(body):
    """The fields of a struct; what is ghost is no field."""
    return re.findall(r"^    (?:pub(?:\(crate\))? )?(\w+): ([^,{]+),", body, re.M)


def laid_out(parts, name):
    """The fields in the words of C. A struct in another is laid out there; the memory takes no bytes."""
    found = []
    for field, kind in parts[name]:
        if kind != "Global":
            found += laid_out(parts, kind) if kind in parts else [(field, c_name(kind))]
    return found


def of_crate():
    """The functions and records of the crate, in the words of C, and its numbers of statuses and kinds."""
    crates = {os.path.dirname(path) for path in sources() if 'extern "C" fn tozbirem_' in text_of(path)} | {f"{TOP}/crates/dsp_c/src"}
    text = "\n".join(text_of(path) for path in sources() if os.path.dirname(path) in crates)
    text = re.sub(r"//[^\n]*", "", text)
    functions = {}
    for name, arguments, result in re.findall(r'extern "C" fn (\w+)\((.*?)\)\s*->\s*(\w+)', text, re.S):
        kinds = [part.split(":", 1)[1] for part in arguments.split(",") if ":" in part]
        functions[name] = (c_name(result), [it for kind in kinds for it in c_types(kind)])
    parts = {name: members(body) for name, body in re.findall(r"#\[repr\(C\)\][^{]*?struct (\w+) \{(.*?)\n\}", text, re.S)}
    records = {f"tozbirem_{RECORDS[name]}": laid_out(parts, name) for name in parts if name in RECORDS}
    statuses = {name: int(number) for name, number in re.findall(r"pub const ([A-Z_]+): u32 = (\d+);", text)}
    kinds = {name: int(number) for name, number in re.findall(r"ScriptKind::(\w+)(?: \{[^}]*\})? => \((\d+),", text)}
    return functions, records, statuses, kinds


def of_header():
    """The same of the header; its enumerations by name."""
    text = re.sub(r"/\*.*?\*/", "", text_of(f"{TOP}/include/tozbirem.h"), flags=re.S)
    functions = {}
    for result, name, arguments in re.findall(r"^(\w+) (tozbirem_\w+)\(([^)]*)\);", text, re.M):
        named = [] if arguments == "void" else arguments.split(",")
        kinds = [re.sub(r"\s*\*", "*", re.sub(r"\w+$", "", it.strip())).strip() for it in named]
        functions[name] = (result, kinds)
    records = {}
    for name, body in re.findall(r"^struct (tozbirem\w*) \{(.*?)^\};", text, re.M | re.S):
        fields = []
        for kind, names in re.findall(r"(\w+) ([^;]+);", body):
            fields += [(field.strip(" *"), kind + "*" * field.count("*")) for field in names.split(",")]
        records[name] = fields
    enumerations = {}
    for name, body in re.findall(r"^enum (tozbirem\w*) \{(.*?)\}", text, re.M | re.S):
        number, found = -1, {}
        for word, value in re.findall(r"TOZBIREM_(\w+)(?: = (\d+))?", body):
            number = int(value) if value else number + 1
            found[word] = number
        enumerations[name] = found
    return functions, records, enumerations


def python_kind(kind):
    """A ctypes argument in the words of C, where pointers to samples are void pointers."""
    known = {ctypes.c_void_p: "void*", ctypes.c_size_t: "uint64_t", ctypes.c_uint64: "uint64_t",
             ctypes.c_uint32: "uint32_t", ctypes.c_int64: "int64_t", ctypes.c_uint8: "uint8_t"}  # fmt: skip
    return known.get(kind) or f"struct tozbirem_{RECORDS[kind._type_.__name__]}*"


def of_python():
    sys.path.insert(0, f"{TOP}/python")
    source = text_of(f"{TOP}/python/tozbirem/_library.py").replace("LIBRARY = load()", "")
    names = {"__file__": "_library.py"}
    exec(compile(source, "_library.py", "exec"), names)
    functions = {name: [python_kind(kind) for kind in kinds] for name, kinds in names["CALLS"].items()}
    records = {f"tozbirem_{RECORDS[name]}": [(field, python_kind(kind)) for field, kind in names[name]._fields_] for name in RECORDS}
    errors = {"__name__": "_errors"}
    exec(compile(text_of(f"{TOP}/python/tozbirem/_errors.py"), "_errors.py", "exec"), errors)
    return functions, records, errors["KINDS"]


def bare(kinds):
    """Parameters of C as ctypes has them: a pointer to samples or numbers is a void pointer, size_t 64 bits."""
    return ["uint64_t" if it == "size_t" else it if it.startswith("struct tozbirem_") and "measure" not in it else
            "void*" if it.endswith("*") else it for it in (kind.replace("const ", "") for kind in kinds)]  # fmt: skip


def compare():
    faults = []

    def same(what, one, other):
        if one != other:
            faults.append(f"{what}:\n    {one}\n    {other}")

    functions, records, statuses, kinds = of_crate()
    c_functions, c_records, enumerations = of_header()
    py_functions, py_records, py_kinds = of_python()
    same("functions of dsp_c and tozbirem.h", sorted(functions), sorted(c_functions))
    same("functions of tozbirem.h and _library.py", sorted(c_functions), sorted(py_functions))
    for name in set(functions) & set(c_functions):
        same(f"{name} in dsp_c and in tozbirem.h", functions[name], c_functions[name])
        same(f"{name} in tozbirem.h and in _library.py", bare(c_functions[name][1]), py_functions.get(name))
    for name in records:
        same(f"struct {name} in dsp_c and in tozbirem.h", records[name], c_records.get(name))
        same(f"struct {name} in tozbirem.h and in _library.py", c_records.get(name), py_records.get(name))
    own = {"NULL", "OVERLAP", "ENDED"}  # of the header's own functions
    header = {name: number for name, number in enumerations["tozbirem_status"].items() if name not in own}
    same("statuses", statuses, header)
    found = {name: number for name, number in zip(py_kinds, range(20)) if name}
    same("kinds of faults in dsp_c and _errors.py", kinds, found)
    spelled = {re.sub(r"(?<!^)([A-Z])", r"_\1", name).upper(): number for name, number in kinds.items()}
    spelled = {"BAD_LENGTH" if name == "LENGTH" else name: number for name, number in spelled.items()}
    same("kinds of faults in dsp_c and tozbirem.h", spelled, enumerations["tozbirem_fault"])
    return faults if functions and records and statuses and kinds else ["dsp_c has no exports"]


if __name__ == "__main__":
    found = compare()
    print("\n".join(found) or "the same")
    sys.exit(1 if found else 0)
