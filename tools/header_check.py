#!/usr/bin/env python3
"""Holds include/xt.h against what the library exports: tools/header_check.py [LIBRARY ..]

Calls, with their parameters, against the exports of crates/xt_c; statuses, representations, policies and flags of JSON against crates/xt_calls; what the
bindings in Python and Rust declare against the header; and the symbols of each LIBRARY, an archive or a shared object, which has no other names. Each difference
is a line, and then the status is 1."""
import ctypes
import pathlib
import re
import subprocess
import sys

TOP = pathlib.Path(__file__).resolve().parent.parent
HANDLES = {"&mut TypesHandle": "xt_types *", "&mut ReaderHandle": "xt_reader *"}
PLAIN = {"u32": "uint32_t", "&mut usize": "size_t *"}
OF_RUST = {"*const u8": "const uint8_t *", "*mut u8": "uint8_t *", "usize": "size_t", "*mut usize": "size_t *", "u32": "uint32_t"}
# What a status is called in the header, where it has another name. The library has no status of nets, fetches and instances.
NAMES = {"DONE": "OK", "No": "NO", "Words": "WORDS", "Bundle": "BUNDLE", "Types": "TYPES", "NoName": "NAME", "Json": "JSON"}
NOT_HERE = {"NetFault", "Fetch", "Limit"}
POLICIES = {
    "coercion": "DISALLOW",
    "ignore_string_bounds": "STRING_BOUNDS",
    "ignore_sequence_bounds": "SEQUENCE_BOUNDS",
    "ignore_member_names": "ANY_NAMES",
}


def text_of(name):
    return (TOP / name).read_text(encoding="utf-8")


def parts(parameters):
    return [" ".join(it.split()) for it in parameters.split(",") if it.strip()]


# ---- the header


def declaration(parameter):
    """The type and the name of a parameter in C."""
    kind, name = re.fullmatch(r"(.*?)\s*(\w+)", parameter).groups()
    return kind, name


def header_calls(header):
    """Each call by its name: what it gives, and its parameters."""
    found = re.findall(r"^(uint32_t|void) (xt_\w+)\(([^)]*)\);", header, re.M)
    return {name: (gives, [declaration(it) for it in parts(parameters)]) for gives, name, parameters in found}


def header_numbers(header):
    """Each enumeration, as its numbers by their names."""
    found = re.findall(r"^enum \{([^}]*)\};", header, re.M)
    return [{name: int(number) for name, number in re.findall(r"XT_(\w+) = (\d+)", it)} for it in found]


# ---- the crates


def in_c(parameter):
    """The parameters in C of one of an export."""
    name, kind = parameter.split(": ")
    if kind == "Global":
        return []
    if kind == "&[u8]":
        return [("const uint8_t *", name), ("size_t", f"{name}_size")]
    if kind == "&mut [u8]":
        return [("uint8_t *", name), ("size_t", "room")]
    return [({**HANDLES, **PLAIN}.get(kind, kind), name)]


def exported_calls(source):
    found = re.findall(r'^pub extern "C" fn (\w+)\(([^)]*)\)( -> u32)?', source, re.M)
    return {name: ("uint32_t" if gives else "void", [c for it in parts(parameters) for c in in_c(it)]) for name, parameters, gives in found}


def statuses(source):
    found = re.findall(r"^pub const (\w+): u32 = (\d+);", source, re.M) + re.findall(r"Cause::(\w+) => (\d+)", source)
    return {NAMES.get(name, name): int(number) for name, number in found if name not in NOT_HERE}


def representations(source):
    return {name.upper(): int(number) for number, name in re.findall(r"code == (\d+) \{\s*Some\(Rep::(\w+)\)", source)}


def policies(source):
    return {POLICIES[name]: int(number) for name, number in re.findall(r"(\w+): !?\(?flags / (\d+) % 2", source)}


def flags(source):
    """The flags of JSON. 0 has no name."""
    return {name.upper(): int(number) for number, name in re.findall(r"(\d+) => Some\(Floats::(\w+)\)", source) if number != "0"}


# ---- the bindings


def python_binding():
    sys.dont_write_bytecode = True
    sys.path.insert(0, str(TOP / "bindings/python"))
    import ruhvelma

    return ruhvelma


def python_calls(binding):
    kinds = {
        binding.HANDLE: "handle",
        ctypes.c_char_p: "const uint8_t *",
        ctypes.c_void_p: "uint8_t *",
        ctypes.c_size_t: "size_t",
        ctypes.POINTER(ctypes.c_size_t): "size_t *",
        ctypes.c_uint32: "uint32_t",
    }
    return {name: [kinds.get(it, it) for it in parameters] for name, parameters in binding.CALLS.items()}


def rust_calls(source):
    found = re.findall(r"^    fn (xt_\w+)\(([^)]*)\)", source, re.M)
    kinds = {**OF_RUST, "*mut Raw": "handle"}
    return {name: [kinds.get(it.split(": ")[1], it) for it in parts(parameters)] for name, parameters in found}


def rust_statuses(source):
    return {int(number) for number in re.findall(r"^    \((\d+), Status::", source, re.M)}


# ---- libraries


def symbols(library):
    words = ["nm", "--defined-only", "--extern-only", *(["--dynamic"] if ".so" in pathlib.Path(library).name else []), library]
    lines = subprocess.run(words, capture_output=True, text=True, check=True).stdout.splitlines()
    return {line.split()[2] for line in lines if len(line.split()) == 3}


# ---- what differs


class Differences:
    def __init__(self):
        self.count = 0

    def say(self, text):
        print(f"header_check.py: {text}")
        self.count += 1

    def compare(self, what, header, other, where):
        """Two tables by names."""
        for name in [*header, *(it for it in other if it not in header)]:
            if name not in other or name not in header:
                self.say(f"{what} {name} isn't in {where if name in header else 'the header'}")
            elif header[name] != other[name]:
                self.say(f"{what} {name}: {header[name]} in the header, {other[name]} in {where}")


def named_as_in_c(calls, header):
    """The flags of an export are a policy, where the header calls them so."""
    made = {}
    for name, (gives, parameters) in calls.items():
        has_policy = any(it[1] == "policy" for it in header.get(name, ("", []))[1])
        made[name] = gives, [(kind, "policy" if it == "flags" and has_policy else it) for kind, it in parameters]
    return made


def kinds_of(calls):
    return {name: ["handle" if kind in HANDLES.values() else kind for kind, _ in parameters] for name, (_, parameters) in calls.items()}


def check_bindings(differences, calls, refusals):
    kinds = kinds_of(calls)
    binding, rust = python_binding(), text_of("bindings/rust/ruhvelma.rs")
    differences.compare("call", kinds, python_calls(binding), "ruhvelma.py")
    differences.compare("call", kinds, rust_calls(rust), "ruhvelma.rs")
    for where, found in (("ruhvelma.py", {*binding.BY_STATUS}), ("ruhvelma.rs", rust_statuses(rust))):
        if found != refusals:
            differences.say(f"statuses {sorted(found ^ refusals)} are in one of the header and {where} alone")


def check_library(differences, calls, library):
    found = symbols(library)
    for name in sorted({*calls} ^ found):
        differences.say(f"{name} isn't in {library}" if name in calls else f"{library} has the name {name} too")


def main(libraries):
    header, differences = text_of("include/xt.h"), Differences()
    calls, numbers = header_calls(header), header_numbers(header)
    if not calls or len(numbers) != 4:
        differences.say(f"the header has {len(calls)} calls and {len(numbers)} enumerations")
        return 1
    words = text_of("crates/xt_calls/src/words.rt")
    exported = named_as_in_c(exported_calls(text_of("crates/xt_c/src/lib.rt")), calls)
    differences.compare("call", calls, exported, "crates/xt_c")
    for what, ours, theirs in (
        ("status", numbers[0], statuses(text_of("crates/xt_calls/src/answers.rt"))),
        ("representation", numbers[1], representations(words)),
        ("policy", numbers[2], policies(words)),
        ("flag", numbers[3], flags(words)),
    ):
        differences.compare(what, ours, theirs, "crates/xt_calls")
    check_bindings(differences, calls, {*numbers[0].values()} - {numbers[0]["OK"], numbers[0]["ROOM"]})
    for library in libraries:
        check_library(differences, calls, library)
    return 1 if differences.count else 0


if __name__ == "__main__":
    sys.exit(main(sys.argv[1:]))
