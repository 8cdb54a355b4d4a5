#!/usr/bin/env python3
"""exports.py: the functions of the proved library that C calls, with their contracts.

tests/exports.txt has of each its parameters, its result and its clauses, whole. Without a word this compares them with the sources of crates/, and each with the
prototype by which the C code of capi/src/ declares it. The status is 1 where anything differs. `exports.py write` writes that file anew: what a change of it takes
away, C is not promised any more."""

import glob
import os
import re
import sys

TOP = os.path.dirname(os.path.dirname(os.path.realpath(__file__)))
STORED = f"{TOP}/tests/exports.txt"
EXPORT = re.compile(r'^#\[unsafe\(no_mangle\)\]\npub extern "C" fn (\w+)\((.*?)\)(?: -> (\w+))?\n(.*?)^\{$', re.MULTILINE | re.DOTALL)
PROTOTYPE = re.compile(r"^(\w+) (dlm_c_\w+)\(([^)]*)\);", re.MULTILINE)
CLAUSE = re.compile(r"^    (?=requires|ensures)", re.MULTILINE)
NUMBERS = {"bool": "bool", "u8": "uint8_t", "u32": "uint32_t", "u64": "uint64_t", "i32": "int32_t", "usize": "size_t"}


def texts(pattern):
    for path in sorted(glob.glob(f"{TOP}/{pattern}", recursive=True)):
        with open(path, encoding="utf-8") as file:
            yield os.path.relpath(path, TOP), file.read()


def words(text):
    return " ".join(text.split())


class Export:
    """A function that a file hands out to C. A paragraph of the stored file says all of it."""

    def __init__(self, path, name, parameters, result, contract):
        self.name = name
        self.parameters = [tuple(it.strip().split(": ", 1)) for it in parameters.split(",") if it.strip()]
        self.result = result
        clauses = [words(re.sub(r"^ *//.*$", "", it, flags=re.MULTILINE)) for it in CLAUSE.split(contract)[1:]]
        listed = ", ".join(f"{it}: {kind}" for it, kind in self.parameters)
        self.text = "\n    ".join([f"{path} {name}({listed}) -> {result or 'nothing'}", *clauses])

    def prototype(self, structs):
        """What C has to declare. `structs` has the C types of structs; one that is not there yet stands for what C has in its place."""
        yield NUMBERS.get(self.result, "void")
        for _, kind in self.parameters:
            if kind == "Global":
                continue
            lent, mutable, slice_of, one = re.fullmatch(r"(&?)((?:mut )?)(?:\[(\w+)\]|(\w+))", kind).groups()
            named = NUMBERS.get(slice_of or one) or structs.get(slice_of or one, slice_of or one)
            yield f"{'' if mutable or not lent else 'const '}{named}{' *' if lent else ''}"
            if slice_of:
                yield "size_t"


def exports():
    found, count = [], 0
    for path, text in texts("crates/*/src/**/*.rt"):
        count += text.count('extern "C" fn')
        found += [Export(path, *it.groups()) for it in EXPORT.finditer(text)]
    if count != len(found):
        print(f"exports.py: {count} functions are extern \"C\", and {len(found)} of them are read here")
        sys.exit(1)
    return found


def prototypes():
    """What C declares: of each function the type of its result and those of its parameters, without their names."""
    for path, text in texts("capi/src/*.[ch]"):
        for result, name, parameters in PROTOTYPE.findall(text):
            yield path, name, [result, *(words(re.sub(r"\w+$", "", it)) for it in parameters.split(","))]


def is_declared(export, declared, structs):
    """Whether C declares it so. A struct has one type in C, that of the prototype in which it comes first."""
    wanted = list(export.prototype(structs))
    for one, other in zip(wanted, declared):
        it, there = (re.match(r"(?:const )?([A-Z]\w+) \*$", one), re.match(r"(?:const )?(struct \w+) \*$", other))
        if it and there and there[1] not in structs.values():
            structs[it[1]] = there[1]
    return list(export.prototype(structs)) == declared


def faults_of_c(found):
    declared = {}
    for path, name, types in prototypes():
        if declared.setdefault(name, types) != types:
            yield f"{path} declares {name} in another way than before"
    structs = {}
    for it in found:
        if it.name not in declared:
            yield f"capi/src does not declare {it.name}"
        elif not is_declared(it, declared[it.name], structs):
            yield f"{it.name}: C declares {', '.join(declared[it.name])} for {', '.join(it.prototype(structs))}"
    for name in sorted(set(declared) - {it.name for it in found}):
        yield f"capi/src declares {name}, which no crate hands out"


def faults_of_contracts(found):
    with open(STORED, encoding="utf-8") as file:
        stored = file.read().rstrip("\n").split("\n\n")
    now = [it.text for it in found]
    for it in stored:
        if it not in now:
            yield f"tests/exports.txt has, and the sources have not:\n{it}"
    for it in now:
        if it not in stored:
            yield f"the sources have, and tests/exports.txt has not:\n{it}"


def main(asked):
    found = exports()
    if asked == ["write"]:
        with open(STORED, "w", encoding="utf-8") as file:
            file.write("\n\n".join(it.text for it in found) + "\n")
    faults = [*faults_of_c(found), *faults_of_contracts(found)]
    for it in faults:
        print(it)
    print(f"exports.py: {len(found)} functions that C calls, with {sum(it.text.count(chr(10)) for it in found)} clauses, {len(faults)} faults")
    return 1 if faults or not found else 0


if __name__ == "__main__":
    sys.exit(main(sys.argv[1:]))
