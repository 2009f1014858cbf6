#!/usr/bin/env python3
"""records.py MODULE: MODULE, the proved library as LLVM IR, with every record that it loads whole read number by
number, on standard output.

The module is made for x86-64, where a number stands at a multiple of its size, and it stores a record's numbers
there one by one. It may load them as one record, though, and compiled for 32-bit x86 such a load would look for a
number of 64 bits at the next multiple of 4. Exit status 3 if the module has records in memory in another way."""
import re
import sys

SIZES = {"i1": 1, "i8": 1, "i16": 2, "i32": 4, "i64": 8, "ptr": 8, "float": 4, "double": 8}
LOAD = re.compile(r"^  (%[\w.\"-]+) = load (\{ [\w, ]+ \}), ptr ([^,]+), align \d+(?:, .*)?$")
# A record that is stored whole, that has a place of its own, or that holds another one.
OTHERWISE = re.compile(r"\b(store|alloca|getelementptr)( inbounds| nuw)* [<\[{][^,]*\{|\b(store|alloca|getelementptr)( inbounds| nuw)* \{|\{ [^}]*\{")


def read_one_by_one(name, record, place):
    """The lines that read a record's numbers, each where x86-64 has it, and put them together."""
    kinds = [kind.strip() for kind in record[1:-1].split(",")]
    at, whole = 0, "poison"
    for k, kind in enumerate(kinds):
        size = SIZES[kind]
        at = -(-at // size) * size
        made = name if k == len(kinds) - 1 else f"{name}.{k}.whole"
        yield f"  {name}.{k}.at = getelementptr i8, ptr {place}, i32 {at}"
        yield f"  {name}.{k} = load {kind}, ptr {name}.{k}.at, align 1"
        yield f"  {made} = insertvalue {record} {whole}, {kind} {name}.{k}, {k}"
        at, whole = at + size, made


def main():
    for line in open(sys.argv[1], encoding="utf-8").read().split("\n"):
        if line.startswith("  ") and OTHERWISE.search(line):
            sys.exit(3)
        loaded = LOAD.match(line)
        if loaded:
            print("\n".join(read_one_by_one(*loaded.groups())))
        elif re.search(r"\bload [<\[]?\s*\{", line):
            sys.exit(3)
        else:
            print(line)


main()
