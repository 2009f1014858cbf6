#!/usr/bin/env python3
"""wrappers.py HEADER MODULE: the calls of HEADER (c/jugnayap.h) for 32-bit x86, as LLVM IR on standard output.

MODULE is the proved library as LLVM IR. It is made for x86-64, and two things stay so when it is compiled
for 32 bits: lengths are 64 bits wide, and structs come and go by the rules of x86-64, in pieces of 8 bytes.
One or two are answered; more are written through a first pointer, which is answered. To the module this is a
pointer like others. C and Rust on 32 bits hand over lengths of 32 bits, and for each struct a hidden first
pointer to where it goes, which the function called takes off the stack. So each call gets a wrapper that
widens lengths and lays the answer's pieces down; the module's own function goes by proved_ in place of
jugnayap_. Exit status 3 if the module hands over the calls of the header in another way than this one, as
another kit's might; any other failure is this program's own, and fails."""
import re
import sys

# The types of an argument on 32 bits and in the module, by its type in C. A record, two numbers of 32 bits,
# lies on the stack as one of 64 bits does.
ARGUMENTS = {"size_t": ("i32", "i64"), "uint32_t": ("i32", "i32"), "JugnayapRun": ("i64", "i64")}
POINTER = ("ptr", "ptr")

# The pieces in which the module answers, and where each goes on 32 bits. There a 64-bit number needs no gap
# before it: that of an agreement is laid over the gap that the first piece has.
ANSWERS = {
    "JugnayapTable": [("i64", 0), ("i64", 8)],
    "JugnayapCut": [("i64", 0), ("i32", 8)],
    "JugnayapVerdict": [("i64", 0), ("i64", 8), ("i32", 16)],
    "JugnayapAgreement": [("i64", 0), ("i64", 4)],
    "JugnayapCalled": [("i64", 0), ("i32", 8)],
}


def is_written(answer):
    """Whether the module writes the answer through a pointer."""
    return len(ANSWERS.get(answer, [])) > 2


def calls_of(header):
    """Name, answer and arguments of each call; the header is the list of them."""
    header = re.sub(r"/\*.*?\*/", "", header, flags=re.S)
    for answer, name, listed in re.findall(r"^(\w+) jugnayap_(\w+)\(([^)]*)\);", header, flags=re.M):
        words = [word for word in listed.split(",") if word != "void"]
        yield name, answer, [POINTER if "*" in word else ARGUMENTS[word.split()[0]] for word in words]


def in_module(answer, arguments):
    """The types of the module's function; a bare number is answered as it is."""
    inside = [wide for _, wide in arguments]
    if is_written(answer):
        return "ptr", ["ptr", *inside]
    pieces = ", ".join(piece for piece, _ in ANSWERS.get(answer, []))
    return f"{{ {pieces} }}" if pieces else "i32", inside


def defined_in(module):
    """The types of the functions that the module has, by name."""
    found = re.findall(r"^define (?:noundef )?([^@]*) @jugnayap_(\w+)\((.*?)\) ", module, flags=re.M)
    words = {name: (answer, [word for word in listed.split(", ") if word]) for answer, name, listed in found}
    return {name: (answer, [word.split()[0] for word in listed]) for name, (answer, listed) in words.items()}


def laid_down(answer, result):
    """The pieces of the module's answer, each put where it goes. An answer that the module has written stands in
    %room, a piece every 8 bytes; what it may write behind the last piece has no place on 32 bits."""
    for k, (piece, place) in enumerate(ANSWERS.get(answer, [])):
        if is_written(answer):
            yield f"  %from{k} = getelementptr i8, ptr %room, i32 {8 * k}"
            yield f"  %p{k} = load {piece}, ptr %from{k}, align 8"
        else:
            yield f"  %p{k} = extractvalue {result} %answer, {k}"
        yield f"  %at{k} = getelementptr i8, ptr %out, i32 {place}"
        yield f"  store {piece} %p{k}, ptr %at{k}, align 4"


def wrapper(name, answer, arguments):
    """A call on 32 bits, by the module's function."""
    result, inside = in_module(answer, arguments)
    taken = ["ptr sret(i8) align 4 %out"] if answer in ANSWERS else []
    widened, given = [], []
    if is_written(answer):
        widened.append(f"  %room = alloca [{8 * len(ANSWERS[answer])} x i8], align 8")
        given.append("ptr %room")
    for k, (outside, wide) in enumerate(arguments):
        taken.append(f"{outside} %a{k}")
        if outside != wide:
            widened.append(f"  %w{k} = zext {outside} %a{k} to {wide}")
        given.append(f"{wide} %{'a' if outside == wide else 'w'}{k}")
    laid = list(laid_down(answer, result))
    returned = "void" if laid else result
    return [
        f"declare {result} @proved_{name}({', '.join(inside)})",
        f"define {returned} @jugnayap_{name}({', '.join(taken)}) {{",
        *widened,
        f"  %answer = call {result} @proved_{name}({', '.join(given)})",
        *laid,
        "  ret void" if laid else f"  ret {result} %answer",
        "}",
    ]


def main():
    header, module = (open(path, encoding="utf-8").read() for path in sys.argv[1:3])
    calls = list(calls_of(header))
    wanted = {name: in_module(answer, arguments) for name, answer, arguments in calls}
    defined = defined_in(module)
    if not calls or defined.keys() != wanted.keys():
        sys.exit(f"wrappers.py: the module has {sorted(defined)}, the header {sorted(wanted)}")
    if defined != wanted:
        sys.exit(3)
    print('target triple = "i686-unknown-linux-gnu"')
    for call in calls:
        print("\n".join(wrapper(*call)))


main()
