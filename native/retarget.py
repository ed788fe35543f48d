"""Changes the LLVM module of a program that rattle compiled for x86-64 Linux into one for x86-64 Windows.

The program's functions are the same on both systems, and so are the sizes and alignments of all types. Three things are changed:

1. the two lines that name the target are left out;
2. the attribute by which Linux's code touches each page of a large frame is left out: for Windows LLVM calls ___chkstk_ms instead;
3. the two C functions that return a pair, and their calls, are marked with Linux's calling convention, which returns it in registers.

A module that has anything else in which the two systems differ is refused: another C function that takes or returns more than
whole numbers of at most 64 bits and pointers, inline assembly, or variables of a thread.
"""
import re

PAIR = "{ i64, i64 }"
PAIR_FUNCTIONS = ("rattle_alloc", "rattle_realloc")
# A declaration of a C function: result with its attributes, name, parameters. LLVM's own functions have a dot in their names.
DECLARATION = re.compile(r'^declare ([^@\n]*)@"?([\w.$]+)"?\(([^\n]*?)\)', re.M)
WORDS = r"(noundef|nonnull|noalias|nocapture|captures\(none\)|signext|zeroext|readonly|writeonly|immarg|returned|dso_local|local_unnamed_addr)"
SIMPLE = re.compile(rf"({WORDS} )*(void|ptr|i1|i8|i16|i32|i64|\.\.\.)( {WORDS})*")


def stop(reason):
    raise SystemExit(f"native/build: {reason}")


def check_c_functions(text):
    """Stops where a C function, or the way in which it is called, could differ between the two systems."""
    for result, name, parameters in DECLARATION.findall(text):
        if name.startswith("llvm."):
            continue
        types = [it.strip() for it in parameters.split(",") if it.strip()]
        if name not in PAIR_FUNCTIONS:
            types.append(result.strip())
        elif result.strip() != PAIR:
            stop(f"the C function {name} returns {result.strip()}")
        for it in types:
            if not SIMPLE.fullmatch(it):
                stop(f"the C function {name} takes or returns {it}, which the two systems may pass differently")


def retarget(text):
    """The text of the module for Windows."""
    without_texts = re.sub(r'"[^"]*"', "", text)
    for what in ("asm ", "thread_local"):
        if what in without_texts:
            stop(f"the module has {what}")
    check_c_functions(text)
    text = re.sub(r"^target (datalayout|triple) = .*\n", "", text, flags=re.M)
    text = text.replace(' "probe-stack"="inline-asm"', "")
    for name in PAIR_FUNCTIONS:
        text = re.sub(rf"\b(declare|call) ({re.escape(PAIR)} @{name}\()", r"\1 x86_64_sysvcc \2", text)
        used = len(re.findall(rf"@{name}\b", text))
        if used != len(re.findall(rf"\b(?:declare|call) x86_64_sysvcc {re.escape(PAIR)} @{name}\(", text)):
            stop(f"the C function {name} is used in another way than by calls")
    return text
