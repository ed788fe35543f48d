"""Changes the LLVM module of a static library that rattle compiled for x86-64 into one for wasm64.

The library's functions are the same for both targets: the backend writes each body alike. What differs is changed here:

1. the two lines that name the target, and the attributes that name an x86-64 processor or its stack guard, are left out, and the
   three C functions that no C library supplies here are named as functions that are not to be called;
2. each function with a frame on the stack first checks that the stack isn't used up. On x86-64 a guard page does that;
3. the exported functions get their names in the module.
"""
import re

# The stack is the lowest part of the memory and grows down, so address 0 is its end. The 16 bytes are what rattle itself leaves.
CHECK = """  %stack.at = call ptr @llvm.frameaddress.p0(i32 0)
  %stack.left = ptrtoaddr ptr %stack.at to i64
  %stack.full = icmp slt i64 %stack.left, 16
  br i1 %stack.full, label %stack.trap, label %stack.ok

stack.trap:
  call void @llvm.trap()
  unreachable

stack.ok:
"""
DECLARED = {"llvm.frameaddress.p0": "ptr @llvm.frameaddress.p0(i32 immarg)", "llvm.trap": "void @llvm.trap()"}


def without_target(text):
    text = re.sub(r"^target (datalayout|triple) = .*\n", "", text, flags=re.M)
    text = re.sub(r' "(stack-probe-size|target-cpu|target-features|tune-cpu)"="[^"]*"', "", text)
    text = text.replace('"probe-stack"="inline-asm"', '"no-builtin-bcmp" "no-builtin-memcmp" "no-builtin-strlen"')
    if "asm " in re.sub(r'"[^"]*"', "", text):
        raise SystemExit("web/build: the module has inline assembly")
    return text


def with_stack_check(found):
    """The function with the check after the last of its places on the stack, or as it is where it has none."""
    body = found[0]
    entry = body.split("\n\n", 1)[0]
    last = entry.rfind(" = alloca ")
    if last < 0:
        return body
    at = entry.index("\n", last) + 1
    # What came from the first block comes from the one after the check.
    return body[:at] + CHECK + re.sub(r"(\[ [^\[\]]*, )%start \]", r"\1%stack.ok ]", body[at:])


def with_stack_checks(text):
    text = re.sub(r"^define [^\n]*\{\nstart:\n.*?^\}", with_stack_check, text, flags=re.M | re.S)
    for name, declaration in DECLARED.items():
        if not re.search(rf"^declare [^\n]*@{re.escape(name)}\(", text, flags=re.M):
            text += f"\ndeclare {declaration}\n"
    return text


def with_exports(text, names):
    for number, name in enumerate(names, 9000):
        head = re.search(rf"^define [^\n]*@{name}\([^\n]*#(\d+) \{{", text, flags=re.M)
        if not head:
            raise SystemExit(f"web/build: the module lacks the function {name}")
        attributes = re.search(rf"^attributes #{head[1]} = \{{([^\n]*)\}}", text, flags=re.M)[1]
        text = text.replace(head[0], head[0].replace(f"#{head[1]} {{", f"#{number} {{"))
        text += f'\nattributes #{number} = {{{attributes} "wasm-export-name"="{name}" }}\n'
    return text


def retarget(text, exports):
    """The text of the module for wasm64, with these functions exported."""
    return with_exports(with_stack_checks(without_target(text)), exports)
