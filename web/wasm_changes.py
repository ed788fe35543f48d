"""Changes two numbers of the page's WebAssembly module, so that its memory ends or a call traps."""


def number_at(data, at):
    """An unsigned LEB128 number and the place after it."""
    value = shift = 0
    while True:
        byte = data[at]
        value, shift, at = value | (byte & 127) << shift, shift + 7, at + 1
        if byte < 128:
            return value, at


def leb(value):
    """A number that isn't negative in LEB128, with a byte to spare, so that it is the same signed and unsigned."""
    data = bytearray()
    while value:
        data.append(value & 127 | 128)
        value >>= 7
    return bytes(data) + b"\0"


def with_section(module, kind, change):
    """A WebAssembly module with the content of one section changed."""
    made, at = module[:8], 8
    while at < len(module):
        size, begin = number_at(module, at + 1)
        body = module[begin:begin + size]
        if module[at] == kind:
            body = change(body)
        made, at = made + module[at:at + 1] + leb(len(body)) + body, begin + size
    return made


def memory_of(module):
    """The pages that a module's memory begins with."""
    found = []
    with_section(module, 5, lambda body: found.append(number_at(body, 2)[0]) or body)
    return found[0]


def with_most_memory(module, pages):
    """The module, whose one memory can grow to at most a number of pages."""
    return with_section(module, 5, lambda body: b"\x01" + bytes([body[1] | 1]) + leb(memory_of(module)) + leb(pages))


def with_little_stack(module, size):
    """The module, whose stack begins at an address near its end, which is 0."""

    def change(body):
        # The first global is a mutable i64, the stack pointer.
        count, at = number_at(body, 0)
        assert body[at:at + 3] == b"\x7e\x01\x42"
        _, end = number_at(body, at + 3)
        return body[:at + 3] + leb(size) + body[end:]

    return with_section(module, 6, change)
