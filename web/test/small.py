"""Makes a module smaller, as a smaller STACK of web/to_wasm.sh and ld.lld's --max-memory would: the stack lies at the bottom of the
memory, so its pointer begins lower, and the memory may not grow beyond so many pages."""

MEMORY, GLOBALS = 5, 6  # sections
STACK_BEGINS = b"\x7e\x01\x42\x80\x80\x80\x04\x0b"  # the first global: of 64 bits, variable, 8 MiB at first
HAS_MOST, WIDE = 1, 4  # flags of a memory


def number(module, at):
    """The number that stands there, and where it ends."""
    value = shift = 0
    while True:
        value |= (module[at] & 127) << shift
        shift += 7
        at += 1
        if module[at - 1] < 128:
            return value, at


def spelled(value):
    low, high = value & 127, value >> 7
    return bytes([low | 128]) + spelled(high) if high else bytes([low])


def with_section(module, kind, change):
    """The module with another section of a kind."""
    at = 8  # behind the module's head
    while module[at] != kind:
        size, begins = number(module, at + 1)
        at = begins + size
    size, begins = number(module, at + 1)
    section = change(module[begins:begins + size])
    return module[:at + 1] + spelled(len(section)) + section + module[begins + size:]


def with_stack(module, size):
    """The module with a stack of so many bytes, fewer than 8 MiB."""
    less = bytes([size & 127 | 128, size >> 7 & 127 | 128, size >> 14 & 127 | 128, size >> 21])

    def change(section):
        assert section[1:].startswith(STACK_BEGINS), section
        return section[:1] + STACK_BEGINS.replace(b"\x80\x80\x80\x04", less) + section[1 + len(STACK_BEGINS):]

    return with_section(module, GLOBALS, change)


def with_memory(module, more):
    """The module whose memory may grow by so many pages."""
    def change(section):
        flags, (pages, end) = section[1], number(section, 2)
        assert section[0] == 1 and flags == WIDE and end == len(section), section
        return bytes([1, WIDE | HAS_MOST]) + spelled(pages) + spelled(pages + more)

    return with_section(module, MEMORY, change)
