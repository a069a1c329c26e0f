"""Parts of records: instructions and containers, as bytes."""

WORD = 1 << 64

# Operands of each opcode byte: r is a register, a digit is a number of that many bytes.
SHAPES = {0: "", 1: "", 2: "rr", 3: "r8", 4: "r2", 28: "rrrrrr", 29: "rrrrrr", 35: "rr", 48: "r", 49: "r", 56: "rr",
          57: "rr", 64: "4", 65: "r4", 66: "r4", 67: "4", 68: "", 80: "rr", 81: "rr"}
SHAPES.update({op: "rrr" for op in [*range(16, 21), *range(24, 28), 32, 33, 34, 36, 37, 40, 41, 42,
                                    96, 97, 112, 113, 114, 115, 118]})


def big(number, width):
    return number.to_bytes(width, "big")


def encoded(opcode, *fields):
    widths = [1 if kind == "r" else int(kind) for kind in SHAPES[opcode]]
    return bytes([opcode]) + b"".join(big(field, width) for field, width in zip(fields, widths, strict=True))


def number_for(kind, choice):
    """Distinct bytes, 0, 1 or all ones, as wide as the operand."""
    width = int(kind)
    return [int.from_bytes(bytes(range(0xA1, 0xA1 + width)), "big"), 0, 1, 256 ** width - 1][choice]


def instruction(opcode, registers=(7, 2, 13, 9, 4, 11), choice=0):
    left = iter(registers)
    return encoded(opcode, *(next(left) if kind == "r" else number_for(kind, choice) for kind in SHAPES[opcode]))


def with_byte(code, place, byte):
    return code[:place] + bytes([byte]) + code[place + 1:]


def container(code, consts=(), entries=(), tag=b"QVM1"):
    """An entry is selector, offset and four lists of slots."""
    parts = [tag, big(len(code), 4), code, words(consts), big(len(entries), 4)]
    for selector, offset, lists in entries:
        parts += [selector, big(offset, 4), *map(words, lists)]
    return b"".join(parts)


def words(numbers):
    return big(len(numbers), 4) + b"".join(big(number, 8) for number in numbers)


def entry(selector=b"abcd", offset=0, sizes=(0, 0, 0, 0)):
    return selector, offset, [list(range(size)) for size in sizes]
