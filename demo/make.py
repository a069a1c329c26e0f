#!/usr/bin/env python3
"""Assembles settlement.qasm and writes the demo's files, here and to crates/settle/data, where the gate runs them."""
import os
import re

HERE = os.path.dirname(os.path.abspath(__file__))
GATE = os.path.join(HERE, "..", "crates", "settle", "data")

# byte, registers, bytes of number after them
OPCODES = {
    "halt": (0, 0, 0), "nop": (1, 0, 0), "mov": (2, 2, 0), "ldi": (3, 1, 8), "ldc": (4, 1, 2),
    "add": (16, 3, 0), "sub": (17, 3, 0), "mul": (18, 3, 0), "div": (19, 3, 0), "rem": (20, 3, 0),
    "addw": (24, 3, 0), "subw": (25, 3, 0), "mulw": (26, 3, 0), "mulhi": (27, 3, 0), "divw": (28, 6, 0), "remw": (29, 6, 0),
    "and": (32, 3, 0), "or": (33, 3, 0), "xor": (34, 3, 0), "not": (35, 2, 0), "shl": (36, 3, 0), "shr": (37, 3, 0),
    "eq": (40, 3, 0), "ltu": (41, 3, 0), "gtu": (42, 3, 0),
    "push": (48, 1, 0), "pop": (49, 1, 0), "mload": (56, 2, 0), "mstore": (57, 2, 0),
    "jmp": (64, 0, 4), "jz": (65, 1, 4), "jnz": (66, 1, 4), "call": (67, 0, 4), "ret": (68, 0, 0),
    "sload": (80, 2, 0), "sstore": (81, 2, 0), "send": (96, 3, 0), "emit": (97, 3, 0),
    "hash": (112, 3, 0), "verifyml": (113, 3, 0), "verifyslh": (114, 3, 0), "merkleverify": (115, 3, 0), "addr": (118, 3, 0),
}


def be(number, width):
    return number.to_bytes(width, "big")


def lines(source):
    for line in source.splitlines():
        line = line.split(";")[0].strip()
        if line:
            yield line


def length(op):
    _, registers, wide = OPCODES[op]
    return 1 + registers + wide


def number(word, names):
    text = re.fullmatch(r"'(....)'", word)
    if text:
        return int.from_bytes(text[1].encode(), "big")
    return names[word] if word in names else int(word, 0)


def instruction(line, names):
    op, _, rest = line.partition(" ")
    words = [word.strip() for word in rest.split(",") if word.strip()]
    byte, registers, wide = OPCODES[op]
    assert len(words) == registers + (wide > 0), line
    code = be(byte, 1) + b"".join(be(int(word.removeprefix("r")), 1) for word in words[:registers])
    return code + (be(number(words[-1], names), wide) if wide else b"")


def counted(slots):
    return be(len(slots), 4) + b"".join(be(slot, 8) for slot in slots)


def slots(words, name):
    """The numbers after a name."""
    if name not in words:
        return []
    after = words[words.index(name) + 1 :]
    return [int(word) for word in after[: next((i for i, word in enumerate(after) if not word.isdigit()), len(after))]]


def assemble(source):
    names, constants, entries, code, place = {}, [], [], [], 0
    for line in lines(source):
        if line.startswith(".const"):
            _, name, value = line.split()
            names[name] = len(constants)
            constants.append(int(value))
        elif line.startswith(".entry"):
            entries.append(line.split()[1:])
        elif line.endswith(":"):
            names[line[:-1]] = place
        else:
            code.append(line)
            place += length(line.split()[0])
    body = b"".join(instruction(line, names) for line in code)
    out = b"QVM1" + be(len(body), 4) + body + counted(constants) + be(len(entries), 4)
    for selector, label, *words in entries:
        out += selector.encode() + be(names[label], 4)
        out += b"".join(counted(slots(words, name)) for name in ("reads", "writes", "keyed_reads", "keyed_writes"))
    return out


def rows(values):
    return b"".join(be(slot, 32) + be(value, 8) for slot, value in sorted(values.items()))


def call(selector, limit, preload):
    return selector.encode() + be(limit, 8) + be(0, 4) + be(len(preload), 4) + preload


def preload(readings):
    account = bytes(range(0xA0, 0xC0))
    return account + be(len(readings), 8) + b"".join(be(reading, 8) for reading in readings)


def main():
    with open(os.path.join(HERE, "settlement.qasm")) as source:
        container = assemble(source.read())
    files = {
        "container.bin": container,
        "store.bin": rows({1: 12, 2: 1200, 3: 35000, 9: 77}),
        "call.bin": call("sett", 50000, preload([37, 90, 160])),
    }
    spare = {
        "falling.bin": call("sett", 50000, preload([37, 30])),
        "empty.bin": call("sett", 50000, preload([])),
    }
    for name, content in {**files, **spare}.items():
        with open(os.path.join(HERE, name), "wb") as out:
            out.write(content)
    for name, content in files.items():
        with open(os.path.join(GATE, name), "wb") as out:
            out.write(content)


main()
