"""Records for the oracle: `python3 oracle/vectors.py codec|arith|bench|verdict|stores|key_steps|runs`, written to standard output."""

import itertools
import random
import sys

from parts import SHAPES, WORD, big, container, encoded, entry, instruction, with_byte
from runs import runs

SEED = 20010
OPCODES = sorted(SHAPES)
HALT, NOP, MOV, LDI, LDC, NOT = 0, 1, 2, 3, 4, 35
ADD, ADDW, MULHI, DIVW, REMW, SLOAD, SSTORE = 16, 24, 27, 28, 29, 80, 81
JMP, JZ, JNZ, CALL, RET = 64, 65, 66, 67, 68


class Source:
    """Seeded numbers; only getrandbits is used, whose values are fixed for a seed."""

    def __init__(self):
        self.generator = random.Random(SEED)

    def below(self, n):
        return self.generator.getrandbits(64) % n

    def bits(self, n):
        """A number whose highest bit is bit n - 1."""
        return self.generator.getrandbits(n) | 1 << (n - 1) if n else 0

    def pick(self, items):
        return items[self.below(len(items))]

    def bytes(self, n):
        return bytes(self.generator.getrandbits(8) for _ in range(n))


# codec


def register_places(opcode):
    """Registers stand before numbers, so the k-th operand byte is the k-th register."""
    return range(1, 1 + SHAPES[opcode].count("r"))


def documented_codes():
    """Document 01's cases."""
    for code in (b"\x10\x10", b"\x10\x01", b"\x05", encoded(LDI, 2, 42)):
        yield 0, code


def whole_instructions():
    for opcode in OPCODES:
        for choice in range(1 if SHAPES[opcode].strip("r") == "" else 4):
            yield 0, instruction(opcode, choice=choice)
        yield 0, instruction(opcode, [0] * 6)
        yield 0, instruction(opcode, [15] * 6)


def cut_instructions():
    yield 0, b""
    for opcode in OPCODES:
        code = instruction(opcode)
        for length in range(1, len(code)):
            yield 0, code[:length]


def bad_registers():
    for opcode in OPCODES:
        code = instruction(opcode)
        for place in register_places(opcode):
            for byte in (15, 16, 17, 255):
                yield 0, with_byte(code, place, byte)
        for first, second in itertools.combinations(register_places(opcode), 2):
            yield 0, with_byte(with_byte(code, first, 200), second, 100)


def bad_register_in_cut_instructions():
    for opcode in OPCODES:
        for place in register_places(opcode):
            code = with_byte(instruction(opcode), place, 16 + place)
            for length in range(1, len(code)):
                yield 0, code[:length]
            for dropped in range(1, place):
                yield 0, code[:dropped] + code[dropped + 1:]


def first_bytes():
    for byte in range(256):
        yield 0, bytes([byte])
        yield 0, bytes([byte]) + bytes(15)


def places():
    inside = instruction(NOP) + instruction(LDI) + instruction(DIVW) + instruction(JZ) + instruction(HALT)
    for place in range(len(inside) + 3):
        yield place, inside
    for code in (b"", b"\0", inside):
        for place in (len(code), len(code) + 1, 2**31, 2**32 - 1, 2**32, 2**32 + 1, 2**63 - 1, 2**63, WORD - 2, WORD - 1):
            yield place, code
    for opcode in OPCODES:
        code = instruction(opcode)
        before = bytes([255, 16, 68, 1, 99])
        yield len(before), before + code
        yield len(before), before + code[:-1]
        yield len(before), before + code + b"\xff"


def random_codes(source):
    for _ in range(250):
        yield source.below(4), source.bytes(source.below(15))
    # Mostly opcodes and registers, so that many of them decode.
    likely = OPCODES + [*range(16)] * 8 + [16, 255]
    for _ in range(250):
        code = bytes([source.pick(OPCODES)]) + bytes(source.pick(likely) for _ in range(source.below(14)))
        yield source.pick([0, 0, 0, 1, 2, 5]), code


def codec(source):
    kinds = [documented_codes(), whole_instructions(), cut_instructions(), bad_registers(), bad_register_in_cut_instructions(),
             first_bytes(), places(), random_codes(source)]
    for place, code in itertools.chain(*kinds):
        yield big(place, 8) + big(len(code), 1) + code


# arith

EDGES = [0, 1, 2, 63, 64, 65, 2**32 - 1, 2**32, 2**32 + 1, 2**63 - 1, 2**63, WORD - 2, WORD - 1]
ONE_OPERAND = [MOV, NOT]
TWO_OPERANDS = [op for op in OPCODES if 16 <= op <= 42 and op not in (NOT, DIVW, REMW)]


def two_word_edges():
    """Every pattern of zero words, then smaller and larger numbers against each other."""
    return itertools.product([0, 1, 2**32, 2**63, WORD - 1], repeat=4)


def two_word_pairs(source):
    """Number and divisor as wide numbers."""
    for _ in range(60):
        number, divisor = source.bits(source.below(129)), source.bits(1 + source.below(128))
        yield number, divisor
        yield number, number
        yield number, min(number + 1, WORD * WORD - 1)
        yield number, max(number - 1, 0)
    for _ in range(60):
        # Just below, at and just above a multiple of the divisor.
        width = 1 + source.below(127)
        divisor = source.bits(width)
        multiple = divisor * source.bits(1 + source.below(128 - width))
        yield multiple - 1, divisor
        yield multiple, divisor
        yield multiple + divisor - 1 if multiple + divisor <= WORD * WORD else multiple, divisor
    # Digits of 32 bits at their edges: guesses of a quotient's digit go wrong here.
    digits = [0, 1, 2**31 - 1, 2**31, 2**31 + 1, 2**32 - 2, 2**32 - 1]
    for _ in range(260):
        number, divisor = (sum(source.pick(digits) << 32 * i for i in range(4)) for _ in range(2))
        yield number, divisor >> 32 * source.below(4)


def arith(source):
    def record(opcode, *operands):
        return bytes([opcode]) + b"".join(big(operand, 8) for operand in operands)

    # Document 01's cases.
    for case in ((ADDW, WORD - 1, 2, 0, 0), (ADD, WORD - 1, 2, 0, 0), (MULHI, WORD - 1, WORD - 1, 0, 0), (DIVW, 1, 0, 0, 2)):
        yield record(*case)
    for opcode in TWO_OPERANDS:
        for a, b in itertools.product(EDGES, EDGES):
            yield record(opcode, a, b, 0, 0)
    for opcode in ONE_OPERAND:
        for a in EDGES:
            yield record(opcode, a, 5, 6, 7)
    for operands in two_word_edges():
        for opcode in (DIVW, REMW):
            yield record(opcode, *operands)
    for opcode in TWO_OPERANDS + ONE_OPERAND:
        for _ in range(30):
            yield record(opcode, *(source.bits(source.below(65)) for _ in range(4)))
    for number, divisor in two_word_pairs(source):
        for opcode in (DIVW, REMW):
            yield record(opcode, *divmod(number, WORD), *divmod(divisor, WORD))


# bench

ON_BENCH = [MOV, LDI, *(op for op in OPCODES if 16 <= op <= 42)]


def bench_step(opcode, registers=(), word=0):
    """Registers that the instruction does not name are 255: they are not looked at."""
    return bytes([opcode, *registers, *[255] * (6 - len(registers))]) + big(word, 8)


def bench(source):
    def load(values):
        for d, value in enumerate(values):
            yield bench_step(LDI, [d], value)

    def shape(opcode):
        return SHAPES[opcode].count("r")

    # Edges in every register, then each operation into each kind of target: another register, an operand's own.
    yield from load([*EDGES, 3, 7, 10**18])
    for opcode in ON_BENCH:
        for registers in ([6, 3, 2, 11, 14, 1], [2, 2, 2, 2, 2, 2], [0, 15, 8, 12, 15, 0], [14, 14, 12, 5, 14, 0]):
            yield bench_step(opcode, registers[:shape(opcode)], 2**40 + opcode)
    # Overflow, a divisor of 0, and no other fault: the file stays.
    yield from load([WORD - 1, 1, 0, 5, 6, 2**32])
    for opcode in ON_BENCH:
        if shape(opcode) == 3:
            for a, b in ((0, 1), (1, 0), (5, 5), (0, 2), (2, 3)):
                yield bench_step(opcode, [9, a, b])
        elif shape(opcode) == 6:
            for divisor in ((2, 2), (2, 1), (1, 2)):
                yield bench_step(opcode, [9, 10, 0, 5, *divisor])
                yield bench_step(opcode, [9, 9, 0, 5, *divisor])
    # 50 before 16, and 16 at each register of each operation.
    for opcode in OPCODES:
        if opcode not in ON_BENCH:
            yield bench_step(opcode, [3, 4, 5])
            yield bench_step(opcode, [16, 17, 255])
        else:
            for place in range(shape(opcode)):
                for register in (15, 16, 255):
                    yield bench_step(opcode, with_byte(bytes([9, 10, 0, 5, 1, 3][:shape(opcode)]), place, register), 77)
    for _ in range(250):
        opcode = source.pick(ON_BENCH + [LDI] * 8)
        registers = [source.below(16) for _ in range(shape(opcode))]
        yield bench_step(opcode, registers, source.bits(source.below(65)))


# verdict


def good_code():
    """Bytes and the instructions' starts; a jump names its target as an instruction's index."""
    lines = [(LDC, 0, 0), (LDC, 1, 2), (JZ, 0, 5), (CALL, 9), (JNZ, 1, 0), (LDI, 2, 0x0102030405060708), (SLOAD, 3, 4),
             (JMP, 11), (NOP,), (DIVW, 0, 1, 2, 3, 4, 5), (RET,), (SSTORE, 4, 3), (HALT,)]
    starts = list(itertools.accumulate((len(instruction(line[0])) for line in lines), initial=0))
    jumps = (JMP, JZ, JNZ, CALL)
    code = b"".join(encoded(*line[:-1], starts[line[-1]]) if line[0] in jumps else encoded(*line) for line in lines)
    return code, starts


def good_container():
    code, starts = good_code()
    entries = [entry(b"abcd", 0, (2, 1, 0, 3)), entry(b"MINT", starts[9]), entry(bytes(4), starts[12], (0, 0, 1, 0)),
               entry(b"\xff\xff\xff\xff", starts[5], (1, 1, 1, 1))]
    return container(code, [1, WORD - 1, 0x1122334455667788], entries)


EXAMPLE = container(bytes([HALT]), entries=[entry()])


def tags_and_lengths():
    """41, 42 and 43."""
    good = good_container()
    for place in range(4):
        for change in (1, 32, 128):
            yield with_byte(good, place, good[place] ^ change)
    yield from (b"", b"Q", b"QVM", b"qvm", b"QVM1", b"QVM2", b"1MVQ", b"\0\0\0\0", b"QVM2" + good, b"QVM1" + good)
    yield from (good[:length] for length in range(len(good)))
    yield from (good + b"\0", good + b"\xff", good + good, EXAMPLE + b"\0", EXAMPLE[:-1])
    # 2^29 words are 2^32 bytes: a count times eight must not wrap.
    for count in (1, 2**28, 2**29, 2**29 + 1, 2**31, 2**32 - 1):
        yield b"QVM1" + big(count, 4)
        yield container(b"")[:8] + big(count, 4)
        yield container(b"")[:12] + big(count, 4)
        for index in range(4):
            counts = [big(count if index == i else 0, 4) for i in range(4)]
            yield container(b"\0")[:-4] + big(1, 4) + b"abcd" + big(0, 4) + b"".join(counts)
    yield container(b"\xff") + b"\0"


def sizes():
    """22 and 23, and the order of sizes and what follows."""
    halt = bytes([HALT])
    many = [entry(big(i, 4)) for i in range(257)]
    yield from (container(halt, [0] * count) for count in (4096, 4097))
    yield from (container(halt, entries=many[:count]) for count in (255, 256, 257))
    yield container(b"\xff", [0] * 4097, many)
    yield container(b"\xff", entries=many)
    room = 49152 - len(container(b"", entries=[entry()]))
    yield container(bytes([NOP]) * room, entries=[entry(offset=room - 1)])
    yield container(bytes([NOP]) * room, entries=[entry(offset=room)])


def code_passes():
    """24, 25 and 26."""
    for code in (b"", b"\0", b"\x05", b"\0\x05", instruction(LDI)[:-1], instruction(LDI), b"\x10\x10", b"\x10\x01",
                 b"\x10\x01\x02\x0f", b"\x10\x01\x02\x10", instruction(ADD) * 3 + b"\xff", bytes(300) + b"\x10"):
        yield container(code)
    for index, count in ((0, 0), (0, 1), (1, 1), (2, 3), (3, 3), (4096, 4096), (255, 256), (256, 256), (65535, 7)):
        yield container(encoded(LDC, 15, index), [9] * count)
    late, wrong = encoded(LDC, 0, 7), b"\xfe"
    yield from (container(part) for part in (late + wrong, wrong + late, late + encoded(LDC, 0, 8)))
    for jump in ([JMP], [CALL], [JZ, 0], [JNZ, 15]):
        size = len(encoded(*jump, 0))
        body = encoded(NOP) + encoded(*jump, 0) + encoded(LDI, 0, 0)
        for target in (0, 1, 2, size, size + 1, size + 2, size + 10, size + 11, size + 12, 65536, 2**16 + 1, 2**31, 2**32 - 1):
            yield container(encoded(NOP) + encoded(*jump, target) + encoded(LDI, 0, 0))
        yield container(body + encoded(*jump, 99) + encoded(JMP, 98))
        yield container(encoded(*jump, 99) + late)
        yield container(encoded(*jump, 99) + wrong)
        yield container(encoded(*jump, 99), entries=[entry(offset=1)])


def entry_passes():
    """27, 28 and 29."""
    code, _ = good_code()
    for offset in [*range(len(code) + 2), 65536, 2**31, 2**32 - 1]:
        yield container(code, [0] * 3, [entry(b"\x81\x02\x03\x04", offset)])
    halt = bytes([HALT])
    yield container(b"", entries=[entry()])
    over = (4097, 0, 0, 0)
    for sizes_of_lists in (over, (1024, 1024, 1024, 1024), (1024, 1024, 1024, 1025)):
        yield container(halt, entries=[entry(sizes=sizes_of_lists)])
    pair = b"abce", b"abcd"
    yield from (container(halt, entries=[entry(s) for s in pair * times]) for times in (1, 2))
    for lists in ([entry(), entry(offset=1)], [entry(offset=1), entry()], [entry(sizes=over), entry()],
                  [entry(offset=1, sizes=over)], [entry(b"efgh"), entry(), entry(b"ijkl"), entry()], [entry(), entry(b"efgh", 1)],
                  [entry(sizes=(2500, 0, 0, 0)), entry(b"efgh", sizes=(2500, 0, 0, 0))]):
        yield container(halt, entries=lists)
    yield container(halt, entries=[(b"abcd", 0, [[5, 5], [5], [7, 7], [7]])])


def damaged_copies(source):
    good = good_container()
    for _ in range(150):
        place = source.below(len(good))
        yield with_byte(good, place, good[place] ^ (1 + source.below(255)))
    for _ in range(75):
        place = source.below(len(good))
        yield good[:place] + good[place + 1:]
        place = source.below(len(good))
        yield good[:place + 1] + good[place:]


def verdict(source):
    kinds = [[EXAMPLE, good_container(), container(b"")], tags_and_lengths(), sizes(), code_passes(), entry_passes(),
             damaged_copies(source)]
    for record in itertools.chain(*kinds):
        assert len(record) <= 49152
        yield big(len(record), 4) + record
    # 21 at its edge: code of zero bytes, so many more than 2^31 says.
    yield from (big(2**31 + count, 4) for count in (65535, 65536, 65537))


def stores(source):
    """Keys that share all but their first, a middle or their last byte, in an order that fills both tables; then a log that fills."""
    def record(op, key, value):
        return bytes([op]) + key + big(value, 8)

    keys = [bytes(32), b"\xff" * 32]
    for place in (0, 15, 31):
        keys += [with_byte(bytes(32), place, 1 + 5 * i) for i in range(20)]
    for _ in range(2500):
        key = keys[source.below(len(keys))]
        yield record(source.below(4), key, source.below(WORD))
    for _ in range(700):
        key = keys[source.below(len(keys))]
        yield record(4 + source.below(6), key, source.below(66) + (source.below(WORD // 66) * 66 if source.below(2) else 0))
    yield record(9, bytes(32), 0)


# key_steps

SLOTS = 12
LOAD, STORE, AUTHORISE, TELL = range(4)


def slot_key(slot):
    return bytes(24) + big(slot, 8)


class KeyedRun:
    """A head and records over a few keys, so that every key is met often and in many states."""

    def __init__(self, source):
        self.source = source
        # Ranges that overlap, so that a slot is declared in several lists, one, or none.
        self.lists = [[low + source.below(count) for _ in range(SLOTS)] for low, count in ((1, 12), (5, 24), (6, 8), (1, 8))]
        self.declared = [slot_key(slot) for slot in self.lists[1]]
        self.keys = [slot_key(slot) for slot in range(1, 16)]
        self.keys += [with_byte(slot_key(9 + i), 23 - 8 * i, 1) for i in range(3)]
        self.made = [source.bytes(32) for _ in range(9)] + [slot_key(40), bytes(32), b"\xff" * 32]

    def value(self):
        return self.source.pick([0, 0, 1, self.source.below(WORD)])

    def table(self, most):
        keys = self.keys + self.made
        rows = {self.source.pick(keys): self.value() for _ in range(self.source.below(most))}
        return [key + big(rows[key], 8) for key in sorted(rows)]

    def record(self):
        op = self.source.pick([LOAD, STORE, STORE, AUTHORISE])
        if op == AUTHORISE:
            return bytes([op]) + self.source.pick(self.made) + big(1 + self.source.below(16), 8)
        keys = self.source.pick([self.declared, self.keys, self.made])
        return bytes([op]) + self.source.pick(keys) + big(self.value(), 8)

    def records(self, count):
        tell = bytes([TELL]) + bytes(40)
        for i in range(count):
            yield self.record()
            if i % 20 == 19:
                yield tell

    def bytes(self, present, store, loader, count):
        head = bytes([present, len(store), len(loader)]) + b"".join(big(slot, 8) for slot in sum(self.lists, []))
        run = b"".join([head, *store, *loader, *self.records(count)])
        return big(len(run), 4) + run


def key_steps(source):
    """With and without a loader, over full and empty tables; then tables that do not rise."""
    for i in range(30):
        run = KeyedRun(source)
        yield run.bytes(i % 3 > 0, run.table(12), run.table(24), 100)
    run = KeyedRun(source)
    low, high = sorted(run.keys[:2])
    falling = [high + bytes(8), low + bytes(8)]
    twice = [low + bytes(8), low + big(1, 8)]
    for bad in (falling, twice):
        yield run.bytes(1, bad, [], 20)
        yield run.bytes(1, [], bad, 20)
        yield run.bytes(0, [], bad, 20)


if __name__ == "__main__":
    makers = {"codec": codec, "arith": arith, "bench": bench, "verdict": verdict, "stores": stores, "key_steps": key_steps, "runs": runs}
    sys.stdout.buffer.write(b"".join(makers[sys.argv[1]](Source())))
