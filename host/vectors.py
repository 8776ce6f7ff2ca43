#!/usr/bin/env python3
"""Writes the files stdin and stdout of crates/machine_tests and crates/decoder_tests. The words are made by the RISC-V assembler (binutils).

A line of machine_tests: the instruction; x11 and x12; an address and the memory word there; how many steps to run; a register, the value it
must hold then, and pc; the words of the code from address 0. The cases are those of the RISC-V project's riscv-tests, rv64ui and rv64um.
A line of decoder_tests: the word; its row in document 01's table from 0, or e for none; rd, rs1, rs2; the immediate as a 64-bit word.
All numbers are hex; a field that an instruction lacks is 0."""
import os, shutil, subprocess, sys, tempfile

SIZE = 1 << 64
MAX = SIZE - 1


def assemble(sources):
    """The words of each source, a list of lines. Each source starts at a label of its own, so that `. + n` and labels are local to it."""
    with tempfile.TemporaryDirectory() as folder:
        at = lambda name: os.path.join(folder, name)
        with open(at("a.s"), "w") as out:
            out.write(".option norvc\n.option norelax\n")
            for lines in sources: out.write("\n".join(lines) + "\n")
        subprocess.run(["riscv64-linux-gnu-as", "-march=rv64imfd_zicsr_zifencei", "-o", at("a.o"), at("a.s")], check=True)
        subprocess.run(["riscv64-linux-gnu-objcopy", "-O", "binary", "-j", ".text", at("a.o"), at("a.bin")], check=True)
        data = open(at("a.bin"), "rb").read()
    words = [int.from_bytes(data[i : i + 4], "little") for i in range(0, len(data), 4)]
    answer, start = [], 0
    for lines in sources:
        count = sum(1 for line in lines if not line.rstrip().endswith(":"))
        answer.append(words[start : start + count])
        start += count
    assert start == len(words), "a source line that is not one word"
    return answer


# The machine's cases.


class Case:
    def __init__(self, name, code, register, value, steps=None, a=0, b=0, memory=(0, 0), pc=None):
        count = sum(1 for line in code if not line.endswith(":"))
        self.name, self.code, self.register, self.value = name, code, register, value % SIZE
        self.steps = count if steps is None else steps
        self.pc = 4 * count if pc is None else pc
        self.a, self.b, self.memory = a % SIZE, b % SIZE, memory


NOP = ["addi x0, x0, 0"]

MEANING = {
    "add": lambda a, b: a + b,
    "sub": lambda a, b: a - b,
    "mul": lambda a, b: a * b,
    "divu": lambda a, b: a // b if b else MAX,
    "remu": lambda a, b: a % b if b else a,
    "sltu": lambda a, b: int(a < b),
}


def register_cases(op, triples, equal, zero, bypass):
    """The macros TEST_RR_*: triples are (result, a, b), each also computed here."""
    name, answer = op.upper(), []

    def case(code, register, result, a, b, x, y):
        value = MEANING[op](x % SIZE, y % SIZE) % SIZE
        assert register == 0 or value == result % SIZE, (op, hex(result), hex(a), hex(b))
        answer.append(Case(name, code, register, 0 if register == 0 else value, a=a, b=b))

    for r, a, b in triples: case([f"{op} x14, x11, x12"], 14, r, a, b, a, b)
    if equal:
        (r1, a1, b1), (r2, a2, b2), (r3, a3) = equal
        case([f"{op} x11, x11, x12"], 11, r1, a1, b1, a1, b1)
        case([f"{op} x12, x11, x12"], 12, r2, a2, b2, a2, b2)
        case([f"{op} x11, x11, x11"], 11, r3, a3, 0, a3, a3)
    dest, sources = bypass
    for nops, (r, a, b) in enumerate(dest):
        case([f"{op} x14, x11, x12"] + nops * NOP + ["addi x6, x14, 0"], 6, r, a, b, a, b)
    spread = [(0, 0), (0, 1), (0, 2), (1, 0), (1, 1), (2, 0)]
    for k, (r, a, b) in enumerate(sources):
        first, second = ("x1", "x2") if k < 6 else ("x2", "x1")
        before, after = spread[k % 6]
        values = {"x1": "addi x1, x11, 0", "x2": "addi x2, x12, 0"}
        case([values[first]] + before * NOP + [values[second]] + after * NOP + [f"{op} x14, x1, x2"], 14, r, a, b, a, b)
    if zero:
        (r1, b1), (r2, a2), r3, (a4, b4) = zero
        case([f"{op} x2, x0, x11"], 2, r1, b1, 0, 0, b1)
        case([f"{op} x2, x11, x0"], 2, r2, a2, 0, a2, 0)
        case([f"{op} x1, x0, x0"], 1, r3, 0, 0, 0, 0)
        case([f"{op} x0, x11, x12"], 0, 0, a4, b4, a4, b4)
    return answer


def six(three):
    return (three + three) * 2


def addition():
    h, w = 0xFFFFFFFFFFFF8000, 0xFFFFFFFF80000000
    m, s = 0x7FFFFFFF, 0x7FFF
    triples = [
        (0, 0, 0), (2, 1, 1), (10, 3, 7), (h, 0, h), (w, w, 0), (0xFFFFFFFF7FFF8000, w, h), (s, 0, s), (m, m, 0), (0x80007FFE, m, s),
        (0xFFFFFFFF80007FFF, w, s), (0x7FFF7FFF, m, h), (MAX, 0, MAX), (0, MAX, 1), (MAX - 1, MAX, MAX), (0x80000000, 1, m),
    ]
    three = [(24, 13, 11), (25, 14, 11), (26, 15, 11)]
    return register_cases("add", triples, [(24, 13, 11), (25, 14, 11), (26, 13)], [(15, 15), (32, 32), 0, (16, 30)], (three, six(three)))


def subtraction():
    h, w = 0xFFFFFFFFFFFF8000, 0xFFFFFFFF80000000
    m, s = 0x7FFFFFFF, 0x7FFF
    triples = [
        (0, 0, 0), (0, 1, 1), (MAX - 3, 3, 7), (0x8000, 0, h), (w, w, 0), (0xFFFFFFFF80008000, w, h), (0xFFFFFFFFFFFF8001, 0, s), (m, m, 0),
        (0x7FFF8000, m, s), (0xFFFFFFFF7FFF8001, w, s), (0x80007FFF, m, h), (1, 0, MAX), (MAX - 1, MAX, 1), (0, MAX, MAX),
    ]
    three = [(2, 13, 11), (3, 14, 11), (4, 15, 11)]
    return register_cases("sub", triples, [(2, 13, 11), (3, 14, 11), (0, 13)], [(15, -15), (32, 32), 0, (16, 30)], (three, six(three)))


def multiplication():
    h, w = 0xFFFFFFFFFFFF8000, 0xFFFFFFFF80000000
    triples = [
        (0x1200, 0x7E00, 0x6DB6DB6DB6DB6DB7), (0x1240, 0x7FC0, 0x6DB6DB6DB6DB6DB7), (0, 0, 0), (1, 1, 1), (21, 3, 7), (0, 0, h), (0, w, 0),
        (0x0000400000000000, w, h), (0xFF7F, 0xAAAAAAAAAAAAAAAB, 0x2FE7D), (0xFF7F, 0x2FE7D, 0xAAAAAAAAAAAAAAAB),
    ]
    three = [(143, 13, 11), (154, 14, 11), (165, 15, 11)]
    return register_cases("mul", triples, [(143, 13, 11), (154, 14, 11), (169, 13)], [(0, 31), (0, 32), 0, (33, 34)], (three, six(three)))


def comparison():
    h, w = 0xFFFFFFFFFFFF8000, 0xFFFFFFFF80000000
    m, s = 0x7FFFFFFF, 0x7FFF
    triples = [
        (0, 0, 0), (0, 1, 1), (1, 3, 7), (0, 7, 3), (1, 0, h), (0, w, 0), (1, w, h), (1, 0, s), (0, m, 0), (0, m, s), (0, w, s), (1, m, h),
        (1, 0, MAX), (0, MAX, 1), (0, MAX, MAX),
    ]
    dest = [(1, 11, 13), (0, 14, 13), (1, 12, 13)]
    sources = [(int(a < 13), a, 13) for a in (14, 11, 15, 10, 16, 9, 17, 8, 18, 7, 19, 6)]
    return register_cases("sltu", triples, [(0, 14, 13), (1, 11, 13), (0, 13)], [(1, -1), (0, -1), 0, (16, 30)], (dest, sources))


def division():
    low = 1 << 63
    quotients = [(3, 20, 6), (3074457345618258599, -20, 6), (0, 20, -6), (0, -20, -6), (low, low, 1), (0, low, -1), (-1, low, 0), (-1, 1, 0), (-1, 0, 0)]
    rests = [(2, 20, 6), (2, -20, 6), (20, 20, -6), (-20, -20, -6), (0, low, 1), (low, low, -1), (low, low, 0), (1, 1, 0), (0, 0, 0)]
    nothing = ([], [])
    return register_cases("divu", quotients, None, None, nothing) + register_cases("remu", rests, None, None, nothing)


def signed(width, n):
    return n - (1 << width) if n >> (width - 1) else n


def immediates():
    """TEST_IMM_*: ADDI's immediates are written as 12 bits."""
    w, m = 0xFFFFFFFF80000000, 0x7FFFFFFF
    triples = [
        (0, 0, 0), (2, 1, 1), (10, 3, 7), (0xFFFFFFFFFFFFF800, 0, 0x800), (w, w, 0), (0xFFFFFFFF7FFFF800, w, 0x800), (0x7FF, 0, 0x7FF), (m, m, 0),
        (0x800007FE, m, 0x7FF), (0xFFFFFFFF800007FF, w, 0x7FF), (0x7FFFF7FF, m, 0x800), (MAX, 0, 0xFFF), (0, MAX, 1), (MAX - 1, MAX, 0xFFF),
        (0x80000000, m, 1),
    ]
    answer = []

    def case(code, register, result, a, value):
        assert value % SIZE == result % SIZE
        answer.append(Case("ADDI", code, register, result, a=a))

    for r, a, n in triples: case([f"addi x14, x11, {signed(12, n)}"], 14, r, a, a + signed(12, n))
    case(["addi x11, x11, 11"], 11, 24, 13, 13 + 11)
    for nops, (r, n) in enumerate([(24, 11), (23, 10), (22, 9)]):
        case([f"addi x14, x11, {n}"] + nops * NOP + ["addi x6, x14, 0"], 6, r, 13, 13 + n)
    for nops, (r, n) in enumerate([(24, 11), (23, 10), (22, 9)]):
        case(["addi x1, x11, 0"] + nops * NOP + [f"addi x14, x1, {n}"], 14, r, 13, 13 + n)
    case(["addi x1, x0, 32"], 1, 32, 0, 32)
    case(["addi x0, x11, 50"], 0, 0, 33, 0)
    return answer


def upper():
    """The suite shifts LUI's result right before it compares; here it is compared as it is."""
    answer = []
    for n, result in [(0, 0), (0xFFFFF, 0xFFFFFFFFFFFFF000), (0x7FFFF, 0x7FFFF000), (0x80000, 0xFFFFFFFF80000000)]:
        assert result == signed(32, n << 12) % SIZE
        answer.append(Case("LUI", [f"lui x1, {n}"], 1, result))
    assert [signed(64, answer[k].value) >> s for k, s in ((1, 1), (2, 20), (3, 20))] == [-2048, 0x7FF, -2048]
    return answer + [Case("LUI", ["lui x0, 0x80000"], 0, 0)]


# The suite's data words stand here in data memory, from this address on.
DATA = 2048


def loads():
    words = [0x00FF00FF00FF00FF, 0xFF00FF00FF00FF00, 0x0FF00FF00FF00FF0, 0xF00FF00FF00FF00F]
    answer = []

    def case(code, register, result, base, address):
        index = (address - DATA) // 8
        assert address % 8 == 0 and result in (words[index], 2)
        answer.append(Case("LD", code, register, result, a=base, memory=(address, words[index])))

    for first in (0, 3):
        for k, word in enumerate(words):
            base, offset = DATA + 8 * first, 8 * (k - first)
            case([f"ld x14, {offset}(x11)"], 14, word, base, base + offset)
    case(["addi x6, x11, -32", "ld x5, 32(x6)"], 5, words[0], DATA, DATA)
    case(["addi x6, x11, -3", "ld x5, 11(x6)"], 5, words[1], DATA, DATA + 8)
    bypass = [(0x0FF00FF00FF00FF0, 1), (0xF00FF00FF00FF00F, 2), (0xFF00FF00FF00FF00, 0)]
    for nops, (word, k) in enumerate(bypass):
        case(["ld x14, 8(x11)"] + nops * NOP + ["addi x6, x14, 0"], 6, word, DATA + 8 * k, DATA + 8 * k + 8)
    for nops, (word, k) in enumerate(bypass):
        case(["addi x1, x11, 0"] + nops * NOP + ["ld x14, 8(x1)"], 14, word, DATA + 8 * k, DATA + 8 * k + 8)
    case(["ld x2, 0(x11)", "addi x2, x0, 2"], 2, 2, DATA, DATA)
    case(["ld x2, 0(x11)"] + NOP + ["addi x2, x0, 2"], 2, 2, DATA, DATA)
    return answer


def stores():
    """A word is stored and loaded again; memory starts with another word there."""
    answer, before = [], 0xDEADBEEFDEADBEEF

    def case(code, register, word, base, address):
        assert address % 8 == 0
        answer.append(Case("SD", code, register, word, a=base, b=word, memory=(address, before)))

    words = [0x00AA00AA00AA00AA, 0xAA00AA00AA00AA00, 0x0AA00AA00AA00AA0, 0xA00AA00AA00AA00A]
    for base, step in ((DATA, 0), (DATA + 56, -24)):
        for k, word in enumerate(words):
            offset = 8 * k + step
            case([f"sd x12, {offset}(x11)", f"ld x14, {offset}(x11)"], 14, word, base, base + offset)
    case(["addi x4, x11, -32", "sd x12, 32(x4)", "ld x5, 0(x11)"], 5, 0x1234567812345678, DATA + 64, DATA + 64)
    case(["addi x1, x11, -3", "sd x12, 11(x1)", "ld x5, 8(x11)"], 5, 0x5821309858213098, DATA + 64, DATA + 72)
    spread = [(0, 0), (0, 1), (0, 2), (1, 0), (1, 1), (2, 0)]
    order = [
        (["addi x13, x12, 0"], ["addi x10, x11, 0"], [0xABBCCDD, 0xAABBCCD, 0xDAABBCC, 0xDDAABBC, 0xCDDAABB, 0xCCDDAAB]),
        (["addi x10, x11, 0"], ["addi x13, x12, 0"], [0x00112233, 0x30011223, 0x33001122, 0x23300112, 0x22330011, 0x12233001]),
    ]
    for first, second, values in order:
        for k, (m, n) in enumerate(spread):
            offset = 8 * k
            case(first + m * NOP + second + n * NOP + [f"sd x13, {offset}(x10)", f"ld x14, {offset}(x10)"], 14, values[k], DATA, DATA + offset)
    return answer


ADD_ONE = ["addi x1, x1, 1"]


def branches():
    """The suite's own jumps around a branch are BNE, which is no instruction here: JAL stands for them."""
    answer = []
    for a in (0, 1, -1):
        code = ["beq x11, x12, . + 12", "jal x0, . + 20", "jal x0, . + 12", "beq x11, x12, . - 4", "jal x0, . + 8"]
        answer.append(Case("BEQ", code, 0, 0, steps=3, a=a, b=a, pc=20))
    for a, b in ((0, 1), (1, 0), (-1, 1), (1, -1)):
        code = ["beq x11, x12, . + 8", "jal x0, . + 8", "jal x0, . + 12", "beq x11, x12, . - 4"]
        answer.append(Case("BEQ", code, 0, 0, steps=3, a=a, b=b, pc=16))
    for m, n in 2 * [(0, 0), (0, 1), (0, 2), (1, 0), (1, 1), (2, 0)]:
        code = ["addi x1, x11, 0"] + m * NOP + ["addi x2, x12, 0"] + n * NOP + ["beq x1, x2, . + 8"]
        answer.append(Case("BEQ", code, 1, 0, a=0, b=-1))
    code = ["addi x1, x0, 1", "beq x0, x0, . + 20"] + 6 * ADD_ONE
    return answer + [Case("BEQ", code, 1, 3, steps=4)]


def jumps():
    answer = [Case("JAL", ["jal x4, . + 16"] + 3 * NOP, 4, 4, steps=1, pc=16)]
    answer.append(Case("JAL", ["addi x1, x0, 1", "jal x0, . + 20"] + 6 * ADD_ONE, 1, 3, steps=4))
    answer.append(Case("JALR", ["jalr x5, 0(x11)"] + NOP, 5, 4, steps=1, a=8))
    answer.append(Case("JALR", ["jalr x11, 0(x11)"] + NOP, 11, 4, steps=1, a=8))
    for nops in range(3):
        code = ["addi x6, x11, 0"] + nops * NOP + ["jalr x13, 0(x6)"] + NOP
        answer.append(Case("JALR", code, 13, 8 + 4 * nops, steps=2 + nops, a=12 + 4 * nops))
    answer.append(Case("JALR", ["addi x1, x0, 1", "jalr x0, -4(x11)"] + 5 * ADD_ONE, 1, 4, steps=5, a=20))
    return answer


def machine_lines():
    cases = upper() + immediates() + addition() + subtraction() + multiplication() + division() + comparison() + loads() + stores() + branches() + jumps()
    for c, words in zip(cases, assemble([c.code for c in cases])):
        assert len(words) <= 16 and c.memory[0] < 4096
        code = " ".join(f"{w:08x}" for w in words)
        yield f"{c.name:<5}{c.a:016x} {c.b:016x} {c.memory[0]:03x} {c.memory[1]:016x} {c.steps:x} {c.register:02x} {c.value:016x} {c.pc:02x} {code}"


# The decoder's words.

REGISTERS = [0, 1, 15, 16, 31]


def edges(width, step=1):
    """Immediates of so many bits: the ends, small ones, each bit alone and each bit missing, as multiples of step."""
    low, high = -(1 << (width - 1)), (1 << (width - 1)) - step
    singles = [1 << k for k in range(step.bit_length() - 1, width - 1)]
    found = {low, high, 0, step, -step, low + step, high - step} | set(singles) | {-1 * s for s in singles} | {high ^ s for s in singles}
    return sorted(n for n in found if low <= n <= high and n % step == 0)


def operands():
    """Triples of registers: each pair at each two places, and one register three times."""
    some = [(d, s, REGISTERS[(i + j) % 5]) for i, d in enumerate(REGISTERS) for j, s in enumerate(REGISTERS)]
    return some + [(r, r, r) for r in REGISTERS if (r, r, r) not in some]


def rows():
    """(source line, row, rd, rs1, rs2, immediate) for the words that match."""
    pairs = [(r, REGISTERS[(k + 2) % 5]) for k, r in enumerate(REGISTERS)]
    turn = lambda k: pairs[k % 5]
    for k, n in enumerate(edges(32, 4096)): yield f"lui x{turn(k)[0]}, {n // 4096 % (1 << 20)}", 0, turn(k)[0], 0, 0, n
    for name, row, form in (("addi", 1, "addi x{}, x{}, {}"), ("ld", 8, "ld x{0}, {2}(x{1})"), ("jalr", 12, "jalr x{0}, {2}(x{1})")):
        for k, n in enumerate(edges(12)): yield form.format(*turn(k), n), row, *turn(k), 0, n
        for d in REGISTERS:
            for s in REGISTERS: yield form.format(d, s, 5), row, d, s, 0, 5
    for row, op in enumerate(["add", "sub", "mul", "divu", "remu", "sltu"], 2):
        for d, s, t in operands(): yield f"{op} x{d}, x{s}, x{t}", row, d, s, t, 0
    for k, n in enumerate(edges(12)): yield f"sd x{turn(k)[1]}, {n}(x{turn(k)[0]})", 9, 0, *turn(k), n
    for k, n in enumerate(edges(13, 2)): yield f"beq x{turn(k)[0]}, x{turn(k)[1]}, . + {n}", 10, 0, *turn(k), n
    for s in REGISTERS:
        for t in REGISTERS:
            yield f"sd x{t}, -7(x{s})", 9, 0, s, t, -7
            yield f"beq x{s}, x{t}, . - 6", 10, 0, s, t, -6
    for k, n in enumerate(edges(21, 2)): yield f"jal x{turn(k)[0]}, . + {n}", 11, turn(k)[0], 0, 0, n
    yield "ecall", 13, 0, 0, 0, 0


OTHERS = """addw x1, x2, x3|subw x1, x2, x3|mulw x1, x2, x3|divuw x1, x2, x3|remuw x1, x2, x3|addiw x1, x2, 3|slt x1, x2, x3|slti x1, x2, 3
sltiu x1, x2, 3|sll x1, x2, x3|srl x1, x2, x3|sra x1, x2, x3|slli x1, x2, 3|srli x1, x2, 3|srai x1, x2, 3|xor x1, x2, x3|or x1, x2, x3
and x1, x2, x3|xori x1, x2, 3|ori x1, x2, 3|andi x1, x2, 3|mulh x1, x2, x3|mulhsu x1, x2, x3|mulhu x1, x2, x3|div x1, x2, x3|rem x1, x2, x3
divw x1, x2, x3|remw x1, x2, x3|lb x1, 4(x2)|lh x1, 4(x2)|lw x1, 4(x2)|lbu x1, 4(x2)|lhu x1, 4(x2)|lwu x1, 4(x2)|sb x1, 4(x2)|sh x1, 4(x2)
sw x1, 4(x2)|bne x1, x2, . + 8|blt x1, x2, . + 8|bge x1, x2, . + 8|bltu x1, x2, . + 8|bgeu x1, x2, . + 8|auipc x1, 5|ebreak|fence|fence.i
csrrw x1, mstatus, x2|csrrs x1, cycle, x0|csrrwi x1, mstatus, 3|mret|wfi|fld f1, 8(x2)|fsd f1, 8(x2)|fadd.d f1, f2, f3|flw f1, 8(x2)"""


def no_rows(words):
    """Words that match no row: other instructions, and a matching word with its opcode, funct3 or funct7 changed."""
    others = [line for text in OTHERS.split("\n") for line in text.split("|")]
    found = [w for (w,) in assemble([[line] for line in others])]
    first = {}
    for (source, row, *_), w in words: first.setdefault(row, w)
    matching = {55, 19, 51, 99, 111, 103, 115}
    found += [opcode for opcode in range(128) if opcode not in matching]
    rest = {row: first[row] & ~0xFE00707F for row in first}
    funct3 = {1: (19, [0]), 8: (3, [3]), 9: (35, [3]), 10: (99, [0]), 12: (103, [0])}
    for row, (opcode, allowed) in funct3.items(): found += [first[row] & ~0x7000 | f << 12 for f in range(8) if f not in allowed]
    pairs = {(0, 0), (0, 32), (0, 1), (5, 1), (7, 1), (3, 0)}
    sevens = [0, 1, 32, 33] + [1 << k for k in range(1, 7)] + [127]
    found += [rest[2] | 51 | f3 << 12 | f7 << 25 for f3 in range(8) for f7 in sorted(set(sevens)) if (f3, f7) not in pairs]
    found += [115 | 1 << k for k in range(7, 32)]
    # two compressed instructions to a word, and words that no instruction has
    found += [0x00010001, 0x450185AA, 0xFFFFFFFF, 0x80000000, 0xFFFF0000, 0x0000FFFF]
    return list(dict.fromkeys(found))


def decoder_lines():
    wanted = list(rows())
    words = list(zip(wanted, [w for (w,) in assemble([[source] for source, *_ in wanted])]))
    for (source, row, d, s, t, n), w in words: yield f"{w:08x} {row:x} {d:02x} {s:02x} {t:02x} {n % SIZE:016x}"
    for w in no_rows(words): yield f"{w:08x} e 00 00 00 {0:016x}"


def expected(name, lines):
    """What the program writes where nothing differs."""
    if name == "decoder_tests": return f"{len(lines)} words, 0 differ\n"
    names = [line[:5] for line in lines]
    return "".join(f"{n}{names.count(n)}\n" for n in dict.fromkeys(names)) + f"{len(lines)} cases, 0 differ\n"


def main():
    if not shutil.which("riscv64-linux-gnu-as"): sys.exit("vectors.py: no riscv64-linux-gnu-as; the stored files stay as they are")
    crates = os.path.join(os.path.dirname(os.path.dirname(os.path.abspath(__file__))), "crates")
    for name, lines in (("machine_tests", list(machine_lines())), ("decoder_tests", list(decoder_lines()))):
        text = "".join(line + "\n" for line in lines)
        assert len(text) < 65536, name
        for file, content in (("stdin", text), ("stdout", expected(name, lines))):
            with open(os.path.join(crates, name, file), "w") as out: out.write(content)
        print(name, len(lines), "lines", len(text), "bytes")


main()
