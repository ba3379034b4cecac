"""Writes the table of single instructions that crates/reference_tests checks:

    python3 tools/instruction_cases.py > crates/reference_tests/data/cases.txt

One case to a line: name, word, pc, what x5 and x6 hold, and what the instruction does:
write RD VALUE NEXT, jump NEXT, load RD ADDRESS, store ADDRESS VALUE or halt CODE
(0 ecall, 1 no instruction, 2 an address that is no multiple of 4).
It is written from the RISC-V manual alone, on Python's integers, and shares nothing with the crates.
"""

M = 1 << 32
EDGE = [0, 1, (1 << 31) - 1, 1 << 31, M - 1]
IMM12 = [0, 1, 2047, -2048, -1]
RD, RS1, RS2 = 7, 5, 6


def sign(x):
    return x - M if x >> 31 else x


ALU = {
    "add": (0, 0, lambda x, y: x + y),
    "sub": (0, 32, lambda x, y: x - y),
    "sll": (1, 0, lambda x, y: x << (y & 31)),
    "slt": (2, 0, lambda x, y: int(sign(x) < sign(y))),
    "sltu": (3, 0, lambda x, y: int(x < y)),
    "xor": (4, 0, lambda x, y: x ^ y),
    "srl": (5, 0, lambda x, y: x >> (y & 31)),
    "sra": (5, 32, lambda x, y: sign(x) >> (y & 31)),
    "or": (6, 0, lambda x, y: x | y),
    "and": (7, 0, lambda x, y: x & y),
    "mul": (0, 1, lambda x, y: x * y),
    "mulhu": (3, 1, lambda x, y: x * y >> 32),
    "divu": (5, 1, lambda x, y: x // y if y else M - 1),
    "remu": (7, 1, lambda x, y: x % y if y else x),
}
BRANCH = {
    "beq": (0, lambda x, y: x == y),
    "bne": (1, lambda x, y: x != y),
    "blt": (4, lambda x, y: sign(x) < sign(y)),
    "bge": (5, lambda x, y: sign(x) >= sign(y)),
    "bltu": (6, lambda x, y: x < y),
    "bgeu": (7, lambda x, y: x >= y),
}


def r_type(f7, f3, opcode, rd=RD, rs1=RS1, rs2=RS2):
    return f7 << 25 | rs2 << 20 | rs1 << 15 | f3 << 12 | rd << 7 | opcode


def i_type(imm, f3, opcode, rd=RD, rs1=RS1):
    return (imm & 0xFFF) << 20 | rs1 << 15 | f3 << 12 | rd << 7 | opcode


def s_type(imm, f3, opcode):
    return r_type(imm >> 5 & 0x7F, f3, opcode, rd=imm & 31)


def b_type(imm, f3):
    return r_type((imm >> 12 & 1) << 6 | imm >> 5 & 0x3F, f3, 0x63, rd=imm & 0x1E | imm >> 11 & 1)


def j_type(imm):
    return (imm >> 20 & 1) << 31 | (imm >> 1 & 0x3FF) << 21 | (imm >> 11 & 1) << 20 | (imm >> 12 & 0xFF) << 12 | RD << 7 | 0x6F


def case(name, word, x=0, y=0, pc=64, does=None):
    kind, *rest = does
    print(name, word, pc, x, y, kind, *[v % M for v in rest])


def write(name, word, value, x=0, y=0, pc=64, rd=RD):
    case(name, word, x, y, pc, ("write", rd, value, pc + 4))


def to(name, word, target, does, x=0, y=0, pc=64):
    case(name, word, x, y, pc, does if target % 4 == 0 else ("halt", 2))


def arithmetic():
    for name, (f3, f7, f) in ALU.items():
        for x in EDGE:
            for y in EDGE:
                write(name, r_type(f7, f3, 0x33), f(x, y), x, y)
    for name in ["add", "slt", "sltu", "xor", "or", "and"]:
        f3, _, f = ALU[name]
        immediate = "sltiu" if name == "sltu" else name + "i"
        for x in EDGE:
            for imm in IMM12:
                write(immediate, i_type(imm, f3, 0x13), f(x, imm % M), x)
    for name in ["sll", "srl", "sra"]:
        f3, f7, f = ALU[name]
        for x in EDGE:
            for n in [0, 1, 31]:
                write(name + "i", i_type(f7 << 5 | n, f3, 0x13), f(x, n), x)
    upper = [0, 1, 0x7FFFF, 0x80000, 0xFFFFF]
    for imm in upper:
        write("lui", imm << 12 | RD << 7 | 0x37, imm << 12)
    for imm in upper:
        for pc in [0, 4, 0x7FFFFFFC, 0x80000000, 0xFFFFFFFC]:
            write("auipc", imm << 12 | RD << 7 | 0x17, pc + (imm << 12), pc=pc)


def jumps():
    for offset in [0, 4, 2, -2, -4, 2048, 0xFFFFC, 0xFFFFE, -0x100000]:
        for pc in [0, 64, 0x80000000, 0xFFFFFFFC]:
            to("jal", j_type(offset), pc + offset, ("write", RD, pc + 4, pc + offset), pc=pc)
    for x in EDGE:
        for offset in IMM12 + [2, 3]:
            target = (x + offset) % M & ~1
            to("jalr", i_type(offset, 0, 0x67), target, ("write", RD, 68, target), x=x)
    for name, (f3, f) in BRANCH.items():
        for x in EDGE:
            for y in EDGE:
                for offset in [16, 2]:
                    target = 64 + (offset if f(x, y) else 4)
                    to(name, b_type(offset, f3), target, ("jump", target), x, y)
        for offset in [-4, 2048, 4092, -4096]:
            x, y = next((x, y) for x in EDGE for y in EDGE if f(x, y))
            case(name, b_type(offset, f3), x, y, does=("jump", 64 + offset))


def memory():
    places = [(x, offset, (x + offset) % M) for x in EDGE for offset in IMM12 + [3, 4]]
    for x, offset, address in places:
        to("lw", i_type(offset, 2, 0x03), address, ("load", RD, address), x=x)
    for x, offset, address in places:
        for y in EDGE:
            to("sw", s_type(offset, 2, 0x23), address, ("store", address, y), x, y)


def stops():
    case("ecall", 0x73, does=("halt", 0))
    for pc in [1, 2, 3, 0xFFFFFFFE]:
        case("misaligned", 0x13, pc=pc, does=("halt", 2))
    reserved = [0, M - 1, 0x0000000F, 0x00100073, 0x30200073]
    reserved += [0x73 | 1 << 7, 0x73 | 1 << 15, i_type(0, 1, 0x73)]
    reserved += [i_type(0, f3, 0x03) for f3 in [0, 1, 3, 4, 5, 6, 7]]
    reserved += [s_type(0, f3, 0x23) for f3 in [0, 1, 3, 4, 5, 6, 7]]
    reserved += [b_type(8, f3) for f3 in [2, 3]]
    reserved += [i_type(0, f3, 0x67) for f3 in range(1, 8)]
    reserved += [i_type(f7 << 5, 1, 0x13) for f7 in [1, 32, 64]]
    reserved += [i_type(f7 << 5, 5, 0x13) for f7 in [1, 31, 33, 64]]
    reserved += [r_type(32, f3, 0x33) for f3 in [1, 2, 3, 4, 6, 7]]
    reserved += [r_type(1, f3, 0x33) for f3 in [1, 2, 4, 6]]
    reserved += [r_type(f7, f3, 0x33) for f7 in [2, 33, 64] for f3 in [0, 5]]
    for word in reserved:
        case("reserved", word, does=("halt", 1))


def zero():
    # x0 reads as 0, and may be written to
    write("x0", i_type(5, 0, 0x13, rs1=0), 5, x=1, y=1)
    write("x0", r_type(0, 0, 0x33, rs1=0), 1, x=3, y=1)
    write("x0", r_type(0, 0, 0x33, rs2=0), 3, x=3, y=1)
    write("x0", i_type(5, 0, 0x13, rd=0), 6, x=1, rd=0)
    case("x0", i_type(8, 2, 0x03, rd=0), x=8, does=("load", 0, 16))


arithmetic()
jumps()
memory()
stops()
zero()
