"""Which words are instructions of the machine: RV32I, M, and CSRRW and CSRRS of the machine's control registers."""

HART_ID = 0xF14
SEND_SLOT = 0x80C
IDLE = 0x80A
READ = {HART_ID, 0x800, 0x801, 0x807, SEND_SLOT}
WRITE = {0x802, 0x803, 0x804, 0x805, 0x806, 0x808, 0x809, IDLE, 0x80B}
READ_IN_GRAPHS = {HART_ID, SEND_SLOT}

CSRRW = 1
CSRRS = 2
SYSTEM = 0b1110011
ENVIRONMENT = {0x00000073, 0x00100073}
ANY_FUNCT3 = {0b0110111, 0b0010111, 0b1101111}  # LUI, AUIPC, JAL
FUNCT3 = {
    0b1100111: {0},  # JALR
    0b1100011: {0, 1, 4, 5, 6, 7},  # branches
    0b0000011: {0, 1, 2, 4, 5},  # loads
    0b0100011: {0, 1, 2},  # stores
    0b0001111: {0},  # FENCE
}
OP_IMM = 0b0010011
OP = 0b0110011
OTHERS = {
    0b0000111: "a load of floating point",
    0b0100111: "a store of floating point",
    0b1000011: "an instruction of floating point",
    0b1000111: "an instruction of floating point",
    0b1001011: "an instruction of floating point",
    0b1001111: "an instruction of floating point",
    0b1010011: "an instruction of floating point",
    0b0101111: "an atomic instruction",
}


def fault_of(word, in_graph=False):
    """Says what is wrong with a word of code; None if it is an instruction of the machine."""
    opcode = word & 0x7F
    if opcode == SYSTEM and word not in ENVIRONMENT:
        return _csr_fault(word, in_graph)
    if is_base(word):
        return None
    if word & 3 != 3:
        return "is a compressed instruction or no instruction"
    return f"is {OTHERS.get(opcode, 'no instruction of RV32IM')}"


def is_base(word):
    """Whether a word is an instruction of RV32I or M, those on control registers left out."""
    opcode, funct3, funct7 = word & 0x7F, word >> 12 & 7, word >> 25
    if opcode == OP:
        return funct7 in (0, 1) or (funct7 == 0x20 and funct3 in (0, 5))
    if opcode == OP_IMM and funct3 in (1, 5):
        return funct7 == 0 or (funct7 == 0x20 and funct3 == 5)
    if opcode == SYSTEM:
        return word in ENVIRONMENT
    return opcode in ANY_FUNCT3 or opcode == OP_IMM or funct3 in FUNCT3.get(opcode, ())


def _csr_fault(word, in_graph):
    rd, funct3, rs1, register = word >> 7 & 31, word >> 12 & 7, word >> 15 & 31, word >> 20
    if funct3 not in (CSRRW, CSRRS):
        return "is none of csrrw and csrrs, the machine's instructions on control registers"
    if register not in READ | WRITE:
        return f"uses the control register {register:#x}, which the machine does not have"
    if in_graph and register not in READ_IN_GRAPHS:
        return f"uses the control register {register:#x}: the handlers of a graph may read HartId and SendSlot alone"
    if funct3 == CSRRW and register in WRITE and (rd == 0 or register == IDLE):
        return None
    if funct3 == CSRRS and register in READ and rs1 == 0:
        return None
    return f"is no allowed use of the control register {register:#x}"
