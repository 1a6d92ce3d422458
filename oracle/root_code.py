#!/usr/bin/env python3
"""Takes the machine code of functions of the library apart, and counts what is in it.

    root_code.py OBJDUMP FILE FUNCTION [COUNTED ..]

FILE is an archive or an object, of x86-64 or aarch64 code, and OBJDUMP the command of binutils that reads it. The code is
that of a function and of all that it calls; the constants are the memory that this code names. A loop is the code from
where a jump goes back to, to the last jump that goes back there.

The exit status is 1 where an instruction of FUNCTION multiplies, divides, takes a square root, or does other arithmetic of
floats, and where it calls something that FILE does not have, or jumps by a pointer; it is 2 where the code could not be
read. In a COUNTED function all that is only counted: plain x86-64 has no instruction that shifts each lane of a vector by a
count of its own, and the compiler may multiply by a power of two instead. Comparisons of floats, and work on 64 bits of a
general register or on vectors of integers, are counted only to be known: a sum that is an address is not told from another,
unless it is of the stack's.
"""
import collections
import re
import subprocess
import sys

# The mnemonics of x86-64 (whole numbers, floats and vectors, the old floating point unit) and those of aarch64. No name has
# another kind on the other machine. A multiplication, division or root of floats is counted as such.
KINDS = {
    "multiply": r"""
        i?mul[bwlq]? | mulx[lq]? | v?mul[sp][sdh] | vfn?m(add|sub)\w+ | v?p(mul|madd|clmul|dp)\w+ | fi?mulp?[sl]?
        | mul | m(add|sub|neg) | [us]mul[hl]2? | [us]m(add|sub|neg)l | ml[as] | [us]ml[as]l2? | sq\w*m(ul|la|ls)\w*
        | pmull?2? | [us]dot | fn?mulx? | fn?m(add|sub) | fml[as]\w*""",
    "divide": r"""
        i?div[bwlq]? | v?div[sp][sdh] | v?rcp\w+ | fi?divr?p?[sl]?
        | [us]div | fdiv | frecp\w+ | urecpe""",
    "square root": r"""
        v?r?sqrt\w+ | fsqrt
        | frsqrt\w+ | ursqrte""",
    "other arithmetic of floats": r"""
        v?(add|sub|min|max|round|rndscale|scalef|reduce|range|getexp|getmant)[sp][sdh] | v?(hadd|hsub|addsub|dp)p[sd]
        | v?cvt\w+
        | fi?(add|subr?)p?[sl]? | f(abs|chs|rndint|scale|prem1?|xtract|sin|cos|sincos|ptan|patan|2xm1|yl2xp?1?)
        | f(add|sub|abd|abs|neg|max|min)\w* | frint\w+ | [us]cvtf | fj?cvt\w*""",
    "comparison of floats": r"""
        v?u?comis[sdh] | v?cmp\w*[sp][sdh] | fu?comi?p{0,2}
        | fc?cmpe? | fcm(eq|ge|gt|le|lt) | fac(ge|gt)""",
}
FORBIDDEN = list(KINDS)[:4]
KINDS = {kind: re.compile(pattern, re.X) for kind, pattern in KINDS.items()}

# What stands before a mnemonic in the listing and is none.
PREFIX = re.compile(r"(?:(?:rep[nz]*|lock|bnd|notrack|data16|[cdefgs]s|rex\S*)\s+)*")
# Instructions that move, load, store, jump or fill, and work out nothing.
MOVE = re.compile(r"v?mov\w*|push\w*|pop\w*|call\w*|j\w+|ret\w*|nop\w*|fmov|ld\w+|st\w+|adrp?|bl?r?|b\.\w+")
# A general register of 64 bits, as an operand: not as a part of an address in memory.
WIDE = re.compile(r"%r([a-d]x|[sd]i|bp|\d+)\b|\bx\d+\b")
MEMORY = re.compile(r"\([^)]*\)|\[[^]]*\]")
# An address of the stack or of the code, worked out by an instruction that also adds.
ADDRESS = re.compile(r"%[re]?[si]p\b|\bsp\b")
# What works out something on a vector of integers: x86-64 says so by the name, and aarch64 by an operand.
PACKED = re.compile(r"v?p(add|sub|cmp|and|or|xor|sll|srl|sra|mul|madd|min|max|abs|sign|avg|sadbw|blend)\w*")
VECTOR = re.compile(r"\bv\d+\.\d+[bhsd]\b")
# But not these of aarch64's: floats, and what only moves lanes.
UNPACKED = re.compile(r"(f|mov|mvni|[su]mov|dup|ins|ext|zip|uzp|trn|tb[lx]|ld|st|[su]?q?xtu?n|[su]xtl|[su]cvtf)\w*")
# A jump that stays in the function.
JUMP = re.compile(r"j\w+|b(\.\w+)?|[ct]bn?z")

MEMBER = re.compile(r"(\S+):\s+file format \S+$")
SECTION = re.compile(r"\s*\d+ (\S+)\s+([0-9a-f]{8,}) (.*)$")
SYMBOL = re.compile(r"([0-9a-f]{8,}) (.{7}) (\S+)\t([0-9a-f]+)\s+(?:\.hidden )?(\S+)$")
DISASSEMBLY = re.compile(r"Disassembly of section (\S+):$")
INSTRUCTION = re.compile(r"\s*([0-9a-f]+):\s+([a-z]\S*.*)$")
RELOCATION = re.compile(r"\s+([0-9a-f]+):\s+(R_\w+)\s+(\S+?)([+-]0x[0-9a-f]+)?$")
NEAR = re.compile(r"(?:^|[\s,])(?:0x)?([0-9a-f]+) <")

Symbol = collections.namedtuple("Symbol", "place section start size function")


class Instruction:
    def __init__(self, address, text):
        text = re.sub(r"\s+(#|//) .*", "", text[PREFIX.match(text).end():])
        self.address = address
        self.mnemonic, self.operands = (text.split(None, 1) + [""])[:2]
        self.relocations = []

    def kind(self):
        """The first of the kinds that it is of, or None."""
        return next((kind for kind, pattern in KINDS.items() if pattern.fullmatch(self.mnemonic)), None)

    def is_wide(self):
        """Whether it works on 64 bits of a general register."""
        if MOVE.fullmatch(self.mnemonic) or ADDRESS.search(self.operands) or self.relocations:
            return False
        return bool(WIDE.search(MEMORY.sub("", self.operands)))

    def is_on_vectors(self):
        """Whether it works on a vector of integers."""
        if PACKED.fullmatch(self.mnemonic):
            return True
        return bool(VECTOR.search(self.operands)) and not UNPACKED.fullmatch(self.mnemonic)

    def target(self):
        """The place in its section that it jumps to or calls, or None."""
        near = NEAR.search(self.operands)
        return int(near[1], 16) if near and not self.relocations else None


def stop(why):
    print(f"{sys.argv[0]}: {why}", file=sys.stderr)
    sys.exit(2)


class Code:
    """What the listings of a file say. A place is an object of the archive."""

    def __init__(self, objdump, file):
        self.objdump, self.file = objdump, file
        self.sections = {}  # (place, name): (size, whether it has code)
        self.symbols = {}  # (place, name): Symbol
        self.shared = {}  # name: Symbol, of those that other objects see
        self.instructions = collections.defaultdict(list)  # (place, section): [Instruction]
        for place, line in self.listing("-h", "-w"):
            if match := SECTION.match(line):
                self.sections[place, match[1]] = int(match[2], 16), bool(re.search("CODE|TEXT", match[3]))
        for place, line in self.listing("-t", "-w"):
            if match := SYMBOL.match(line):
                self.add_symbol(place, *match.groups())
        section = None
        for place, line in self.listing("-d", "-r", "--no-show-raw-insn"):
            if match := DISASSEMBLY.match(line):
                section = self.instructions[place, match[1]]
            elif match := RELOCATION.match(line):
                section[-1].relocations.append((int(match[1], 16), match[2], match[3], int(match[4] or "0", 16)))
            elif match := INSTRUCTION.match(line):
                section.append(Instruction(int(match[1], 16), match[2]))

    def listing(self, *options):
        """The lines of a listing, each with the object that it is of."""
        got = subprocess.run([self.objdump, *options, self.file], capture_output=True, text=True)
        if got.returncode != 0 or "UNKNOWN" in got.stderr:
            stop(f"{self.objdump} could not read {self.file}: {got.stderr.strip()}")
        place = None
        for line in got.stdout.splitlines():
            if match := MEMBER.match(line):
                place = match[1]
            else:
                yield place, line

    def add_symbol(self, place, start, flags, section, size, name):
        if section == "*UND*":
            return
        symbol = Symbol(place, section, int(start, 16), int(size, 16), "F" in flags)
        # a section's own name gives way to a function's that is the same
        if (place, name) not in self.symbols or symbol.function:
            self.symbols[place, name] = symbol
        if flags[0] != "l":
            self.shared[name] = symbol

    def find(self, place, name):
        """The symbol of that name, or the start of a section, as an object sees it."""
        if (place, name) in self.sections:
            return Symbol(place, name, 0, 0, False)
        return self.symbols.get((place, name)) or self.shared.get(name)

    def function_at(self, place, section, offset):
        """The name of the function which that place is in."""
        for (where, name), symbol in self.symbols.items():
            if symbol.function and (where, symbol.section) == (place, section) and 0 <= offset - symbol.start < symbol.size:
                return name
        return None


def loops(instructions):
    """The instructions of each loop of a function."""
    ends = {}
    for instruction in instructions:
        target = instruction.target()
        if JUMP.fullmatch(instruction.mnemonic) and target is not None:
            if instructions[0].address <= target <= instruction.address:
                ends[target] = instruction.address
    return [[one for one in instructions if head <= one.address <= end] for head, end in sorted(ends.items())]


class Taken:
    """A function, and what it reaches."""

    def __init__(self, code, name):
        self.code = code
        self.functions = {}  # (place, name): size
        self.constants = {}  # (place, section, start): size
        self.instructions = []
        self.loops = []  # [[Instruction]]
        self.outside = set()
        if name not in code.shared:
            stop(f"{code.file} has no function {name}")
        self.take(code.shared[name].place, name)

    def take(self, place, name):
        symbol = self.code.symbols[place, name]
        if (place, name) in self.functions:
            return
        self.functions[place, name] = symbol.size
        listed = self.code.instructions[place, symbol.section]
        own = [one for one in listed if 0 <= one.address - symbol.start < symbol.size]
        self.instructions += own
        self.loops += loops(own)
        ends = [one.address for one in own[1:]] + [symbol.start + symbol.size]
        for instruction, after in zip(own, ends):
            for relocation in instruction.relocations:
                self.follow(place, after, *relocation)
            if not instruction.relocations:
                self.step(place, symbol, instruction)

    def step(self, place, symbol, instruction):
        """Takes a jump or a call within the section, which needs no relocation."""
        mnemonic, operands = instruction.mnemonic, instruction.operands
        if re.match(r"blr|br$", mnemonic) or operands.startswith("*"):
            self.outside.add(f"what {mnemonic} {operands} points to")
        target = instruction.target()
        if target is not None and not 0 <= target - symbol.start < symbol.size:
            name = self.code.function_at(place, symbol.section, target)
            if name is None:
                stop(f"{mnemonic} {operands} leads out of every function")
            self.take(place, name)

    def follow(self, place, after, address, kind, name, addend):
        """Takes what a relocation names, in an instruction that ends at `after`."""
        symbol = self.code.find(place, name)
        if symbol is None:
            self.outside.add(name)
            return
        offset = symbol.start + addend
        # x86-64 counts from the end of the instruction
        if re.match(r"R_X86_64_(PC|PLT|GOTPC)", kind):
            offset += after - address
        size, has_code = self.code.sections[symbol.place, symbol.section]
        if has_code:
            function = self.code.function_at(symbol.place, symbol.section, offset)
            if function is None:
                stop(f"{name} is in no function")
            self.take(symbol.place, function)
        elif symbol.size > 0:
            self.constants[symbol.place, symbol.section, symbol.start] = symbol.size
        elif merged := re.search(r"\.cst(\d+)$", symbol.section):
            # constants of one size, of which each function has its own
            self.constants[symbol.place, symbol.section, offset] = int(merged[1])
        else:
            self.constants[symbol.place, symbol.section, 0] = size


def mnemonics(instructions, wanted):
    """How often which of the instructions are as wanted."""
    return collections.Counter(one.mnemonic for one in instructions if wanted(one))


def of_kind(instructions, kind):
    return mnemonics(instructions, lambda one: one.kind() == kind)


def counted(found):
    """A count, and what it is made of."""
    made = ", ".join(f"{count} {name}" for name, count in sorted(found.items()))
    return f"{sum(found.values())} ({made})" if found else "0"


def report(name, taken):
    """Prints what the function is made of."""
    instructions = taken.instructions
    code, constants = sum(taken.functions.values()), sum(taken.constants.values())
    print(f"{name}: {len(instructions)} instructions, {code} bytes of code, {constants} bytes of constants")
    lines = {"functions": ", ".join(function for _, function in taken.functions)}
    if taken.outside:
        lines["not in the file"] = ", ".join(sorted(taken.outside))
    for kind in KINDS:
        lines[kind] = counted(of_kind(instructions, kind))
    lines["on 64 bits of a register"] = counted(mnemonics(instructions, Instruction.is_wide))
    lines["on vectors of integers"] = counted(mnemonics(instructions, Instruction.is_on_vectors))
    for what, line in lines.items():
        print(f"    {what + ':':<28}{line}")
    for loop in taken.loops:
        vectors, products = mnemonics(loop, Instruction.is_on_vectors), of_kind(loop, "multiply")
        print(f"    a loop of {len(loop)} instructions: {sum(vectors.values())} on vectors of integers, "
              f"{sum(products.values())} multiply")


def main():
    if len(sys.argv) < 4:
        stop("it takes OBJDUMP FILE FUNCTION [COUNTED ..]")
    objdump, file, *names = sys.argv[1:]
    code = Code(objdump, file)
    taken = [Taken(code, name) for name in names]
    for name, one in zip(names, taken):
        report(name, one)
    ruled = taken[0]
    if not ruled.instructions:
        stop(f"{names[0]} has no instruction in the listing, so nothing was counted")
    found = {kind: of_kind(ruled.instructions, kind) for kind in FORBIDDEN}
    found["not in the file"] = ruled.outside
    faults = [f"{what}: {', '.join(sorted(which))}" for what, which in found.items() if which]
    for fault in faults:
        print(f"What may not be in {names[0]}: {fault}")
    return 1 if faults else 0


if __name__ == "__main__":
    sys.exit(main())
