#!/usr/bin/env python3
"""Writes texts that `rvas` and GNU as both take, and mean the same: gnu_texts.py FOLDER N writes FOLDER/1.s to FOLDER/N.s.

The number of a text is its seed. The first line is a comment with the address where the first section begins. Values are in
range and targets in reach, often at the limits. GNU as takes compressed instructions only behind `.option rvc`, and compresses
the others there itself, so the texts have this line and `.option norvc` around them; for `rvas` both are without effect.

What the two assemblers take differently is left out:
- `.` in data behind the first value of a line, which is the address of the value there, and that of the line here.
- `>>` of a negative number, into which GNU as shifts no sign; and the label `0`, since GNU as reads `0f + 4` as a floating number.
- `li x0, 0x1000`, which is two instructions there, and `la` and loads of a number, which are `li` and `lui` there.
- `.align 1` in code, which does nothing there after an odd byte, and `.align 2` in code behind `.option norvc`.
- A branch to another section, or far ahead: GNU as does not see at once that it is in reach, and makes two instructions of it.
- What GNU as does not know: names in other cases, `.rodata` by itself, comments after `//`, differences of addresses outside data.
"""
import bisect
import random
import re
import sys

BASES = (0, 0x1000, 0x10000, 0x80000000)
CODE = (".text.init", ".text")
# The sections in their order, and the lines that select them: each text has one for each, since GNU as keeps other names apart.
SECTIONS = {
    ".text.init": ('.section .text.init, "ax"', '.section .text.init.first, "ax", @progbits'),
    ".text": (".text", ".section .text", '.section .text.hot, "ax", @progbits'),
    ".rodata": (".section .rodata", '.section .rodata.str1.4, "a"', '.section .srodata.cst4, "a", @progbits'),
    ".data": (".data", ".section .data", '.section .data.rel.local, "aw"'),
    ".sdata": ('.section .sdata, "aw"', '.section .sdata.counter, "aw", @progbits'),
    ".bss": (".bss", ".section .bss", '.section .bss.buffer, "aw", @nobits', '.section .sbss, "aw", @nobits'),
}
REGISTERS = (
    "zero ra sp gp tp t0 t1 t2 s0 s1 a0 a1 a2 a3 a4 a5 a6 a7 s2 s3 s4 s5 s6 s7 s8 s9 s10 s11 t3 t4 t5 t6".split()
)
CSRS = (
    "mstatus misa medeleg mideleg mie mtvec mcounteren mscratch mepc mcause mtval mip cycle time instret cycleh timeh instreth "
    "mvendorid marchid mimpid mhartid".split()
    + [f"hpmcounter{number}{half}" for number in range(3, 32) for half in ("", "h")]
)

# The forms of instructions: names, and their operands in one or more ways. In braces stand the operands that differ.
FORMS = """
lui auipc: {any}, {upper} | {any}, {high}
jal: {any}, {jump} | {jump}
jalr: {any}, {signed12}({any}) | {any}, {any}, {signed12} | {any}, {any} | {any} | {any}, {low}({any}) | {any}, {paired}({any})
beq bne blt bge bltu bgeu bgt ble bgtu bleu: {any}, {any}, {branch}
lb lh lw lbu lhu: {any}, {signed12}({any}) | {any}, ({any}) | {any}, {low}({any}) | {any}, {paired}({any}) | {any}, {address}
sb sh sw: {any}, {signed12}({any}) | {any}, ({any}) | {any}, {low}({any}) | {any}, {paired}({any}) | {any}, {address}, {any}
addi slti sltiu xori ori andi: {any}, {any}, {signed12} | {any}, {any}, {low} | {any}, {any}, {paired}
slli srli srai: {any}, {any}, {unsigned5}
add sub sll slt sltu xor srl sra or and mul mulh mulhsu mulhu div divu rem remu sgt sgtu: {any}, {any}, {any}
csrrw csrrs csrrc: {any}, {csr}, {any}
csrrwi csrrsi csrrci: {any}, {csr}, {unsigned5}
fence: {set}, {set} |
fence.tso fence.i ecall ebreak mret sret wfi nop ret c.nop c.ebreak:
lr.w: {any}, ({any}) | {any}, 0({any})
sc.w amoswap.w amoadd.w amoxor.w amoand.w amoor.w amomin.w amomax.w amominu.w amomaxu.w: {any}, {any}, ({any}) | {any}, {any}, 0({any})
mv not neg seqz snez sltz sgtz: {any}, {any}
beqz bnez bgez bltz blez bgtz: {any}, {branch}
j: {jump}
jr rdcycle rdtime rdinstret rdcycleh rdtimeh rdinstreth: {any}
csrr: {any}, {csr}
csrw csrs csrc: {csr}, {any}
csrwi csrsi csrci: {csr}, {unsigned5}
la lla: {any}, {address}
call tail: {address} | {anywhere}
c.addi4spn: {popular}, {sp}, {addi4spn}
c.lw c.sw: {popular}, {clw}({popular}) | {popular}, ({popular})
c.addi: {not0}, {caddi}
c.li: {not0}, {signed6}
c.lui: {not0or2}, {clui}
c.srli c.srai: {popular}, {shift}
c.slli: {not0}, {shift}
c.andi: {popular}, {signed6}
c.addi16sp: {sp}, {addi16sp}
c.sub c.xor c.or c.and: {popular}, {popular}
c.mv c.add: {not0}, {not0}
c.j c.jal: {cjump}
c.beqz c.bnez: {popular}, {cbranch}
c.lwsp: {not0}, {clwsp}({sp}) | {not0}, ({sp})
c.swsp: {any}, {clwsp}({sp}) | {any}, ({sp})
c.jr c.jalr: {not0}
"""
REGISTER_SETS = {"any": range(32), "not0": range(1, 32), "not0or2": (1, *range(3, 32)), "popular": range(8, 16), "sp": (2,)}
# The values of an operand: their limits, and what they are multiples of.
RANGES = {
    "signed12": (-2048, 2047, 1), "upper": (0, 0xFFFFF, 1), "unsigned5": (0, 31, 1), "shift": (1, 31, 1), "addi4spn": (4, 1020, 4),
    "clw": (0, 124, 4), "clwsp": (0, 252, 4), "signed6": (-32, 31, 1),
}
CHOICES = {
    "caddi": [value for value in range(-32, 32) if value], "addi16sp": [value for value in range(-512, 512, 16) if value],
    "clui": [*range(1, 32), *range(0xFFFE0, 0x100000)],
}
REACHES = {"branch": (-4096, 4094), "jump": (-1048576, 1048574), "cjump": (-2048, 2046), "cbranch": (-256, 254)}
DATA = {".byte": 1} | dict.fromkeys((".half", ".short", ".2byte"), 2) | dict.fromkeys((".word", ".long", ".4byte"), 4)
# Parts of strings, and how many bytes they have.
PARTS = dict.fromkeys(["a", "Z", "#", "'", ",", " ", ":", r"\n", r"\t", r"\r", r"\b", r"\f", r"\\", r"\"", r"\'", r"\101", r"\377"], 1)
PARTS |= {"//": 2, "é": 2, r"\0q": 2, r"\1019": 2}


def all_forms():
    """The names with their operands, one entry for each way."""
    for row in FORMS.strip().splitlines():
        names, operands = row.split(":")
        for name in names.split():
            yield from ((name, way.strip()) for way in operands.split("|"))


INSTRUCTIONS = list(all_forms())
# Names of labels that are spelled like something else.
TAKEN = [*sorted({name for name, _ in INSTRUCTIONS if "." not in name}), *REGISTERS, *CSRS]


class Label:
    """A label: its name or number, its line, and where that line is."""

    def __init__(self, name, line, section, offset, is_high):
        self.name, self.line, self.section, self.offset, self.is_high = name, line, section, offset, is_high


class Text:
    """A text, made in two passes: the sizes of the lines, their labels and constants; and then what needs to know all labels."""

    def __init__(self, seed):
        self.random = random.Random(seed)
        self.base = BASES[seed % len(BASES)]
        # Each line: its section, its offset there, and what makes it. And the number of the line that is being made.
        self.lines = []
        self.line = 0
        self.labels, self.lines_of_numbers = [], {}
        # The .equs: of each constant its name, its value and its line, and the names of the others.
        self.constants, self.equated = [], []
        self.names = 0
        # How many bytes the sections have, and where they begin: not known in the first pass.
        self.ends, self.begins = dict.fromkeys(SECTIONS, 0), {}
        self.section = ".text"
        self.compresses = None
        self.selects = {name: self.random.choice(lines) for name, lines in SECTIONS.items()}

    def one_of(self, *things):
        return self.random.choice(things)

    def chance(self, one_in):
        return self.random.randrange(one_in) == 0

    def value_in(self, low, high, multiple=1):
        """A value, often one at the limits or near 0."""
        special = self.one_of(low, high, low + multiple, high - multiple, 0, multiple, -multiple)
        if self.chance(3) and low <= special <= high:
            return special
        return self.random.randint(low // multiple, high // multiple) * multiple

    # Numbers and expressions.

    def number(self, value):
        if value < 0:
            return self.one_of(f"-{-value}", f"-{-value:#x}", f"- {-value}", f"~{-value - 1}")
        kinds = [f"{value}", f"{value:#x}", f"{value:#X}", f"0x{value:X}", f"{value:#b}", f"0B{value:b}", f"0{value:o}"]
        if 32 <= value <= 126 and chr(value) not in "'\\\"":
            kinds.append(f"'{chr(value)}'")
        kinds += {10: [r"'\n'"], 9: [r"'\t'"], 13: [r"'\r'"], 92: [r"'\\'"], 39: [r"'\''"], 34: ["'\"'"]}.get(value, [])
        return self.random.choice(kinds)

    def expression(self, value):
        """The value by numbers and constants of earlier lines."""
        if self.chance(2):
            return self.number(value)
        number, part = self.number, self.random.randint(1, 300)
        kinds = [f"{number(value - part)} + {number(part)}", f"{number(value + part)} - {number(part)}", f"-({number(-value)})",
                 f"{number(value // part)} * {part} + {value % part}"]
        if value >= 0:
            kinds += [f"{number(value ^ part)} ^ {number(part)}", f"{number(value * part + part // 2)} / {number(part)}",
                      f"{number(value << 3)} >> 3", f"{value >> 4} << 4 | {value & 15}",
                      f"({number(value + 8 * part)} & ~7) - {8 * part} + {value & 7}"]
        known = [constant for constant in self.constants if constant[2] < self.line]
        if known:
            name, its, _ = self.random.choice(known)
            kinds += [f"{name} + {number(value - its)}", f"{number(value + its)}-{name}"] * 2
        return self.random.choice(kinds)

    def operators(self):
        """Operators of all levels, and seven or eight bits of their value."""
        if self.chance(2):
            return f"({self.row('+ - * / % & | ^ <<', ('', '', '-', '~'), True)}) & 0xff"
        return f"({self.row('+ * / % & | ^ << >>', ('',), True)}) & 127"

    def row(self, signs, units, nests):
        """Numbers and operators, with a row in parentheses for some numbers. Nothing is divided by 0, and nothing is too large."""
        text = self.term(signs, units, nests)
        for sign in self.random.choices(signs.split(), k=self.random.randint(1, 4)):
            small = self.random.choice(units if sign in "*/%" else ("",)) + str(self.random.randint(1, 6))
            text += f" {sign} {small if sign in '* / % << >>'.split() else self.term(signs, units, nests)}"
        return text

    def term(self, signs, units, nests):
        if nests and self.chance(4):
            return f"({self.row(signs, units, False)})"
        return self.random.choice(units) + str(self.random.randint(0, 50))

    # The first pass.

    def add_row(self, make, size=0):
        """Adds a line of so many bytes. What makes it is called in the second pass."""
        self.lines.append((self.section, self.ends[self.section], make))
        self.ends[self.section] += size

    def add_label(self, name, is_high=False):
        label = Label(name, len(self.lines), self.section, self.ends[self.section], is_high)
        self.labels.append(label)
        if name.isdigit():
            self.lines_of_numbers.setdefault(name, []).append(label.line)

    def new_name(self):
        self.names += 1
        if self.names % 8 == 0 and self.names // 8 < len(TAKEN):
            return TAKEN[self.names // 8]
        return self.one_of("l", "_l", ".L", "here.", "a$") + str(self.names)

    def add_line(self, make, size=0):
        """A line with labels and a comment."""
        labels = ""
        while self.chance(3):
            name = self.one_of("1", "2", "10", "9999") if self.chance(3) else self.new_name()
            self.add_label(name)
            labels += f"{name}: "
        space, comment = self.one_of("    ", "\t", " "), self.one_of("", "", "", "  # a comment", "\t#")
        self.add_row(lambda: labels + space + make() + comment, size)

    def set_compression(self, compresses):
        if compresses != self.compresses:
            self.add_row(lambda: ".option rvc" if compresses else ".option norvc")
            self.compresses = compresses

    def add_instruction(self):
        name, form = self.random.choice(INSTRUCTIONS)
        compressed = name.startswith("c.")
        self.set_compression(compressed)
        if name.endswith(".w"):
            name += self.one_of("", "", ".aq", ".rl", ".aqrl")
        size = 2 if compressed else 8 if "{address}" in form or "{anywhere}" in form else 4
        needs_high = "{paired}" in form
        self.add_line(lambda: "nop" if needs_high and not self.high_labels() else f"{name} {self.filled(form)}".rstrip(), size)

    def add_li(self):
        low, high = self.one_of((-2048, 2047), (-(2**31), 2**32 - 1), (2**31 - 3000, 2**31 + 3000), (-4096, 4096))
        value = self.value_in(low, high) & self.one_of(-1, -1, ~0xFFF)
        signed = (value + 2**31) % 2**32 - 2**31
        self.set_compression(False)
        size = 4 if -2048 <= signed <= 2047 or signed % 4096 == 0 else 8
        self.add_line(lambda: f"li {self.filled('{not0}')}, {self.expression(value)}", size)

    def add_high(self):
        """An auipc with a label, by which others add the low part."""
        name = self.one_of("3", "44", self.new_name(), self.new_name())
        self.set_compression(False)
        self.add_label(name, is_high=True)
        self.add_row(lambda: f"{name}: auipc {self.filled('{any}')}, %pcrel_hi({self.address()})", 4)

    def add_data(self):
        directive, count = self.random.choice(list(DATA)), self.random.randint(1, 5)
        size = DATA[directive]
        self.add_line(lambda: f"{directive} " + ", ".join(self.datum(size, place) for place in range(count)), size * count)

    def add_string(self):
        directive = self.one_of(".ascii", ".asciz", ".string")
        strings = [self.random.choices(list(PARTS), k=self.random.randint(0, 9)) for _ in range(self.random.randint(1, 3))]
        size = sum(sum(PARTS[part] for part in parts) + (directive != ".ascii") for parts in strings)
        self.add_line(lambda: f"{directive} " + ", ".join('"' + "".join(parts) + '"' for parts in strings), size)

    def add_fill(self):
        size = self.random.randint(0, self.one_of(2, 20, 300, 300, 6000, 65536 if self.chance(20) else 7))
        if self.section == ".bss" or self.chance(2):
            self.add_line(lambda: f"{self.one_of('.zero', '.space', '.skip')} {self.expression(size)}", size)
        else:
            byte = self.value_in(-128, 255)
            self.add_line(lambda: f"{self.one_of('.space', '.skip')} {self.expression(size)}, {self.expression(byte)}", size)

    def add_alignment(self):
        in_code = self.section in CODE
        power = self.random.randint(2 if in_code else 0, self.one_of(2, 4, 4, 12))
        directive = self.one_of(".align", ".p2align", ".balign")
        if in_code:
            self.set_compression(True)
        number = 1 << power if directive == ".balign" else power
        self.add_line(lambda: f"{directive} {self.expression(number)}", -self.ends[self.section] % (1 << power))

    def add_zeros(self):
        line, size = self.one_of((".byte 0, 0", 2), (".word 0", 4), (".half 0, 0, 0", 6))
        self.add_line(lambda: line, size)

    def add_constant(self):
        name, value = f"K{len(self.lines)}", self.random.randint(-self.one_of(20, 3000), self.one_of(20, 3000))
        self.add_line(lambda: f"{self.one_of('.equ', '.set')} {name}, {self.expression(value)}")
        self.constants.append((name, value, len(self.lines) - 1))

    def add_equated(self):
        """An .equ of an address, or of the distance of two labels."""
        name = self.one_of("at_", "at_", "gap_") + str(len(self.lines))
        self.equated.append(name)
        self.add_line(lambda: f".equ {name}, {self.difference(-9999, 9999) if name[0] == 'g' else self.near_label()}")

    def add_section(self):
        section = self.random.choice(list(SECTIONS))
        self.add_line(lambda: self.selects[section])
        self.section = section

    def add_without_effect(self):
        lines = ["", "# only a comment", '.ident "gnu"', ".option norelax", '.file "text.c"']
        names = [label.name for label in self.labels if not label.name.isdigit()]
        if names:
            name = self.random.choice(names)
            # ld finds no entry that is local.
            directives = (".globl", ".global") if name == "_start" else (".globl", ".global", ".local", ".hidden")
            lines += [f"{directive} {name}" for directive in directives]
            lines += [f".type {name}, @object", f".size {name}, 4"]
        line = self.random.choice(lines)
        self.add_row(lambda: line)

    def add_something(self):
        is_odd = self.ends[self.section] % 2 == 1
        data = [self.add_data] * 3 + [self.add_string, self.add_fill, self.add_alignment]
        if self.section == ".bss":
            adds = [self.add_fill, self.add_alignment, self.add_zeros] * 4
        elif is_odd:
            adds = data * 3
        elif self.section in CODE:
            adds = [self.add_instruction] * 60 + [self.add_li, self.add_high] * 4 + data
        else:
            adds = [self.add_instruction, self.add_li] + data * 3
        self.random.choice(adds + [self.add_constant, self.add_equated, self.add_section, self.add_without_effect])()

    # The second pass.

    def filled(self, form):
        """The operands of an instruction, with various spaces."""
        comma, rest = self.one_of(", ", ", ", ",", " , "), form.split(", ")
        return comma.join(re.sub(r"\{(\w+)\}", lambda found: self.operand(found[1]), operand) for operand in rest)

    def operand(self, kind):
        if kind in REGISTER_SETS:
            number = self.random.choice(REGISTER_SETS[kind])
            return self.one_of(REGISTERS[number], f"x{number}", "fp" if number == 8 else REGISTERS[number])
        if kind in RANGES:
            return self.expression(self.value_in(*RANGES[kind]))
        if kind in CHOICES:
            return self.expression(self.random.choice(CHOICES[kind]))
        if kind in REACHES:
            return self.target(*REACHES[kind])
        return getattr(self, kind)()

    def reference(self, label):
        """How the line names a label, or None."""
        if not label.name.isdigit():
            return label.name
        lines = self.lines_of_numbers[label.name]
        ahead = bisect.bisect_right(lines, self.line)
        if ahead > 0 and lines[ahead - 1] == label.line:
            return label.name + "b"
        return label.name + "f" if ahead < len(lines) and lines[ahead] == label.line else None

    def references(self, labels):
        return [name for name in map(self.reference, labels) if name]

    def moved(self, name, distance):
        return f"{name} {'-' if distance < 0 else '+'} {self.number(abs(distance))}"

    def near_label(self):
        return self.moved(self.random.choice(self.references(self.labels) or ["."]), self.random.randint(0, 100))

    def address(self, dot="."):
        name = self.random.choice(self.references(self.labels) + [name for name in self.equated if name[0] == "a"] + [dot])
        return name if self.chance(2) else self.moved(name, self.value_in(-5000 if self.base else 0, 5000))

    def target(self, low, high):
        """A target of a jump or a branch. GNU as takes branches ahead for longer at first, so labels ahead are far within reach."""
        section, offset, _ = self.lines[self.line]
        jumps, here = high == REACHES["jump"][1], self.begins[section] + offset
        ahead = high if jumps else high // 2
        labels = [label for label in self.labels if jumps or label.section == section]
        distances = [(label, self.begins[label.section] + label.offset - here) for label in labels]
        near = self.references(label for label, distance in distances if low <= distance <= ahead and distance % 2 == 0)
        if near and not self.chance(5):
            return self.random.choice(near)
        distance = self.one_of(low, high, self.random.randrange(low, high + 1, 2))
        if here + distance < 0:
            distance = high
        if jumps and here + distance < 2**31 and self.chance(2):
            return self.number(here + distance)
        if distances and distance <= ahead and self.chance(2):
            label, its = self.random.choice(distances)
            if self.reference(label):
                return self.moved(self.reference(label), distance - its)
        return self.moved(".", distance)

    def anywhere(self):
        return self.number(self.random.randrange(2**31))

    def high(self):
        return f"%hi({self.address() if self.chance(2) else self.expression(self.random.randrange(2**32))})"

    def low(self):
        return f"%lo({self.address() if self.chance(2) else self.expression(self.random.randrange(2**32))})"

    def high_labels(self):
        section = self.lines[self.line][0]
        return self.references(label for label in self.labels if label.is_high and label.section == section)

    def paired(self):
        return f"%pcrel_lo({self.random.choice(self.high_labels())})"

    def csr(self):
        return self.one_of(self.random.choice(CSRS), self.expression(self.random.randrange(4096)))

    def set(self):
        letters = self.random.randint(1, 15)
        return "".join(letter for place, letter in enumerate("iorw") if letters >> place & 1)

    def datum(self, size, place):
        low, high = -(2 ** (8 * size - 1)), 2 ** (8 * size) - 1
        kinds = [self.operators, lambda: self.difference(low, high), lambda: self.expression(self.value_in(low, high))]
        if size == 4:
            kinds += [lambda: self.address("." if place == 0 else "0x100"), self.gap]
        return self.random.choice(kinds)()

    def gap(self):
        return self.random.choice([name for name in self.equated if name[0] == "g"] or ["0"])

    def difference(self, low, high):
        """The distance of two labels of a section."""
        first = self.random.choice(self.labels) if self.labels else None
        others = [label for label in self.labels if label.section == first.section and low <= first.offset - label.offset <= high]
        names = self.references([first, self.random.choice(others)]) if others else []
        return " - ".join(names) if len(names) == 2 else ". - ."

    def text(self):
        """The whole text."""
        self.add_row(lambda: f"# base {self.base:#x}")
        self.add_row(lambda: self.selects[".text"])
        with_start = self.chance(2)
        for _ in range(self.one_of(5, 50, 200, 400)):
            self.add_something()
            if with_start and self.section in CODE:
                self.add_label("_start")
                self.add_row(lambda: ".globl _start\n_start:")
                with_start = False
        place = self.base
        for section, end in self.ends.items():
            self.begins[section] = -(-place // 4096) * 4096
            place = self.begins[section] + end
        rows = []
        for self.line, (_, _, make) in enumerate(self.lines):
            rows.append(make())
        return "\n".join(rows) + "\n"


def main(folder, count):
    for seed in range(1, int(count) + 1):
        with open(f"{folder}/{seed}.s", "w", encoding="utf-8") as file:
            file.write(Text(seed).text())


if __name__ == "__main__":
    main(*sys.argv[1:])
