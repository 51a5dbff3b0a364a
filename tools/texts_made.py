"""The texts of tools/texts: each function makes one kind of text of so many lines, with the choices of a random source.

A text that is not said to be faulty has no fault: its branches reach, and its constants are defined before they are used.
"""
FUNCTION = 19
UNARY = 490
OPERANDS = 240


class Text:
    """Lines; the place of the line that defines the symbol that they use, and another line for it; and two lines of the same kind, to put in
    among them. Where these are left out, they are made of the lines themselves."""

    def __init__(self, lines, symbol=None, own=None):
        self.lines = lines
        self.symbol = symbol
        self.own = own


def cut(blocks, count):
    """As many lines: whole blocks of lines, as long as there is room, and then lines that do nothing."""
    lines = []
    for block in blocks:
        if len(lines) + len(block) > count:
            break
        lines += block
    return lines + ["    nop"] * (count - len(lines))


def register(random):
    return f"a{random.randrange(6)}"


# Lines as a compiler writes them.


def statement(random, k, count, address):
    """A line or two of a function, the k-th of so many; `address` makes those that read a variable."""
    kind = random.randrange(9)
    if kind == 0:
        return address(random.randrange(count))
    if kind == 1:
        return [f"    li {register(random)}, {random.choice((1, 9, 0x12345, 0x12345678))}"]
    if kind == 2:
        return [f"    addi {register(random)}, {register(random)}, step"]
    if kind == 3:
        return [f"    call function{random.randrange(count)}"]
    if kind == 4:
        return [f"    sw {register(random)}, {random.randrange(31) * 4}(sp)"]
    if kind == 5:
        return [f"    bnez {register(random)}, .L{k}"]
    return [f"    addi {register(random)}, {register(random)}, {random.randrange(-2000, 2000)}"]


def function(random, k, count, address):
    body = cut((statement(random, k, count, address) for _ in range(FUNCTION)), FUNCTION - 7)
    head = [f"function{k}:", "    addi sp, sp, -128", "    sw ra, 124(sp)"]
    return head + body + [f".L{k}:", "    lw ra, 124(sp)", "    addi sp, sp, 128", "    ret"]


def compiled(random, count, address, data_first=False):
    """A constant, functions, and a variable for each of them."""
    functions = (count - 3) // (FUNCTION + 1)
    code = [line for k in range(functions) for line in function(random, k, functions, address)]
    code += ["    nop"] * (count - 3 - len(code) - functions)
    data = [f"counter{k}: .word {random.randrange(1000)}" for k in range(functions)]
    parts = [".data"] + data + [".text"] + code if data_first else [".text"] + code + [".data"] + data
    return Text([".equ step, 4"] + parts, symbol=(0, ".equ step, 8"))


def by_halves(k):
    return [f"    lui a4, %hi(counter{k})", f"    lw a5, %lo(counter{k})(a4)"]


def plain(random, count):
    return compiled(random, count, by_halves)


def data_first(random, count):
    return compiled(random, count, by_halves, data_first=True)


def far_addresses(random, count):
    """Each function reads its variables by `la`."""
    return compiled(random, count, lambda k: [f"    la a4, counter{k}", "    lw a5, 0(a4)"])


def compiled_pairs(random, count):
    """The same, by pairs, as compilers write them for the medium code model."""
    numbers = iter(range(count))

    def address(k):
        number = next(numbers)
        return [f".LA{number}: auipc a4, %pcrel_hi(counter{k})", f"    lw a5, %pcrel_lo(.LA{number})(a4)"]

    return compiled(random, count, address)


# Pairs of halves.


def pair(random, k, target):
    return [f".LA{k}: auipc {register(random)}, %pcrel_hi({target})", f"    lw {register(random)}, %pcrel_lo(.LA{k})(a0)"]


PUT_PAIR = ["put0: auipc a0, %pcrel_hi(x)", "    lw a1, %pcrel_lo(.LA1)(a0)"]


def pairs_defined_first(random, count):
    return Text(["x: nop"] + cut((pair(random, k, "x") for k in range(count)), count - 1), symbol=(0, "x: la a0, x"), own=PUT_PAIR)


def pairs_defined_last(random, count):
    return Text(cut((pair(random, k, "x") for k in range(count)), count - 1) + ["x: nop"], symbol=(count - 1, ".equ x, 4"), own=PUT_PAIR)


def pairs_of_labels(random, count):
    """Each pair has a label of its own, behind all of them."""
    pairs = count // 3
    lines = [line for k in range(pairs) for line in pair(random, k, f"x{k}")]
    labels = [f"x{k}: nop" for k in range(count - 2 * pairs)]
    return Text(lines + labels, own=[PUT_PAIR[0].replace("(x)", "(x1)"), PUT_PAIR[1]])


def pairs_with_lines_between(random, count, between):
    """Each label is on a line of its own, before other lines without bytes, and then the first half."""
    def block(k):
        first, second = pair(random, k, "x")
        label, high = first.split(" ", 1)
        return [label] + between + ["    " + high, second]

    blocks = (block(k) for k in range(count))
    return Text(["x: nop"] + cut(blocks, count - 1), symbol=(0, "x: la a0, x"), own=PUT_PAIR)


def pairs_label_above(random, count):
    return pairs_with_lines_between(random, count, [])


def pairs_empty_lines(random, count):
    return pairs_with_lines_between(random, count, ["", "    # the next line with bytes", ""])


def pairs_low_first(random, count):
    pairs = (pair(random, k, "x")[::-1] for k in range(count))
    return Text(["x: nop"] + cut(pairs, count - 1), symbol=(0, "x: la a0, x"), own=PUT_PAIR)


def pairs_by_numbers(random, count):
    def block(_):
        return [f"1:  auipc {register(random)}, %pcrel_hi(x)", f"    lw {register(random)}, %pcrel_lo(1b)(a0)"]

    own = ["1: auipc a0, %pcrel_hi(x)", "    lw a1, %pcrel_lo(1b)(a0)"]
    return Text(["x: nop"] + cut((block(k) for k in range(count)), count - 1), symbol=(0, "x: la a0, x"), own=own)


def many_lows(random, count):
    """One first half, and second halves that all name it."""
    lows = [f"    lw {register(random)}, %pcrel_lo(h)(a0)" for _ in range(count - 2)]
    return Text(["x: nop", "h: auipc a0, %pcrel_hi(x)"] + lows, symbol=(0, "x: la a0, x"))


def many_labels_above(random, count):
    """Labels on lines of their own above one first half, and second halves that name them."""
    labels = (count - 2) // 2
    lows = [f"    lw {register(random)}, %pcrel_lo(h{k % labels})(a0)" for k in range(count - 2 - labels)]
    return Text(["x: nop"] + [f"h{k}:" for k in range(labels)] + ["auipc a0, %pcrel_hi(x)"] + lows, symbol=(0, "x: la a0, x"))


def lone_lows(random, count):
    """Faulty: second halves whose label has no first half."""
    return Text([f"x{k}: lw {register(random)}, %pcrel_lo(x{k})(a0)" for k in range(count)])


# Symbols with values.


def chain(random, count):
    links = [f".equ e{k}, e{k - 1} + {random.randrange(1, 9)}" for k in range(1, count - 1)]
    return Text([".equ e0, 1"] + links + [f".word e{count - 2}"], symbol=(0, ".equ e0, 2"), own=[".equ put0, e1 + 1", ".equ put1, e2 + 1"])


def chain_from_the_top(random, count):
    """Faulty: each uses the next one, which is defined later."""
    links = [f".equ e{k}, e{k + 1} + {random.randrange(1, 9)}" for k in range(count - 1)]
    last = count - 1
    return Text(links + [f".equ e{last}, 1"], symbol=(last, f".equ e{last}, 2"), own=[f".equ put0, e{last} + 1", f".equ put1, e{last} + 1"])


def chain_of_a_label(random, count):
    """A chain that begins with a label, which stands at its end."""
    links = [f".equ e{k}, e{k - 1} + {random.randrange(1, 9)}" for k in range(1, count - 2)]
    lines = [".equ e0, x"] + links + [f".word e{count - 3}", "x: nop"]
    return Text(lines, symbol=(count - 1, "x: la a0, x"), own=[".equ put0, e1 + 1", ".equ put1, e2 + 1"])


def values_of_later_labels(random, count):
    third = count // 3
    values = [f".equ e{k}, x{k} + {random.randrange(1, 9)}" for k in range(third)]
    uses = [f"    .word e{random.randrange(third)}" for _ in range(third)]
    return Text(values + uses + [f"x{k}: nop" for k in range(count - 2 * third)], own=[".equ put0, x1", ".word e1"])


def values_of_places(random, count):
    values = [f".equ e{k}, . - x + {random.randrange(1, 9)}" if k % 2 else f"    addi a0, a0, e{k + 1} - e{k + 1}" for k in range(count - 2)]
    return Text(["x: nop"] + values + [f".equ e{count - 2}, 1"], symbol=(0, "x: la a0, x"), own=[".equ put0, . - x", ".equ put1, . - x"])


def one_value(random, count):
    """One value that all lines use."""
    lines = [f"    addi {register(random)}, {register(random)}, size" for _ in range(count - 1)]
    return Text([".equ size, 4"] + lines, symbol=(0, ".equ size, 8"))


def one_value_last(random, count):
    lines = [f"    addi {register(random)}, {register(random)}, size" for _ in range(count - 1)]
    return Text(lines + [".equ size, 4"], symbol=(count - 1, ".equ size, 8"))


def values_of_one(random, count):
    lines = [f".equ e{k}, size + {random.randrange(9)}" if k % 2 else f"    addi a0, a0, e{max(1, k - 1)}" for k in range(1, count)]
    return Text([".equ size, 4"] + lines, symbol=(0, ".equ size, 8"))


def constants(random, count):
    half = count // 2
    values = [f".equ c{k}, {random.randrange(2, 1 << 31)}" for k in range(half)]
    uses = [f"    li {register(random)}, c{random.randrange(half)}" for _ in range(count - half)]
    return Text(values + uses, symbol=(half // 2, f".equ c{half // 2}, 1"), own=["    li a0, c0", "    li a0, c1"])


def constants_of_one(random, count):
    """A constant decides the length of each second line."""
    lines = [f".equ c{k}, size + {random.randrange(9)}" if k % 2 else f"    li a0, c{k - 1}" for k in range(1, count)]
    return Text([".equ size, 4"] + lines, symbol=(0, ".equ size, 4096"), own=["    li a0, size", "    li a1, size"])


def fills(random, count):
    lines = [f"    .space size * {random.randrange(9)}" if k % 2 else "    nop" for k in range(1, count)]
    return Text([".equ size, 4"] + lines, symbol=(0, ".equ size, 8"))


def one_name(random, count):
    """Faulty: all lines but the first define a name again."""
    return Text([f".equ size, {random.randrange(99)}" for _ in range(count)], symbol=(0, ".equ size, 100"))


# Labels.


def numbers_on_every_second_line(random, count):
    return Text(["1:  nop" if k % 2 == 0 else f"    bnez {register(random)}, 1b" for k in range(count)], own=["1: nop", "    bnez a0, 1b"])


def one_large_number(random, count):
    text = plain(random, min(count, 100))
    text.lines[len(text.lines) // 3] = "9999: bnez a0, 9999b"
    return text


def different_numbers(random, count):
    lines = [f"{k % 10000}: {random.choice(('bnez a0, {}b', 'beqz a1, {}b'))}".format(k % 10000) for k in range(count)]
    return Text(lines, own=["1: nop", "    bnez a0, 9998b"])


def atomics(random, count):
    """As gcc writes a compare and swap."""
    def block(_):
        value = register(random)
        return [f"1:  lr.w.aqrl {value}, 0(a6)", f"    bne {value}, a7, 1f", f"    sc.w.rl {value}, t0, 0(a6)", f"    bnez {value}, 1b", "1:"]

    return Text(cut((block(k) for k in range(count)), count), own=["1: lr.w a0, (a1)", "    bnez a5, 1b"])


def one_number_first(random, count):
    return Text(["1:  nop"] + ["    j 1b"] * (count - 1), symbol=(0, "1:  la a0, 1b"))


def one_number_last(random, count):
    return Text(["    j 1f"] * (count - 1) + ["1:  nop"], symbol=(count - 1, "1: la a0, 1b"))


def many_labels(random, count):
    lines = ["".join(f"l{k:x}_{i}:" for i in range(100)) + f" addi {register(random)}, a0, 1" for k in range(count)]
    return Text(lines, own=["put0: put2: nop", "put1: put3: nop"])


def labels_alone(random, count):
    half = count // 2
    order = list(range(half))
    random.shuffle(order)
    return Text([f"x{k}:" for k in range(half)] + [f"    la a0, x{order[k % half]}" for k in range(count - half)])


def labels_shuffled(random, count):
    """Each line has a label, and uses that of another line anywhere."""
    order = list(range(count))
    random.shuffle(order)
    return Text([f"x{k}: {('la a0,', 'call', 'j')[k % 3]} x{order[k]}" for k in range(count)])


def next_labels(random, count):
    return Text([f"x{k}: bnez {register(random)}, x{min(k + 1, count - 1)}" for k in range(count)])


def long_names(random, count):
    def name(k):
        return f"name{k:_>450}"

    return Text([f"{name(k)}: j {name(random.randrange(max(0, k - 9), k + 1))}" for k in range(count)])


def one_label_first(random, count):
    return Text(["x:  nop"] + [f"    lui {register(random)}, %hi(x)" for _ in range(count - 1)], symbol=(0, "x: la a0, x"))


def one_label_last(random, count):
    return Text(["    j x"] * (count - 1) + ["x:  nop"], symbol=(count - 1, "x: la a0, x"))


def jump_tables(random, count):
    half = count // 2
    tables = ["    .word " + ", ".join(f".L{random.randrange(half)}" for _ in range(4)) for _ in range(count - half - 1)]
    return Text([f".L{k}: nop" for k in range(half)] + [".data"] + tables)


def tables_before_labels(random, count):
    half = count // 2
    tables = ["    .word " + ", ".join(f".L{random.randrange(half)}" for _ in range(4)) for _ in range(count - half - 2)]
    return Text([".data"] + tables + [".text"] + [f".L{k}: nop" for k in range(half)])


def one_long_jump(random, count):
    """Local labels as in loops, under one jump to a label behind all of them."""
    loops = ["1:  nop" if k % 2 == 0 else f"    bnez {register(random)}, 1b" for k in range(count - 2)]
    return Text(["    j 9f"] + loops + ["9:  nop"], own=["1: nop", "    bnez a0, 1b"])


# Other lines.


def unary(random, count):
    return Text([f"    .word {''.join(random.choice('-~') for _ in range(UNARY))}1" for _ in range(count)])


def parentheses(random, count):
    return Text([f"    .word {'(' * 64}{random.randrange(9)}{'+1)' * 64}" for _ in range(count)])


def many_names(random, count):
    names = [letter + digit for letter in "bcdefghijklmnopqrstuvw" for digit in "0123456789"][: count // 2]
    labels = [f"{name}: nop" for name in names]
    uses = [f".word {','.join(random.choice(names) for _ in range(OPERANDS))}" for _ in range(count - len(names))]
    return Text(labels + uses)


def many_numbers(random, count):
    return Text([f".word {','.join(str(random.randrange(999)) for _ in range(OPERANDS))}" for _ in range(count)])


def alignments(random, count):
    lines = ["    .align 2" if k % 4 == 3 else f"    c.addi {register(random)}, {random.randrange(1, 31)}" for k in range(count)]
    return Text(lines, own=["    c.nop", "    .align 2"])


def alignments_and_jumps(random, count):
    """Compressed code with aligned loops."""
    def block(k):
        return ["    .align 2", f"x{k}: c.addi {register(random)}, 1", "    c.nop", "    c.addi a1, 1", f"    bnez a1, x{k}"]

    return Text(cut((block(k) for k in range(count)), count), own=["    c.nop", "    .align 2"])


def sections_in_turn(random, count):
    blocks = ([".text", f"    la a0, v{k}", ".data", f"v{k}: .word {random.randrange(99)}"] for k in range(count))
    return Text(cut(blocks, count))


def strings(random, count):
    lines = [f's{k}: .string "{"".join(random.choice("abcdefgh") for _ in range(20))}"' for k in range(count - 1)]
    return Text(["    .rodata"] + lines)


def debug_lines(random, count):
    """Directives without effect, as a compiler writes them for a debugger."""
    def block(k):
        return [f".LM{k}:", f"    .loc 1 {k} {random.randrange(80)}", "    .cfi_offset 1, -4", f"    addi {register(random)}, a0, 1"]

    return Text(cut((block(k) for k in range(count)), count))


def comments(random, count):
    words = ("the", "register", "holds", "a", "value", "of", "this", "loop")
    return Text([f"    addi {register(random)}, a0, 1    # {' '.join(random.choice(words) for _ in range(120))}" for _ in range(count)])


def empty(_, count):
    return Text([""] * count)


def pages(_, count):
    return Text([f"x{k}: .space 4096" if k % 2 else "    nop" for k in range(count)], own=["    .space 4096", "    .space 4096"])


def pages_below_data(random, count):
    """The same below a section that each of them moves."""
    return Text([".data", "v: .word 1", ".text"] + pages(random, count - 3).lines, own=["    .space 4096", "    .space 4096"])


def line_marks(random, count):
    """Marks of a preprocessor, and faults among the lines that they count."""
    lines = [f'# {random.randrange(1, 9999)} "file{random.randrange(9)}.c"' if k % 2 else "    nop" for k in range(count)]
    return Text([line if random.randrange(9) else "    addi a0, a0, 2048" for line in lines])


def warnings(random, count):
    """A label that stands for the number of a control and status register in each line."""
    return Text(["mcycle: nop"] + [f"    csrw mcycle, {register(random)}" for _ in range(count - 1)], symbol=(0, "mcycle: la a0, mcycle"))


def odd_addresses(_, count):
    """Faulty: one byte, and then instructions."""
    return Text([".byte 1"] + ["    nop"] * (count - 1))


def odd_bytes(_, count):
    """Faulty: a byte and an instruction in turn."""
    return Text([".byte 1" if k % 2 == 0 else "    nop" for k in range(count)])


def later_constants(random, count):
    """Faulty in each second line, that needs a constant which is defined later."""
    half = count // 2
    uses = [f"    li {register(random)}, c{random.randrange(half)}" for _ in range(half)]
    return Text(uses + [f".equ c{k}, {random.randrange(99)}" for k in range(count - half)])


def undefined_symbols(random, count):
    """Faulty: each line uses another name."""
    return Text([f"    lui {register(random)}, %hi(missing{k})" for k in range(count)])


def undefined_symbol(random, count):
    """Faulty."""
    return Text([f"    lui {register(random)}, %hi(missing)" for _ in range(count)])


def out_of_range(random, count):
    """Faulty."""
    return Text([f"    addi {register(random)}, a0, {random.randrange(2048, 4096)}" for _ in range(count)])


def unknown_names(random, count):
    """Faulty."""
    return Text([f"    frobnicate{k} {register(random)}" for k in range(count)])


def long_undefined_names(random, count):
    """Faulty in each second line: names of 60 bytes, of which none is defined, among labels that differ in a few bytes."""
    def name(k):
        return f"a_name_of_a_block_{random.choice('abcd')}_{k}".rjust(60, "_")

    return Text([f"{name(k)}: nop" if k % 2 else f"    j {name(k)}" for k in range(count)])


TEXTS = [
    ("as a compiler writes them", plain),
    ("the same, `.data` first", data_first),
    ("the same, variables by `la`", far_addresses),
    ("the same, variables by pairs", compiled_pairs),
    ("pairs, their symbol first", pairs_defined_first),
    ("pairs, their symbol last", pairs_defined_last),
    ("pairs, a symbol each, later", pairs_of_labels),
    ("pairs, labels on the line above", pairs_label_above),
    ("pairs, empty lines between", pairs_empty_lines),
    ("pairs, low half first", pairs_low_first),
    ("pairs, `1:` and `1b`", pairs_by_numbers),
    ("one high half, all others low", many_lows),
    ("labels above one high half", many_labels_above),
    ("low halves alone (faulty)", lone_lows),
    ("`.equ` chain", chain),
    ("`.equ` chain from the top (faulty)", chain_from_the_top),
    ("`.equ` chain of a later label", chain_of_a_label),
    ("`.equ`s of later labels", values_of_later_labels),
    ("`.equ`s of their places", values_of_places),
    ("`.equ`s of one `.equ`", values_of_one),
    ("one `.equ`, used by all", one_value),
    ("one `.equ` at the end, used by all", one_value_last),
    ("one name, many `.equ`s (faulty)", one_name),
    ("`li` of constants", constants),
    ("`li` of constants of one constant", constants_of_one),
    ("fills by one constant", fills),
    ("`1:` on every second line", numbers_on_every_second_line),
    ("the same under one `j 9f`", one_long_jump),
    ("one `9999:` in 100 lines", one_large_number),
    ("10,000 numbers", different_numbers),
    ("atomics", atomics),
    ("one `1:` first, all use it", one_number_first),
    ("one `1:` last, all use it", one_number_last),
    ("100 labels a line", many_labels),
    ("labels alone, used by `la`", labels_alone),
    ("labels used from anywhere", labels_shuffled),
    ("each line uses the next", next_labels),
    ("names of 450 bytes", long_names),
    ("one label first, all use it", one_label_first),
    ("one label last, all use it", one_label_last),
    ("jump tables", jump_tables),
    ("jump tables before their labels", tables_before_labels),
    ("490 unary operators", unary),
    ("64 parentheses", parentheses),
    ("240 names a line", many_names),
    ("240 numbers a line", many_numbers),
    ("compressed code and `.align 2`", alignments),
    ("the same with loops", alignments_and_jumps),
    ("sections in turn", sections_in_turn),
    ("strings", strings),
    ("`.loc` and `.cfi`", debug_lines),
    ("long comments", comments),
    ("empty lines", empty),
    ("fills of 4,096 bytes", pages),
    ("the same, `.data` above", pages_below_data),
    ("marks of a preprocessor (faulty)", line_marks),
    ("warnings", warnings),
    ("odd addresses (faulty)", odd_addresses),
    ("odd bytes in turn (faulty)", odd_bytes),
    ("`li` of later constants (faulty)", later_constants),
    ("one symbol undefined (faulty)", undefined_symbol),
    ("different symbols undefined (faulty)", undefined_symbols),
    ("values out of range (faulty)", out_of_range),
    ("unknown instructions (faulty)", unknown_names),
    ("undefined names of 60 bytes (faulty)", long_undefined_names),
]
