"""The expected values of src/integers.rt, from Python's integers. Prints the tables that stand there."""

WIDTHS = [("I1", 1), ("I8", 8), ("I16", 16), ("I32", 32), ("I64", 64), ("Index", 64)]
NONE = None
MARK = 0x9E3779B97F4A7C15  # stands for no number in a digest


def signed(bits, n):
    return n - (1 << bits) if n >> (bits - 1) else n


def edges(bits):
    return [n % (1 << bits) for n in (0, 1, -1, 1 << (bits - 1), (1 << (bits - 1)) - 1, bits - 1, bits, bits + 1)]


def shift(f):
    return lambda bits, a, b: f(bits, a, b) % (1 << bits) if b < bits else NONE


def wrapping(f):
    return lambda bits, a, b: f(bits, a, b) % (1 << bits)


BINARY = {
    "Addi": wrapping(lambda bits, a, b: a + b),
    "Subi": wrapping(lambda bits, a, b: a - b),
    "Muli": wrapping(lambda bits, a, b: a * b),
    "Andi": wrapping(lambda bits, a, b: a & b),
    "Ori": wrapping(lambda bits, a, b: a | b),
    "Xori": wrapping(lambda bits, a, b: a ^ b),
    "Shli": shift(lambda bits, a, b: a << b),
    "Shrui": shift(lambda bits, a, b: a >> b),
    "Shrsi": shift(lambda bits, a, b: signed(bits, a) >> b),
    "Minsi": wrapping(lambda bits, a, b: min(signed(bits, a), signed(bits, b))),
    "Maxsi": wrapping(lambda bits, a, b: max(signed(bits, a), signed(bits, b))),
    "Minui": wrapping(lambda bits, a, b: min(a, b)),
    "Maxui": wrapping(lambda bits, a, b: max(a, b)),
}
COMPARE = {
    "Eq": lambda bits, a, b: a == b,
    "Ne": lambda bits, a, b: a != b,
    "Slt": lambda bits, a, b: signed(bits, a) < signed(bits, b),
    "Sle": lambda bits, a, b: signed(bits, a) <= signed(bits, b),
    "Sgt": lambda bits, a, b: signed(bits, a) > signed(bits, b),
    "Sge": lambda bits, a, b: signed(bits, a) >= signed(bits, b),
    "Ult": lambda bits, a, b: a < b,
    "Ule": lambda bits, a, b: a <= b,
    "Ugt": lambda bits, a, b: a > b,
    "Uge": lambda bits, a, b: a >= b,
}
SIGNED_CONVERSIONS = {"Extsi": True, "Extui": False, "Trunci": False, "IndexCast": True, "IndexCastui": False}
WRAPPED = [-(1 << 127), -(1 << 63) - 1, -129, -1, 255, (1 << 64) + 1, (1 << 127) - 1]


def digest(results):
    """The upper half of a word that depends on each result and its place."""
    total = 0
    for result in results:
        total = (total * 31 + (MARK if result is NONE else result)) % (1 << 64)
    return total >> 32


def table(name, rows, spelt=hex):
    print(f"const {name} = [")
    for kind, numbers in rows:
        print(f"    ({kind}, [{', '.join(map(spelt, numbers))}]),")
    print("];")


def pairs(bits):
    return [(a, b) for a in edges(bits) for b in edges(bits)]


table("EDGES", [("Width::" + w, edges(bits)) for w, bits in WIDTHS])
table("SIGNED", [("Width::" + w, [signed(bits, n) for n in edges(bits)]) for w, bits in WIDTHS], str)
table("WRAPPED", [("Width::" + w, [n % (1 << bits) for n in WRAPPED]) for w, bits in WIDTHS])
table("BINARY", [("BinKind::" + k, [digest(f(bits, a, b) for a, b in pairs(bits)) for _, bits in WIDTHS]) for k, f in BINARY.items()])
table("COMPARED", [("CmpKind::" + k, [digest(int(f(bits, a, b)) for a, b in pairs(bits)) for _, bits in WIDTHS]) for k, f in COMPARE.items()])
table(
    "CONVERTED",
    [
        ("ConvKind::" + k, [digest((signed(bits, a) if s else a) % (1 << to) for _, to in WIDTHS for a in edges(bits)) for _, bits in WIDTHS])
        for k, s in SIGNED_CONVERSIONS.items()
    ],
)
