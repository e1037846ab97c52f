"""Operands and results of the operations on lanes, worked out here apart from the program, for arithmetic.py.

Integers are Python's, of any size; each result is cut to
its width at the end. Opcodes and meanings are those of SPIR-V 1.6, sections 3.42.11 to 3.42.15, and of GLSL.std.450.
"""

UNDEFINED = -1
ODD = {8: 0xB5, 16: 0xA5C3, 32: 0xDEADBEEF, 64: 0x9E3779B97F4A7C15}


def cut(width, number):
    return number & ((1 << width) - 1)


def signed(width, bits):
    return bits - (1 << width) if bits >> (width - 1) else bits


def toward_zero(x, y):
    quotient = abs(x) // abs(y)
    return quotient if (x < 0) == (y < 0) else -quotient


def is_least_by_minus_one(width, a, b):
    return signed(width, a) == -(1 << (width - 1)) and signed(width, b) == -1


def binary(opcode, width, a, b):
    x, y = signed(width, a), signed(width, b)
    if opcode in (134, 137) and b == 0:
        return UNDEFINED
    if opcode in (135, 138, 139) and (b == 0 or is_least_by_minus_one(width, a, b)):
        return UNDEFINED
    if opcode in (194, 195, 196) and b >= width:
        return UNDEFINED
    number = {
        128: lambda: a + b,
        130: lambda: a - b,
        132: lambda: a * b,
        134: lambda: a // b,
        135: lambda: toward_zero(x, y),
        137: lambda: a % b,
        138: lambda: x - y * toward_zero(x, y),
        139: lambda: x % y,
        164: lambda: a == b,
        165: lambda: a != b,
        166: lambda: a or b,
        167: lambda: a and b,
        170: lambda: a == b,
        171: lambda: a != b,
        172: lambda: a > b,
        173: lambda: x > y,
        174: lambda: a >= b,
        175: lambda: x >= y,
        176: lambda: a < b,
        177: lambda: x < y,
        178: lambda: a <= b,
        179: lambda: x <= y,
        194: lambda: a >> b,
        195: lambda: x >> b,
        196: lambda: a << b,
        197: lambda: a | b,
        198: lambda: a ^ b,
        199: lambda: a & b,
    }[opcode]()
    return cut(width, int(number))


def unary(opcode, width, a, to):
    number = {
        113: lambda: a,
        114: lambda: signed(width, a),
        126: lambda: -a,
        168: lambda: not a,
        200: lambda: ~a,
        204: lambda: int(format(a, f"0{width}b")[::-1], 2),
        205: lambda: format(a, "b").count("1"),
    }[opcode]()
    return cut(to, int(number))


def extended(opcode, width, a, b):
    x, y = signed(width, a), signed(width, b)
    low, high = {
        149: lambda: (a + b, (a + b) >> width),
        150: lambda: (a - b, a < b),
        151: lambda: (a * b, a * b >> width),
        152: lambda: (x * y, x * y >> width),
    }[opcode]()
    return cut(width, low), cut(width, int(high))


def highest(text, digit):
    return len(text) - 1 - text.index(digit) if digit in text else -1


def glsl(number, width, a, b, c):
    x, y, z = (signed(width, bits) for bits in (a, b, c))
    if number == 44 and b > c or number == 45 and y > z:
        return UNDEFINED
    text = format(a, f"0{width}b")
    result = {
        5: lambda: abs(x),
        7: lambda: (x > 0) - (x < 0),
        38: lambda: min(a, b),
        39: lambda: min(x, y),
        41: lambda: max(a, b),
        42: lambda: max(x, y),
        44: lambda: sorted((b, a, c))[1],
        45: lambda: sorted((y, x, z))[1],
        73: lambda: text[::-1].find("1"),
        74: lambda: highest(text, "0" if x < 0 else "1"),
        75: lambda: highest(text, "1"),
    }[number]()
    return cut(width, result)


def field(opcode, width, base, insert, offset, count):
    if offset + count > width:
        return UNDEFINED
    text = format(base, f"0{width}b")
    high, low = width - offset - count, width - offset
    part = text[high:low]
    if opcode == 201:
        lowest = format(insert, f"0{width}b")[width - count :]
        return int(text[:high] + lowest + text[low:], 2)
    fill = part[0] if opcode == 202 and part else "0"
    return int(fill * (width - count) + part, 2)


def pairs(opcode):
    if opcode in (194, 195, 196):
        return [(8, 0x81, 7), (8, 0x81, 8), (16, 0x8001, 15), (32, 0xDEADBEEF, 4), (32, 1, 32), (64, ODD[64], 1)]
    if opcode in range(164, 168):
        return [(1, 0, 0), (1, 0, 1), (1, 1, 0), (1, 1, 1)]
    usual = [(8, 0xB5, 5), (16, 5, 0x8000), (32, 0xFFFFFFF9, 3), (64, 7, (1 << 64) - 3)]
    if opcode in (134, 135, 137, 138, 139):
        usual += [(8, 5, 0), (16, 0x8000, 0xFFFF)]
    if opcode in range(170, 180):
        usual += [(8, 9, 9)]
    return usual


def rows_of_binary():
    opcodes = [128, 130, 132, 134, 135, 137, 138, 139, *range(164, 168), *range(170, 180), *range(194, 200)]
    for opcode in opcodes:
        for width, a, b in pairs(opcode):
            yield opcode, width, a, b, binary(opcode, width, a, b)


def rows_of_unary():
    for opcode in (113, 114):
        for width, a, to in [(16, 0xFF85, 8), (8, 0x85, 16), (32, ODD[32], 64), (64, ODD[64], 32)]:
            yield opcode, width, a, to, unary(opcode, width, a, to)
    for opcode in (126, 200, 204, 205):
        for width in (8, 16, 32, 64):
            yield opcode, width, ODD[width], width, unary(opcode, width, ODD[width], width)
    for a in (0, 1):
        yield 168, 1, a, 1, unary(168, 1, a, 1)


def rows_of_extended():
    for opcode in (149, 150, 151, 152):
        for width, a, b in [(8, 0xB5, 0xF0), (16, 3, 0x8001), (32, 0xFFFFFFFF, 0xFFFFFFFF), (64, 1 << 63, 2), (64, 5, 3)]:
            yield opcode, width, a, b, *extended(opcode, width, a, b)


def rows_of_glsl():
    for number in (5, 7, 73, 74, 75):
        for width, a in [(8, 0xB4), (16, 0), (32, 0xFFFFFFFF), (64, 0x40), (8, 0x80)]:
            yield number, width, a, 0, 0, glsl(number, width, a, 0, 0)
    for number in (38, 39, 41, 42):
        for width, a, b in [(8, 0xB5, 5), (16, 5, 0x8000), (32, 3, 9), (64, (1 << 64) - 3, 7)]:
            yield number, width, a, b, 0, glsl(number, width, a, b, 0)
    for number in (44, 45):
        for width, a, b, c in [(8, 0xB5, 5, 9), (16, 7, 0x8000, 9), (32, 1, 3, 9), (64, 5, 3, 9), (8, 5, 9, 3)]:
            yield number, width, a, b, c, glsl(number, width, a, b, c)


def rows_of_fields():
    for opcode in (201, 202, 203):
        for width, base, insert, offset, count in [
            (8, 0xB5, 0xFF, 2, 3),
            (8, 0xB5, 5, 1, 8),
            (16, 0xA5C3, 13, 16, 0),
            (16, 0xA5C3, 6, 13, 3),
            (32, 0xDEADBEEF, 0x1234, 0, 32),
            (64, ODD[64], 0x55, 57, 7),
            (64, ODD[64], 0, 64, 1),
        ]:
            yield opcode, width, base, insert, offset, count, field(opcode, width, base, insert, offset, count)
