"""The texts of floating-point numbers, which columns hold as bits (IEEE 754, "Binary interchange format"): the shortest decimal
that reads back as the number, of these the nearest, written in the form of the crate `ryu`.

A double's digits are those of Python's `repr`. Those of a single are searched for here, digit by digit, in whole numbers: a
decimal reads back if it lies between the midpoints to the neighbouring numbers, or at a midpoint if the number is even. A half
has the text of the single that it equals.
"""
import struct

HALF, SINGLE, DOUBLE = 0, 1, 2
# For each precision the bytes, the bits of the fraction, and those of the exponent.
BYTES = {HALF: 2, SINGLE: 4, DOUBLE: 8}
FRACTION = {HALF: 10, SINGLE: 23, DOUBLE: 52}
EXPONENT = {HALF: 5, SINGLE: 8, DOUBLE: 11}
# The greatest number of digits before the point without an exponent, and the greatest number of zeros right after it.
WHOLE = {SINGLE: 13, DOUBLE: 16}
ZEROS = {SINGLE: 5, DOUBLE: 4}


def parts(precision, bits):
    """The sign, the exponent and the fraction, as the bits have them."""
    width, size = FRACTION[precision], EXPONENT[precision]
    return bits >> width + size, bits >> width & (1 << size) - 1, bits & (1 << width) - 1


def exact(precision, bits):
    """The absolute value of a finite number as a whole number times a power of two."""
    _, exponent, fraction = parts(precision, bits)
    lowest = 2 - (1 << EXPONENT[precision] - 1) - FRACTION[precision]
    return (fraction, lowest) if exponent == 0 else (fraction + (1 << FRACTION[precision]), exponent - 1 + lowest)


def widened(bits):
    """The bits of the single that a finite half equals."""
    sign, (count, power) = bits >> 15, exact(HALF, bits)
    return sign << 31 | struct.unpack("<I", struct.pack("<f", count * 2.0 ** power))[0]


def middles(count, power, precision):
    """Twice the number and the midpoints to its neighbours, with the power for all of these: below a power of two the numbers are
    closer to each other."""
    is_edge = count == 1 << FRACTION[precision] and power > exact(precision, 0)[1]
    return (4 * count - 1, 4 * count, 4 * count + 2, power - 2) if is_edge else (2 * count - 1, 2 * count, 2 * count + 1, power - 1)


def shortest(precision, bits):
    """The digits of a finite number that is not 0, as a whole number without a 0 at its end, and the power of ten after them."""
    count, power = exact(precision, bits)
    low, size, high, power = middles(count, power, precision)
    # all of them as whole numbers of one unit, which is 1 / scale
    shift, scale = (1 << power, 1) if power > 0 else (1, 1 << -power)
    low, size, high = low * shift, size * shift, high * shift
    above = len(str(size)) - len(str(scale)) + 1
    for digits in range(1, 20):
        for ten in (above - digits, above - 1 - digits):
            unit, times = (10 ** ten * scale, 1) if ten >= 0 else (scale, 10 ** -ten)
            first = size * times // unit
            if not 10 ** (digits - 1) <= first < 10 ** digits:
                continue
            found = [it for it in (first, first + 1) if reads_back(it * unit, low * times, high * times, count)]
            if found:
                return without_zeros(min(found, key=lambda it: (abs(it * unit - size * times), it % 2)), ten)
    raise AssertionError


def reads_back(size, low, high, count):
    return low < size < high or count % 2 == 0 and size in (low, high)


def without_zeros(digits, ten):
    while digits % 10 == 0:
        digits, ten = digits // 10, ten + 1
    return digits, ten


def of_repr(bits):
    """The same for a double, by Python's repr."""
    words = repr(struct.unpack("<d", struct.pack("<Q", bits & (1 << 63) - 1))[0])
    digits, _, power = words.partition("e")
    whole, _, fraction_digits = digits.partition(".")
    return without_zeros(int(whole + fraction_digits), int(power or 0) - len(fraction_digits))


def nearest(precision, number):
    """The bits of the number of a precision that is nearest to a double, infinite ones included."""
    form = {HALF: "e", SINGLE: "f", DOUBLE: "d"}[precision]
    try:
        return int.from_bytes(struct.pack(f"<{form}", number), "little")
    except OverflowError:
        return ((1 << EXPONENT[precision]) - 1) << FRACTION[precision]


def written(precision, digits, ten):
    """The text of these digits, depending on the distance of the point from the first of them."""
    words = str(digits)
    point = len(words) + ten
    if 0 < point <= WHOLE[precision]:
        return f"{words}{'0' * ten}.0" if ten >= 0 else f"{words[:point]}.{words[point:]}"
    if -ZEROS[precision] <= point <= 0:
        return f"0.{'0' * -point}{words}"
    return f"{words[0]}{'.' * (len(words) > 1)}{words[1:]}e{point - 1}"


def text(precision, bits):
    """The text of the number with these bits."""
    sign, exponent, fraction = parts(precision, bits)
    if exponent == (1 << EXPONENT[precision]) - 1:
        return "NaN" if fraction else "-inf" if sign else "inf"
    if precision == HALF:
        return text(SINGLE, widened(bits))
    minus = "-" * sign
    if exponent == fraction == 0:
        return f"{minus}0.0"
    return minus + written(precision, *(of_repr(bits) if precision == DOUBLE else shortest(precision, bits)))
