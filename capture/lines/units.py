"""Bytes and shares for a person, from whole numbers of any size. Halves are rounded up, away from 0."""
UNITS = ("B", "kB", "MB", "GB", "TB", "PB", "EB")
PLAIN = ("bytes", "KB", "MB", "GB", "TB", "PB", "EB")  # of 1,000 each too


def rounded(number, by):
    """The quotient of two numbers that are not negative, rounded."""
    return (2 * number + by) // (2 * by)


def size(number):
    """Bytes in the unit that leaves up to three digits before the point, with two behind it; below 1,000 as they
    are."""
    if number < 1000:
        return f"{number} B"
    power = min((len(str(number)) - 1) // 3, len(UNITS) - 1)
    hundredths = rounded(100 * number, 1000**power)
    if hundredths >= 100000 and power < len(UNITS) - 1:  # 999,999 are 1.00 MB, and not 1000.00 kB
        power += 1
        hundredths = rounded(100 * number, 1000**power)
    return f"{hundredths // 100}.{hundredths % 100:02} {UNITS[power]}"


def plain(number):
    """Bytes for a sentence: in the unit that leaves up to three digits before the point, with one behind it; below
    1,000 as they are."""
    if number < 1000:
        return f"{number} byte{'' if number == 1 else 's'}"
    power = min((len(str(number)) - 1) // 3, len(PLAIN) - 1)
    tenths = rounded(10 * number, 1000**power)
    if tenths >= 10000 and power < len(PLAIN) - 1:
        power, tenths = power + 1, rounded(10 * number, 1000**(power + 1))
    return f"{tenths // 10}.{tenths % 10} {PLAIN[power]}"


def signed_plain(number):
    """The same with a sign, but 0 without one."""
    return ("-" if number < 0 else "+" if number else "") + plain(abs(number))


def counted(number, noun):
    """So many of a noun: 1 block, 2,000 blocks."""
    return f"{number:,} {noun}{'' if number == 1 else 's'}"


def signed_size(number):
    """Bytes with their sign, but 0 without one."""
    sign = "-" if number < 0 else "+" if number else ""
    return sign + size(abs(number))


def share(part, whole):
    """The part in percent of the whole, or None where there is no whole."""
    if whole is None:
        return None
    tenths = rounded(1000 * abs(part), whole)
    sign = "-" if part < 0 and tenths else ""
    return f"{sign}{tenths // 10}.{tenths % 10} %"
