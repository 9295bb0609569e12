#!/usr/bin/env python3
"""Brake curves: an independent loader, and random texts to try another with.

curves.py expect FILE...        what the program must print for these files
curves.py make SEED COUNT DIR   COUNT texts to DIR/00000.curve, 00001.curve, ...
curves.py constant              the constant table as a curve text

The same seed always gives the same text. Text number i of a make is the text
of seed SEED + i, so each can be made again alone.
"""

import os
import random
import re
import sys

LEVELS = 20
BINS = 64
TOP = 4095
LONGEST = 70000
# Numbers of 16 bits come round after this many.
ROUND = 65536


# ------------------------------------------------------------------- loader

ENTRY = rb"(?:0|[1-9][0-9]{0,4})"
FORMS = tuple(re.compile(rb"\(level %d \((%s(?: %s){%d})\)\)" % (level, ENTRY, ENTRY, BINS - 1))
              for level in range(1, LEVELS + 1))


def read_line(level, line, below):
    """The number for one line, and its entries; below is the row one level lower."""
    found = FORMS[level - 1].fullmatch(line)
    if not found:
        return 12, None
    row = [int(entry) for entry in found[1].split(b" ")]
    falls = any(row[c] < row[c - 1] for c in range(1, BINS))
    if max(row) > TOP or falls or any(entry <= low for entry, low in zip(row, below)):
        return 13, None
    return 0, row


def load(text, table):
    """The load's number, and the table after it."""
    lines = text.split(b"\n")
    if lines[-1] == b"":
        lines.pop()  # the last LF ended a line and began none
    entries = []
    below = [-1] * BINS  # nothing is below level 1
    for level in range(1, LEVELS + 1):
        if level > len(lines):
            return 12, table
        number, row = read_line(level, lines[level - 1], below)
        if number:
            return number, table
        entries += row
        below = row
    return (12, table) if len(lines) > LEVELS else (0, entries)


def drive(table, level, rate):
    return table[BINS * (level - 1) + rate // 4]


def digest(table):
    value = 0
    for entry in table:
        value = (31 * value + entry) % 65521
    return value


FIXED = "drive 11\ndrive 9\ndrive 10\nload 11\nload 11\nload 11\n"


def expected(text):
    """The six lines for one file."""
    number, table = load(text, [7] * (LEVELS * BINS))
    lines = ["load %d" % number, "table %d" % digest(table)]
    for level, rate in ((1, 0), (1, 255), (20, 0), (20, 255)):
        lines.append("drive %d" % drive(table, level, rate))
    return "".join(line + "\n" for line in lines)


# -------------------------------------------------------------- good curves
# A curve is 20 rows of 64 entries. Level l is row l - 1.

def constant_rows():
    return [[100 + 160 * l + l * c // 2 for c in range(BINS)] for l in range(1, LEVELS + 1)]


def stacked(first):
    """Each level just one above the level below it."""
    return [[entry + up for entry in first] for up in range(LEVELS)]


def flat_rows(rng):
    values = rng.sample(range(TOP + 1), LEVELS) if rng.random() < 0.5 else \
        [0, TOP] + rng.sample(range(1, TOP), LEVELS - 2)
    return [[value] * BINS for value in sorted(values)]


def low_rows(rng):
    return stacked([0] * BINS)


def high_rows(rng):
    return stacked([TOP - LEVELS + 1] * BINS)


def steep_rows(rng):
    """From the least to the greatest that all levels can have."""
    return stacked([c * (TOP - LEVELS + 1) // (BINS - 1) for c in range(BINS)])


def step_rows(rng):
    """A few heights with jumps between them, the same in all levels."""
    most = TOP - LEVELS + 1
    heights = rng.choice(((0, most), (0, 1, most), (0, rng.randint(0, most)),
                          [rng.randint(0, most) for _ in range(rng.randint(2, 9))]))
    return stacked(sorted(rng.choices(heights, k=BINS)))


def any_rows(rng):
    """Random gains along the line and from level to level, mild to steep."""
    along, up = rng.choice((0, 1, 3, 20, 65, 400)), rng.choice((0, 1, 10, 100, 200, 900))
    often = rng.choice((0.05, 0.3, 1))
    below, rows = [-1] * BINS, []
    for level in range(1, LEVELS + 1):
        most = TOP - (LEVELS - level)  # leaves room for the levels above
        lift, left, row = rng.randint(0, up), 0, []
        for low in below:
            gain = rng.randint(0, along) if rng.random() < often else 0
            left = min(most, max(left + gain, low + 1 + lift))
            row.append(left)
        rows.append(row)
        below = row
    return rows


def good_rows(rng):
    shape = rng.choice((flat_rows, low_rows, high_rows, steep_rows, step_rows,
                        lambda rng: constant_rows(), *10 * (any_rows,)))
    return shape(rng)


def line_of(level, row):
    return b"(level %d (%s))" % (level, b" ".join(b"%d" % entry for entry in row))


def lines_of(rows):
    return [line_of(level, row) for level, row in enumerate(rows, 1)]


def text_of(rng, lines):
    """With the last LF or without."""
    return b"\n".join(lines) + rng.choice((b"", b"\n"))


# ------------------------------------------------------------ damaged values
# Each changes row i so that its line is a 13, if the rows below are good.

def too_great(rng, rows, i):
    """From some bin on, or in one bin; some would be good if bits were lost."""
    row, c = rows[i], rng.choice((0, BINS - 1, rng.randrange(BINS)))
    end = rng.choice((BINS, c + 1))
    more = rng.choice((0, 0, TOP + 1, 8192, 32768, ROUND, ROUND))
    edge = rng.choice((4096, 4096, 4096, 4097, 9999, 10000, 65535, 65536, 65537, 99999))
    row[c:end] = [entry + more if more else edge for entry in row[c:end]]


def raise_before(rng, rows, i):
    """One entry just above its right neighbour: only the fall is wrong."""
    c = rng.choice((0, BINS - 2, rng.randrange(BINS - 1)))
    rows[i][c] = rows[i][c + 1] + 1


def fall(rng, rows, i):
    """One entry, or all from it on, below its left neighbour."""
    c = rng.choice((1, BINS - 1, rng.randrange(1, BINS)))
    left = rows[i][c - 1]
    if left == 0:
        return raise_before(rng, rows, i)
    end = rng.choice((BINS, c + 1))
    rows[i][c:end] = [rng.choice((left - 1, rng.randrange(left)))] * (end - c)


def not_above(rng, rows, i):
    """Equal to or below the level below, and mostly without a fall."""
    if i == 0:
        return fall(rng, rows, i)
    c = rng.choice((0, BINS - 1, rng.randrange(BINS)))
    low = rows[i - 1][c]
    if rng.random() < 0.3:
        low = rng.randint(0, low)
    start = 0 if rng.random() < 0.8 else c
    rows[i][start:c + 1] = [min(entry, low) for entry in rows[i][start:c + 1]]


def damage_value(rng, rows, i):
    rng.choice((too_great, raise_before, fall, not_above, not_above))(rng, rows, i)


# -------------------------------------------------------------- damaged form
# Each takes a good line and gives it back as one that is not of the form.

def split_line(line):
    """What is before the entries, the entries, what is after them."""
    start = line.rindex(b"(") + 1
    end = line.index(b")")
    return line[:start], line[start:end].split(b" "), line[end:]


def change_entry(change):
    """Makes a damage out of a function that changes one entry."""
    def damage(rng, line):
        head, entries, tail = split_line(line)
        c = rng.choice((0, len(entries) - 1, rng.randrange(len(entries))))
        entries[c] = change(rng, entries[c])
        return head + b" ".join(entries) + tail
    return damage


def wrong_count(rng, line):
    """Too few, too many, or as many as 64 in a count of 8 bits."""
    head, entries, tail = split_line(line)
    count = rng.choice((63, 63, 65, 65, 0, 1, 32, 128, 256, 320, 320))
    c = rng.randrange(BINS)
    if count < BINS:
        entries = entries[:c] + entries[c + 1:]
        entries = entries[:count]
    else:
        entries[c:c] = [entries[c]] * (count - BINS)
    return head + b" ".join(entries) + tail


def many_digits(rng, entry):
    value = int(entry)
    return b"%d" % rng.choice((
        100000, 131072 + value, 10 * ROUND + value, 999999, rng.randint(100000, 999999),
        2 ** 32 + value, 2 ** 64 + value, 10 ** rng.choice((6, 10, 255, 256, 257)) + value))


def odd_entry(rng, entry):
    return rng.choice((b"", b"-" + entry, b"+" + entry, entry + b".", entry + b",", b"x", b"()",
                       b"0x" + entry, entry + b"a", b"(" + entry, b"-0", b"/", b":", b"4,095"))


def wrong_level(rng, line):
    level = int(line[7:line.index(b" ", 7)])
    other = rng.choice((b"%d" % (level - 1), b"%d" % (level + 1), b"%d" % (level + 256),
                        b"%d" % (level + ROUND), b"%d" % (2 ** 32 + level), b"0%d" % level,
                        b"00%d" % level, b"", b"+%d" % level, b"%d " % level, b"%d0" % level,
                        b"1%d" % level, b"x", b"%d" % (level + 10), b"-%d" % level))
    return b"(level " + other + line[line.index(b" ", 7):]


def upper_case(rng, line):
    at = rng.randint(1, 5)
    return rng.choice((line.replace(b"level", rng.choice((b"LEVEL", b"Level", b"leve", b"levels"))),
                       line[:at] + line[at:at + 1].upper() + line[at + 1:]))


def at_any(pattern, *others):
    """Makes a damage that puts other bytes in at one place where the pattern is."""
    def damage(rng, line):
        start, end = rng.choice([match.span() for match in re.finditer(pattern, line)])
        return line[:start] + rng.choice(others) + line[end:]
    return damage


def around(rng, line):
    after = rng.choice((b" ", b"\t", b"\r", b"\0", b")", b"x", b" x", b";", b" ; gap 2", b"\x1a"))
    return line + after if rng.random() < 0.7 else \
        rng.choice((b" ", b"\t", b"\r", b"\0", b"(", b"x", b"\xef\xbb\xbf")) + line


def odd_byte(rng, line):
    """A NUL, a byte above 127 or a control byte, put in or in place of one."""
    at = rng.randrange(len(line))
    byte = rng.choice((0, 0, rng.randint(128, 255), line[at] | 128, line[at] | 128, 13, 11, 127))
    return line[:at] + bytes((byte,)) + line[at + rng.randrange(2):]


def other_line(rng, line):
    return rng.choice((b"", b" ", b"\r", b"()", b"(level)", line[:-1], line[:-2], line[1:], line * 2,
                       line + b" " + line, line[:rng.randrange(len(line))],
                       line[rng.randint(1, len(line)):]))


FORM_DAMAGES = (
    wrong_count, wrong_count, wrong_count, wrong_level, wrong_level, upper_case, around, around,
    odd_byte, odd_byte, other_line,
    change_entry(lambda rng, entry: b"0" + entry), change_entry(lambda rng, entry: b"00" + entry),
    change_entry(many_digits), change_entry(many_digits), change_entry(odd_entry),
    at_any(rb" ", b"", b"  ", b"  ", b"\t", b"\r", b"\0", b"\xa0", b","),
    at_any(rb"[()]", b"", b"", b"[", b"]", b"{", b" ", b"((", b"))", b"( ", b" )"),
)


def damage_form(rng, line):
    return rng.choice(FORM_DAMAGES)(rng, line)


# ------------------------------------------------------------- damaged texts
# Each makes a whole text. A few faults turn out to be harmless, and that is
# wanted too.

def one_value(rng):
    rows = good_rows(rng)
    damage_value(rng, rows, rng.randrange(LEVELS))
    return text_of(rng, lines_of(rows))


def at_the_top(rng):
    """4,095 or 4,096 at the end of a line; the next level has no room above."""
    rows = good_rows(rng)
    i = rng.choice((LEVELS - 1, rng.randrange(LEVELS)))
    c = rng.choice((BINS - 1, rng.randrange(BINS)))
    rows[i][c:] = [rng.choice((TOP, TOP, TOP + 1))] * (BINS - c)
    return text_of(rng, lines_of(rows))


def any_entry(rng):
    """Some entry with another value of up to five digits."""
    rows = good_rows(rng)
    row, c = rng.choice(rows), rng.randrange(BINS)
    row[c] = rng.choice((0, 1, row[c] - 1, row[c] + 1, rng.randint(0, TOP), rng.randint(0, 99999)))
    row[c] = max(0, row[c])
    return text_of(rng, lines_of(rows))


def one_form(rng):
    lines = lines_of(good_rows(rng))
    i = rng.randrange(LEVELS)
    lines[i] = damage_form(rng, lines[i])
    return text_of(rng, lines)


def both_in_one_line(rng):
    rows = good_rows(rng)
    i = rng.randrange(LEVELS)
    damage_value(rng, rows, i)
    lines = lines_of(rows)
    lines[i] = damage_form(rng, lines[i])
    return text_of(rng, lines)


def in_two_lines(rng):
    """A value and a form, mostly in lines near each other."""
    rows = good_rows(rng)
    i = rng.randrange(LEVELS)
    j = rng.choice([k for k in (i - 1, i + 1, rng.randrange(LEVELS)) if 0 <= k < LEVELS])
    damage_value(rng, rows, i)
    lines = lines_of(rows)
    lines[j] = damage_form(rng, lines[j])
    return text_of(rng, lines)


def value_and_end(rng):
    """A wrong value in the last lines, and then lines missing or a line 21."""
    rows = good_rows(rng)
    i = rng.choice((LEVELS - 1, LEVELS - 1, rng.randrange(LEVELS)))
    damage_value(rng, rows, i)
    lines = lines_of(rows)
    if rng.random() < 0.5:
        return text_of(rng, lines[:rng.choice((i, i + 1, rng.randrange(LEVELS)))])
    return b"\n".join(lines) + b"\n" + rng.choice((b"\n", b"x", lines[-1], b"\n\n"))


def whole_lines(rng):
    """Dropped, doubled, swapped or moved, with L as before or put right."""
    rows = good_rows(rng)
    numbered = list(enumerate(rows, 1))
    i, j = rng.randrange(LEVELS), rng.randrange(LEVELS)
    kind = rng.randrange(4)
    if kind == 0:
        del numbered[i]
    elif kind == 1:
        numbered.insert(i, numbered[i])
    elif kind == 2:
        numbered[i], numbered[j] = numbered[j], numbered[i]
    else:
        numbered.insert(j, numbered.pop(i))
    if rng.random() < 0.4:
        numbered = list(enumerate((row for _, row in numbered), 1))
    return text_of(rng, [line_of(level, row) for level, row in numbered])


def more_at_the_end(rng):
    rows = good_rows(rng)
    lines = lines_of(rows)
    above = [entry + 1 for entry in rows[-1]]
    return b"\n".join(lines) + rng.choice((
        b"\n\n", b"\n\n", b"\n\n\n", b"\n ", b"\n\0", b"\n\r\n", b"\r\n", b"\r", b" \n", b"\n)", b"\0",
        b"\n" * 257, b"\n" + lines[-1], b"\n" + lines[-1] + b"\n", b"\n\n" + lines[-1],
        b"\n" + line_of(21, above), b"\n" + line_of(21, above) + b"\n", b"\n" + line_of(1, above),
        b"\n" + b"\n".join(lines), b"\n" + line_of(20, above), b"\n; gap 2 mm\n"))


def cut_short(rng):
    text = text_of(rng, lines_of(good_rows(rng)))
    ends = [match.start() for match in re.finditer(rb"\n", text)]
    end = rng.choice((rng.randrange(len(text)), rng.choice(ends), rng.choice(ends) + 1,
                      len(text) - 1, len(text) - 2, len(text) - 3))
    return text[:end]


def other_lfs(rng):
    lines = lines_of(good_rows(rng))
    text = text_of(rng, lines)
    kind = rng.randrange(7)
    if kind == 0:
        return text.replace(b"\n", rng.choice((b"\r\n", b"\r", b"\n\n", b" ", b"", b"\n\r", b"\0")))
    if kind == 1:  # one line with CRLF
        return b"\n".join(lines).replace(b"\n", b"\r\n", 1) + b"\n"
    if kind == 2:
        return rng.choice((b"\n", b"\r\n", b" ", b"\xef\xbb\xbf")) + text
    if kind == 3:  # an empty line between
        lines.insert(rng.randrange(LEVELS), b"")
    elif kind == 4:  # two lines as one
        i = rng.randrange(LEVELS - 1)
        lines[i:i + 2] = [lines[i] + rng.choice((b"", b" ", b"\r", b"\0")) + lines[i + 1]]
    else:  # one line as two, at a space or anywhere
        i = rng.randrange(LEVELS)
        at = rng.randrange(len(lines[i]))
        if kind == 5:
            at = lines[i].index(b" ", rng.randrange(lines[i].rindex(b" ")))
        lines[i:i + 1] = [lines[i][:at], lines[i][at + (kind == 5):]]
    return text_of(rng, lines)


def one_byte(rng):
    """Changed, put in, taken out or doubled at any place."""
    text = text_of(rng, lines_of(good_rows(rng)))
    at = rng.randrange(len(text))
    byte = bytes((rng.choice((rng.choice(b"0123456789"), rng.choice(b"() \n\r\t\0\xa0levL-/:"),
                              rng.randrange(256), text[at] ^ 1 << rng.randrange(8))),))
    return text[:at] + rng.choice((byte, byte, byte + text[at:at + 1], b"", text[at:at + 1] * 2)) \
        + text[at + 1:]


def tiny(rng):
    lines = lines_of(good_rows(rng))
    return rng.choice((b"", b"", b"\n", b"\n", b"\n\n", b"\n" * 19, b"\n" * 20, b"\n" * 21, b"(", b"\0",
                       b" ", b"\r\n", b"(level 1 ())", b"(level 1 (0))\n", lines[0], lines[0] + b"\n",
                       lines[-1], b"\n".join(lines[:2]), rng.randbytes(rng.randint(1, 400))))


DAMAGED_TEXTS = (
    *4 * (one_value,), *5 * (one_form,), *2 * (both_in_one_line,), *3 * (in_two_lines,),
    *2 * (one_byte,), value_and_end, at_the_top, any_entry, whole_lines, more_at_the_end, cut_short,
    other_lfs, tiny,
)


# ---------------------------------------------------------------- long texts
# A place counted in 16 bits comes round at byte 65,537. These texts are good,
# or wrong in another way, for a reader that goes on as if it were byte 1.

def filler(rng, length):
    """Bytes without LF."""
    piece = rng.choice((b"x", b" ", b"0", b"1", b"(", b")", b"\0", b"0 ", b" 9", b"(level 1 (",
                        bytes(rng.choice(b"0123456789 ()xlev\r\0\xff") for _ in range(997))))
    return (piece * (length // len(piece) + 1))[:length]


def long_line(rng, line):
    at = rng.choice((0, len(line), rng.randint(0, len(line))))
    kind = rng.randrange(4)
    if kind == 0:  # 65,536 bytes, or one more or less, somewhere in the line
        return line[:at] + filler(rng, ROUND + rng.choice((0, 0, 0, -1, 1))) + line[at:]
    if kind == 1:  # the line's beginning, and at byte 65,537 its rest or all of it
        return line[:at] + filler(rng, ROUND - at) + line[rng.choice((0, at)):]
    if kind == 2:  # 32,768 entries too many: none too many in a count of 8 bits
        head, entries, tail = split_line(line)
        return head + (entries[0][:1] + b" ") * (ROUND // 2) + b" ".join(entries) + tail
    # the same with more after it
    length = rng.randint(66000, 69000)
    start = line[:at] + filler(rng, ROUND - at) + line[rng.choice((0, at)):]
    return start + filler(rng, length - len(start))


def long_text(rng):
    rows = low_rows(rng)  # the shortest there is, so that all 20 lines have place
    i = rng.randrange(2)
    if rng.random() < 0.4:
        damage_value(rng, rows, rng.randrange(3))
    lines = lines_of(rows)
    if rng.random() < 0.3:  # the text or its lines come round, not the bytes of one line
        text, more = b"\n".join(lines) + b"\n", rng.choice((filler(rng, ROUND), b"\n" * ROUND))
        at = rng.choice((0, len(lines[0]) + 1, len(text) - 1, len(text), len(text)))
        return text[:at] + more + text[at:]
    lines[i] = long_line(rng, lines[i])
    text = text_of(rng, lines)
    while len(text) > LONGEST:
        lines.pop()
        text = text_of(rng, lines)
    return text


# -------------------------------------------------------------------- calls

def make(seed):
    rng = random.Random(seed)
    kind = rng.random()
    if kind < 0.34:
        text = text_of(rng, lines_of(good_rows(rng)))
    elif kind < 0.37:
        text = long_text(rng)
    else:
        text = rng.choice(DAMAGED_TEXTS)(rng)
    assert len(text) <= LONGEST
    return text


def main(arguments):
    if arguments[:1] == ["expect"]:
        sys.stdout.write(FIXED)
        for name in arguments[1:]:
            with open(name, "rb") as file:
                sys.stdout.write(expected(file.read()))
    elif arguments[:1] == ["make"] and len(arguments) == 4:
        seed, count, folder = int(arguments[1]), int(arguments[2]), arguments[3]
        os.makedirs(folder, exist_ok=True)
        for i in range(count):
            with open(os.path.join(folder, "%05d.curve" % i), "wb") as file:
                file.write(make(seed + i))
    elif arguments == ["constant"]:
        sys.stdout.buffer.write(b"\n".join(lines_of(constant_rows())) + b"\n")
    else:
        sys.exit(__doc__)


if __name__ == "__main__":
    main(sys.argv[1:])
