#!/usr/bin/env python3
"""Random scripts for the bench program.

generate.py SEED             one script to standard output
generate.py SEED COUNT DIR   COUNT scripts to DIR/00000.in, DIR/00001.in, ...

The same seed always gives the same script. Script number i of the second
call is the script of seed SEED + i, so each can be made again alone.
"""

import os
import random
import re
import sys
from typing import NamedTuple, Optional

LIMIT = 65536

# Cut bytes worth more than others: the marker codes, their sums, all, none.
TELLING_BYTES = (0x00, 0x01, 0x02, 0x04, 0x06, 0x07, 0xFF)

PAGES = (1, 4, 8, 16)
WRONG_PAGES = (0, 2, 3, 5, 17, 32, 65535)


class Plan(NamedTuple):
    widths: list
    page: Optional[int]  # None where the script has no page
    lists: bool  # whether cuts may be written as lists

    def cut_bytes(self):
        """How many bytes a cut takes."""
        return self.page or 1


# ------------------------------------------------------------------- lines

def hex_byte(byte):
    return b"%02x" % byte


def list_of(items):
    return b"(" + b" ".join(items) + b")"


def plan_line(widths, page):
    page_part = b"" if page is None else b" (page %d)" % page
    return b"(plan %s%s)" % (list_of(b"%d" % width for width in widths), page_part)


def write_line(rng, unit, length):
    # A fresh random payload shows which copy a repair has kept.
    return b"(write %d %s)" % (unit, list_of(map(hex_byte, rng.randbytes(length))))


def step_line(times):
    return b"(step %d)" % times


def cut_byte(rng):
    return rng.choice(TELLING_BYTES) if rng.random() < 0.7 else rng.randrange(256)


def cut_of(rng, length):
    """A cut written as a list. The first byte is a marker's, where one is torn."""
    given = bytes((cut_byte(rng),)) + rng.randbytes(15)
    return b"(cut %s)" % list_of(map(hex_byte, given[:length]))


def right_cut(rng, plan):
    """A cut of as many bytes as the page has, a single one mostly without list."""
    if plan.cut_bytes() == 1 and (not plan.lists or rng.random() < 0.7):
        return b"(cut %02x)" % cut_byte(rng)
    return cut_of(rng, plan.cut_bytes())


def wrong_cut(rng, plan):
    """A cut of another number of bytes, 0 to 16, often a near one."""
    right = plan.cut_bytes()
    length = rng.choice((0, 1, right - 1, right + 1, 4, 8, 16, rng.randint(0, 16)))
    if length == right or length > 16:
        length = 0
    if length == 1 and rng.random() < 0.7:
        return b"(cut %02x)" % cut_byte(rng)
    return cut_of(rng, length)


def cut_lines(rng, plan):
    """A cut that is accepted, sometimes after some that are not, seldom none."""
    lines = []
    while plan.lists and rng.random() < 0.15:
        lines += [wrong_cut(rng, plan)] + maybe(rng, 0.4, SHOW)
    if lines and rng.random() < 0.1:
        return lines
    return lines + [right_cut(rng, plan)]


WAKE = b"(wake)"
SHOW = b"(show)"


# ------------------------------------------------------------------- plans

def some_page(rng):
    """No page in a third of the scripts, one of the four sizes in the others."""
    return None if rng.random() < 0.33 else rng.choice(PAGES)


def good_width(rng, page):
    """Mostly narrow, since a narrow unit reaches every store soon; with pages
    mostly a few whole ones, or a byte more or less."""
    if page is None or page == 1 or rng.random() < 0.3:
        return rng.choice((1, 1, 2, 2, 3, 4, 5, rng.randint(1, 20)))
    whole = page * rng.choice((1, 1, 1, 2, 2, 3))
    return whole + rng.choice((-1, 0, 0, 1, 1, rng.randint(1 - page, page - 1)))


def good_widths(rng, page):
    """One to eight units."""
    count = rng.choice((1, 1, 2, 2, 3, 4, 5, 6, 7, 8))
    widths = [good_width(rng, page) for _ in range(count)]
    if rng.random() < 0.08:
        most = 256 - (page or 1)  # one page less than the greatest width
        widths[rng.randrange(count)] = rng.choice((255, 256, most, most + 1))
    return widths


def good_plan(rng):
    # Half of the scripts without a page have no other new form either.
    page = some_page(rng)
    return Plan(good_widths(rng, page), page, page is not None or rng.random() < 0.5)


def first_line(rng, plan):
    """The plan, mostly; otherwise widths or a page that are refused, or both."""
    widths, page = plan.widths, plan.page
    if rng.random() < 0.07:
        widths = refused_widths(rng, page)
        if page is not None and rng.random() < 0.4:
            page = rng.choice(WRONG_PAGES)
    elif page is not None and rng.random() < 0.05:
        page = rng.choice(WRONG_PAGES)
    return plan_line(widths, page)


def refused_widths(rng, page):
    """Widths that are read well and then refused, or one too many to read."""
    widths = good_widths(rng, page)
    kind = rng.randrange(5)
    if kind == 0:
        widths[rng.randrange(len(widths))] = rng.choice((0, 257, 258, 512, 65535))
    elif kind == 1:
        widths = [rng.randint(1, 3) for _ in range(rng.randint(9, 16))]
    elif kind == 2:
        widths = [rng.choice((0, 1, 257)) for _ in range(rng.randint(8, 16))]
    elif kind == 3:
        widths = []
    else:
        widths = [1] * rng.choice((16, 17, 17, 18))
    return widths


# ------------------------------------------------------------------ scenes
# A scene is a short run of lines that leaves the device in a likely place.
# None of them tracks the phase, so scenes also meet each other wrongly.

def steps(rng, times):
    """Lines that make so many steps, in one go or in pieces."""
    lines = []
    while times > 0:
        piece = times if rng.random() < 0.7 else rng.randint(1, times)
        lines.append(step_line(piece))
        times -= piece
    return lines


def steps_to_end(rng, total):
    if rng.random() < 0.3:
        return [step_line(rng.choice((total + 1, 999, 9999, 65535)))]
    return steps(rng, total)


def maybe(rng, chance, line):
    return [line] if rng.random() < chance else []


def repair_scene(rng, plan, width):
    """Wakes that are cut again and again, and mostly a whole one at the end."""
    lines = []
    while rng.random() < 0.55:
        made = rng.choice((0, 1, width - 1, width, width, rng.randint(0, width + 1)))
        lines += [WAKE] + maybe(rng, 0.2, SHOW) + steps(rng, made)
        lines += cut_lines(rng, plan) + maybe(rng, 0.6, SHOW)
    if rng.random() < 0.9:
        lines += [WAKE] + steps_to_end(rng, width + 1) + maybe(rng, 0.9, SHOW)
    return lines


def whole_write_scene(rng, plan):
    unit = rng.randrange(len(plan.widths))
    width = plan.widths[unit]
    lines = [write_line(rng, unit, width)]
    return lines + steps_to_end(rng, 2 * width + 3) + maybe(rng, 0.7, SHOW)


def cut_write_scene(rng, plan):
    """A write torn at any of its stores, the markers' more often."""
    unit = rng.randrange(len(plan.widths))
    width = plan.widths[unit]
    made = rng.choice((0, 1, width, width + 1, width + 1, width + 2, 2 * width + 1,
                       2 * width + 2, 2 * width + 2, rng.randint(0, 2 * width + 3)))
    lines = [write_line(rng, unit, width)] + steps(rng, made)
    lines += maybe(rng, 0.2, SHOW) + cut_lines(rng, plan) + maybe(rng, 0.6, SHOW)
    return lines + repair_scene(rng, plan, width)


def wrong_write_line(rng, plan):
    """Usually refused: a unit that isn't there, a length that isn't its own."""
    widths = plan.widths
    count = len(widths)
    unit = rng.randrange(count)
    if rng.random() < 0.5:
        unit = rng.choice((count, count + 1, 8, 255, 256, 65535))
    width = widths[unit] if unit < count else 1
    length = rng.choice((0, 1, width - 1, width + 1, rng.randint(0, 30), 256))
    return write_line(rng, unit, length)


def any_cut(rng, plan):
    return wrong_cut(rng, plan) if plan.lists and rng.random() < 0.4 else right_cut(rng, plan)


def any_line(rng, plan):
    unit = rng.randrange(len(plan.widths))
    return rng.choice((
        lambda: WAKE,
        lambda: SHOW,
        lambda: any_cut(rng, plan),
        lambda: step_line(rng.choice((1, 2, 3, rng.randint(1, 40), 65535))),
        lambda: write_line(rng, unit, plan.widths[unit]),
        lambda: wrong_write_line(rng, plan),
    ))()


def noise_scene(rng, plan):
    return [any_line(rng, plan) for _ in range(rng.randint(1, 6))]


SCENES = (whole_write_scene, cut_write_scene, cut_write_scene, cut_write_scene, noise_scene)


# ------------------------------------------------------------ whole scripts

def good_script(rng):
    plan = good_plan(rng)
    lines = [first_line(rng, plan)] + maybe(rng, 0.3, SHOW)
    for _ in range(rng.choice((1, 1, 2, 3, 4, 6, 10))):
        lines += rng.choice(SCENES)(rng, plan)
    return b"\n".join(lines + maybe(rng, 0.8, SHOW)) + b"\n"


def line_of_length(rng, plan, length):
    """One line that has this length with its LF."""
    if length == 7:
        return rng.choice((SHOW, WAKE)) + b"\n"
    if length == 9 and rng.random() < 0.7:
        return b"(cut %02x)\n" % cut_byte(rng)
    if length > 13:
        return cut_of(rng, plan.cut_bytes()) + b"\n"
    digits = length - len(b"(step )\n")
    return step_line(rng.randint(10 ** (digits - 1), min(65535, 10 ** digits - 1))) + b"\n"


def exactly(rng, plan, left):
    """Good lines that together have exactly this many bytes."""
    lengths = (7, 9, 10, 11, 12, 13)
    # With pages of more than a byte an accepted cut is a longer line.
    cuts = (len(b"(cut ())\n") + 3 * plan.page - 1,) * 2 if (plan.page or 1) > 1 else ()
    lines = []
    while left > 28:
        length = rng.choice([length for length in lengths + cuts if left - length > 15])
        lines.append(line_of_length(rng, plan, length))
        left -= length
    # 16 to 28 are left: up to 26 two lines fill them, above it three do.
    if left > 26:
        lines.append(line_of_length(rng, plan, 9))
        left -= 9
    first = rng.choice([length for length in lengths if left - length in lengths])
    lines += [line_of_length(rng, plan, first), line_of_length(rng, plan, left - first)]
    return b"".join(lines)


def script_at_the_limit(rng):
    """A script of just the greatest size, or a byte less or more."""
    size = rng.choice((LIMIT - 1, LIMIT, LIMIT, LIMIT + 1, LIMIT + 1, LIMIT + 2, 2 * LIMIT + 1))
    page = some_page(rng)
    widths = [rng.choice((1, 2, 3, rng.randint(1, page or 1))) for _ in range(rng.randint(1, 2))]
    plan = Plan(widths, page, page is not None)
    head = plan_line(widths, page) + b"\n"
    for _ in range(rng.randint(1, 30)):
        if len(head) > LIMIT // 2:
            break
        head += b"\n".join(rng.choice(SCENES)(rng, plan)) + b"\n"
    ending = rng.randrange(4)
    if ending == 0:  # no last LF
        script = (head + exactly(rng, plan, size + 1 - len(head)))[:size]
    elif ending == 1:  # ends inside a line
        script = (head + exactly(rng, plan, size + 50 - len(head)))[:size]
    else:
        script = head + exactly(rng, plan, size - len(head))
    return damaged(rng, script) if rng.random() < 0.1 else script


def tiny_script(rng):
    """A few bytes, or one line alone."""
    return rng.choice((
        b"", b"\n", b"\n\n", b" ", b"(", b")", b"()", b"\0", b"\r\n", b"(show)\n",
        b"(plan ())", b"(plan ())\n", b"(plan ())\n\n(", b"(plan (1))", b"(plan (1))\n\n",
        b"(plan (1))\n(show)", b"(plan)\n", b"(plan (01))\n", b"(plan (1)", b"(plan (65536))\n",
        b"\n(plan (1))\n", b"(plan (0))\n(plan (1))\n", b"(plan (1))\n(plan (0))\n",
        b"(plan (1) (page 4))", b"(plan (1) (page 4))\n(show)", b"(plan () (page 0))\n",
        b"(plan (1) (page 0))", b"(plan (1) (page 2))\n(show)\n", b"(plan (1) (page 4)\n",
        b"(plan (1) (page))\n", b"(plan (1) (page 04))\n", b"(page 4)\n(plan (1))\n",
        b"(plan (1))\n(cut ())", b"(plan (1) (page 4))\n(cut ())\n", b"(cut ())\n",
    ))


# ----------------------------------------------------------------- damages
# Each takes the script and gives it back with one fault; a few faults turn
# out to be harmless, and that is wanted too.

NEAR_MISSES = tuple(b"""\
(step 0)|(step 00)|(step 01)|(step 65535)|(step 65536)|(step 99999)|(step 655350)
(step 4294967297)|(step 18446744073709551617)|(step -1)|(step +1)|(step 1 )|(step  1)
(step)|(step )|(step (1))|(step 1 1)|(step 1|step 1|(step 1))|(step a)|(step 0x1)
(cut)|(cut )|(cut 0)|(cut 000)|(cut FF)|(cut fF)|(cut 0g)|(cut (00))|(cut 00 00)|(cut  00)
(cut `0)|(cut /0)|(cut :0)|(cut 0`)|(cut @0)|(cut ())|(cut (0))|(cut (000))|(cut (00 ))
(cut ( 00))|(cut ( ))|(cut (00  00))|(cut (0000))|(cut (00,00))|(cut (00)|(cut 00))|(cut (00)))
(cut(00))|(cut())|(cut  (00))|(cut (00) )|(cut (00) (00))|(cut (00) 00)|(cut 00 (00))|(cut ()))
(cut ((00)))|(cut (())|(cut ()|(cut [00])|(cut (AA))|(cut (00 0g))|(cut (00 00 00 0))
(cut (00 00 00 00 ))|(cut ( 00 00 00 00))|(cut (00 00 00 00)|(cut 00 00 00 00)|(cut (00 00 0 00))
(cut (00 00 00 000))|(cut (00 00 00\t00))|(page 4)|(page)|(cut (page 4))|(wake )|( wake)|(wake 1)
(wake))|((wake)|(Wake)|(WAKE)|(wak)|(waken)|wake|(show) |(show|show)| (show)|(show)(show)
(show) (show)|(shows)
(show 0)|(SHOW)|(show());|()|(())|(|)| |(plan (1))|(plan ())|(plan)|(plan 1)|(start)|(format)
(read 0)|(write)|(write 0)|(write 0 )|(write 0 ()|(write 0 ())|(write 0())|(write 0  ())
(write 0 ( ))|(write 0 ( 00))|(write 0 (00 ))|(write 0 (00  00))|(write 0 (0000))|(write 0 00)
(write 0 (00,00))|(write 0 (0))|(write 0 (AA))|(write 00 (00))|(write 01 (00))|(write 65535 ())
(write 65536 ())|(write -0 ())|(write (00))|(write () 0)|(write 0 (00) )|(write 0 (00)))
(write 0 (00) (00))|(begin 0 (00))|(write 0 [00])|(write 0 (00)|; show|# show|(show) ; x
""".replace(b"\n", b"|").split(b"|"))

NUMBER_EDGES = (b"0", b"00", b"1", b"255", b"256", b"257", b"65535", b"65536", b"65537",
                b"70000", b"99999", b"100000", b"4294967295", b"4294967296", b"", b"-1", b"1.0",
                b"18446744073709551615", b"18446744073709551617", b"1" * 40)

# What may follow the widths in a plan, with the rest of the line.
PLAN_TAILS = tuple(b"""\
) (page 4)|(page 4))|  (page 4))|\t(page 4))| (page  4))| (page 4 ))| ( page 4))| (page 4) )
 (page 4)) | (page 4)| (page 4)))| (page 4| page 4)| 4)| (4))| (page (4)))| (page 4 4))
 (page))| (page ))| (page ()))| (page 04))| (page 00))| (page 016))| (page -4))| (page +4))
 (page 4.0))| (page 0x4))| (page a))| (page 65535))| (page 65536))| (page 65540))| (page 65552))
 (page 4294967300))| (page 18446744073709551620))| (page 4) (page 4))| (page 4) (page 8))
 (page 4)(page 4))| (pages 4))| (Page 4))| (PAGE 4))| (pag 4))| (page4))| ())| )|)|))| (page 4) ())
 (page 0))| (page 12))| (page 15))| (page 64))| (page 256))| (page 260))| (page 272))
""".replace(b"\n", b"|").rstrip(b"|").split(b"|"))

ODD_BYTES = b"\r\0\t\x0b\x0c \x7f\x80\xa0\xc2\xff()\n0aAgG/:`@;\"'"


def some_byte(rng):
    return bytes((rng.choice(ODD_BYTES) if rng.random() < 0.6 else rng.randrange(256),))


def splice(rng, script, taken, put):
    """Puts other bytes in for some bytes at any place."""
    at = rng.randrange(len(script) + 1)
    return script[:at] + put + script[at + taken:]


def change_byte(rng, script):
    return splice(rng, script, 1, some_byte(rng))


def remove_bytes(rng, script):
    return splice(rng, script, rng.choice((1, 1, 1, 2, 5)), b"")


def insert_byte(rng, script):
    return splice(rng, script, 0, some_byte(rng))


def double_byte(rng, script):
    at = rng.randrange(len(script) + 1)
    return script[:at] + script[at - 1:at] + script[at:]


def flip_bit(rng, script):
    at = rng.randrange(len(script))
    return script[:at] + bytes((script[at] ^ 1 << rng.randrange(8),)) + script[at + 1:]


def change_lines(change):
    """Makes a damage out of a function that changes a list of lines."""
    def damage(rng, script):
        lines = script.split(b"\n")
        change(rng, lines, rng.randrange(len(lines)))
        return b"\n".join(lines)
    return damage


def swap_lines(rng, lines, at):
    other = rng.randrange(len(lines))
    lines[at], lines[other] = lines[other], lines[at]


def double_line(rng, lines, at):
    lines.insert(at, lines[at])


def remove_line(rng, lines, at):
    del lines[at]


def empty_line(rng, lines, at):
    lines.insert(at, b"")


def near_miss(rng, lines, at):
    lines.insert(at, rng.choice(NEAR_MISSES))


def second_plan(rng, lines, at):
    lines.insert(at, first_line(rng, good_plan(rng)))


def other_plan(rng, lines, at):
    """A first line with some other end, or with the page in front."""
    page = some_page(rng)
    widths = list_of(b"%d" % width for width in good_widths(rng, page))
    if rng.random() < 0.05:
        lines[0] = b"(plan (page %d) %s)" % (page or 1, widths)
    else:
        lines[0] = b"(plan " + widths + rng.choice(PLAN_TAILS)


def long_cut(rng, lines, at):
    length = rng.choice((15, 16, 17, 17, 18, 32, 256))
    lines.insert(at, b"(cut %s)" % list_of(map(hex_byte, rng.randbytes(length))))


def long_write(rng, lines, at):
    lines.insert(at, write_line(rng, rng.choice((0, 9)), rng.choice((255, 256, 257, 258, 300))))


def space_around(rng, lines, at):
    before, after = rng.choice(((b" ", b""), (b"", b" "), (b"", b"\r"), (b"\t", b"")))
    lines[at] = before + lines[at] + after


def at_any(pattern, change):
    """Makes a damage that changes one place where the pattern is found."""
    def damage(rng, script):
        found = [match.span() for match in re.finditer(pattern, script)]
        if not found:
            return script
        start, end = rng.choice(found)
        return script[:start] + change(rng, script[start:end]) + script[end:]
    return damage


def no_last_lf(rng, script):
    return script[:-1]


def crlf(rng, script):
    return script.replace(b"\n", b"\r\n")


DAMAGES = (
    change_byte, change_byte, remove_bytes, remove_bytes, insert_byte, insert_byte,
    double_byte, flip_bit, no_last_lf, crlf,
    change_lines(swap_lines), change_lines(double_line), change_lines(remove_line),
    change_lines(empty_line),
    change_lines(second_plan), change_lines(long_write), change_lines(space_around),
    *2 * (change_lines(other_plan), change_lines(long_cut)),
    at_any(rb"(?<=page )[0-9]+", lambda rng, found: rng.choice(NUMBER_EDGES)),
    at_any(rb"(?<=page )[0-9]+", lambda rng, found: b"%d" % rng.choice(PAGES + WRONG_PAGES)),
    at_any(rb"\(cut [^\n]*", lambda rng, found: splice(rng, found, 1, some_byte(rng))),
    at_any(rb"\(cut [^\n]*", lambda rng, found: splice(rng, found, 1, b"")),
    at_any(rb"\n", lambda rng, found: b""),
    at_any(rb"\n", lambda rng, found: some_byte(rng)),
    at_any(rb"[()]", lambda rng, found: rng.choice((b"", found * 2, b"[", b" "))),
    at_any(rb" ", lambda rng, found: rng.choice((b"", b"  ", b"\t", b"\n"))),
    at_any(rb"\b[0-9]+\b", lambda rng, found: b"0" + found),
    *2 * (at_any(rb"\b[0-9]+\b", lambda rng, found: rng.choice(NUMBER_EDGES)),),
    at_any(rb"\b[0-9a-f]*[a-f][0-9a-f]*\b", lambda rng, found: found.upper()),
    at_any(rb"[a-z]+", lambda rng, found: rng.choice((found.upper(), found[:-1], found + b"s"))),
    # Only the first bad line of a script is met, so these come more often.
    *10 * (change_lines(near_miss),),
)


def damaged(rng, script):
    for _ in range(rng.choice((1, 1, 1, 2, 3))):
        script = rng.choice(DAMAGES)(rng, script) or b"\n"
    return script


# -------------------------------------------------------------------- calls

def generate(seed):
    rng = random.Random(seed)
    kind = rng.random()
    if kind < 0.02:
        return tiny_script(rng)
    if kind < 0.035:
        return script_at_the_limit(rng)
    script = good_script(rng)
    return script if kind < 0.5 else damaged(rng, script)


def main(arguments):
    if len(arguments) == 1:
        sys.stdout.buffer.write(generate(int(arguments[0])))
    elif len(arguments) == 3:
        seed, count, folder = int(arguments[0]), int(arguments[1]), arguments[2]
        os.makedirs(folder, exist_ok=True)
        for i in range(count):
            with open(os.path.join(folder, "%05d.in" % i), "wb") as file:
                file.write(generate(seed + i))
    else:
        sys.exit(__doc__)


if __name__ == "__main__":
    main(sys.argv[1:])
