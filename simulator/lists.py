#!/usr/bin/env python3
"""Random lists of calls in the binary form of `simulator lists`.

lists.py SEED COUNT        COUNT lists to standard output, one after the other
lists.py SEED COUNT paid   the same, other lists, with paid rides

The same seed always gives the same lists. List number i is the list of seed
SEED + i, so each can be made again alone, with a COUNT of 1.
"""

import random
import sys
from typing import NamedTuple

LIMIT = 4000  # the bytes of a list's calls stay below this, without what
ROLE_LIMIT = 2000  # roles add to them, which stays below this

# Cut bytes worth more than others: the marker codes, their sums, all, none.
TELLING_BYTES = (0x00, 0x01, 0x02, 0x03, 0x04, 0x05, 0x06, 0x07, 0xFF)

PAGES = (1, 4, 8, 16)
WRONG_PAGES = (0, 2, 3, 5, 12, 17, 32, 255)

BEGIN, CUT, WAKE, RIDE, GROUP, PAID, STEP = 1, 2, 3, 4, 5, 10, 0

# The roles are numbered as their rights come in a list: rider, gym, service.
ROLES = (0, 1, 2)
BEGINS = (8, 9, BEGIN)
READS = (17, 18, 16)

NOTHING, SEE, WRITE = 0, 1, 2
NO_RIGHTS = (3, 3, 4, 7, 129, 254, 255, 255)  # other bytes that are nothing too

# Kinds close to others. All are steps but 10, which was one before it became a
# paid ride, here of 0 turns; it is kept so that seeds give what they gave.
NEAR_KINDS = (6, 7, 10, 11, 15, 19, 24, 136, 144)


class Plan(NamedTuple):
    widths: list
    page: int
    grouped: bool

    def record(self):
        """The record's unit; that of an ungrouped plan is no unit."""
        return len(self.widths) - 1 if self.grouped else len(self.widths)

    def members(self):
        """The units that a group may have."""
        return list(range(min(self.record(), len(self.widths))))

    def room(self):
        """How many bytes of members the record takes."""
        return self.widths[-1] - 1 if self.grouped else 99

    def length(self):
        page = max(1, self.page)
        return sum(page + 2 * (-(-width // page) * page) for width in self.widths)


# -------------------------------------------------------------------- calls

def two(number):
    return number.to_bytes(2, "big")


def call(kind, own=b"", unit=0):
    return bytes((kind,)) + two(unit) + two(len(own)) + own


def step(rng):
    """Mostly plain; any kind that is no other call's is a step, and it has
    its bytes for nothing."""
    if rng.random() < 0.98:
        return call(STEP)
    return call(rng.choice((0, 6, 7, 128, 255)), rng.randbytes(rng.choice((0, 1, 8))),
                rng.choice((0, 1, 65535)))


def steps(rng, times):
    return [step(rng) for _ in range(times)]


def wake(rng):
    return call(WAKE, rng.randbytes(3) if rng.random() < 0.02 else b"")


def cut_byte(rng):
    return rng.choice(TELLING_BYTES) if rng.random() < 0.7 else rng.randrange(256)


def cut(rng, length):
    """The first byte is a marker's, where one is torn."""
    return call(CUT, (bytes((cut_byte(rng),)) + rng.randbytes(40))[:length])


def cuts(rng, plan):
    """A cut that is accepted, sometimes after one that is not."""
    calls = []
    while rng.random() < 0.07:
        length = rng.choice((0, 1, plan.page - 1, plan.page + 1, 4, 8, 16, 17, rng.randint(0, 40)))
        calls.append(cut(rng, max(0, length)))
    return calls + [cut(rng, plan.page)]


def payload(rng, width):
    """Random, or with bytes that look like counts and unit numbers."""
    kind = rng.random()
    if kind < 0.3:
        return bytes(rng.randrange(6) for _ in range(width))
    if kind < 0.4:
        return bytes((rng.randrange(9),)) * width
    return rng.randbytes(width)


def begin(rng, plan, unit):
    return call(BEGIN, payload(rng, plan.widths[unit]), unit)


def ride(rng):
    """Mostly few turns; at times so many that the total comes to its end."""
    turns = rng.choice((0, 1, 255, 256, 65535, rng.randrange(10 ** 6), rng.randrange(10 ** 6),
                        rng.randrange(1 << 63), (1 << 64) - 1))
    own = turns.to_bytes(8, "little")
    if rng.random() < 0.06:
        own = rng.choice((b"", own[:7], own[:1], own + b"\x09", own + rng.randbytes(5)))
    return call(RIDE, own, rng.choice((0, 0, 0, 1, 65535)))


# ------------------------------------------------------------------- groups

def good_units(rng, plan):
    """Different units that fit into the record, two or more if such are found."""
    chosen = []
    for _ in range(5):
        count = rng.choice((2, 2, 2, 3, 3, 4, 4))
        units = plan.members()
        rng.shuffle(units)
        chosen, room = [], plan.room()
        for unit in units:
            if len(chosen) < count and 1 + plan.widths[unit] <= room:
                chosen.append(unit)
                room -= 1 + plan.widths[unit]
        if len(chosen) > 1:
            break
    return chosen


def member(rng, plan, unit):
    width = plan.widths[unit] if unit < len(plan.widths) else rng.randint(0, 3)
    return bytes((unit,)) + payload(rng, width)


def group(rng, plan, units):
    return call(GROUP, b"".join(member(rng, plan, unit) for unit in units),
                rng.choice((0, 0, 0, 1, 65535)))


def damaged_group(rng, plan):
    """A group with a fault, or two; a few turn out to have none."""
    units = good_units(rng, plan)
    count = len(plan.widths)
    kind = rng.randrange(10)
    if kind == 0:  # a unit that isn't there
        units.insert(rng.randint(0, len(units)), rng.choice((count, count + 1, 8, 9, 128, 255)))
    elif kind == 1 and units:  # a unit twice
        units.insert(rng.randint(0, len(units)), rng.choice(units))
    elif kind == 2:  # the record itself, or one more of an ungrouped plan's
        units.insert(rng.randint(0, len(units)), count - 1)
    elif kind == 3:  # one member, or none
        units = units[:rng.randrange(2)]
    elif kind == 4:  # five or more, different ones where there are so many
        units = (rng.sample(range(count), count) + [rng.randrange(count) for _ in range(5)])
        units = units[:rng.choice((5, 5, 5, 6))]
    elif kind == 5:  # any units at all
        units = [rng.randrange(count + 1) for _ in range(rng.randint(1, 5))]
    elif kind == 6:  # all that may be, in the record's room or not
        units = plan.members()[:rng.choice((2, 3, 4, 4))]
    own = b"".join(member(rng, plan, unit) for unit in units)
    if kind >= 7 or rng.random() < 0.15:
        at = rng.randrange(len(own) + 1)
        own = rng.choice((own[:-1], own[1:], own + b"\x00", own + rng.randbytes(1),
                          own[:at] + own[at + 1:], own[:at] + rng.randbytes(1) + own[at:],
                          own[:at] + bytes((rng.randrange(9),)) + own[at + 1:]))
    return call(GROUP, own)


def writes_of_group(plan, units):
    """The widths of a group's writes: the record, the members, the zeros."""
    return [plan.widths[-1]] + [plan.widths[unit] for unit in units] + [plan.widths[-1]]


def stores(width):
    return 2 * width + 3


# ------------------------------------------------------------------- scenes
# A scene is a short run of calls that leaves the device in a likely place.
# None of them tracks the phase, so scenes also meet each other wrongly.

def store_of_write(rng, width):
    """How many stores to make before a cut: the markers' come more often."""
    return rng.choice((0, 1, width, width + 1, width + 1, width + 2, 2 * width + 1,
                       2 * width + 2, rng.randint(0, 2 * width + 2), rng.randint(0, 2 * width + 2)))


class Place(NamedTuple):
    """Where a group or its writing again is cut."""
    made: int  # stores before, from the first write on
    width: int  # of the unit torn
    stands: bool  # whether the record then stands


def aim(rng, writes, first):
    """A place in a group's writes from `first` on, 0 for the group itself."""
    last = len(writes) - 1
    at = rng.randrange(first, len(writes))
    offset = store_of_write(rng, writes[at])
    # Store w + 2 is the one that passes, if the cut leaves another byte than 2.
    passes = offset > writes[at] + 1 or offset == writes[at] + 1 and rng.random() < 0.6
    stands = passes if at == 0 else not passes if at == last else True
    return Place(sum(map(stores, writes[first:at])) + offset, writes[at], stands)


def about(rng, total):
    """All stores, at times one too many or some too few."""
    if rng.random() < 0.85:
        return total
    return total + rng.choice((1, -1, -rng.randint(0, total)))


def whole(rng, begun, total):
    return [begun] + steps(rng, about(rng, total))


def repair(rng, plan, width, writes, stands):
    """Wakes that are cut again and again, in the cleanup of a unit of this
    width and, while the record stands, in the members written again, and
    mostly a whole one at the end."""
    calls = []
    while rng.random() < 0.5:
        made = rng.choice((0, 1, width - 1, width, width, rng.randint(0, width)))
        if stands and rng.random() < 0.7:
            place = aim(rng, writes, 1)
            made = place.made + rng.choice((0, width + 1, width + 1, width + 1))
            width, stands = place.width, place.stands
        calls += [wake(rng)] + steps(rng, made) + cuts(rng, plan)
    if rng.random() < 0.9:
        rest = width + 1 + (sum(map(stores, writes[1:])) if stands else 0)
        calls += [wake(rng)] + steps(rng, about(rng, rest))
    return calls


def whole_write(rng, plan):
    units = plan.members()
    if not units:
        return [begin(rng, plan, 0)]
    unit = rng.choice(units)
    return whole(rng, begin(rng, plan, unit), stores(plan.widths[unit]))


def cut_write(rng, plan):
    units = plan.members()
    if not units:
        return [begin(rng, plan, 0)]
    unit = rng.choice(units)
    width = plan.widths[unit]
    calls = [begin(rng, plan, unit)] + steps(rng, store_of_write(rng, width))
    return calls + cuts(rng, plan) + repair(rng, plan, width, [], False)


def has_total(plan):
    return plan.widths[0] == 8 and plan.record() > 0


def whole_ride(rng, plan):
    return whole(rng, ride(rng), stores(8)) if has_total(plan) else [ride(rng)]


def cut_ride(rng, plan):
    if not has_total(plan):
        return [ride(rng)]
    calls = [ride(rng)] + steps(rng, store_of_write(rng, 8))
    return calls + cuts(rng, plan) + repair(rng, plan, 8, [], False)


def whole_group(rng, plan):
    units = good_units(rng, plan)
    if len(units) < 2 or not plan.grouped:
        return [group(rng, plan, units)]
    total = sum(map(stores, writes_of_group(plan, units)))
    return whole(rng, group(rng, plan, units), total)


def cut_group(rng, plan):
    """A group torn at any store of any of its writes."""
    units = good_units(rng, plan)
    if len(units) < 2 or not plan.grouped:
        return [group(rng, plan, units)]
    writes = writes_of_group(plan, units)
    place = aim(rng, writes, 0)
    calls = [group(rng, plan, units)] + steps(rng, place.made) + cuts(rng, plan)
    return calls + repair(rng, plan, place.width, writes, place.stands)


def damaged_groups(rng, plan):
    return [damaged_group(rng, plan) for _ in range(rng.randint(1, 4))]


def wrong_begin(rng, plan):
    """Usually refused: a unit that isn't there, the record, another length."""
    count = len(plan.widths)
    unit = rng.choice((rng.randrange(count), count - 1, count, count + 1, 8, 256, 65535))
    width = plan.widths[unit] if unit < count else 1
    length = rng.choice((width, width, 0, width - 1, width + 1, rng.randint(0, 30), 257))
    return call(BEGIN, rng.randbytes(length), unit)


def noise(rng, plan):
    calls = []
    for _ in range(rng.randint(1, 5)):
        calls += rng.choice((
            lambda: [wake(rng)],
            lambda: cuts(rng, plan),
            lambda: steps(rng, rng.choice((1, 2, 3, 5, rng.randint(1, 80)))),
            lambda: [wrong_begin(rng, plan)],
            lambda: [ride(rng)],
            lambda: [group(rng, plan, good_units(rng, plan))],
            lambda: [damaged_group(rng, plan)],
        ))()
    return calls


def settle(rng, plan):
    """From Cold to Ready, if there is no more to repair."""
    return [wake(rng)] + steps(rng, rng.choice((1, 9, 30, rng.randint(1, 80))))


def scenes(rng, plan):
    """The kinds of scene that a list is made of. Groups and rides on a plan
    that takes none come seldom, since each is only one refused call."""
    kinds = [whole_write, cut_write, damaged_groups, noise]
    takes_groups = plan.grouped and len(good_units(rng, plan)) > 1
    if takes_groups or rng.random() < 0.2:
        kinds += [whole_group] * 2 + [cut_group] * 6
    if has_total(plan) or rng.random() < 0.2:
        kinds += [whole_ride, cut_ride]
    return kinds


# -------------------------------------------------------------------- roles
# All that roles add to a list. They have random numbers of their own, so that
# the calls between which they come are those of the same seed without roles.

def some_rights(rng):
    """A row for each role, a byte for each unit. Mostly someone may write a
    unit and someone else may not; now and then only service may, and all, and
    now and then a byte is no right."""
    if rng.random() < 0.1:
        return [bytes(8), bytes(8), bytes((WRITE,)) * 8]
    rows = [[rng.choice((NOTHING, NOTHING, SEE, SEE, WRITE)) for _ in range(8)] for _ in ROLES]
    for unit in range(8):
        if rng.random() < 0.9:
            rows[rng.choice(ROLES)][unit] = WRITE
    if rng.random() < 0.3:
        for _ in range(rng.randint(1, 8)):
            rows[rng.choice(ROLES)][rng.randrange(8)] = rng.choice(NO_RIGHTS)
    return list(map(bytes, rows))


def writers(rights, unit):
    return [role for role in ROLES if rights[role][unit % 8] == WRITE]


def read(rng, plan):
    """By any role, mostly of a unit that is there; own bytes are for nothing."""
    count = len(plan.widths)
    unit = rng.randrange(count)
    if rng.random() < 0.12:
        unit = rng.choice((count, count + 1, 7, 8, 255, 256, 256 + unit, 65535))
    own = rng.randbytes(rng.choice((1, 2, 8))) if rng.random() < 0.04 else b""
    return call(rng.choice(READS), own, unit)


def reads(rng, plan, most):
    return [read(rng, plan) for _ in range(rng.randint(1, most))]


def begin_by(rng, plan, role, unit):
    """At times of a wrong length, which is told only to those who may write."""
    width = plan.widths[unit]
    if rng.random() < 0.25:
        width = rng.choice((0, width - 1, width + 1))
    return call(BEGINS[role], payload(rng, width), unit)


def lacking_begin(rng, plan, rights):
    """By one who may not write that unit, if there is such; of the record too."""
    unit = rng.randrange(len(plan.widths))
    others = [role for role in ROLES if role not in writers(rights, unit)]
    return begin_by(rng, plan, rng.choice(others or ROLES), unit)


def errand(rng, plan, rights):
    """A whole write by one who may, if there is such, and reads of it."""
    units = [unit for unit in plan.members() if stores(plan.widths[unit]) < 40]
    if not units:
        return []
    unit = rng.choice(units)
    role = rng.choice(writers(rights, unit) or ROLES)
    begun = call(BEGINS[role], payload(rng, plan.widths[unit]), unit)
    return ([begun] + steps(rng, stores(plan.widths[unit]))
            + [call(kind, unit=unit) for kind in rng.sample(READS, rng.randint(0, 3))])


def visit(rng, plan, rights):
    """Where the device is likely Ready: reads, and begins that leave it so."""
    calls = reads(rng, plan, 4)
    while rng.random() < 0.45:
        calls.append(lacking_begin(rng, plan, rights))
    if rng.random() < 0.3:
        calls += errand(rng, plan, rights)
    return calls


def before_call(rng, plan, rights, kind):
    """What roles do before a call of this kind, mostly nothing. Before a wake
    the device is likely Cold, and before a step it is likely storing."""
    if kind in (BEGIN, RIDE, GROUP, PAID) and rng.random() < 0.3:
        return visit(rng, plan, rights)
    if rng.random() < (0.2 if kind in (WAKE, CUT) else 0.01):
        return reads(rng, plan, 2)
    if kind == STEP and rng.random() < 0.005:
        return [begin_by(rng, plan, rng.choice(ROLES), rng.randrange(len(plan.widths)))]
    return []


def cast(rng, rights, one):
    """The call itself, a begin by a role that mostly may."""
    if one[0] == BEGIN:
        unit = int.from_bytes(one[1:3], "big")
        roles = writers(rights, unit) if rng.random() < 0.8 else []
        return bytes((BEGINS[rng.choice(roles or ROLES)],)) + one[1:]
    if one == call(STEP) and rng.random() < 0.01:
        return call(rng.choice(NEAR_KINDS))
    return one


def with_roles(rng, plan, rights, calls, most):
    """The calls with roles, and what roles do before, between and after them,
    as long as there is room for it."""
    played, length = [], 0

    def add(more):
        nonlocal length
        for one in more:
            if length + len(one) < most:
                played.append(one)
                length += len(one)

    for one in calls:
        add(before_call(rng, plan, rights, one[0]))
        played.append(cast(rng, rights, one))
    # Many lists end in Ready.
    add(visit(rng, plan, rights))
    return played


# -------------------------------------------------------------- paid rides
# Scenes with paid rides. Only lists that are asked for as `paid` have them.

LAST = (1 << 64) - 1  # the end of a total

# Where the price changes, or where it would in fewer bits.
TELLING_TURNS = (0, 1, 2, 499, 500, 501, 999, 1000, 1001, 61500, 61501, 61999, 62000, 62001,
                 62002, 62499, 62500, 62501, 65535, 65536, 65537)
MANY_TURNS = ((1 << 32) - 1, 1 << 32, (1 << 32) + 1, 1 << 63, LAST // 7, LAST // 7 + 1,
              LAST - 499, LAST - 1, LAST, LAST)


def price(turns):
    return min(900, 25 + 7 * -(-turns // 500)) if turns else 0


def some_turns(rng):
    kind = rng.random()
    if kind < 0.45:
        return rng.choice(TELLING_TURNS)
    if kind < 0.6:  # around a started 500
        return max(0, 500 * rng.randrange(130) + rng.choice((-1, 0, 1)))
    if kind < 0.68:
        return rng.choice(MANY_TURNS)
    return rng.randrange(rng.choice((500, 5000, 70000, 70000, 10 ** 6, 1 << 40)))


def paid(rng, turns=None):
    """The unit is not looked at, nor are bytes after the eighth."""
    own = (some_turns(rng) if turns is None else turns).to_bytes(8, "little")
    if turns is None and rng.random() < 0.06:
        own = rng.choice((b"", own[:7], own[:1], own + b"\x09", own + rng.randbytes(5)))
    return call(PAID, own, rng.choice((0, 0, 0, 1, 2, 65535)))


def takes_paid(plan):
    return plan.grouped and len(plan.widths) > 2 and plan.widths[:2] == [8, 8] and plan.room() >= 18


def refused_paid(rng, plan):
    return [paid(rng) for _ in range(rng.randint(1, 3))]


def whole_paid(rng, plan):
    if not takes_paid(plan):
        return refused_paid(rng, plan)
    return whole(rng, paid(rng), sum(map(stores, writes_of_group(plan, (0, 1)))))


def cut_paid(rng, plan):
    """A paid ride torn at any store, often at or beside the one where its
    record passes, store w + 2."""
    if not takes_paid(plan):
        return refused_paid(rng, plan)
    writes = writes_of_group(plan, (0, 1))
    place = aim(rng, writes, 0)
    if rng.random() < 0.5:
        width = writes[0]
        made = width + rng.choice((0, 1, 1, 1, 1, 2))
        place = Place(made, width, made == width + 2 or made == width + 1 and rng.random() < 0.6)
    calls = [paid(rng)] + steps(rng, place.made) + cuts(rng, plan)
    return calls + repair(rng, plan, place.width, writes, place.stands)


def to_the_end(rng, plan):
    """A total written so that a paid ride just fits, or just doesn't, and then
    that ride, mostly cut at once, and one of 0 turns, which fits."""
    unit = rng.randrange(2)
    if len(plan.widths) <= unit or plan.widths[unit] != 8 or plan.record() == unit:
        return refused_paid(rng, plan)
    turns = rng.choice(TELLING_TURNS[1:] + MANY_TURNS)
    more = price(turns) if unit else turns
    total = LAST - more + rng.choice((-1, 0, 0, 1, 1, 2))
    begun = call(BEGIN, max(0, min(LAST, total)).to_bytes(8, "little"), unit)
    calls = [begun] + steps(rng, stores(8)) + [paid(rng, turns)]
    if rng.random() < 0.8:
        calls += steps(rng, rng.randrange(3)) + cuts(rng, plan) + [wake(rng)] + steps(rng, 20)
    return calls + [paid(rng, rng.choice((0, turns, 1)))]


def beset(rng, calls):
    """The scene with paid rides where they come wrongly: while a job is under
    way, before the steps, and in Cold, before the wakes."""
    played = []
    for one in calls:
        often = {STEP: 0.012, CUT: 0.08, WAKE: 0.15}.get(one[0], 0)
        while rng.random() < often:
            played.append(paid(rng))
        played.append(one)
    return played


def paid_scenes(rng, plan):
    """As `scenes`, most of them of paid rides."""
    kinds = [whole_paid] * 3 + [cut_paid] * 8 + [to_the_end]
    if not takes_paid(plan):
        kinds = [refused_paid] * 3 + [to_the_end]
    kinds += rng.sample(scenes(rng, plan), 3)
    return [lambda rng, plan, kind=kind: beset(rng, kind(rng, plan)) for kind in kinds]


# -------------------------------------------------------------------- plans

def some_width(rng, page):
    """Mostly narrow; with pages often a whole one, or a byte more or less."""
    if page > 1 and rng.random() < 0.25:
        return page + rng.choice((-1, 0, 1))
    return rng.choice((1, 1, 1, 2, 2, 2, 3, 4, 5, 8, rng.randint(1, 12)))


def record_width(rng, widths):
    """Room for two to four of these units, just so or with zeros after."""
    kind = rng.random()
    if kind < 0.08:
        return rng.randint(1, 4)
    if kind < 0.12:
        return 256
    units = rng.sample(widths, min(len(widths), rng.choice((2, 2, 3, 3, 4, 4))))
    width = 1 + sum(1 + width for width in units)
    if kind < 0.2:
        width -= 1
    elif kind < 0.5:
        width += rng.choice((1, 2, 3, 8))
    return max(1, min(256, width))


def good_plan(rng):
    page = rng.choice(PAGES)
    count = rng.choice((1, 2, 3, 3, 3, 3, 4, 4, 4, 5, 5, 6, 7, 8))
    widths = [some_width(rng, page) for _ in range(count)]
    if rng.random() < 0.5:
        widths[0] = 8
    if rng.random() < 0.03:
        widths[rng.randrange(count)] = rng.choice((255, 256))
    if count > 1 and rng.random() < 0.95:
        widths[-1] = record_width(rng, widths[:-1])
    return Plan(widths, page, rng.random() < 0.88)


def paid_plan(rng):
    """One that takes paid rides; its record just so or wider, and at times with
    units between that and the totals."""
    page = rng.choice(PAGES)
    between = [some_width(rng, page) for _ in range(rng.choice((0, 0, 0, 0, 1, 1, 1, 2, 3)))]
    record = rng.choice((19, 19, 19, 19, 19, 20, 20, 21, 24, 28, 32, 33, rng.randint(19, 50)))
    if rng.random() < 0.02:
        record = rng.choice((255, 256))
    return Plan([8, 8] + between + [record], page, True)


def near_plan(rng):
    """One that doesn't take paid rides, mostly for one reason."""
    kind = rng.randrange(7)
    plan = paid_plan(rng)
    if kind == 0:  # not grouped
        return plan._replace(grouped=False)
    if kind == 1:  # two units
        widths = [8, rng.choice((8, 8, 8, 19, 7, 20))]
        return plan._replace(widths=widths, grouped=rng.random() < 0.7)
    if kind == 2:  # one
        return plan._replace(widths=[rng.choice((8, 8, 19))], grouped=rng.random() < 0.5)
    if kind in (3, 4):  # another width
        plan.widths[rng.randrange(2)] = rng.choice((1, 4, 7, 7, 9, 9, 16))
        return plan._replace(grouped=rng.random() < 0.8)
    if kind == 5:  # a narrow record, at times after a unit that would do
        if rng.random() < 0.4:
            plan.widths.insert(2, rng.choice((18, 19, 20)))
        plan.widths[-1] = rng.choice((1, 3, 8, 10, 17, 18, 18, 18))
        return plan
    return good_plan(rng)


class Head(NamedTuple):
    """What a list begins with; it may be refused, then its plan is of no use."""
    count: int
    widths: list
    page: int
    grouped: int
    image: int
    refused: bool

    def before(self, rights, calls):
        return (bytes((self.count,)) + b"".join(map(two, self.widths))
                + bytes((self.page, self.grouped)) + b"".join(rights)
                + two(self.image) + two(len(calls)))


def some_head(rng, plan):
    """Mostly the plan's; now and then one or an image that is refused. The
    image may have bytes after the units."""
    count, widths, page = len(plan.widths), list(plan.widths), plan.page
    image = plan.length()
    kind = rng.random()
    if kind < 0.02:
        count = rng.choice((0, 9, 10, 255))
    elif kind < 0.04:
        widths[rng.randrange(count)] = rng.choice((0, 257, 512, 65535))
    elif kind < 0.06:
        page = rng.choice(WRONG_PAGES)
    elif kind < 0.08:
        image = rng.choice((0, image - 1, image - 1, rng.randrange(image)))
    elif kind < 0.4:
        image += rng.choice((1, 2, 15, rng.randint(1, 40)))
    # Those past the count are not looked at.
    while len(widths) < 8:
        widths.append(rng.choice((0, 0, 1, 257, 65535)))
    grouped = rng.choice((1, 1, 1, 2, 255)) if plan.grouped else 0
    return Head(count, widths, page, grouped, image, kind < 0.08)


# -------------------------------------------------------------------- lists

def some_calls(rng, plan, most, scenes=scenes):
    """Scenes up to some length; the last is broken off where it is too long."""
    calls, length = [], 0
    goal = rng.choice((60, 400, 1000, 2000, 3000, LIMIT))
    kinds = scenes(rng, plan)
    while length < goal:
        scene = rng.choice(kinds)(rng, plan)
        if scene[-1][0] == CUT and rng.random() < 0.8:
            scene += settle(rng, plan)
        for one in scene:
            if length + len(one) >= most:
                return calls
            calls.append(one)
            length += len(one)
    return calls


def generate(seed):
    rng = random.Random(seed)
    plan = good_plan(rng)
    head = some_head(rng, plan)
    # Room is left for the bytes below; where all is refused, few calls will do.
    calls = some_calls(rng, plan, 400 if head.refused else LIMIT - 16)
    rest = some_rest(rng)
    return played_by_roles(random.Random(f"roles {seed}"), plan, head, calls, rest)


def generate_paid(seed):
    """Four in five on a plan that takes paid rides."""
    rng = random.Random(f"paid {seed}")
    plan = paid_plan(rng) if rng.random() < 0.8 else near_plan(rng)
    head = some_head(rng, plan)
    if rng.random() < 0.5:  # widths past the count that would do
        past = [8, 8, 19, 19, 19, 19, 19, 19][len(plan.widths):]
        head = head._replace(widths=head.widths[:len(plan.widths)] + past)
    calls = some_calls(rng, plan, 400 if head.refused else LIMIT - 16, paid_scenes)
    rest = some_rest(rng)
    return played_by_roles(random.Random(f"paid roles {seed}"), plan, head, calls, rest)


def some_rest(rng):
    """Mostly none; at times too few bytes for one more call."""
    if rng.random() < 0.1:
        return rng.choice((b"\x00", b"\x03\x00\x00\x00", call(CUT, b"\x00" * 4)[:-1],
                           b"\x00\x00\x00\x00\x01", b"\x05\x00\x00\xff\xff\x00\x01"))
    return b""


def played_by_roles(rng, plan, head, calls, rest):
    """The whole list."""
    rights = some_rights(rng)
    calls = with_roles(rng, plan, rights, calls, 100 if head.refused else ROLE_LIMIT)
    calls = b"".join(calls) + rest
    return head.before(rights, calls) + calls


def main(arguments):
    if len(arguments) not in (2, 3) or arguments[2:] not in ([], ["paid"]):
        sys.exit(__doc__)
    seed, count = map(int, arguments[:2])
    for i in range(count):
        one = generate_paid(seed + i) if arguments[2:] else generate(seed + i)
        sys.stdout.buffer.write(one)


if __name__ == "__main__":
    main(sys.argv[1:])
