//! A simulator of the console save store's bench program.
//!
//! Written from the scope document and the customers' tickets alone, so that
//! its output can be held against that of the bench program: for every script
//! the two must agree to the byte. It reads a script from standard input and
//! plays it to standard output.
//! Build: `rustc --edition 2021 -O -o simulator simulator.rs`
//!
//! With the argument `looks` a script may also ask for what no bench script
//! reaches: the brake drive, read and inspect. With `lists` it plays lists of
//! calls in a binary form, rides, groups, paid rides and the three roles among
//! them, with `together` it tells what stands after a power cut at every place
//! of a group, and with `hotel` what a hotel's console shows after paid rides
//! with a power cut each. With `--selftest` it tries itself on cases worked out
//! by hand, and the claims about groups, roles and paid rides on lists made at
//! random.

use std::io::{self, Read, Write};
use std::ops::{Range, RangeInclusive};
use std::process::ExitCode;

// ---------------------------------------------------------------- refusals

/// Why a call was refused; the value is the answer number.
#[derive(Clone, Copy, PartialEq, Debug)]
enum Refusal {
    UnitCount = 1,
    UnitWidth = 2,
    ShortImage = 3,
    PhaseOutOfRange = 4,
    WrongPhase = 5,
    NoSuchUnit = 6,
    PayloadLength = 7,
    MarkerNotOk = 8,
    Level = 9,
    Rate = 10,
    ForeignMarker = 14,
    TooMany = 15,
    NoTotal = 16,
    PageSize = 17,
    CutLength = 18,
    NotMembers = 19,
    TwiceOrRecord = 20,
    NoRoom = 21,
    NoRight = 22,
}

type Answer = Result<(), Refusal>;

fn number(answer: Answer) -> u8 {
    match answer {
        Ok(()) => 0,
        Err(refusal) => refusal as u8,
    }
}

/// Refuses when the condition holds. Each call lists its refusals in the order
/// in which they are tested, so that the first one met is given: 1 to 10 in
/// rising order, 14 and 16 after 5, 15 after 8, 17 after 2, 18 after 4, 19 to
/// 21 after 6, and 22 after those.
fn refuse_if(condition: bool, refusal: Refusal) -> Answer {
    if condition {
        Err(refusal)
    } else {
        Ok(())
    }
}

// ------------------------------------------------------------------ marker

/// The marker's three codes; any other byte is X, corrupted.
const OK: u8 = 1;
const WRITING_A: u8 = 2;
const WRITING_B: u8 = 4;

/// From here on a marker is no torn one of this console, but foreign. Only
/// wake tells it apart; to every other call it is an X like the rest.
const FIRST_FOREIGN: u8 = 8;

// -------------------------------------------------------------------- plan

const MAX_UNITS: usize = 8;
const MAX_WIDTH: usize = 256;

/// "A plan gains a page size p: 1, 4, 8 or 16."
const PAGE_SIZES: [usize; 4] = [1, 4, 8, 16];

/// "No page means p = 1."
const NO_PAGE: u16 = 1;

#[derive(Clone, Copy, PartialEq, Debug)]
struct Plan {
    /// As the script gave it, so it may be refused as above 8.
    count: usize,
    /// Those past the count are not looked at.
    widths: [u16; MAX_UNITS],
    /// As the script gave it, so it may be refused, and may be 0 until then.
    page: usize,
}

impl Plan {
    /// What a refused start returns.
    const NONE: Plan = Plan { count: 0, widths: [0; MAX_UNITS], page: NO_PAGE as usize };

    /// The first eight script widths are the plan's; all of them count.
    fn from_script(script_widths: &[u16], page: u16) -> Plan {
        let mut widths = [0; MAX_UNITS];
        for (width, &given) in widths.iter_mut().zip(script_widths) {
            *width = given;
        }
        Plan { count: script_widths.len(), widths, page: usize::from(page) }
    }

    /// "17 for another page size, tested after 2".
    fn check(&self) -> Answer {
        refuse_if(self.count == 0 || self.count > MAX_UNITS, Refusal::UnitCount)?;
        let sound = |&w: &u16| (1..=MAX_WIDTH).contains(&usize::from(w));
        refuse_if(!self.widths[..self.count].iter().all(sound), Refusal::UnitWidth)?;
        refuse_if(!PAGE_SIZES.contains(&self.page), Refusal::PageSize)
    }

    fn width(&self, unit: usize) -> usize {
        usize::from(self.widths[unit])
    }

    /// What a copy takes of the image, its filler with it: "each copy is
    /// rounded up to whole pages".
    fn copy_length(&self, unit: usize) -> usize {
        self.width(unit).div_ceil(self.page) * self.page
    }

    /// Length of the first `units` units together. A unit is its marker,
    /// copy A and copy B, and "a marker takes a page of its own".
    fn length(&self, units: usize) -> usize {
        (0..units).map(|unit| self.page + 2 * self.copy_length(unit)).sum()
    }

    fn image_length(&self) -> usize {
        self.length(self.count)
    }

    /// The marker is in its page's "first byte"; the others are filler.
    fn marker_place(&self, unit: usize) -> usize {
        self.length(unit)
    }

    /// Copy A without its filler.
    fn copy_a(&self, unit: usize) -> Range<usize> {
        let start = self.marker_place(unit) + self.page;
        start..start + self.width(unit)
    }

    /// Copy B without its filler.
    fn copy_b(&self, unit: usize) -> Range<usize> {
        let start = self.copy_a(unit).start + self.copy_length(unit);
        start..start + self.width(unit)
    }

    /// "The page around the byte" at this place. Every unit takes whole pages,
    /// so pages are counted from image byte 0.
    fn page_around(&self, place: usize) -> Range<usize> {
        let start = place / self.page * self.page;
        start..start + self.page
    }
}

// ------------------------------------------------------------------- phase

#[derive(Clone, Copy, PartialEq, Debug)]
enum Direction {
    AToB,
    BToA,
}

#[derive(Clone, Copy, PartialEq, Debug)]
enum Phase {
    Cold,
    Ready,
    Writing { unit: usize, made: usize },
    Recovering { unit: usize, made: usize, direction: Direction },
    /// "A group phase .. holds the write it is at and the stores made there":
    /// write 0 is the record's, then come the members', then that of zeros.
    /// The members written again from a standing record are the same, from
    /// write 1 on.
    Grouping { write: usize, made: usize },
}

fn stores_of_write(width: usize) -> usize {
    2 * width + 3
}

fn stores_of_cleanup(width: usize) -> usize {
    width + 1
}

// ------------------------------------------------------------------- store

/// One byte store. Markers are told apart because they tear differently.
struct Store {
    place: usize,
    byte: u8,
    is_marker: bool,
}

impl Store {
    fn marker(place: usize, byte: u8) -> Store {
        Store { place, byte, is_marker: true }
    }

    fn data(place: usize, byte: u8) -> Store {
        Store { place, byte, is_marker: false }
    }

    fn make(&self, image: &mut [u8]) {
        image[self.place] = self.byte;
    }

    /// Tears the whole page, with a given byte for each of its bytes: "data and
    /// filler become the given byte, a torn marker keeps the bit rule". So data
    /// stored before in that page is torn too, and a marker, the first of its
    /// page, takes the bits that the first given byte has from the new code and
    /// keeps the others.
    fn tear(&self, image: &mut [u8], page: Range<usize>, given: &[u8]) {
        let old = image[self.place];
        image[page].copy_from_slice(given);
        if self.is_marker {
            let m = given[0];
            image[self.place] = (self.byte & m) | (old & !m);
        }
    }
}

// ------------------------------------------------------------------- group

/// "The bytes of 2 to 4 members".
const MEMBER_COUNTS: RangeInclusive<usize> = 2..=4;

/// What the last write of a group stores, "a record of zeros".
const ZEROS: [u8; MAX_WIDTH] = [0; MAX_WIDTH];

/// "Each a unit number byte and that unit's payload".
#[derive(Clone, Copy, PartialEq, Debug)]
struct Member<'a> {
    unit: usize,
    payload: &'a [u8],
}

/// Takes one member off the front of the bytes; none if its unit is not below
/// k or its payload is not all there.
fn first_member<'a>(plan: &Plan, bytes: &'a [u8]) -> Option<(Member<'a>, &'a [u8])> {
    let (&number, rest) = bytes.split_first()?;
    let unit = usize::from(number);
    if unit >= plan.count || rest.len() < plan.width(unit) {
        return None;
    }
    let (payload, rest) = rest.split_at(plan.width(unit));
    Some((Member { unit, payload }, rest))
}

/// All the bytes as members, however many; none if they don't split.
fn split<'a>(plan: &Plan, mut bytes: &'a [u8]) -> Option<Vec<Member<'a>>> {
    let mut members = Vec::new();
    while !bytes.is_empty() {
        let (member, rest) = first_member(plan, bytes)?;
        members.push(member);
        bytes = rest;
    }
    Some(members)
}

// ------------------------------------------------------------------- roles

/// "Begin and read take one of three roles"; the value is its row of rights.
#[derive(Clone, Copy, PartialEq, Debug)]
enum Role {
    Rider = 0,
    Gym = 1,
    Service = 2,
}

const ROLES: [Role; 3] = [Role::Rider, Role::Gym, Role::Service];

/// "Nothing, see, or see and write", each with all that those before it allow.
#[derive(Clone, Copy, PartialEq, PartialOrd, Debug)]
enum Right {
    Nothing,
    See,
    SeeAndWrite,
}

/// "A table .. gives each role, per unit". Units past the count are not looked
/// at.
type Rights = [[Right; MAX_UNITS]; ROLES.len()];

/// What a refused start returns, "all nothing".
const NO_RIGHTS: Rights = [[Right::Nothing; MAX_UNITS]; ROLES.len()];

/// "The bench is service, with every right"; nobody else is there.
const BENCH_RIGHTS: Rights = {
    let mut rights = NO_RIGHTS;
    rights[Role::Service as usize] = [Right::SeeAndWrite; MAX_UNITS];
    rights
};

// ------------------------------------------------------------------ device

#[derive(Clone, PartialEq, Debug)]
struct Device {
    plan: Plan,
    /// "A device may be started as grouped".
    grouped: bool,
    /// "Set at start .. and kept": no call changes them.
    rights: Rights,
    payload: [u8; MAX_WIDTH],
    phase: Phase,
    /// "A 32-bit count of completed stores", which holds at the greatest.
    stores: u32,
}

impl Device {
    /// Refusals 1, 2, 17, 3 and 4, in this order, which every call on a device
    /// and an image begins with.
    fn check(&self, image: &[u8]) -> Answer {
        self.plan.check()?;
        refuse_if(image.len() < self.plan.image_length(), Refusal::ShortImage)?;
        self.check_phase()
    }

    /// Only a phase built by hand can fail this; no script and no list can
    /// reach one. In a group phase the write's own unit sets the total.
    fn check_phase(&self) -> Answer {
        let (unit, made, total): (usize, usize, fn(usize) -> usize) = match self.phase {
            Phase::Cold | Phase::Ready => return Ok(()),
            Phase::Writing { unit, made } => (unit, made, stores_of_write),
            Phase::Recovering { unit, made, .. } => (unit, made, stores_of_cleanup),
            Phase::Grouping { write, made } => {
                let (unit, _) = self.group_write(write).ok_or(Refusal::PhaseOutOfRange)?;
                (unit, made, stores_of_write)
            }
        };
        let out_of_range = unit >= self.plan.count || made >= total(self.plan.width(unit));
        refuse_if(out_of_range, Refusal::PhaseOutOfRange)
    }

    /// "22 when the right is lacking". The unit is one of the plan's.
    fn check_right(&self, role: Role, unit: usize, wanted: Right) -> Answer {
        refuse_if(self.rights[role as usize][unit] < wanted, Refusal::NoRight)
    }

    fn marker(&self, unit: usize, image: &[u8]) -> u8 {
        image[self.plan.marker_place(unit)]
    }

    /// The group record: a grouped device's "last unit".
    fn record_unit(&self) -> Option<usize> {
        self.grouped.then(|| self.plan.count - 1)
    }

    /// The members of a group with these bytes, or the first of 19, 20 and 21
    /// that applies. The record takes a byte more than the members do.
    fn members<'a>(&self, bytes: &'a [u8]) -> Result<Vec<Member<'a>>, Refusal> {
        let members = split(&self.plan, bytes)
            .filter(|members| MEMBER_COUNTS.contains(&members.len()))
            .ok_or(Refusal::NotMembers)?;
        for (i, member) in members.iter().enumerate() {
            let twice = members[..i].iter().any(|other| other.unit == member.unit);
            let is_record = self.record_unit() == Some(member.unit);
            refuse_if(twice || is_record, Refusal::TwiceOrRecord)?;
        }
        let record_unit = self.record_unit().ok_or(Refusal::NoRoom)?;
        refuse_if(self.plan.width(record_unit) < 1 + bytes.len(), Refusal::NoRoom)?;
        Ok(members)
    }

    /// The members of the group that gives this record, "the member count, the
    /// members, then zeros"; none if "no group passing 19 to 21 gives" it.
    fn members_of_record<'a>(&self, record: &'a [u8]) -> Option<Vec<Member<'a>>> {
        let (&count, bytes) = record.split_first()?;
        let mut rest = bytes;
        for _ in 0..count {
            rest = first_member(&self.plan, rest)?.1;
        }
        let (group, zeros) = bytes.split_at(bytes.len() - rest.len());
        let members = self.members(group).ok()?;
        zeros.iter().all(|&byte| byte == 0).then_some(members)
    }

    /// The record in copy A, if some group gives it.
    fn standing_record<'a>(&self, image: &'a [u8]) -> Option<&'a [u8]> {
        let record = &image[self.plan.copy_a(self.record_unit()?)];
        self.members_of_record(record).map(|_| record)
    }

    /// The unit that a group's write is of and what it stores there. None past
    /// the last write, and none at all on an ungrouped device or if the payload
    /// is no group's record with zeros after it.
    fn group_write(&self, write: usize) -> Option<(usize, &[u8])> {
        let record_unit = self.record_unit()?;
        let members = self.members_of_record(&self.payload)?;
        if write == 0 {
            return Some((record_unit, &self.payload));
        }
        if write == members.len() + 1 {
            return Some((record_unit, &ZEROS));
        }
        members.get(write - 1).map(|member| (member.unit, member.payload))
    }

    /// The store that step makes and cut tears; none in Cold and Ready.
    fn next_store(&self, image: &[u8]) -> Option<Store> {
        match self.phase {
            Phase::Cold | Phase::Ready => None,
            Phase::Writing { unit, made } => Some(self.write_store(unit, made, &self.payload)),
            Phase::Recovering { unit, made, direction } => {
                Some(self.cleanup_store(unit, made, direction, image))
            }
            Phase::Grouping { write, made } => {
                let (unit, bytes) = self.group_write(write)?;
                Some(self.write_store(unit, made, bytes))
            }
        }
    }

    /// Marker 2, copy A, marker 4, copy B, marker 1.
    fn write_store(&self, unit: usize, made: usize, bytes: &[u8]) -> Store {
        let w = self.plan.width(unit);
        let marker = self.plan.marker_place(unit);
        let to_a = |i| Store::data(self.plan.copy_a(unit).start + i, bytes[i]);
        let to_b = |i| Store::data(self.plan.copy_b(unit).start + i, bytes[i]);
        if made == 0 {
            Store::marker(marker, WRITING_A)
        } else if made <= w {
            to_a(made - 1)
        } else if made == w + 1 {
            Store::marker(marker, WRITING_B)
        } else if made <= 2 * w + 1 {
            to_b(made - w - 2)
        } else {
            Store::marker(marker, OK)
        }
    }

    /// The good copy byte by byte over the other one, then marker 1. The good
    /// byte is read now, not when the cleanup began.
    fn cleanup_store(&self, unit: usize, made: usize, direction: Direction, image: &[u8]) -> Store {
        if made == self.plan.width(unit) {
            return Store::marker(self.plan.marker_place(unit), OK);
        }
        let a = self.plan.copy_a(unit).start + made;
        let b = self.plan.copy_b(unit).start + made;
        match direction {
            Direction::AToB => Store::data(b, image[a]),
            Direction::BToA => Store::data(a, image[b]),
        }
    }

    /// The cleanup of the lowest unit from `first` on whose marker isn't 1, if
    /// there is one. Its marker as it is now sets the direction.
    fn cleanup_from(&self, first: usize, image: &[u8]) -> Option<Phase> {
        for unit in first..self.plan.count {
            let direction = match self.marker(unit, image) {
                OK => continue,
                WRITING_A => Direction::BToA,
                _ => Direction::AToB,
            };
            return Some(Phase::Recovering { unit, made: 0, direction });
        }
        None
    }

    /// Goes on to that cleanup; "once done" to the members of a standing
    /// record, which becomes the payload; and otherwise to Ready.
    fn recover_from(&mut self, first: usize, image: &[u8]) {
        if let Some(cleanup) = self.cleanup_from(first, image) {
            self.phase = cleanup;
        } else if let Some(record) = self.standing_record(image) {
            self.take_payload(record);
            self.phase = Phase::Grouping { write: 1, made: 0 };
        } else {
            self.phase = Phase::Ready;
        }
    }

    /// Goes on to the phase once the store at hand has been made.
    fn go_on(&mut self, image: &[u8]) {
        match self.phase {
            Phase::Cold | Phase::Ready => {}
            Phase::Writing { unit, made } => {
                let whole = made + 1 == stores_of_write(self.plan.width(unit));
                self.phase =
                    if whole { Phase::Ready } else { Phase::Writing { unit, made: made + 1 } };
            }
            Phase::Recovering { unit, made, direction } => {
                if made + 1 == stores_of_cleanup(self.plan.width(unit)) {
                    self.recover_from(unit + 1, image);
                } else {
                    self.phase = Phase::Recovering { unit, made: made + 1, direction };
                }
            }
            Phase::Grouping { write, made } => {
                let total = |(unit, _)| stores_of_write(self.plan.width(unit));
                self.phase = if self.group_write(write).map(total) != Some(made + 1) {
                    Phase::Grouping { write, made: made + 1 }
                } else if self.group_write(write + 1).is_some() {
                    Phase::Grouping { write: write + 1, made: 0 }
                } else {
                    Phase::Ready
                };
            }
        }
    }

    /// "The payload goes into the device, zeros after it".
    fn take_payload(&mut self, payload: &[u8]) {
        self.payload.fill(0);
        self.payload[..payload.len()].copy_from_slice(payload);
    }
}

// ------------------------------------------------------------------- calls
// Each changes the device and the image only if it is accepted.

/// A refused start gives a device without units, an ungrouped one on which
/// nobody has a right.
fn start(plan: Plan, grouped: bool, rights: Rights) -> (Answer, Device) {
    let answer = plan.check();
    let (plan, grouped, rights) =
        if answer.is_ok() { (plan, grouped, rights) } else { (Plan::NONE, false, NO_RIGHTS) };
    let (payload, phase) = ([0; MAX_WIDTH], Phase::Cold);
    (answer, Device { plan, grouped, rights, payload, phase, stores: 0 })
}

/// "Format sets the filler to zero", with all else but the markers.
fn format(device: &mut Device, image: &mut [u8]) -> Answer {
    device.check(image)?;
    refuse_if(device.phase != Phase::Cold, Refusal::WrongPhase)?;
    let plan = device.plan;
    image[..plan.image_length()].fill(0);
    for unit in 0..plan.count {
        image[plan.marker_place(unit)] = OK;
    }
    device.payload.fill(0);
    device.phase = Phase::Ready;
    device.stores = 0;
    Ok(())
}

/// A grouped device's last unit "takes no ordinary begin": 20, tested after 6
/// and so before 7. The right to write is "tested after 6 and any group check",
/// so between 20 and 7.
fn begin(device: &mut Device, image: &[u8], role: Role, unit: usize, payload: &[u8]) -> Answer {
    device.check(image)?;
    let plan = device.plan;
    refuse_if(device.phase != Phase::Ready, Refusal::WrongPhase)?;
    refuse_if(unit >= plan.count, Refusal::NoSuchUnit)?;
    refuse_if(device.record_unit() == Some(unit), Refusal::TwiceOrRecord)?;
    device.check_right(role, unit, Right::SeeAndWrite)?;
    refuse_if(payload.len() != plan.width(unit), Refusal::PayloadLength)?;
    refuse_if(device.marker(unit, image) != OK, Refusal::MarkerNotOk)?;
    device.take_payload(payload);
    device.phase = Phase::Writing { unit, made: 0 };
    Ok(())
}

/// The unit of the total of turns, that of the cents taken, and the width of
/// either, "lowest byte first".
const TOTAL_UNIT: usize = 0;
const CENTS_UNIT: usize = 1;
const TOTAL_WIDTH: usize = 8;

/// A total in copy A of its unit, which is `TOTAL_WIDTH` wide.
fn total_of(device: &Device, image: &[u8], unit: usize) -> u64 {
    let copy_a = &image[device.plan.copy_a(unit)];
    copy_a.iter().rev().fold(0, |total, &byte| total << 8 | u64::from(byte))
}

/// "Begins a write of total plus turns", the total "taken from copy A": 16
/// after 5, 20 on the record, and 15 after 8.
fn ride(device: &mut Device, image: &[u8], turns: u64) -> Answer {
    device.check(image)?;
    refuse_if(device.phase != Phase::Ready, Refusal::WrongPhase)?;
    refuse_if(device.plan.width(TOTAL_UNIT) != TOTAL_WIDTH, Refusal::NoTotal)?;
    refuse_if(device.record_unit() == Some(TOTAL_UNIT), Refusal::TwiceOrRecord)?;
    refuse_if(device.marker(TOTAL_UNIT, image) != OK, Refusal::MarkerNotOk)?;
    let total = total_of(device, image, TOTAL_UNIT);
    let sum = total.checked_add(turns).ok_or(Refusal::TooMany)?;
    device.take_payload(&sum.to_le_bytes());
    device.phase = Phase::Writing { unit: TOTAL_UNIT, made: 0 };
    Ok(())
}

/// Stores nothing, as a begin: "the payload being the record, zeros after it".
/// 19, 20 and 21 come in this order, "and then 8 for the record or a member".
fn group(device: &mut Device, image: &[u8], bytes: &[u8]) -> Answer {
    device.check(image)?;
    refuse_if(device.phase != Phase::Ready, Refusal::WrongPhase)?;
    let members = device.members(bytes)?;
    let units = members.iter().map(|member| member.unit).chain(device.record_unit());
    let mut markers = units.map(|unit| device.marker(unit, image));
    refuse_if(markers.any(|marker| marker != OK), Refusal::MarkerNotOk)?;
    let count = members.len() as u8; // 2 to 4
    device.take_payload(&[&[count], bytes].concat());
    device.phase = Phase::Grouping { write: 0, made: 0 };
    Ok(())
}

/// "25 cents plus 7 cents for each started 500 turns, at most 900 cents".
const FIRST_CENTS: u64 = 25;
const CENTS_FOR_TURNS: u64 = 7;
const TURNS_AT_ONCE: u64 = 500;
const MOST_CENTS: u64 = 900;

/// "A ride of 0 turns costs nothing". Seven times the started 500s are less than
/// a 70th of 2^64, so that the sum fits for every number of turns.
fn price(turns: u64) -> u64 {
    if turns == 0 {
        return 0;
    }
    (FIRST_CENTS + CENTS_FOR_TURNS * turns.div_ceil(TURNS_AT_ONCE)).min(MOST_CENTS)
}

/// A group of the two totals, "turns first": 16 after 5, as of a ride, then 20
/// and 21 as of a group, which needs no 19, then 8 "for the record or a member",
/// and 15 for either sum.
fn paid(device: &mut Device, image: &[u8], turns: u64) -> Answer {
    device.check(image)?;
    refuse_if(device.phase != Phase::Ready, Refusal::WrongPhase)?;
    let plan = device.plan;
    let is_total = |unit| unit < plan.count && plan.width(unit) == TOTAL_WIDTH;
    refuse_if(!is_total(TOTAL_UNIT) || !is_total(CENTS_UNIT), Refusal::NoTotal)?;
    // Unit 0 is not the last one, since there is unit 1.
    refuse_if(device.record_unit() == Some(CENTS_UNIT), Refusal::TwiceOrRecord)?;
    let record_unit = device.record_unit().ok_or(Refusal::NoRoom)?;
    refuse_if(plan.width(record_unit) < 1 + 2 * (1 + TOTAL_WIDTH), Refusal::NoRoom)?;
    let units = [record_unit, TOTAL_UNIT, CENTS_UNIT];
    let is_bad = |unit| device.marker(unit, image) != OK;
    refuse_if(units.into_iter().any(is_bad), Refusal::MarkerNotOk)?;
    let sum = |unit, more| total_of(device, image, unit).checked_add(more);
    let all_turns = sum(TOTAL_UNIT, turns).ok_or(Refusal::TooMany)?;
    let all_cents = sum(CENTS_UNIT, price(turns)).ok_or(Refusal::TooMany)?;
    let mut record = vec![2];
    for (unit, sum) in [(TOTAL_UNIT, all_turns), (CENTS_UNIT, all_cents)] {
        record.push(unit as u8);
        record.extend(sum.to_le_bytes());
    }
    device.take_payload(&record);
    device.phase = Phase::Grouping { write: 0, made: 0 };
    Ok(())
}

fn step(device: &mut Device, image: &mut [u8]) -> Answer {
    device.check(image)?;
    let store = device.next_store(image).ok_or(Refusal::WrongPhase)?;
    store.make(image);
    device.stores = device.stores.saturating_add(1);
    device.go_on(image);
    Ok(())
}

/// Stores nothing; the payload stays, but for that of a standing record.
fn wake(device: &mut Device, image: &[u8]) -> Answer {
    device.check(image)?;
    refuse_if(device.phase != Phase::Cold, Refusal::WrongPhase)?;
    let is_foreign = |unit| device.marker(unit, image) >= FIRST_FOREIGN;
    refuse_if((0..device.plan.count).any(is_foreign), Refusal::ForeignMarker)?;
    device.recover_from(0, image);
    Ok(())
}

/// "Cut now takes p bytes, one for each byte of the torn page"; "18 for a cut
/// of other than p bytes, tested after 4", so also where nothing is torn. "A
/// torn store doesn't count; cut keeps the number".
fn cut(device: &mut Device, image: &mut [u8], given: &[u8]) -> Answer {
    device.check(image)?;
    refuse_if(given.len() != device.plan.page, Refusal::CutLength)?;
    if let Some(store) = device.next_store(image) {
        store.tear(image, device.plan.page_around(store.place), given);
    }
    device.payload.fill(0);
    device.phase = Phase::Cold;
    Ok(())
}

// ------------------------------------------------------------------- looks
// Calls that only look: they change neither the device nor the image.

/// Copy A of the unit, as the image has it, without filler. The right to see
/// comes before the marker, so whoever lacks it isn't told of that either.
fn read<'a>(
    device: &Device,
    image: &'a [u8],
    role: Role,
    unit: usize,
) -> Result<&'a [u8], Refusal> {
    device.check(image)?;
    refuse_if(device.phase != Phase::Ready, Refusal::WrongPhase)?;
    refuse_if(unit >= device.plan.count, Refusal::NoSuchUnit)?;
    device.check_right(role, unit, Right::See)?;
    refuse_if(device.marker(unit, image) != OK, Refusal::MarkerNotOk)?;
    Ok(&image[device.plan.copy_a(unit)])
}

/// The lowest unit whose marker isn't 1, in whatever phase.
fn inspect(device: &Device, image: &[u8]) -> Result<Option<usize>, Refusal> {
    device.check(image)?;
    Ok((0..device.plan.count).find(|&unit| device.marker(unit, image) != OK))
}

// ------------------------------------------------------------- brake drive

const MAX_LEVEL: u16 = 20;
const MAX_RATE: u16 = 255;
const BINS: u16 = 64;

/// The bin is floor(r / 4), and only the whole product l × c is halved.
fn drive(level: u16, rate: u16) -> Result<u16, Refusal> {
    refuse_if(level == 0 || level > MAX_LEVEL, Refusal::Level)?;
    refuse_if(rate > MAX_RATE, Refusal::Rate)?;
    let bin = rate / 4;
    Ok(100 + 160 * level + (level * bin) / 2)
}

// ------------------------------------------------------------- line parser

const MAX_SCRIPT_WIDTHS: usize = 16;
const MAX_SCRIPT_BYTES: usize = 256;
const MAX_CUT_BYTES: usize = 16;

/// The forms of every line after the first. The plan is not among them: it
/// must be the first line and no other, so anywhere else it is a bad line.
enum Form {
    Write { unit: u16, payload: Vec<u8> },
    Step { times: u16 },
    Cut { given: Vec<u8> },
    Wake,
    Show,
    Look(Look),
}

/// The forms of the mode `looks`, which the bench program has not.
enum Look {
    Drive { level: u16, rate: u16 },
    Drives,
    Read { unit: u16 },
    Inspect,
    Set { place: usize, byte: u8 },
}

/// Which forms a script may have.
#[derive(Clone, Copy)]
enum Mode {
    Bench,
    Looks,
}

/// What is left of a line. Every reader below takes its piece off the front,
/// or gives None, which makes the whole line bad.
struct Line<'a> {
    rest: &'a [u8],
}

impl Line<'_> {
    fn text(&mut self, expected: &[u8]) -> Option<()> {
        self.rest = self.rest.strip_prefix(expected)?;
        Some(())
    }

    /// Decimal digits without leading zeros, or no digits at all.
    fn digits(&mut self) -> Option<&str> {
        let others = self.rest.iter().position(|byte| !byte.is_ascii_digit());
        let (digits, rest) = self.rest.split_at(others.unwrap_or(self.rest.len()));
        if digits.len() > 1 && digits[0] == b'0' {
            return None;
        }
        self.rest = rest;
        std::str::from_utf8(digits).ok()
    }

    /// A decimal number without leading zeros, 0 to 65535.
    fn decimal(&mut self) -> Option<u16> {
        // No digits and too large a number both fail to parse.
        self.digits()?.parse().ok()
    }

    /// A decimal number as above, but 0 to 2^64 - 1.
    fn long_decimal(&mut self) -> Option<u64> {
        self.digits()?.parse().ok()
    }

    /// Two lower-case hexadecimal digits.
    fn hex_byte(&mut self) -> Option<u8> {
        let [high, low, rest @ ..] = self.rest else { return None };
        let byte = hex_digit(*high)? << 4 | hex_digit(*low)?;
        self.rest = rest;
        Some(byte)
    }

    /// A bracketed list of at most `most` items with single spaces between.
    fn list<T>(&mut self, most: usize, item: fn(&mut Self) -> Option<T>) -> Option<Vec<T>> {
        let mut items = Vec::new();
        self.text(b"(")?;
        if self.text(b")").is_some() {
            return Some(items);
        }
        while items.len() < most {
            items.push(item(self)?);
            if self.text(b")").is_some() {
                return Some(items);
            }
            self.text(b" ")?;
        }
        None
    }

    /// The form's closing bracket, with nothing after it.
    fn close(&self) -> Option<()> {
        (self.rest == b")").then_some(())
    }
}

fn hex_digit(digit: u8) -> Option<u8> {
    match digit {
        b'0'..=b'9' => Some(digit - b'0'),
        b'a'..=b'f' => Some(digit - b'a' + 10),
        _ => None,
    }
}

/// Reads the first line, without its LF; None if it is not a plan. The page
/// is "a number like W", so other sizes than the four are read and refused.
fn parse_plan(line: &[u8]) -> Option<Plan> {
    let mut line = Line { rest: line };
    line.text(b"(plan ")?;
    let widths = line.list(MAX_SCRIPT_WIDTHS, Line::decimal)?;
    let mut page = NO_PAGE;
    if line.text(b" (page ").is_some() {
        page = line.decimal()?;
        line.text(b")")?;
    }
    line.close()?;
    Some(Plan::from_script(&widths, page))
}

/// Reads any later line, without its LF; None if it is not one of the forms
/// that the mode has.
fn parse_form(line: &[u8], mode: Mode, image_length: usize) -> Option<Form> {
    parse_bench_form(line).or_else(|| match mode {
        Mode::Bench => None,
        Mode::Looks => parse_look(line, image_length).map(Form::Look),
    })
}

fn parse_bench_form(line: &[u8]) -> Option<Form> {
    let mut line = Line { rest: line };
    let form = if line.text(b"(show").is_some() {
        Form::Show
    } else if line.text(b"(wake").is_some() {
        Form::Wake
    } else if line.text(b"(cut ").is_some() {
        Form::Cut { given: cut_bytes(&mut line)? }
    } else if line.text(b"(step ").is_some() {
        Form::Step { times: line.decimal().filter(|&times| times > 0)? }
    } else {
        line.text(b"(write ")?;
        let unit = line.decimal()?;
        line.text(b" ")?;
        Form::Write { unit, payload: line.list(MAX_SCRIPT_BYTES, Line::hex_byte)? }
    };
    line.close()?;
    Some(form)
}

/// `(HH ..)` "with 0 to 16 bytes", or HH alone, "a cut of one byte".
fn cut_bytes(line: &mut Line) -> Option<Vec<u8>> {
    if line.rest.starts_with(b"(") {
        line.list(MAX_CUT_BYTES, Line::hex_byte)
    } else {
        Some(vec![line.hex_byte()?])
    }
}

/// The place of a set may be any byte of the image, filler too.
fn parse_look(line: &[u8], image_length: usize) -> Option<Look> {
    let mut line = Line { rest: line };
    let look = if line.text(b"(drives").is_some() {
        Look::Drives
    } else if line.text(b"(drive ").is_some() {
        let level = line.decimal()?;
        line.text(b" ")?;
        Look::Drive { level, rate: line.decimal()? }
    } else if line.text(b"(read ").is_some() {
        Look::Read { unit: line.decimal()? }
    } else if line.text(b"(inspect").is_some() {
        Look::Inspect
    } else {
        line.text(b"(set ")?;
        let place = line.decimal().map(usize::from).filter(|&place| place < image_length)?;
        line.text(b" ")?;
        Look::Set { place, byte: line.hex_byte()? }
    };
    line.close()?;
    Some(look)
}

/// The script's lines without their LF. What follows the last LF is a line
/// only if there is something there.
fn lines(script: &[u8]) -> impl Iterator<Item = &[u8]> {
    script
        .split_inclusive(|&byte| byte == b'\n')
        .map(|line| line.strip_suffix(b"\n").unwrap_or(line))
}

// ----------------------------------------------------------------- printer

/// A space and two hexadecimal digits for each byte, as show prints it. The
/// fourth byte is filling: see `Printer::bytes`.
const SPACED_HEX: [[u8; 4]; 256] = {
    let digits = b"0123456789abcdef";
    let mut table = [[b' '; 4]; 256];
    let mut byte = 0;
    while byte < 256 {
        table[byte][1] = digits[byte >> 4];
        table[byte][2] = digits[byte & 15];
        byte += 1;
    }
    table
};

/// Small enough to stay in the cache, large enough to make few writes.
const PIECE: usize = 128 * 1024;

/// Gathers the output and hands it on in large pieces: a script of shows can
/// print more than 100 MB.
struct Printer<W: Write> {
    to: W,
    gathered: Vec<u8>,
}

impl<W: Write> Printer<W> {
    fn new(to: W) -> Self {
        Printer { to, gathered: Vec::with_capacity(2 * PIECE) }
    }

    fn text(&mut self, text: &[u8]) {
        self.gathered.extend_from_slice(text);
    }

    /// Each byte as a space and two digits. Four bytes are put down at a time
    /// and the next goes over the fourth, since one wide move is quicker than
    /// two narrow ones; the last filling byte is taken off at the end.
    fn bytes(&mut self, bytes: &[u8]) {
        let start = self.gathered.len();
        let end = start + 3 * bytes.len();
        self.gathered.resize(end + 1, b' ');
        let mut room = &mut self.gathered[start..];
        for &byte in bytes {
            let Some(four) = room.first_chunk_mut() else { break };
            *four = SPACED_HEX[usize::from(byte)];
            room = &mut room[3..];
        }
        self.gathered.truncate(end);
    }

    fn line(&mut self, line: &str) -> io::Result<()> {
        writeln!(self.gathered, "{line}")?;
        self.line_done()
    }

    /// A line of a word and a decimal number, the answer of every form of the
    /// bench program but show.
    fn word(&mut self, word: &str, number: usize) -> io::Result<()> {
        writeln!(self.gathered, "{word} {number}")?;
        self.line_done()
    }

    /// A unit's line of show, which "omits filler".
    fn unit(&mut self, plan: &Plan, image: &[u8], unit: usize) -> io::Result<()> {
        self.text(b"(unit ");
        self.text(&[b'0' + unit as u8]); // units are 0 to 7
        self.text(b" (log");
        self.bytes(&[image[plan.marker_place(unit)]]);
        self.text(b") (a");
        self.bytes(&image[plan.copy_a(unit)]);
        self.text(b") (b");
        self.bytes(&image[plan.copy_b(unit)]);
        self.text(b"))\n");
        self.line_done()
    }

    fn line_done(&mut self) -> io::Result<()> {
        if self.gathered.len() >= PIECE {
            self.hand_on()?;
        }
        Ok(())
    }

    fn hand_on(&mut self) -> io::Result<()> {
        self.to.write_all(&self.gathered)?;
        self.gathered.clear();
        self.to.flush()
    }
}

// ------------------------------------------------------------------ player

const MAX_SCRIPT: usize = 65_536;

/// Plays a whole script. Lines are read and run one by one, so what was
/// printed before a bad line stays.
fn play<W: Write>(script: &[u8], mode: Mode, printer: &mut Printer<W>) -> io::Result<()> {
    if script.len() > MAX_SCRIPT {
        return printer.word("bad", 0);
    }
    let mut numbered = (1..).zip(lines(script));
    let Some((_, first)) = numbered.next() else { return Ok(()) };
    let Some(plan) = parse_plan(first) else { return printer.word("bad", 1) };
    let (mut device, mut image) = match lay_out(plan, false, BENCH_RIGHTS) {
        Ok(laid_out) => laid_out,
        Err(refusal) => return printer.word("plan", refusal as usize),
    };
    printer.word("plan", 0)?;
    for (line_number, line) in numbered {
        let Some(form) = parse_form(line, mode, image.len()) else {
            return printer.word("bad", line_number);
        };
        run(form, &mut device, &mut image, printer)?;
    }
    Ok(())
}

/// Start and format, over an image of exactly the units' length, with filler.
/// The image is given other bytes than zeros first, for format to have
/// something to do.
fn lay_out(plan: Plan, grouped: bool, rights: Rights) -> Result<(Device, Vec<u8>), Refusal> {
    let (answer, mut device) = start(plan, grouped, rights);
    answer?;
    let mut image = vec![0xff; plan.image_length()];
    format(&mut device, &mut image)?;
    Ok((device, image))
}

/// Runs one line after the plan and prints what it prints.
fn run<W: Write>(
    form: Form,
    device: &mut Device,
    image: &mut [u8],
    printer: &mut Printer<W>,
) -> io::Result<()> {
    let (word, answer) = match form {
        Form::Write { unit, payload } => {
            ("write", begin(device, image, Role::Service, usize::from(unit), &payload))
        }
        Form::Step { times } => ("step", steps(device, image, times)),
        Form::Cut { given } => ("cut", cut(device, image, &given)),
        Form::Wake => ("wake", wake(device, image)),
        Form::Show => {
            for unit in 0..device.plan.count {
                printer.unit(&device.plan, image, unit)?;
            }
            return Ok(());
        }
        Form::Look(look) => return run_look(look, device, image, printer),
    };
    printer.word(word, usize::from(number(answer)))
}

/// Runs one line that only the mode `looks` has and prints what it prints.
fn run_look<W: Write>(
    look: Look,
    device: &Device,
    image: &mut [u8],
    printer: &mut Printer<W>,
) -> io::Result<()> {
    match look {
        Look::Drive { level, rate } => printer.line(&drive_line(drive(level, rate))),
        Look::Drives => (1..=MAX_LEVEL).try_for_each(|level| printer.line(&level_line(level))),
        Look::Read { unit } => {
            printer.line(&read_line(read(device, image, Role::Service, usize::from(unit))))
        }
        Look::Inspect => printer.line(&inspect_line(inspect(device, image))),
        Look::Set { place, byte } => {
            image[place] = byte;
            Ok(())
        }
    }
}

/// A refused drive is 0.
fn drive_line(answer: Result<u16, Refusal>) -> String {
    match answer {
        Ok(drive) => format!("drive 0 {drive}"),
        Err(refusal) => format!("drive {} 0", refusal as u8),
    }
}

/// The level's drives from bin 0 on, each taken at the lowest rate of its bin.
fn level_line(level: u16) -> String {
    let drives = (0..BINS).map(|bin| format!(" {}", drive(level, 4 * bin).unwrap_or(0)));
    format!("level {level}{}", drives.collect::<String>())
}

/// A refused read shows no bytes, not even empty brackets.
fn read_line(answer: Result<&[u8], Refusal>) -> String {
    match answer {
        Ok(bytes) => {
            let digits: Vec<String> = bytes.iter().map(|byte| format!("{byte:02x}")).collect();
            format!("read 0 ({})", digits.join(" "))
        }
        Err(refusal) => format!("read {}", refusal as u8),
    }
}

fn inspect_line(answer: Result<Option<usize>, Refusal>) -> String {
    match answer {
        Ok(Some(unit)) => format!("inspect unit {unit}"),
        Ok(None) => String::from("inspect none"),
        Err(refusal) => format!("inspect refused {}", refusal as u8),
    }
}

/// Up to `times` steps, ending early at a refusal: the answer of the last one.
fn steps(device: &mut Device, image: &mut [u8], times: u16) -> Answer {
    for _ in 0..times {
        step(device, image)?;
    }
    Ok(())
}

fn play_input(mode: Mode) -> io::Result<()> {
    // One byte more than a script may have is enough to see it is too long.
    let mut script = Vec::with_capacity(MAX_SCRIPT + 1);
    io::stdin().lock().take(MAX_SCRIPT as u64 + 1).read_to_end(&mut script)?;
    let mut printer = Printer::new(io::stdout().lock());
    play(&script, mode, &mut printer)?;
    printer.hand_on()
}

// ------------------------------------------------------------------- lists
// Lists of calls in a binary form, with rides, groups, paid rides and roles,
// which have no form in a bench script.

/// What every byte of a list's image is before format.
const FOUND: u8 = 0x77;

#[derive(Clone, Debug)]
enum Call {
    Begin { role: Role, unit: usize, payload: Vec<u8> },
    Cut { given: Vec<u8> },
    Wake,
    Ride { turns: u64 },
    Group { bytes: Vec<u8> },
    Paid { turns: u64 },
    Read { role: Role, unit: usize },
    Step,
}

impl Call {
    fn word(&self) -> &'static str {
        match self {
            Call::Begin { .. } => "begin",
            Call::Cut { .. } => "cut",
            Call::Wake => "wake",
            Call::Ride { .. } => "ride",
            Call::Group { .. } => "group",
            Call::Paid { .. } => "paid",
            Call::Read { .. } => "read",
            Call::Step => "step",
        }
    }

    fn make(&self, device: &mut Device, image: &mut [u8]) -> Answer {
        match self {
            Call::Begin { role, unit, payload } => begin(device, image, *role, *unit, payload),
            Call::Cut { given } => cut(device, image, given),
            Call::Wake => wake(device, image),
            Call::Ride { turns } => ride(device, image, *turns),
            Call::Group { bytes } => group(device, image, bytes),
            Call::Paid { turns } => paid(device, image, *turns),
            Call::Read { role, unit } => read(device, image, *role, *unit).map(|_| ()),
            Call::Step => step(device, image),
        }
    }
}

/// What is left of the input, or of one list's calls. Every reader takes its
/// piece off the front, or gives None if there is too little.
struct Input<'a> {
    rest: &'a [u8],
}

impl<'a> Input<'a> {
    fn bytes(&mut self, count: usize) -> Option<&'a [u8]> {
        let (piece, rest) = self.rest.split_at_checked(count)?;
        self.rest = rest;
        Some(piece)
    }

    fn byte(&mut self) -> Option<u8> {
        self.bytes(1).map(|piece| piece[0])
    }

    /// Two bytes, high byte first.
    fn two(&mut self) -> Option<u16> {
        Some(u16::from(self.byte()?) << 8 | u16::from(self.byte()?))
    }

    fn call(&mut self) -> Option<Call> {
        let kind = self.byte()?;
        let unit = usize::from(self.two()?);
        let length = usize::from(self.two()?);
        let own = self.bytes(length)?;
        // The first eight of a ride's, lowest byte first.
        let turns = own.first_chunk().map_or(0, |&own| u64::from_le_bytes(own));
        Some(match kind {
            1 => Call::Begin { role: Role::Service, unit, payload: own.to_vec() },
            8 => Call::Begin { role: Role::Rider, unit, payload: own.to_vec() },
            9 => Call::Begin { role: Role::Gym, unit, payload: own.to_vec() },
            2 => Call::Cut { given: own.to_vec() },
            3 => Call::Wake,
            4 => Call::Ride { turns },
            5 => Call::Group { bytes: own.to_vec() },
            10 => Call::Paid { turns },
            16 => Call::Read { role: Role::Service, unit },
            17 => Call::Read { role: Role::Rider, unit },
            18 => Call::Read { role: Role::Gym, unit },
            _ => Call::Step,
        })
    }

    /// The rider's, the gym's and the service's, a byte for each unit.
    fn rights(&mut self) -> Option<Rights> {
        let mut rights = NO_RIGHTS;
        for right in rights.as_flattened_mut() {
            *right = right_of_byte(self.byte()?);
        }
        Some(rights)
    }

    fn list(&mut self) -> Option<List> {
        let count = usize::from(self.byte()?);
        let mut widths = [0; MAX_UNITS];
        for width in &mut widths {
            *width = self.two()?;
        }
        let plan = Plan { count, widths, page: usize::from(self.byte()?) };
        let grouped = self.byte()? != 0;
        let rights = self.rights()?;
        let image_length = usize::from(self.two()?);
        let length = usize::from(self.two()?);
        let mut own = Input { rest: self.bytes(length)? };
        // What is too short for a call ends the list and is none.
        let calls = std::iter::from_fn(|| own.call()).collect();
        Some(List { plan, grouped, rights, image_length, calls })
    }
}

fn right_of_byte(byte: u8) -> Right {
    match byte {
        1 => Right::See,
        2 => Right::SeeAndWrite,
        _ => Right::Nothing,
    }
}

struct List {
    plan: Plan,
    grouped: bool,
    rights: Rights,
    image_length: usize,
    calls: Vec<Call>,
}

fn phase_words(phase: Phase) -> String {
    match phase {
        Phase::Cold => String::from("Cold"),
        Phase::Ready => String::from("Ready"),
        Phase::Writing { unit, made } => format!("Writing {unit} {made}"),
        Phase::Recovering { unit, made, direction: Direction::AToB } => {
            format!("Recovering {unit} {made} AToB")
        }
        Phase::Recovering { unit, made, direction: Direction::BToA } => {
            format!("Recovering {unit} {made} BToA")
        }
        Phase::Grouping { write, made } => format!("Grouping {write} {made}"),
    }
}

/// Two digits for each byte, with a space between.
fn plain(bytes: &[u8]) -> String {
    bytes.iter().map(|byte| format!("{byte:02x}")).collect::<Vec<_>>().join(" ")
}

/// A call's line: its word and number, and the phase and the count after it. A
/// read, which changes neither, has the bytes read instead, if there are any.
fn call_line(call: &Call, device: &mut Device, image: &mut [u8]) -> String {
    if let Call::Read { role, unit } = call {
        return match read(device, image, *role, *unit) {
            Ok(bytes) => format!("read 0 {}", plain(bytes)),
            Err(refusal) => format!("read {}", refusal as u8),
        };
    }
    let answer = number(call.make(device, image));
    format!("{} {answer} {} {}", call.word(), phase_words(device.phase), device.stores)
}

/// Plays one list, which goes on after a refused start and a refused format.
fn play_list<W: Write>(list: &List, printer: &mut Printer<W>) -> io::Result<()> {
    let mut image = vec![FOUND; list.image_length];
    let (answer, mut device) = start(list.plan, list.grouped, list.rights);
    printer.word("start", usize::from(number(answer)))?;
    let answer = format(&mut device, &mut image);
    printer.word("format", usize::from(number(answer)))?;
    for call in &list.calls {
        printer.line(&call_line(call, &mut device, &mut image))?;
    }
    for (word, bytes) in [("image", &image[..]), ("payload", &device.payload)] {
        printer.text(word.as_bytes());
        printer.bytes(bytes);
        printer.line("")?;
    }
    Ok(())
}

/// Plays the lists one after the other; one that is cut short is none.
fn play_lists<W: Write>(input: &[u8], printer: &mut Printer<W>) -> io::Result<()> {
    let mut input = Input { rest: input };
    while let Some(list) = input.list() {
        play_list(&list, printer)?;
    }
    Ok(())
}

fn play_lists_input() -> io::Result<()> {
    let mut input = Vec::new();
    io::stdin().lock().read_to_end(&mut input)?;
    let mut printer = Printer::new(io::stdout().lock());
    play_lists(&input, &mut printer)?;
    printer.hand_on()
}

// ---------------------------------------------------------------- together
// A power cut at every place of one group, with every byte.

/// Three units and the record, and what each holds before the group and, if
/// the group passed, after it.
const TOGETHER_WIDTHS: [u16; 4] = [2, 1, 3, 6];
const TOGETHER_OLD: [&[u8]; 4] = [&[0x01, 0x02], &[0x03], &[0x04, 0x05, 0x06], &[0; 6]];
const TOGETHER_NEW: [&[u8]; 4] = [&[0x11, 0x12], &[0x13], &[0x04, 0x05, 0x06], &[0; 6]];

/// The group: unit 1 first, then unit 0.
const TOGETHER_GROUP: [u8; 5] = [0x01, 0x13, 0x00, 0x11, 0x12];

/// The record, unit 1, unit 0 and the zeros.
const TOGETHER_STORES: usize = 15 + 5 + 7 + 15;

/// A line: the page size, the cuts before it, each after so many steps and
/// with this byte, and the most steps after them.
const TOGETHER_LINES: [(u16, &[(usize, u8)], usize); 8] = [
    (1, &[], TOGETHER_STORES),
    (4, &[], TOGETHER_STORES),
    (8, &[], TOGETHER_STORES),
    (16, &[], TOGETHER_STORES),
    (1, &[(15, 0x5a)], 27),
    (1, &[(8, 0x5a)], 34),
    (1, &[(7, 0x00)], 7),
    (1, &[(15, 0x5a), (10, 0x5a)], 30),
];

/// A device with its image, which alone outlives a power cut.
#[derive(Clone)]
struct Console {
    device: Device,
    image: Vec<u8>,
}

impl Console {
    /// The three units written one after the other, then the group begun.
    fn in_group(page: u16) -> Result<Console, Refusal> {
        let plan = Plan::from_script(&TOGETHER_WIDTHS, page);
        let (device, image) = lay_out(plan, true, BENCH_RIGHTS)?;
        let mut console = Console { device, image };
        for (unit, payload) in TOGETHER_OLD.into_iter().enumerate().take(3) {
            begin(&mut console.device, &console.image, Role::Service, unit, payload)?;
            console.step_to_end();
        }
        group(&mut console.device, &console.image, &TOGETHER_GROUP)?;
        Ok(console)
    }

    /// A refused step is ignored.
    fn steps(&mut self, times: usize) {
        for _ in 0..times {
            let _ = step(&mut self.device, &mut self.image);
        }
    }

    /// Steps until one is refused, and that one's refusal.
    fn step_to_end(&mut self) -> Refusal {
        loop {
            if let Err(refusal) = step(&mut self.device, &mut self.image) {
                return refusal;
            }
        }
    }

    /// A power cut that gives every byte of the torn page this byte. What was
    /// in RAM is lost, so the device is started anew, and wakes.
    fn power_cut(&mut self, byte: u8) -> Answer {
        let plan = self.device.plan;
        cut(&mut self.device, &mut self.image, &vec![byte; plan.page])?;
        let (answer, device) = start(plan, true, BENCH_RIGHTS);
        self.device = device;
        answer?;
        wake(&mut self.device, &self.image)
    }

    /// Whether every marker is 1 and both copies of each unit are these bytes.
    fn holds(&self, units: [&[u8]; 4]) -> bool {
        let plan = &self.device.plan;
        units.into_iter().enumerate().all(|(unit, bytes)| {
            self.device.marker(unit, &self.image) == OK
                && &self.image[plan.copy_a(unit)] == bytes
                && &self.image[plan.copy_b(unit)] == bytes
        })
    }

    /// What stands after a power cut here and the whole repair: `o` the old
    /// bytes, `n` the group's, `x` anything else.
    fn outcome(&self, byte: u8) -> char {
        let mut console = self.clone();
        let wakes = console.power_cut(byte).is_ok();
        if !wakes || console.step_to_end() != Refusal::WrongPhase {
            'x'
        } else if console.holds(TOGETHER_OLD) {
            'o'
        } else if console.holds(TOGETHER_NEW) {
            'n'
        } else {
            'x'
        }
    }

    /// The outcome of a power cut here if it is the same with every byte, `x`
    /// if one of them is x, and otherwise `m`, mixed.
    fn letter(&self) -> char {
        let outcomes: Vec<char> = (0..=u8::MAX).map(|byte| self.outcome(byte)).collect();
        if outcomes.contains(&'x') {
            'x'
        } else if outcomes.iter().all(|&outcome| outcome == outcomes[0]) {
            outcomes[0]
        } else {
            'm'
        }
    }
}

/// One line of letters, for 0 steps up to the most.
fn together_line(page: u16, cuts: &[(usize, u8)], most: usize) -> Result<String, Refusal> {
    let mut console = Console::in_group(page)?;
    for &(steps, byte) in cuts {
        console.steps(steps);
        console.power_cut(byte)?;
    }
    let mut letters = String::new();
    for _ in 0..=most {
        letters.push(console.letter());
        console.steps(1);
    }
    Ok(letters)
}

/// A refusal where there should be none.
fn refused(refusal: Refusal) -> io::Error {
    io::Error::other(format!("refused with {}", refusal as u8))
}

fn together_lines() -> io::Result<Vec<String>> {
    let line = |(page, cuts, most)| together_line(page, cuts, most).map_err(refused);
    TOGETHER_LINES.into_iter().map(line).collect()
}

fn together() -> io::Result<()> {
    let mut printer = Printer::new(io::stdout().lock());
    for line in together_lines()? {
        printer.line(&line)?;
    }
    printer.hand_on()
}

// ------------------------------------------------------------------- hotel
// Paid rides, the power cut once after each, and the two totals then.

/// The turns, the cents and a record that has just room for both.
const HOTEL_WIDTHS: [u16; 3] = [8, 8, 19];

/// The one byte of every cut: torn data is 0, a torn marker stays as it was.
const HOTEL_CUT: [u8; 1] = [0];

/// A line: the turns, and the stores made before the power fails.
struct HotelRide {
    turns: u64,
    stores: u16,
}

/// Reads `(ride T N)`, without its LF; None if the line is not of this form.
fn parse_hotel_ride(line: &[u8]) -> Option<HotelRide> {
    let mut line = Line { rest: line };
    line.text(b"(ride ")?;
    let turns = line.long_decimal()?;
    line.text(b" ")?;
    let stores = line.decimal()?;
    line.close()?;
    Some(HotelRide { turns, stores })
}

impl Console {
    /// Formatted, over an image that had other bytes before.
    fn in_hotel() -> Result<Console, Refusal> {
        let plan = Plan::from_script(&HOTEL_WIDTHS, NO_PAGE);
        let (answer, mut device) = start(plan, true, BENCH_RIGHTS);
        answer?;
        let mut image = vec![FOUND; plan.image_length()];
        format(&mut device, &mut image)?;
        Ok(Console { device, image })
    }

    /// So many steps, or fewer where one is refused, then the power cut and the
    /// whole repair.
    fn cut_after(&mut self, stores: u16) -> Answer {
        let _ = steps(&mut self.device, &mut self.image, stores);
        cut(&mut self.device, &mut self.image, &HOTEL_CUT)?;
        wake(&mut self.device, &self.image)?;
        self.step_to_end();
        Ok(())
    }

    /// One ride and what is shown after it. A refused one is not cut.
    fn hotel_line(&mut self, HotelRide { turns, stores }: HotelRide) -> Result<String, Refusal> {
        if let Err(refusal) = paid(&mut self.device, &self.image, turns) {
            return Ok(format!("ride of {turns}: refused {}", refusal as u8));
        }
        self.cut_after(stores)?;
        let all_turns = total_of(&self.device, &self.image, TOTAL_UNIT);
        let all_cents = total_of(&self.device, &self.image, CENTS_UNIT);
        Ok(format!("ride of {turns}, cut after {stores}: turns {all_turns}, cents {all_cents}"))
    }
}

/// Plays the rides one by one, so what was printed before a bad line stays.
fn play_hotel<W: Write>(input: &[u8], printer: &mut Printer<W>) -> io::Result<()> {
    let mut console = Console::in_hotel().map_err(refused)?;
    for (line_number, line) in (1..).zip(lines(input)) {
        let Some(ride) = parse_hotel_ride(line) else { return printer.word("bad", line_number) };
        printer.line(&console.hotel_line(ride).map_err(refused)?)?;
    }
    Ok(())
}

fn play_hotel_input() -> io::Result<()> {
    let mut input = Vec::new();
    io::stdin().lock().read_to_end(&mut input)?;
    let mut printer = Printer::new(io::stdout().lock());
    play_hotel(&input, &mut printer)?;
    printer.hand_on()
}

// --------------------------------------------------------------- self-test
// Every answer expected here was worked out by hand from the document.

/// Level, rate and the line printed.
const DRIVE_CASES: [(u16, u16, &str); 20] = [
    (20, 255, "drive 0 3930"), // C8: 100 + 3200 + 20 × 63 / 2
    (1, 0, "drive 0 260"),     // C9: 100 + 160 + 0
    (1, 8, "drive 0 261"),     // C10: bin 2, 100 + 160 + 1
    (21, 256, "drive 9 0"),    // C11: 9 is lower than 10
    (1, 3, "drive 0 260"),     // still bin 0
    (1, 4, "drive 0 260"),     // bin 1, floor(1 / 2) = 0
    (3, 3, "drive 0 580"),     // 100 + 480 + 0
    (3, 4, "drive 0 581"),     // bin 1, floor(3 / 2) = 1
    (3, 12, "drive 0 584"),    // bin 3, floor(9 / 2) = 4
    (5, 13, "drive 0 907"),    // bin 3, 100 + 800 + floor(15 / 2) = 7
    (7, 23, "drive 0 1237"),   // bin 5, 100 + 1120 + floor(35 / 2) = 17
    (19, 255, "drive 0 3738"), // 100 + 3040 + floor(1197 / 2) = 598
    (20, 3, "drive 0 3300"),   // 100 + 3200 + 0
    (0, 0, "drive 9 0"),
    (0, 256, "drive 9 0"),
    (21, 0, "drive 9 0"),
    (257, 0, "drive 9 0"),
    (1, 256, "drive 10 0"),
    (20, 65535, "drive 10 0"),
    (65535, 65535, "drive 9 0"),
];

/// Widths, page, image length, phase, and the lines of inspect and of read of
/// unit 0. Every image byte is 1. Most of these no script can reach.
const DEVICE_CASES: [(&[u16], u16, usize, Phase, &str, &str); 33] = [
    (&[], 1, 99, Phase::Ready, "inspect refused 1", "read 1"),
    (&[1; 9], 1, 99, Phase::Ready, "inspect refused 1", "read 1"),
    (&[0; 9], 1, 0, Phase::Cold, "inspect refused 1", "read 1"),
    (&[2, 0], 1, 99, Phase::Ready, "inspect refused 2", "read 2"),
    (&[2, 257], 1, 0, Phase::Cold, "inspect refused 2", "read 2"),
    // Units of 5 and 3 bytes, so the image has 8.
    (&[2, 1], 1, 7, Phase::Ready, "inspect refused 3", "read 3"),
    (&[2, 1], 1, 7, Phase::Writing { unit: 2, made: 0 }, "inspect refused 3", "read 3"),
    (&[2, 1], 1, 8, Phase::Ready, "inspect none", "read 0 (01 01)"),
    (&[2, 1], 1, 8, Phase::Cold, "inspect none", "read 5"),
    (&[2, 1], 1, 8, Phase::Writing { unit: 2, made: 0 }, "inspect refused 4", "read 4"),
    // 2 × 2 + 3 = 7 stores, 2 + 1 = 3 stores.
    (&[2, 1], 1, 8, Phase::Writing { unit: 0, made: 6 }, "inspect none", "read 5"),
    (&[2, 1], 1, 8, Phase::Writing { unit: 0, made: 7 }, "inspect refused 4", "read 4"),
    (&[2, 1], 1, 8, recovering(2, 0), "inspect refused 4", "read 4"),
    (&[2, 1], 1, 8, recovering(0, 2), "inspect none", "read 5"),
    (&[2, 1], 1, 8, recovering(0, 3), "inspect refused 4", "read 4"),
    // Another page size: 1 and 2 before 17, 17 before 3 and 4.
    (&[], 0, 99, Phase::Ready, "inspect refused 1", "read 1"),
    (&[1; 9], 3, 0, Phase::Cold, "inspect refused 1", "read 1"),
    (&[2, 0], 2, 99, Phase::Ready, "inspect refused 2", "read 2"),
    (&[2, 1], 0, 99, Phase::Ready, "inspect refused 17", "read 17"),
    (&[2, 1], 5, 0, Phase::Cold, "inspect refused 17", "read 17"),
    (&[2, 1], 65535, 0, Phase::Writing { unit: 2, made: 0 }, "inspect refused 17", "read 17"),
    (&[2, 1], 32, 99, recovering(0, 3), "inspect refused 17", "read 17"),
    // Pages of 4: two units of 4 + 4 + 4 bytes.
    (&[2, 1], 4, 23, Phase::Ready, "inspect refused 3", "read 3"),
    (&[2, 1], 4, 24, Phase::Ready, "inspect none", "read 0 (01 01)"),
    // As many stores as without pages.
    (&[2, 1], 4, 24, Phase::Writing { unit: 0, made: 6 }, "inspect none", "read 5"),
    (&[2, 1], 4, 24, Phase::Writing { unit: 0, made: 7 }, "inspect refused 4", "read 4"),
    (&[2, 1], 4, 24, recovering(0, 2), "inspect none", "read 5"),
    (&[2, 1], 4, 24, recovering(0, 3), "inspect refused 4", "read 4"),
    // Pages of 8: units of 8 + 8 + 8 and of 8 + 16 + 16 bytes.
    (&[8, 9], 8, 63, Phase::Ready, "inspect refused 3", "read 3"),
    (&[8, 9], 8, 64, Phase::Ready, "inspect none", "read 0 (01 01 01 01 01 01 01 01)"),
    // Pages of 16: units of 16 + 16 + 16 and of 16 + 32 + 32 bytes.
    (&[1, 17], 16, 127, Phase::Ready, "inspect refused 3", "read 3"),
    (&[1, 17], 16, 128, Phase::Ready, "inspect none", "read 0 (01)"),
    (&[1, 17], 16, 128, Phase::Cold, "inspect none", "read 5"),
];

/// Widths, page, image length, phase, how many bytes cut is given, and its
/// answer number. Every image byte is 1.
const CUT_CASES: [(&[u16], u16, usize, Phase, usize, u8); 19] = [
    (&[], 3, 0, Phase::Writing { unit: 2, made: 0 }, 0, 1),
    (&[2, 257], 3, 0, Phase::Writing { unit: 2, made: 0 }, 0, 2),
    (&[2, 1], 3, 0, Phase::Writing { unit: 2, made: 0 }, 3, 17),
    (&[2, 1], 4, 23, Phase::Writing { unit: 2, made: 0 }, 0, 3),
    (&[2, 1], 4, 24, Phase::Writing { unit: 2, made: 0 }, 0, 4),
    (&[2, 1], 4, 24, Phase::Writing { unit: 0, made: 7 }, 1, 4),
    (&[2, 1], 4, 24, recovering(0, 3), 5, 4),
    (&[2, 1], 4, 24, Phase::Writing { unit: 0, made: 6 }, 0, 18),
    (&[2, 1], 4, 24, recovering(0, 2), 3, 18),
    (&[2, 1], 4, 24, Phase::Cold, 5, 18),
    (&[2, 1], 4, 24, Phase::Ready, 1, 18),
    (&[2, 1], 4, 24, Phase::Writing { unit: 0, made: 6 }, 4, 0),
    (&[2, 1], 4, 24, recovering(0, 2), 4, 0),
    (&[2, 1], 4, 24, Phase::Cold, 4, 0),
    (&[2, 1], 4, 24, Phase::Ready, 4, 0),
    (&[2, 1], 1, 8, Phase::Ready, 4, 18),
    (&[2, 1], 1, 8, Phase::Ready, 1, 0),
    (&[1], 16, 48, Phase::Ready, 15, 18),
    (&[1], 16, 48, Phase::Ready, 16, 0),
];

const fn recovering(unit: usize, made: usize) -> Phase {
    Phase::Recovering { unit, made, direction: Direction::AToB }
}

/// Lines after `(plan (2 1))` and what they print after `plan 0`. Unit 0 has
/// its marker at byte 0, A at 1 and 2, B at 3 and 4; unit 1 has them at 5, 6
/// and 7.
const LOOK_CASES: [(&str, &str); 12] = [
    // A whole write, looked at in Ready.
    ("(write 0 (0a 0b))\n(step 7)\n(inspect)\n(read 0)\n(read 1)\n(read 2)\n",
     "write 0\nstep 0\ninspect none\nread 0 (0a 0b)\nread 0 (00)\nread 6\n"),
    // C1: the write did not pass.
    ("(write 0 (0a 0b))\n(inspect)\n(step 3)\n(inspect)\n(cut 00)\n(inspect)\n(read 0)\n\
      (wake)\n(inspect)\n(read 0)\n(step 2)\n(inspect)\n(step 1)\n(inspect)\n(read 0)\n",
     "write 0\ninspect none\nstep 0\ninspect unit 0\ncut 0\ninspect unit 0\nread 5\n\
      wake 0\ninspect unit 0\nread 5\nstep 0\ninspect unit 0\nstep 0\ninspect none\n\
      read 0 (00 00)\n"),
    // C2: it passed, by a torn marker.
    ("(write 0 (0a 0b))\n(step 3)\n(cut 02)\n(inspect)\n(wake)\n(step 3)\n(read 0)\n",
     "write 0\nstep 0\ncut 0\ninspect unit 0\nwake 0\nstep 0\nread 0 (0a 0b)\n"),
    // C3: it passed, by the marker's store.
    ("(write 0 (0a 0b))\n(step 4)\n(cut 00)\n(inspect)\n(wake)\n(step 3)\n(read 0)\n",
     "write 0\nstep 0\ncut 0\ninspect unit 0\nwake 0\nstep 0\nread 0 (0a 0b)\n"),
    // C4, and the same cut with 00, which leaves the marker 1.
    ("(write 0 (0a 0b))\n(cut ff)\n(inspect)\n(wake)\n(step 3)\n(read 0)\n\
      (write 0 (0a 0b))\n(cut 00)\n(inspect)\n(read 0)\n(wake)\n(read 0)\n",
     "write 0\ncut 0\ninspect unit 0\nwake 0\nstep 0\nread 0 (00 00)\n\
      write 0\ncut 0\ninspect none\nread 5\nwake 0\nread 0 (00 00)\n"),
    // Copy A, where every byte around it is another.
    ("(set 1 a1)\n(set 2 a2)\n(set 3 b3)\n(set 4 b4)\n(set 6 a6)\n(set 7 b7)\n(read 0)\n(read 1)\n",
     "read 0 (a1 a2)\nread 0 (a6)\n"),
    // The lowest bad unit; a read is refused by its own marker only.
    ("(set 5 02)\n(inspect)\n(read 0)\n(read 1)\n(read 2)\n(set 0 00)\n(inspect)\n(read 0)\n\
      (set 5 01)\n(inspect)\n(read 1)\n(set 0 01)\n(inspect)\n",
     "inspect unit 1\nread 0 (00 00)\nread 8\nread 6\ninspect unit 0\nread 8\n\
      inspect unit 0\nread 0 (00)\ninspect none\n"),
    // 5 before 6 and before 8, in Cold and in Writing; while unit 1 is written,
    // inspect names it, or a lower one that is bad too.
    ("(cut 00)\n(set 0 02)\n(read 0)\n(read 2)\n(set 0 01)\n(wake)\n(write 1 (07))\n(step 1)\n\
      (read 1)\n(read 2)\n(inspect)\n(set 0 00)\n(inspect)\n",
     "cut 0\nread 5\nread 5\nwake 0\nwrite 0\nstep 0\nread 5\nread 5\ninspect unit 1\n\
      inspect unit 0\n"),
    // Foreign: 8 for begin and read, 5 before 14, and wake stays Cold.
    ("(set 5 08)\n(inspect)\n(read 1)\n(write 1 (07))\n(wake)\n(cut 00)\n(wake)\n(step 1)\n\
      (set 0 02)\n(wake)\n(inspect)\n(set 5 ff)\n(wake)\n(set 5 07)\n(wake)\n",
     "inspect unit 1\nread 8\nwrite 8\nwake 5\ncut 0\nwake 14\nstep 5\n\
      wake 14\ninspect unit 0\nwake 14\nwake 0\n"),
    // A cleanup goes on to a foreign marker as to any X: A to B.
    ("(cut 00)\n(set 0 02)\n(wake)\n(set 5 08)\n(set 6 a6)\n(set 7 b7)\n(step 3)\n(inspect)\n\
      (step 2)\n(inspect)\n(read 1)\n(show)\n",
     "cut 0\nwake 0\nstep 0\ninspect unit 1\nstep 0\ninspect none\nread 0 (a6)\n\
      (unit 0 (log 01) (a 00 00) (b 00 00))\n(unit 1 (log 01) (a a6) (b a6))\n"),
    // A cleanup goes on upward only, so it can end in Ready over a bad unit.
    ("(cut 00)\n(set 5 04)\n(wake)\n(inspect)\n(set 0 00)\n(inspect)\n(step 2)\n(step 1)\n\
      (inspect)\n(read 0)\n(read 1)\n",
     "cut 0\nwake 0\ninspect unit 1\ninspect unit 0\nstep 0\nstep 5\n\
      inspect unit 0\nread 8\nread 0 (00)\n"),
    // The last image byte, and the one after it.
    ("(set 7 b7)\n(show)\n(set 8 00)\n(show)\n",
     "(unit 0 (log 01) (a 00 00) (b 00 00))\n(unit 1 (log 01) (a 00) (b b7))\nbad 4\n"),
];

/// A first line and what it prints.
const PLAN_CASES: [(&str, &str); 44] = [
    ("(plan (2 1) (page 1))", "plan 0"),
    ("(plan (2 1) (page 4))", "plan 0"),
    ("(plan (2 1) (page 8))", "plan 0"),
    ("(plan (2 1) (page 16))", "plan 0"),
    ("(plan (256 256 256 256 256 256 256 256) (page 16))", "plan 0"),
    // Another page size.
    ("(plan (2 1) (page 0))", "plan 17"),
    ("(plan (2 1) (page 2))", "plan 17"),
    ("(plan (2 1) (page 3))", "plan 17"),
    ("(plan (2 1) (page 5))", "plan 17"),
    ("(plan (2 1) (page 12))", "plan 17"),
    ("(plan (2 1) (page 17))", "plan 17"),
    ("(plan (2 1) (page 32))", "plan 17"),
    ("(plan (2 1) (page 65535))", "plan 17"),
    // 1 and 2 are tested before it.
    ("(plan () (page 4))", "plan 1"),
    ("(plan () (page 0))", "plan 1"),
    ("(plan (1 1 1 1 1 1 1 1 1) (page 2))", "plan 1"),
    ("(plan (0 0 0 0 0 0 0 0 0) (page 2))", "plan 1"),
    ("(plan (2 0) (page 4))", "plan 2"),
    ("(plan (2 0) (page 2))", "plan 2"),
    ("(plan (257) (page 65535))", "plan 2"),
    // Not a number like W.
    ("(plan (2 1) (page))", "bad 1"),
    ("(plan (2 1) (page ))", "bad 1"),
    ("(plan (2 1) (page 04))", "bad 1"),
    ("(plan (2 1) (page 00))", "bad 1"),
    ("(plan (2 1) (page 65536))", "bad 1"),
    ("(plan (2 1) (page 65540))", "bad 1"),
    ("(plan (2 1) (page -4))", "bad 1"),
    ("(plan (2 1) (page 4 4))", "bad 1"),
    ("(plan (2 1) (page (4)))", "bad 1"),
    // Not the form.
    ("(plan (2 1)(page 4))", "bad 1"),
    ("(plan (2 1)  (page 4))", "bad 1"),
    ("(plan (2 1) (page  4))", "bad 1"),
    ("(plan (2 1) (page 4 ))", "bad 1"),
    ("(plan (2 1) ( page 4))", "bad 1"),
    ("(plan (2 1) (page 4) )", "bad 1"),
    ("(plan (2 1) (page 4)) ", "bad 1"),
    ("(plan (2 1) (page 4)", "bad 1"),
    ("(plan (2 1)) (page 4)", "bad 1"),
    ("(plan (2 1) page 4)", "bad 1"),
    ("(plan (2 1) 4)", "bad 1"),
    ("(plan (2 1) )", "bad 1"),
    ("(plan (page 4) (2 1))", "bad 1"),
    ("(plan (2 1) (page 4) (page 4))", "bad 1"),
    ("(plan (page 4))", "bad 1"),
];

/// A plan's first line, the lines after it, and what they print after
/// `plan 0`.
const PAGE_CASES: [(&str, &str, &str); 11] = [
    // C1 to C3 with pages; the filler that the cut sets is not shown.
    ("(plan (2 1) (page 4))",
     "(write 0 (0a 0b))\n(step 3)\n(cut (00 d1 d2 d3))\n(show)\n(wake)\n(step 3)\n(show)\n",
     "write 0\nstep 0\ncut 0\n\
      (unit 0 (log 02) (a 0a 0b) (b 00 00))\n(unit 1 (log 01) (a 00) (b 00))\nwake 0\nstep 0\n\
      (unit 0 (log 01) (a 00 00) (b 00 00))\n(unit 1 (log 01) (a 00) (b 00))\n"),
    ("(plan (2 1) (page 4))",
     "(write 0 (0a 0b))\n(step 3)\n(cut (02 d1 d2 d3))\n(wake)\n(step 3)\n(show)\n",
     "write 0\nstep 0\ncut 0\nwake 0\nstep 0\n\
      (unit 0 (log 01) (a 0a 0b) (b 0a 0b))\n(unit 1 (log 01) (a 00) (b 00))\n"),
    ("(plan (2 1) (page 4))",
     "(write 0 (0a 0b))\n(step 4)\n(cut (d0 d1 d2 d3))\n(show)\n(wake)\n(step 3)\n(show)\n",
     "write 0\nstep 0\ncut 0\n\
      (unit 0 (log 04) (a 0a 0b) (b d0 d1))\n(unit 1 (log 01) (a 00) (b 00))\nwake 0\nstep 0\n\
      (unit 0 (log 01) (a 0a 0b) (b 0a 0b))\n(unit 1 (log 01) (a 00) (b 00))\n"),
    // A list of one byte is that byte alone, with a page of 1 and without.
    ("(plan (1))", "(write 0 (0a))\n(step 1)\n(cut (77))\n(show)\n",
     "write 0\nstep 0\ncut 0\n(unit 0 (log 02) (a 77) (b 00))\n"),
    ("(plan (1) (page 1))", "(write 0 (0a))\n(step 1)\n(cut 77)\n(show)\n",
     "write 0\nstep 0\ncut 0\n(unit 0 (log 02) (a 77) (b 00))\n"),
    // Other numbers of bytes, in Ready, Writing, Cold and Recovering; each
    // phase stays as it was.
    ("(plan (1))",
     "(cut ())\n(cut (00 00))\n(write 0 (0a))\n(step 1)\n(cut ())\n(cut (77 77))\n(show)\n\
      (step 1)\n(cut 02)\n(show)\n(cut ())\n(wake)\n(cut (77 77))\n(step 2)\n(show)\n",
     "cut 18\ncut 18\nwrite 0\nstep 0\ncut 18\ncut 18\n(unit 0 (log 02) (a 00) (b 00))\n\
      step 0\ncut 0\n(unit 0 (log 00) (a 0a) (b 00))\ncut 18\nwake 0\ncut 18\nstep 0\n\
      (unit 0 (log 01) (a 0a) (b 0a))\n"),
    ("(plan (1) (page 4))",
     "(cut 00)\n(cut ())\n(cut (00 00 00))\n(cut (00 00 00 00 00))\n(write 0 (0a))\n\
      (cut ff)\n(show)\n(step 2)\n(cut (ff ff ff))\n(show)\n\
      (cut (02 00 00 00))\n(show)\n(cut 00)\n(wake)\n(cut (00))\n(step 2)\n(show)\n",
     "cut 18\ncut 18\ncut 18\ncut 18\nwrite 0\n\
      cut 18\n(unit 0 (log 01) (a 00) (b 00))\nstep 0\ncut 18\n\
      (unit 0 (log 02) (a 0a) (b 00))\n\
      cut 0\n(unit 0 (log 00) (a 0a) (b 00))\ncut 18\nwake 0\ncut 18\nstep 0\n\
      (unit 0 (log 01) (a 0a) (b 0a))\n"),
    // In Cold and Ready a cut with p bytes is accepted and tears nothing.
    ("(plan (1) (page 4))",
     "(cut (ff ff ff ff))\n(write 0 (0a))\n(cut (ff ff ff ff))\n(show)\n(wake)\n(inspect)\n",
     "cut 0\nwrite 5\ncut 0\n(unit 0 (log 01) (a 00) (b 00))\nwake 0\ninspect none\n"),
    // Filler is looked at by no call. Unit 0 of width 5 has its marker at byte
    // 0, A at 4 to 8, B at 12 to 16; unit 1 has them at 20, 24 and 28; the
    // image has 32 bytes.
    ("(plan (5 1) (page 4))",
     "(set 1 02)\n(set 3 ff)\n(set 9 99)\n(set 11 bb)\n(set 17 aa)\n(set 19 99)\n(set 21 08)\n\
      (set 25 55)\n(set 31 ff)\n(inspect)\n(read 0)\n(read 1)\n(cut (00 00 00 00))\n(wake)\n\
      (show)\n(set 32 00)\n",
     "inspect none\nread 0 (00 00 00 00 00)\nread 0 (00)\ncut 0\nwake 0\n\
      (unit 0 (log 01) (a 00 00 00 00 00) (b 00 00 00 00 00))\n\
      (unit 1 (log 01) (a 00) (b 00))\nbad 17\n"),
    // Where the copies lie.
    ("(plan (5 1) (page 4))",
     "(set 4 a0)\n(set 8 a4)\n(set 12 b0)\n(set 16 b4)\n(set 24 a5)\n(set 28 b5)\n(read 0)\n\
      (read 1)\n(show)\n(set 20 08)\n(inspect)\n(read 1)\n(cut (00 00 00 00))\n(wake)\n",
     "read 0 (a0 00 00 00 a4)\nread 0 (a5)\n\
      (unit 0 (log 01) (a a0 00 00 00 a4) (b b0 00 00 00 b4))\n\
      (unit 1 (log 01) (a a5) (b b5))\ninspect unit 1\nread 8\ncut 0\nwake 14\n"),
    // A torn marker takes the first given byte's bits, the others go to filler:
    // 1 to 2 torn with 03 is 2, so this ends old.
    ("(plan (1) (page 8))",
     "(write 0 (0a))\n(cut (03 00 00 00 00 00 00 ff))\n(show)\n(wake)\n(step 2)\n(show)\n",
     "write 0\ncut 0\n(unit 0 (log 02) (a 00) (b 00))\nwake 0\nstep 0\n\
      (unit 0 (log 01) (a 00) (b 00))\n"),
];

/// A plan's first line, the lines after it, and the whole image they leave,
/// page by page.
const IMAGE_CASES: [(&str, &str, &str); 33] = [
    // Format: every byte 0 but the markers.
    ("(plan (2 1))", "", "01 00 00 00 00 01 00 00"),
    ("(plan (2 1) (page 1))", "", "01 00 00 00 00 01 00 00"),
    ("(plan (6 1) (page 4))", "",
     "01000000 00000000 00000000 00000000 00000000 01000000 00000000 00000000"),
    ("(plan (8 9) (page 8))", "",
     "0100000000000000 0000000000000000 0000000000000000 0100000000000000 \
      0000000000000000 0000000000000000 0000000000000000 0000000000000000"),
    ("(plan (1) (page 16))", "",
     "01000000000000000000000000000000 00000000000000000000000000000000 \
      00000000000000000000000000000000"),
    // A page of 1: the store alone is torn.
    ("(plan (2) (page 1))", "(write 0 (a0 a1))\n(step 2)\n(cut d0)\n", "02 a0 d0 00 00"),
    ("(plan (2) (page 1))", "(write 0 (a0 a1))\n(step 6)\n(cut (01))\n", "05 a0 a1 a0 a1"),
    // Unit 0 of width 6 has its marker in page 0, A in pages 1 and 2, B in 3
    // and 4. Its write makes 15 stores: the marker, 6 to A, the marker, 6 to B,
    // the marker. Whole, it leaves all filler as it was.
    ("(plan (6) (page 4))", "(write 0 (a0 a1 a2 a3 a4 a5))\n(step 15)\n",
     "01000000 a0a1a2a3 a4a50000 a0a1a2a3 a4a50000"),
    // Torn markers. 1 to 2 with 02: the 2 is new, the 1 is old.
    ("(plan (6) (page 4))", "(write 0 (a0 a1 a2 a3 a4 a5))\n(cut (02 d1 d2 d3))\n",
     "03d1d2d3 00000000 00000000 00000000 00000000"),
    // 2 to 4 with 06 and with 02.
    ("(plan (6) (page 4))", "(write 0 (a0 a1 a2 a3 a4 a5))\n(step 7)\n(cut (06 d1 d2 d3))\n",
     "04d1d2d3 a0a1a2a3 a4a50000 00000000 00000000"),
    ("(plan (6) (page 4))", "(write 0 (a0 a1 a2 a3 a4 a5))\n(step 7)\n(cut (02 d1 d2 d3))\n",
     "00d1d2d3 a0a1a2a3 a4a50000 00000000 00000000"),
    // 4 to 1 with 01.
    ("(plan (6) (page 4))", "(write 0 (a0 a1 a2 a3 a4 a5))\n(step 14)\n(cut (01 d1 d2 d3))\n",
     "05d1d2d3 a0a1a2a3 a4a50000 a0a1a2a3 a4a50000"),
    // Torn data. The first byte of A, then its third: the two stored before
    // are in the same page and are torn too, and so is the one to come.
    ("(plan (6) (page 4))", "(write 0 (a0 a1 a2 a3 a4 a5))\n(step 1)\n(cut (d0 d1 d2 d3))\n",
     "02000000 d0d1d2d3 00000000 00000000 00000000"),
    ("(plan (6) (page 4))", "(write 0 (a0 a1 a2 a3 a4 a5))\n(step 3)\n(cut (d0 d1 d2 d3))\n",
     "02000000 d0d1d2d3 00000000 00000000 00000000"),
    // The page's last byte, then the next page's first: the page before stays.
    ("(plan (6) (page 4))", "(write 0 (a0 a1 a2 a3 a4 a5))\n(step 4)\n(cut (d0 d1 d2 d3))\n",
     "02000000 d0d1d2d3 00000000 00000000 00000000"),
    ("(plan (6) (page 4))", "(write 0 (a0 a1 a2 a3 a4 a5))\n(step 5)\n(cut (d0 d1 d2 d3))\n",
     "02000000 a0a1a2a3 d0d1d2d3 00000000 00000000"),
    // A's last byte, in a page with one stored before and two of filler.
    ("(plan (6) (page 4))", "(write 0 (a0 a1 a2 a3 a4 a5))\n(step 6)\n(cut (d0 d1 d2 d3))\n",
     "02000000 a0a1a2a3 d0d1d2d3 00000000 00000000"),
    // The same in B: its third byte and its last.
    ("(plan (6) (page 4))", "(write 0 (a0 a1 a2 a3 a4 a5))\n(step 10)\n(cut (d0 d1 d2 d3))\n",
     "04000000 a0a1a2a3 a4a50000 d0d1d2d3 00000000"),
    ("(plan (6) (page 4))", "(write 0 (a0 a1 a2 a3 a4 a5))\n(step 13)\n(cut (d0 d1 d2 d3))\n",
     "04000000 a0a1a2a3 a4a50000 a0a1a2a3 d0d1d2d3"),
    // A refused cut tears nothing, and the write goes on to its end.
    ("(plan (6) (page 4))", "(write 0 (a0 a1 a2 a3 a4 a5))\n(step 3)\n(cut (d0 d1 d2))\n",
     "02000000 a0a10000 00000000 00000000 00000000"),
    ("(plan (6) (page 4))", "(write 0 (a0 a1 a2 a3 a4 a5))\n(step 3)\n(cut d0)\n(step 12)\n",
     "01000000 a0a1a2a3 a4a50000 a0a1a2a3 a4a50000"),
    // Repair from B to A. It makes good the data of a torn page, not the filler.
    ("(plan (6) (page 4))",
     "(write 0 (a0 a1 a2 a3 a4 a5))\n(step 6)\n(cut (d0 d1 d2 d3))\n(wake)\n(step 7)\n",
     "01000000 00000000 0000d2d3 00000000 00000000"),
    // The repair torn at A's second byte and at its last one.
    ("(plan (6) (page 4))",
     "(write 0 (a0 a1 a2 a3 a4 a5))\n(step 6)\n(cut (d0 d1 d2 d3))\n\
      (wake)\n(step 1)\n(cut (e0 e1 e2 e3))\n",
     "02000000 e0e1e2e3 d0d1d2d3 00000000 00000000"),
    ("(plan (6) (page 4))",
     "(write 0 (a0 a1 a2 a3 a4 a5))\n(step 6)\n(cut (d0 d1 d2 d3))\n\
      (wake)\n(step 5)\n(cut (e0 e1 e2 e3))\n",
     "02000000 00000000 e0e1e2e3 00000000 00000000"),
    // The repair torn at its marker: 2 to 1 with 02 is 0.
    ("(plan (6) (page 4))",
     "(write 0 (a0 a1 a2 a3 a4 a5))\n(step 6)\n(cut (d0 d1 d2 d3))\n\
      (wake)\n(step 6)\n(cut (02 e1 e2 e3))\n",
     "00e1e2e3 00000000 0000d2d3 00000000 00000000"),
    // Repair from A to B, torn at B's fourth byte, then whole.
    ("(plan (6) (page 4))",
     "(write 0 (a0 a1 a2 a3 a4 a5))\n(step 8)\n(cut (d0 d1 d2 d3))\n\
      (wake)\n(step 3)\n(cut (e0 e1 e2 e3))\n",
     "04000000 a0a1a2a3 a4a50000 e0e1e2e3 00000000"),
    ("(plan (6) (page 4))",
     "(write 0 (a0 a1 a2 a3 a4 a5))\n(step 8)\n(cut (d0 d1 d2 d3))\n\
      (wake)\n(step 3)\n(cut (e0 e1 e2 e3))\n(wake)\n(step 7)\n",
     "01000000 a0a1a2a3 a4a50000 a0a1a2a3 a4a50000"),
    // A cut that tears nothing leaves filler as it is too.
    ("(plan (1) (page 4))",
     "(write 0 (a0))\n(cut (00 d1 d2 d3))\n(cut (ff e1 e2 e3))\n(wake)\n(cut (ff e1 e2 e3))\n",
     "01d1d2d3 00000000 00000000"),
    // The second unit, whose pages are 5, 6 and 7: its own page alone is torn.
    ("(plan (6 1) (page 4))", "(write 1 (b0))\n(step 1)\n(cut (d0 d1 d2 d3))\n",
     "01000000 00000000 00000000 00000000 00000000 02000000 d0d1d2d3 00000000"),
    // Pages of 8 and 16, first late in a page that is all data or nearly.
    ("(plan (9) (page 8))",
     "(write 0 (a0 a1 a2 a3 a4 a5 a6 a7 a8))\n(step 6)\n(cut (d0 d1 d2 d3 d4 d5 d6 d7))\n",
     "0200000000000000 d0d1d2d3d4d5d6d7 0000000000000000 0000000000000000 0000000000000000"),
    ("(plan (15) (page 16))",
     "(write 0 (a0 a1 a2 a3 a4 a5 a6 a7 a8 a9 aa ab ac ad ae))\n(step 15)\n\
      (cut (d0 d1 d2 d3 d4 d5 d6 d7 d8 d9 da db dc dd de df))\n",
     "02000000000000000000000000000000 d0d1d2d3d4d5d6d7d8d9dadbdcdddedf \
      00000000000000000000000000000000"),
    // The last page of copy A and of copy B.
    ("(plan (9) (page 8))",
     "(write 0 (a0 a1 a2 a3 a4 a5 a6 a7 a8))\n(step 9)\n(cut (d0 d1 d2 d3 d4 d5 d6 d7))\n",
     "0200000000000000 a0a1a2a3a4a5a6a7 d0d1d2d3d4d5d6d7 0000000000000000 0000000000000000"),
    ("(plan (2) (page 16))",
     "(write 0 (a0 a1))\n(step 5)\n(cut (d0 d1 d2 d3 d4 d5 d6 d7 d8 d9 da db dc dd de df))\n",
     "04000000000000000000000000000000 a0a10000000000000000000000000000 \
      d0d1d2d3d4d5d6d7d8d9dadbdcdddedf"),
];

/// Lines that are bad in both modes.
const BAD_LINES: [&str; 40] = [
    "(drive 65536 0)", "(drive 1 65536)", "(read 65536)", "(set 8 00)", "(set 0 0)", "(set 0 AB)",
    "(drive 01 0)", "(drive 1)", "(drive 1 2 3)", "(drive  1 2)", "(drives )", "(drives 1)",
    "(read)", "(read 0) ", "(inspect 0)", "(inspect", "(set -1 00)", "(set 0 000)",
    "(cut)", "(cut )", "(cut 0)", "(cut 000)", "(cut 00 00)", "(cut 00))", "(cut(00))",
    "(cut  (00))", "(cut ((00)))", "(cut (0))", "(cut (000))", "(cut (0A))", "(cut (00 ))",
    "(cut ( 00))", "(cut (00  00))", "(cut (0000))", "(cut (00,00))", "(cut (00 00)", "(cut (00) )",
    "(cut (00) (00))", "(page 4)",
    "(cut (00 01 02 03 04 05 06 07 08 09 0a 0b 0c 0d 0e 0f 10))", // 17 bytes
];

/// Cuts of other than one byte, the most that can be written among them.
const REFUSED_CUTS: [&str; 3] =
    ["(cut ())", "(cut (00 01))", "(cut (00 01 02 03 04 05 06 07 08 09 0a 0b 0c 0d 0e 0f))"];

/// Lines that are good in the mode `looks` and bad in the bench program.
const LOOK_LINES: [&str; 5] =
    ["(drive 65535 65535)", "(drives)", "(read 65535)", "(inspect)", "(set 7 ff)"];

/// Widths, page, whether it is grouped, and calls with what each line of the
/// mode `lists` has after the call's word; the device is formatted before.
/// These words of the self-test are no calls:
///
/// - `set I HH ..` puts bytes into the image from byte I on; `hold I HH ..`
///   does so in the payload;
/// - `cold`, `ready`, `writing U N`, `recovering U N` (A to B), `grouping W N`,
///   `stores N` and `ungrouped` change the device by hand;
/// - `ROLE rights N ..` gives a role rights by hand, unit after unit as a list
///   has them, and nothing on those left;
/// - `image` gives the whole image, a space between pages, and `payload` the
///   payload up to its last byte that isn't 0.
///
/// `ROLE` is `rider`, `gym` or `service`. `ROLE begin ..` and `ROLE read U` are
/// calls of a list; a begin without a role is by service, who has every right
/// at first, and `read U` without one is a line of the mode `looks`. `step N`
/// makes N steps and gives the last one's line; `HH*N` is N bytes HH.
type GroupCase = (&'static [u16], u16, bool, &'static [(&'static str, &'static str)]);

const GROUP_CASES: &[GroupCase] = &[
    // ---- The plan (1 1 5): markers at 0, 3 and 6; copies A at 1, 4 and 7 to
    // 11; copies B at 2, 5 and 12 to 16. The record 02 00 33 01 44 just fits. A
    // group is 13 + 5 + 5 + 13 = 36 stores, written again it is 23.
    // A whole group.
    (&[1, 1, 5], 1, true, &[
        ("image", "01 00 00 01 00 00 01 00 00 00 00 00 00 00 00 00 00"),
        ("group 00 33 01 44", "0 Grouping 0 0 0"),
        ("payload", "02 00 33 01 44"),
        ("image", "01 00 00 01 00 00 01 00 00 00 00 00 00 00 00 00 00"),
        ("step 6", "0 Grouping 0 6 6"),
        ("image", "01 00 00 01 00 00 02 02 00 33 01 44 00 00 00 00 00"),
        ("step", "0 Grouping 0 7 7"),
        ("image", "01 00 00 01 00 00 04 02 00 33 01 44 00 00 00 00 00"),
        ("step 5", "0 Grouping 0 12 12"),
        ("step", "0 Grouping 1 0 13"),
        ("image", "01 00 00 01 00 00 01 02 00 33 01 44 02 00 33 01 44"),
        ("step 2", "0 Grouping 1 2 15"),
        ("image", "02 33 00 01 00 00 01 02 00 33 01 44 02 00 33 01 44"),
        ("step 3", "0 Grouping 2 0 18"),
        ("image", "01 33 33 01 00 00 01 02 00 33 01 44 02 00 33 01 44"),
        ("step 4", "0 Grouping 2 4 22"),
        ("image", "01 33 33 04 44 44 01 02 00 33 01 44 02 00 33 01 44"),
        ("step", "0 Grouping 3 0 23"),
        ("step 2", "0 Grouping 3 2 25"),
        ("image", "01 33 33 01 44 44 02 00 00 33 01 44 02 00 33 01 44"),
        ("step 10", "0 Grouping 3 12 35"),
        ("payload", "02 00 33 01 44"),
        ("step", "0 Ready 36"),
        ("payload", "02 00 33 01 44"),
        ("image", "01 33 33 01 44 44 01 00 00 00 00 00 00 00 00 00 00"),
        ("step", "5 Ready 36"),
    ]),
    // The members in the order of the bytes, not of the units.
    (&[1, 1, 5], 1, true, &[
        ("group 01 44 00 33", "0 Grouping 0 0 0"),
        ("step 15", "0 Grouping 1 2 15"),
        ("image", "01 00 00 02 44 00 01 02 01 44 00 33 02 01 44 00 33"),
        ("step 5", "0 Grouping 2 2 20"),
        ("image", "02 33 00 01 44 44 01 02 01 44 00 33 02 01 44 00 33"),
    ]),
    // F2: the record's write has passed, and the record ends as zeros. A12:
    // from the cleanup straight to the members, with no Ready between; that
    // step sets the payload, the wake does not.
    (&[1, 1, 5], 1, true, &[
        ("group 00 33 01 44", "0 Grouping 0 0 0"),
        ("step 7", "0 Grouping 0 7 7"),
        ("cut 99", "0 Cold 7"),
        ("image", "01 00 00 01 00 00 04 02 00 33 01 44 99 00 00 00 00"),
        ("payload", ""),
        ("wake", "0 Recovering 2 0 AToB 7"),
        ("payload", ""),
        ("step 5", "0 Recovering 2 5 AToB 12"),
        ("payload", ""),
        ("step", "0 Grouping 1 0 13"),
        ("payload", "02 00 33 01 44"),
        ("step 22", "0 Grouping 3 12 35"),
        ("step", "0 Ready 36"),
        ("image", "01 33 33 01 44 44 01 00 00 00 00 00 00 00 00 00 00"),
        ("payload", "02 00 33 01 44"),
        ("step", "5 Ready 36"),
    ]),
    // The record's store 7 torn off 2, to 0: 6 + 23 = 29 steps.
    (&[1, 1, 5], 1, true, &[
        ("group 00 33 01 44", "0 Grouping 0 0 0"),
        ("step 6", "0 Grouping 0 6 6"),
        ("cut 02", "0 Cold 6"),
        ("image", "01 00 00 01 00 00 00 02 00 33 01 44 00 00 00 00 00"),
        ("wake", "0 Recovering 2 0 AToB 6"),
        ("step 6", "0 Grouping 1 0 12"),
        ("step 22", "0 Grouping 3 12 34"),
        ("step", "0 Ready 35"),
        ("image", "01 33 33 01 44 44 01 00 00 00 00 00 00 00 00 00 00"),
    ]),
    // F4: the same store torn and still 2. Copy A shows the record, but it
    // will not stand: 6 steps, and all is old.
    (&[1, 1, 5], 1, true, &[
        ("group 00 33 01 44", "0 Grouping 0 0 0"),
        ("step 6", "0 Grouping 0 6 6"),
        ("cut f9", "0 Cold 6"),
        ("image", "01 00 00 01 00 00 02 02 00 33 01 44 00 00 00 00 00"),
        ("wake", "0 Recovering 2 0 BToA 6"),
        ("step 5", "0 Recovering 2 5 BToA 11"),
        ("step", "0 Ready 12"),
        ("payload", ""),
        ("image", "01 00 00 01 00 00 01 00 00 00 00 00 00 00 00 00 00"),
    ]),
    // F4: after the whole record all markers are 1, and it is 23 steps. A12:
    // here wake itself goes on, and sets the payload.
    (&[1, 1, 5], 1, true, &[
        ("group 00 33 01 44", "0 Grouping 0 0 0"),
        ("step 13", "0 Grouping 1 0 13"),
        ("cut 00", "0 Cold 13"),
        ("image", "01 00 00 01 00 00 01 02 00 33 01 44 02 00 33 01 44"),
        ("payload", ""),
        ("wake", "0 Grouping 1 0 13"),
        ("payload", "02 00 33 01 44"),
        ("step 22", "0 Grouping 3 12 35"),
        ("step", "0 Ready 36"),
        ("image", "01 33 33 01 44 44 01 00 00 00 00 00 00 00 00 00 00"),
    ]),
    // F4: in the zeros' write copy A is all zeros, but the marker still 2; it
    // will stand, and the members are written again: 6 + 23 steps.
    (&[1, 1, 5], 1, true, &[
        ("group 00 33 01 44", "0 Grouping 0 0 0"),
        ("step 29", "0 Grouping 3 6 29"),
        ("cut 00", "0 Cold 29"),
        ("image", "01 33 33 01 44 44 02 00 00 00 00 00 02 00 33 01 44"),
        ("wake", "0 Recovering 2 0 BToA 29"),
        ("step 6", "0 Grouping 1 0 35"),
        ("image", "01 33 33 01 44 44 01 02 00 33 01 44 02 00 33 01 44"),
        ("step 22", "0 Grouping 3 12 57"),
        ("step", "0 Ready 58"),
        ("image", "01 33 33 01 44 44 01 00 00 00 00 00 00 00 00 00 00"),
    ]),
    // One store on the zeros have passed, and the cleanup alone is left. The
    // same if the store is torn off 2, here to 6.
    (&[1, 1, 5], 1, true, &[
        ("group 00 33 01 44", "0 Grouping 0 0 0"),
        ("step 30", "0 Grouping 3 7 30"),
        ("cut 88", "0 Cold 30"),
        ("image", "01 33 33 01 44 44 04 00 00 00 00 00 88 00 33 01 44"),
        ("wake", "0 Recovering 2 0 AToB 30"),
        ("step 6", "0 Ready 36"),
        ("image", "01 33 33 01 44 44 01 00 00 00 00 00 00 00 00 00 00"),
    ]),
    (&[1, 1, 5], 1, true, &[
        ("group 00 33 01 44", "0 Grouping 0 0 0"),
        ("step 29", "0 Grouping 3 6 29"),
        ("cut 04", "0 Cold 29"),
        ("image", "01 33 33 01 44 44 06 00 00 00 00 00 02 00 33 01 44"),
        ("wake", "0 Recovering 2 0 AToB 29"),
        ("step 6", "0 Ready 35"),
    ]),
    // Cut in a member's write, whose own cleanup goes back to the old byte;
    // then it is written again all the same. Cut once more in there, at store
    // 10 of the members: unit 1's last marker, 4 to 1 torn to 5.
    (&[1, 1, 5], 1, true, &[
        ("group 00 33 01 44", "0 Grouping 0 0 0"),
        ("step 15", "0 Grouping 1 2 15"),
        ("cut 00", "0 Cold 15"),
        ("image", "02 33 00 01 00 00 01 02 00 33 01 44 02 00 33 01 44"),
        ("wake", "0 Recovering 0 0 BToA 15"),
        ("step", "0 Recovering 0 1 BToA 16"),
        ("step", "0 Grouping 1 0 17"),
        ("image", "01 00 00 01 00 00 01 02 00 33 01 44 02 00 33 01 44"),
        ("step 9", "0 Grouping 2 4 26"),
        ("cut 01", "0 Cold 26"),
        ("image", "01 33 33 05 44 44 01 02 00 33 01 44 02 00 33 01 44"),
        ("wake", "0 Recovering 1 0 AToB 26"),
        ("step 2", "0 Grouping 1 0 28"),
        ("step 22", "0 Grouping 3 12 50"),
        ("step", "0 Ready 51"),
        ("image", "01 33 33 01 44 44 01 00 00 00 00 00 00 00 00 00 00"),
    ]),
    // Calls that a group phase refuses, and that change nothing; 5 is before
    // 6, 16 and 19. Inspect works.
    (&[1, 1, 5], 1, true, &[
        ("group 00 33 01 44", "0 Grouping 0 0 0"),
        ("step", "0 Grouping 0 1 1"),
        ("group 00 33 01 44", "5 Grouping 0 1 1"),
        ("group", "5 Grouping 0 1 1"),
        ("begin 0 55", "5 Grouping 0 1 1"),
        ("begin 2", "5 Grouping 0 1 1"),
        ("begin 3", "5 Grouping 0 1 1"),
        ("ride 1", "5 Grouping 0 1 1"),
        ("wake", "5 Grouping 0 1 1"),
        ("format", "5 Grouping 0 1 1"),
        ("cut", "18 Grouping 0 1 1"),
        ("cut 00 00", "18 Grouping 0 1 1"),
        ("read 0", "5"),
        ("inspect", "unit 2"),
        ("payload", "02 00 33 01 44"),
        ("image", "01 00 00 01 00 00 02 00 00 00 00 00 00 00 00 00 00"),
        ("cut 00", "0 Cold 1"),
        ("group 00 33 01 44", "5 Cold 1"),
        ("group", "5 Cold 1"),
        ("step", "5 Cold 1"),
    ]),
    // The record takes no begin, whatever the length (A1); 6 is before it, 8
    // after it. It may be read (A5). An ungrouped device has no record.
    (&[1, 1, 5], 1, true, &[
        ("begin 2 01 02 03 04 05", "20 Ready 0"),
        ("begin 2 01", "20 Ready 0"),
        ("begin 3 01", "6 Ready 0"),
        ("begin 1", "7 Ready 0"),
        ("read 2", "0 (00 00 00 00 00)"),
        ("set 6 02", ""),
        ("begin 2 01 02 03 04 05", "20 Ready 0"),
        ("read 2", "8"),
        ("begin 1 07", "0 Writing 1 0 0"),
    ]),
    (&[1, 1, 5], 1, false, &[
        ("begin 2 01", "7 Ready 0"),
        ("begin 2 01 02 03 04 05", "0 Writing 2 0 0"),
        ("step 13", "0 Ready 13"),
        ("image", "01 00 00 01 00 00 01 01 02 03 04 05 01 02 03 04 05"),
    ]),
    // ---- Group answers on (1 2 6): markers at 0, 3 and 8. 19 first.
    (&[1, 2, 6], 1, true, &[
        ("group", "19 Ready 0"),
        ("group 00", "19 Ready 0"),
        ("group 00 0a", "19 Ready 0"),
        ("group 00 0a 01", "19 Ready 0"),
        ("group 00 0a 01 0b", "19 Ready 0"),
        ("group 00 0a 01 0b 0c 00", "19 Ready 0"),
        ("group 00 0a 01 0b 0c 0d", "19 Ready 0"),
        ("group 00 0a 03 0b", "19 Ready 0"),
        ("group 00 0a ff 0b", "19 Ready 0"),
        ("group 03 0a 00 0b", "19 Ready 0"),
        ("group 00 0a 00 0b 03 0c", "19 Ready 0"),
        ("group 00 01 00 02 00 03 00 04 00 05", "19 Ready 0"),
        ("group 00 01 02 00 00 00 00 00", "19 Ready 0"),
        // Then 20.
        ("group 00 0a 00 0b", "20 Ready 0"),
        ("group 00 01 00 02 00 03 00 04", "20 Ready 0"),
        ("group 01 01 02 00 0a 01 03 04", "20 Ready 0"),
        ("group 00 01 02 00 00 00 00 00 00", "20 Ready 0"),
        ("group 02 00 00 00 00 00 00 00 01", "20 Ready 0"),
        // 19 to 21 before 8.
        ("set 0 00 00 00 02 00 00 00 00 07", ""),
        ("group 00 0a", "19 Ready 0"),
        ("group 00 0a 00 0b", "20 Ready 0"),
        ("group 00 0a 01 0b 0c", "8 Ready 0"),
        ("set 0 01", ""),
        ("group 00 0a 01 0b 0c", "8 Ready 0"),
        ("set 3 01", ""),
        ("group 00 0a 01 0b 0c", "8 Ready 0"),
        ("set 8 01", ""),
        ("set 3 08", ""),
        ("group 00 0a 01 0b 0c", "8 Ready 0"),
        ("set 3 01", ""),
        ("payload", ""),
        ("group 00 0a 01 0b 0c", "0 Grouping 0 0 0"),
        ("payload", "02 00 0a 01 0b 0c"),
    ]),
    // 21 last of the three, and before 8. One byte wider is enough (A7, above).
    (&[1, 2, 5], 1, true, &[
        ("group 00 0a 01 0b 0c", "21 Ready 0"),
        ("group 01 0b 0c 00 0a", "21 Ready 0"),
        ("group 00 0a 00 0b", "20 Ready 0"),
        ("group 00 0a 02 00 00 00 00 00", "20 Ready 0"),
        ("set 0 00", ""),
        ("group 00 0a 01 0b 0c", "21 Ready 0"),
    ]),
    // No record (A6): the last unit is one like the others.
    (&[1, 2, 6], 1, false, &[
        ("group 00 0a", "19 Ready 0"),
        ("group 00 0a 03 0b", "19 Ready 0"),
        ("group 00 0a 00 0b", "20 Ready 0"),
        ("group 00 0a 01 0b 0c", "21 Ready 0"),
        ("group 00 01 02 00 00 00 00 00 00", "21 Ready 0"),
        ("set 0 00", ""),
        ("group 00 0a 01 0b 0c", "21 Ready 0"),
    ]),
    // One unit, which is the record: below k, so never 19 for its number.
    (&[1], 1, true, &[
        ("group 00 01 00 02", "20 Ready 0"),
        ("group 00 01", "19 Ready 0"),
        ("group 00 01 01 02", "19 Ready 0"),
        ("begin 0 01", "20 Ready 0"),
        ("begin 1 01", "6 Ready 0"),
    ]),
    // 8 only for the record or a member: units at 0, 3, 6 and 9.
    (&[1, 1, 1, 5], 1, true, &[
        ("set 0 00", ""),
        ("group 01 0b 02 0c", "0 Grouping 0 0 0"),
        ("ready", ""),
        ("group 01 0b 00 0a", "8 Ready 0"),
        ("set 0 01", ""),
        ("set 9 03", ""),
        ("group 01 0b 02 0c", "8 Ready 0"),
    ]),
    // Four members of five, and payloads that look like headers; the record
    // has room for 9 bytes and more, so that zeros follow.
    (&[1, 1, 1, 1, 1, 11], 1, true, &[
        ("group 04 04 03 00 00 03 01 01", "0 Grouping 0 0 0"),
        ("payload", "04 04 04 03 00 00 03 01 01"),
        ("step 25", "0 Grouping 1 0 25"),
        ("step 20", "0 Grouping 5 0 45"),
        ("step 25", "0 Ready 70"),
        ("image", "01 03 03 01 01 01 01 00 00 01 00 00 01 04 04 \
                   01 00 00 00 00 00 00 00 00 00 00 00 00 00 00 00 00 00 00 00 00 00 00"),
        ("group 00 00 01 01 02 02 03 03 04 04", "19 Ready 70"),
    ]),
    // The greatest record, 1 + 3 + 252 = 256 bytes: 515 + 7 + 505 + 515 stores.
    // With one byte more it is 21.
    (&[251, 2, 256], 1, true, &[
        ("group 01 0b 0c 00 0a*251", "0 Grouping 0 0 0"),
        ("payload", "02 01 0b 0c 00 0a*251"),
        ("step 515", "0 Grouping 1 0 515"),
        ("step 7", "0 Grouping 2 0 522"),
        ("step 505", "0 Grouping 3 0 1027"),
        ("cut 00", "0 Cold 1027"),
        ("wake", "0 Grouping 1 0 1027"),
        ("payload", "02 01 0b 0c 00 0a*251"),
        ("step 1026", "0 Grouping 3 514 2053"),
        ("step", "0 Ready 2054"),
        ("image", "01 0a*502 01 0b 0c 0b 0c 01 00*512"),
    ]),
    (&[252, 2, 256], 1, true, &[
        ("group 01 0b 0c 00 0a*252", "21 Ready 0"),
        ("group 01 0b 0c 00 0a*251", "19 Ready 0"),
        ("group 00 0a*252", "19 Ready 0"),
    ]),
    // ---- Records that are passed over (A14), put in by hand: copy A of (1 1 6)
    // is at 7 to 12, copy B at 13 to 18.
    (&[1, 1, 6], 1, true, &[
        ("cold", ""),
        ("set 7 02 00 33 01 44 00", ""),
        ("wake", "0 Grouping 1 0 0"), // copy A alone is looked at
        ("payload", "02 00 33 01 44"),
        ("cold", ""),
        ("set 7 02 01 33 00 44 00", ""),
        ("wake", "0 Grouping 1 0 0"),
        ("payload", "02 01 33 00 44"),
        ("cold", ""),
        ("set 7 02 00 33 01 44 07", ""), // not zeros after the members
        ("wake", "0 Ready 0"),
        ("payload", "02 01 33 00 44"),
        ("cold", ""),
        ("set 7 02 00 33 00 44 00", ""), // a unit twice
        ("wake", "0 Ready 0"),
        ("cold", ""),
        ("set 7 01 00 33 00 00 00", ""), // one member
        ("wake", "0 Ready 0"),
        ("cold", ""),
        ("set 7 03 00 33 01 44 00", ""), // the third is cut off
        ("wake", "0 Ready 0"),
        ("cold", ""),
        ("set 7 00 00 33 01 44 00", ""),
        ("wake", "0 Ready 0"),
        ("cold", ""),
        ("set 7 ff 00 33 01 44 00", ""),
        ("wake", "0 Ready 0"),
        ("cold", ""),
        ("set 7 02 00 33 02 44 00", ""), // the record itself
        ("wake", "0 Ready 0"),
        ("cold", ""),
        ("set 7 02 00 33 03 44 00", ""), // no unit
        ("wake", "0 Ready 0"),
        ("image", "01 00 00 01 00 00 01 02 00 33 03 44 00 00 00 00 00 00 00"),
        ("cold", ""),
        ("set 7 00 00 00 00 00 00 02 00 33 01 44 00", ""), // only in copy B
        ("wake", "0 Ready 0"),
        ("cold", ""),
        ("set 6 02", ""), // now copied from B to A: it stands
        ("wake", "0 Recovering 2 0 BToA 0"),
        ("step 7", "0 Grouping 1 0 7"),
        ("payload", "02 00 33 01 44"),
        ("cold", ""),
        ("set 0 08", ""), // foreign
        ("wake", "14 Cold 7"),
        ("set 0 01", ""),
        ("ungrouped", ""),
        ("wake", "0 Ready 7"),
    ]),
    // Four members and five, on (1 1 1 1 1 11): copy A at 16 to 26. Unit 5 is
    // the record, unit 4 the highest that a group may have.
    (&[1, 1, 1, 1, 1, 11], 1, true, &[
        ("cold", ""),
        ("set 16 04 00 0a 01 0b 02 0c 04 0d 00 00", ""),
        ("wake", "0 Grouping 1 0 0"),
        ("step 20", "0 Grouping 5 0 20"),
        ("cold", ""),
        ("set 16 05 00 0a 01 0b 02 0c 03 0d 04 0e", ""),
        ("wake", "0 Ready 20"),
        ("cold", ""),
        ("set 16 03 00 0a 01 0b 04 0c 00 00 00 00", ""),
        ("wake", "0 Grouping 1 0 20"),
        ("step 15", "0 Grouping 4 0 35"),
        ("cold", ""),
        ("set 16 03 00 0a 01 0b 05 0c 00 00 00 00", ""),
        ("wake", "0 Ready 35"),
        // A count less than the members: the third is not zeros.
        ("cold", ""),
        ("set 16 02 00 0a 01 0b 04 0c 00 00 00 00", ""),
        ("wake", "0 Ready 35"),
        // A count more: the zeros after are unit 0 with 0, here not twice.
        ("cold", ""),
        ("set 16 03 04 0a 01 0b 00 00 00 00 00 00", ""),
        ("wake", "0 Grouping 1 0 35"),
        ("step 15", "0 Grouping 4 0 50"),
    ]),
    // A wake over bad markers leaves the payload, and so does a step to the
    // next cleanup (A12); the last of them sets it. Two units, by hand.
    (&[1, 1, 5], 1, true, &[
        ("cold", ""),
        ("set 7 02 00 33 01 44", ""),
        ("set 0 04", ""),
        ("set 3 02", ""),
        ("hold 0 aa bb", ""),
        ("wake", "0 Recovering 0 0 AToB 0"),
        ("payload", "aa bb"),
        ("step 2", "0 Recovering 1 0 BToA 2"),
        ("payload", "aa bb"),
        ("step 2", "0 Grouping 1 0 4"),
        ("payload", "02 00 33 01 44"),
        // And to Ready it stays.
        ("cold", ""),
        ("set 7 00", ""),
        ("wake", "0 Ready 4"),
        ("payload", "02 00 33 01 44"),
    ]),
    // A13: only higher units are looked at, so unit 0 may still be bad; it is
    // written all the same.
    (&[1, 1, 5], 1, true, &[
        ("set 0 00", ""),
        ("set 3 04", ""),
        ("set 7 02 00 33 01 44", ""),
        ("recovering 1 0", ""),
        ("step 2", "0 Grouping 1 0 2"),
        ("step 5", "0 Grouping 2 0 7"),
        ("image", "01 33 33 01 00 00 01 02 00 33 01 44 00 00 00 00 00"),
    ]),
    // A16: a write's last store goes to Ready, whatever the record. A15: and
    // a write of the record itself, begun by hand, is none that 4 refuses.
    (&[1, 1, 5], 1, true, &[
        ("set 7 02 00 33 01 44", ""),
        ("begin 0 09", "0 Writing 0 0 0"),
        ("step 5", "0 Ready 5"),
        ("payload", "09"),
        ("hold 0 11 12 13 14 15", ""),
        ("writing 2 0", ""),
        ("step 12", "0 Writing 2 12 17"),
        ("step", "0 Ready 18"),
        ("image", "01 09 09 01 00 00 01 11 12 13 14 15 11 12 13 14 15"),
        ("writing 2 13", ""),
        ("step", "4 Writing 2 13 18"),
    ]),
    // ---- 4 for a group phase, in every call.
    (&[1, 1, 5], 1, true, &[
        ("grouping 1 0", ""), // the payload is zeros
        ("step", "4 Grouping 1 0 0"),
        ("cut 00", "4 Grouping 1 0 0"),
        ("cut", "4 Grouping 1 0 0"),
        ("wake", "4 Grouping 1 0 0"),
        ("format", "4 Grouping 1 0 0"),
        ("begin 0 01", "4 Grouping 1 0 0"),
        ("ride 1", "4 Grouping 1 0 0"),
        ("group 00 33 01 44", "4 Grouping 1 0 0"),
        ("read 0", "4"),
        ("inspect", "refused 4"),
        ("hold 0 02 00 33 01 44", ""),
        ("step", "0 Grouping 1 1 1"),
        ("inspect", "unit 0"),
        ("grouping 0 12", ""), // the record's last store
        ("step", "0 Grouping 1 0 2"),
        ("grouping 0 13", ""),
        ("step", "4 Grouping 0 13 2"),
        ("grouping 1 4", ""), // a member's
        ("step", "0 Grouping 2 0 3"),
        ("grouping 1 5", ""),
        ("step", "4 Grouping 1 5 3"),
        ("grouping 3 12", ""), // the zeros'
        ("step", "0 Ready 4"),
        ("grouping 3 13", ""),
        ("step", "4 Grouping 3 13 4"),
        ("grouping 4 0", ""), // past the last write
        ("step", "4 Grouping 4 0 4"),
        ("wake", "4 Grouping 4 0 4"),
        ("grouping 2 0", ""),
        ("hold 5 01", ""), // not zeros past the record's width
        ("step", "4 Grouping 2 0 4"),
        ("hold 5 00", ""),
        ("hold 255 01", ""),
        ("step", "4 Grouping 2 0 4"),
        ("hold 255 00", ""),
        ("hold 0 02 00 33 00 44", ""), // a unit twice
        ("step", "4 Grouping 2 0 4"),
        ("hold 0 02 00 33 02 44", ""), // the record
        ("step", "4 Grouping 2 0 4"),
        ("hold 0 01 00 33 00 00", ""),
        ("step", "4 Grouping 2 0 4"),
        ("hold 0 02 01 33 00 44", ""),
        ("step", "0 Grouping 2 1 5"),
        ("ungrouped", ""),
        ("step", "4 Grouping 2 1 5"),
        ("cut 00", "4 Grouping 2 1 5"),
    ]),
    // A payload that is too wide for the record (21).
    (&[1, 1, 4], 1, true, &[
        ("hold 0 02 00 33 01 44", ""),
        ("grouping 1 0", ""),
        ("step", "4 Grouping 1 0 0"),
    ]),
    // 8 plays no part in it.
    (&[1, 1, 5], 1, true, &[
        ("hold 0 02 00 33 01 44", ""),
        ("set 0 07", ""),
        ("set 3 08", ""),
        ("grouping 1 0", ""),
        ("step", "0 Grouping 1 1 1"),
    ]),
    // ---- Ticket 7. The total has marker 0, A at 1 to 8, B at 9 to 16, and its
    // write has 19 stores.
    (&[8], 1, false, &[
        ("ride 258", "0 Writing 0 0 0"),
        ("payload", "02 01"),
        ("step 19", "0 Ready 19"),
        ("image", "01 02 01 00 00 00 00 00 00 02 01 00 00 00 00 00 00"),
        ("ride 0", "0 Writing 0 0 19"),
        ("ride 0", "5 Writing 0 0 19"),
        ("payload", "02 01"),
        ("step 9", "0 Writing 0 9 28"),
        ("cut 00", "0 Cold 28"),
        ("ride 0", "5 Cold 28"),
        ("wake", "0 Recovering 0 0 BToA 28"),
        ("ride 0", "5 Recovering 0 0 BToA 28"),
        ("step 9", "0 Ready 37"),
        ("ride 254", "0 Writing 0 0 37"),
        ("payload", "00 02"),
        ("step 10", "0 Writing 0 10 47"),
        ("cut 00", "0 Cold 47"), // it has passed
        ("wake", "0 Recovering 0 0 AToB 47"),
        ("step 9", "0 Ready 56"),
        ("ride 18446744073709551103", "0 Writing 0 0 56"), // 2^64 - 513
        ("payload", "ff ff ff ff ff ff ff ff"),
        ("step 19", "0 Ready 75"),
        ("ride 1", "15 Ready 75"),
        ("ride 18446744073709551615", "15 Ready 75"),
        ("ride 0", "0 Writing 0 0 75"),
        ("step 19", "0 Ready 94"),
        ("set 0 00", ""), // 15 after 8
        ("ride 1", "8 Ready 94"),
        ("ride 0", "8 Ready 94"),
    ]),
    // The total is copy A's, lowest byte first.
    (&[8], 1, false, &[
        ("set 1 05 00 00 00 00 00 00 01 07 00 00 00 00 00 00 02", ""),
        ("ride 1", "0 Writing 0 0 0"),
        ("payload", "06 00 00 00 00 00 00 01"),
    ]),
    (&[8], 4, false, &[
        ("set 4 ff ff ff 00 00 00 00 01", ""),
        ("ride 2", "0 Writing 0 0 0"),
        ("payload", "01 00 00 01 00 00 00 01"),
    ]),
    // 16 after 5, before 20 and 8 (A2); 20 before 8 and 15.
    (&[7, 8], 1, false, &[
        ("ride 1", "16 Ready 0"),
        ("set 0 00", ""),
        ("ride 1", "16 Ready 0"),
        ("cut 00", "0 Cold 0"),
        ("ride 1", "5 Cold 0"),
    ]),
    (&[9], 1, true, &[("ride 1", "16 Ready 0")]),
    (&[8], 1, true, &[
        ("ride 1", "20 Ready 0"),
        ("set 0 00 ff ff ff ff ff ff ff ff", ""),
        ("ride 1", "20 Ready 0"),
        ("cut 00", "0 Cold 0"),
        ("ride 1", "5 Cold 0"),
    ]),
    (&[8, 1], 1, true, &[
        ("ride 7", "0 Writing 0 0 0"),
        ("step 19", "0 Ready 19"),
        ("image", "01 07 00 00 00 00 00 00 00 07 00 00 00 00 00 00 00 01 00 00"),
        ("set 0 00 ff ff ff ff ff ff ff ff", ""),
        ("ride 1", "8 Ready 19"),
        ("set 0 01", ""),
        ("ride 1", "15 Ready 19"),
    ]),
    // ---- Ticket 5: a refused step and a torn store do not count, a cut keeps
    // the number, format sets it to 0, and it holds at the greatest.
    (&[1], 1, false, &[
        ("begin 0 0a", "0 Writing 0 0 0"),
        ("stores 4294967293", ""),
        ("step", "0 Writing 0 1 4294967294"),
        ("step", "0 Writing 0 2 4294967295"),
        ("step", "0 Writing 0 3 4294967295"),
        ("cut 00", "0 Cold 4294967295"),
        ("step", "5 Cold 4294967295"),
        ("wake", "0 Recovering 0 0 AToB 4294967295"),
        ("step 2", "0 Ready 4294967295"),
        ("format", "5 Ready 4294967295"),
        ("begin 0 0a", "0 Writing 0 0 4294967295"),
        ("cut 00", "0 Cold 4294967295"),
        ("format", "0 Ready 0"),
    ]),
    (&[1, 1, 5], 1, true, &[
        ("stores 4294967290", ""),
        ("group 00 33 01 44", "0 Grouping 0 0 4294967290"),
        ("step 13", "0 Grouping 1 0 4294967295"),
        ("cut 00", "0 Cold 4294967295"),
        ("format", "0 Ready 0"),
        ("image", "01 00 00 01 00 00 01 00 00 00 00 00 00 00 00 00 00"),
    ]),
    // ---- With pages of 4. (1 1 5) has its markers at 0, 12 and 24; copies A
    // at 4, 16 and 28 to 32; copies B at 8, 20 and 36 to 40; 44 bytes. As many
    // stores as before. Cut at the record's third byte and at its last.
    (&[1, 1, 5], 4, true, &[
        ("group 00 33 01 44", "0 Grouping 0 0 0"),
        ("step 3", "0 Grouping 0 3 3"),
        ("cut d0", "18 Grouping 0 3 3"),
        ("cut d0 d1 d2 d3", "0 Cold 3"),
        ("image", "01000000 00000000 00000000 01000000 00000000 00000000 \
                   02000000 d0d1d2d3 00000000 00000000 00000000"),
        ("wake", "0 Recovering 2 0 BToA 3"),
        ("step 6", "0 Ready 9"),
        ("image", "01000000 00000000 00000000 01000000 00000000 00000000 \
                   01000000 00000000 00000000 00000000 00000000"),
        ("group 00 33 01 44", "0 Grouping 0 0 9"),
        ("step 5", "0 Grouping 0 5 14"),
        ("cut d0 d1 d2 d3", "0 Cold 14"),
        ("image", "01000000 00000000 00000000 01000000 00000000 00000000 \
                   02000000 02003301 d0d1d2d3 00000000 00000000"),
        ("wake", "0 Recovering 2 0 BToA 14"),
        ("step 6", "0 Ready 20"),
        ("image", "01000000 00000000 00000000 01000000 00000000 00000000 \
                   01000000 00000000 00d1d2d3 00000000 00000000"),
        // The filler after the record is no part of it.
        ("group 00 33 01 44", "0 Grouping 0 0 20"),
        ("step 13", "0 Grouping 1 0 33"),
        ("cut 00 e1 e2 e3", "0 Cold 33"),
        ("image", "01e1e2e3 00000000 00000000 01000000 00000000 00000000 \
                   01000000 02003301 44d1d2d3 02003301 44000000"),
        ("wake", "0 Grouping 1 0 33"),
        ("payload", "02 00 33 01 44"),
        ("step 22", "0 Grouping 3 12 55"),
        ("step", "0 Ready 56"),
        ("image", "01e1e2e3 33000000 33000000 01000000 44000000 44000000 \
                   01000000 00000000 00d1d2d3 00000000 00000000"),
        // A member's byte torn with its page, then written again.
        ("group 01 55 00 66", "0 Grouping 0 0 56"),
        ("step 16", "0 Grouping 1 3 72"),
        ("cut f0 f1 f2 f3", "0 Cold 72"),
        ("image", "01e1e2e3 33000000 33000000 04000000 55000000 f0f1f2f3 \
                   01000000 02015500 66d1d2d3 02015500 66000000"),
        ("wake", "0 Recovering 1 0 AToB 72"),
        ("step 2", "0 Grouping 1 0 74"),
        ("step 23", "0 Ready 97"),
        ("image", "01e1e2e3 66000000 66000000 01000000 55000000 55f1f2f3 \
                   01000000 00000000 00d1d2d3 00000000 00000000"),
    ]),
];

/// Ticket 11, in the same words.
const ROLE_CASES: &[GroupCase] = &[
    // ---- The plan (1 2 5), grouped: markers at 0, 3 and 8; copies A at 1, 4
    // and 5, and 9 to 13; copies B at 2, 6 and 7, and 14 to 18.
    // Every right in every role, in Ready. 20 before 22, whoever asks; 6 before
    // 22; 22 before 7.
    (&[1, 2, 5], 1, true, &[
        ("rider rights 0 1 2", ""),
        ("gym rights 2 0 1", ""),
        ("service rights 1 2 0", ""),
        ("rider read 0", "22"),
        ("rider read 1", "0 00 00"),
        ("rider read 2", "0 00 00 00 00 00"),
        ("gym read 0", "0 00"),
        ("gym read 1", "22"),
        ("gym read 2", "0 00 00 00 00 00"),
        ("service read 0", "0 00"),
        ("service read 1", "0 00 00"),
        ("service read 2", "22"),
        ("rider read 3", "6"),
        ("gym read 8", "6"),
        ("service read 65535", "6"),
        ("rider begin 0 0a", "22 Ready 0"),
        ("rider begin 0", "22 Ready 0"),
        ("rider begin 1 0a 0b", "22 Ready 0"),
        ("rider begin 1 0a", "22 Ready 0"),
        ("rider begin 2 01 02 03 04 05", "20 Ready 0"),
        ("rider begin 3 0a", "6 Ready 0"),
        ("gym begin 1 0a 0b", "22 Ready 0"),
        ("gym begin 1 0a 0b 0c", "22 Ready 0"),
        ("gym begin 2 01 02 03 04 05", "20 Ready 0"),
        ("gym begin 8", "6 Ready 0"),
        ("gym begin 0", "7 Ready 0"),
        ("service begin 0 0a", "22 Ready 0"),
        ("service begin 0 0a 0b", "22 Ready 0"),
        ("service begin 1 0a", "7 Ready 0"),
        ("service begin 2 01 02 03 04 05", "20 Ready 0"),
        ("service begin 2", "20 Ready 0"),
        ("payload", ""),
        ("image", "01 00 00 01 00 00 00 00 01 00*10"),
    ]),
    // 5 before 6, 20 and 22, in each phase; the rights are kept.
    (&[1, 2, 5], 1, true, &[
        ("rider rights 0 1 2", ""),
        ("gym rights 2 0 1", ""),
        ("service rights 1 2 0", ""),
        ("gym begin 0 0a", "0 Writing 0 0 0"),
        ("rider read 0", "5"),
        ("gym read 0", "5"),
        ("rider read 3", "5"),
        ("rider begin 0", "5 Writing 0 0 0"),
        ("gym begin 2", "5 Writing 0 0 0"),
        ("step 5", "0 Ready 5"),
        ("gym read 0", "0 0a"),
        ("service read 0", "0 0a"),
        ("rider read 0", "22"),
        ("service begin 1 0b 0c", "0 Writing 1 0 5"),
        ("step 3", "0 Writing 1 3 8"),
        ("cut 00", "0 Cold 8"),
        ("service read 1", "5"),
        ("gym read 1", "5"),
        ("gym begin 1", "5 Cold 8"),
        ("wake", "0 Recovering 1 0 BToA 8"),
        ("service read 1", "5"),
        ("gym read 1", "5"),
        ("step 3", "0 Ready 11"),
        ("rider read 0", "22"),
        ("rider read 1", "0 00 00"),
        ("gym read 0", "0 0a"),
        ("gym read 1", "22"),
        ("service read 2", "22"),
        ("gym begin 1 0b 0c", "22 Ready 11"),
        ("service begin 1 0b 0c", "0 Writing 1 0 11"),
        ("step 7", "0 Ready 18"),
        ("rider read 1", "0 0b 0c"),
        ("group 00 33 00 44", "20 Ready 18"),
        ("cut 00", "0 Cold 18"),
        ("wake", "0 Ready 18"),
        ("gym read 1", "22"),
        ("gym begin 0 0d", "0 Writing 0 0 18"),
    ]),
    // A marker torn by hand: 8 for whoever has the right, 22 for the others,
    // and 22, 7, 8 in this order. No list has a bad marker in Ready.
    (&[1, 2, 5], 1, true, &[
        ("rider rights 0 1 2", ""),
        ("gym rights 2 0 1", ""),
        ("service rights 1 2 0", ""),
        ("set 0 06", ""),
        ("rider read 0", "22"),
        ("gym read 0", "8"),
        ("service read 0", "8"),
        ("rider begin 0 0a", "22 Ready 0"),
        ("gym begin 0 0a", "8 Ready 0"),
        ("gym begin 0", "7 Ready 0"),
        ("service begin 0 0a", "22 Ready 0"),
        ("service begin 0", "22 Ready 0"),
        ("rider read 1", "0 00 00"),
        ("set 3 ff", ""),
        ("rider read 1", "8"),
        ("gym read 1", "22"),
        ("service read 1", "8"),
        ("rider begin 1 0a 0b", "22 Ready 0"),
        ("gym begin 1 0a 0b", "22 Ready 0"),
        ("service begin 1 0a 0b", "8 Ready 0"),
        ("set 8 02", ""),
        ("rider read 2", "8"),
        ("gym read 2", "8"),
        ("service read 2", "22"),
        ("service begin 2 01 02 03 04 05", "20 Ready 0"),
    ]),
    // A phase built by hand: 4 before all of it.
    (&[1, 2, 5], 1, false, &[
        ("service rights", ""),
        ("writing 3 0", ""),
        ("service read 3", "4"),
        ("rider read 0", "4"),
        ("gym begin 0 0a", "4 Writing 3 0 0"),
    ]),
    // Nobody has a right to anything: rides, groups and inspect ask for none,
    // and a read of what they wrote does. Ungrouped, the last unit's begin is
    // 22 too.
    (&[8, 1, 1, 5], 1, true, &[
        ("service rights", ""),
        ("read 0", "22"),
        ("begin 0 01 02 03 04 05 06 07 08", "22 Ready 0"),
        ("ride 258", "0 Writing 0 0 0"),
        ("step 19", "0 Ready 19"),
        ("service read 0", "22"),
        ("group 01 33 02 44", "0 Grouping 0 0 19"),
        ("step 36", "0 Ready 55"),
        ("service read 1", "22"),
        ("inspect", "none"),
        ("set 17 04", ""),
        ("inspect", "unit 1"),
        ("group 01 33 02 44", "8 Ready 55"),
        ("rider rights 1 1 1 1", ""),
        ("rider read 0", "0 02 01 00 00 00 00 00 00"),
        ("rider read 1", "8"),
        ("rider read 2", "0 44"),
        ("rider read 3", "0 00 00 00 00 00"),
        ("ungrouped", ""),
        ("rider begin 3 01 02 03 04 05", "22 Ready 55"),
        ("gym rights 0 0 0 2", ""),
        ("gym begin 3 01 02 03 04 05", "0 Writing 3 0 55"),
    ]),
    // Pages of 4: a read is copy A without filler, which is at 4 and 5.
    (&[2, 1], 4, false, &[
        ("rider rights 2", ""),
        ("service rights 0 255 2", ""),
        ("rider begin 0 0a 0b", "0 Writing 0 0 0"),
        ("step 7", "0 Ready 7"),
        ("set 6 e1 e2", ""),
        ("rider read 0", "0 0a 0b"),
        ("rider read 1", "22"),
        ("service read 0", "22"),
        ("service read 1", "22"),
        ("service read 2", "6"),
    ]),
];

/// Ticket 12: turns and their price in cents.
const PRICE_CASES: [(u64, u64); 20] = [
    (0, 0),
    (1, 32),
    (499, 32),
    (500, 32),
    (501, 39),
    (1000, 39),
    (1001, 46),
    (61_500, 886),
    (61_501, 893),
    (62_000, 893),
    (62_001, 900),
    (62_500, 900),
    (62_501, 900),
    (65_536, 900),
    (65_537, 900),
    (1 << 32, 900),
    ((1 << 32) + 1, 900),
    (u64::MAX / 7, 900),
    (u64::MAX - 499, 900),
    (u64::MAX, 900),
];

/// Ticket 12: widths, page, image length and phase of an ungrouped device built
/// by hand, every byte of its image 1, and the number of a paid ride: 1, 2, 17,
/// 3, 4, 5 before all others.
const PAID_DEVICE_CASES: [(&[u16], u16, usize, Phase, u8); 14] = [
    (&[], 3, 0, Phase::Ready, 1),
    (&[1, 1, 1, 1, 1, 1, 1, 1, 0], 1, 24, Phase::Ready, 1),
    (&[8, 0, 19], 3, 0, Phase::Cold, 2),
    (&[8, 8, 257], 1, 999, Phase::Ready, 2),
    (&[8, 8, 19], 3, 0, Phase::Cold, 17),
    (&[7, 8, 19], 0, 999, Phase::Ready, 17),
    (&[8, 8, 19], 1, 72, Phase::Writing { unit: 3, made: 0 }, 3),
    (&[8, 8, 19], 4, 83, Phase::Ready, 3),
    (&[8, 8, 19], 1, 73, Phase::Writing { unit: 3, made: 0 }, 4),
    (&[8, 8, 19], 1, 73, Phase::Grouping { write: 0, made: 0 }, 4),
    (&[7, 8, 19], 1, 73, Phase::Writing { unit: 0, made: 17 }, 4),
    (&[7, 8, 19], 1, 73, Phase::Writing { unit: 0, made: 16 }, 5),
    (&[7], 1, 15, Phase::Cold, 5),
    (&[7], 1, 15, Phase::Ready, 16),
];

/// Ticket 12, in the words of the groups' cases.
const PAID_CASES: &[GroupCase] = &[
    // ---- The plan (8 8 19): markers at 0, 17 and 34; copies A at 1, 18 and 35;
    // copies B at 9, 26 and 54; 73 bytes. The record just fits. A paid ride is
    // 41 + 19 + 19 + 41 = 120 stores, written again it is 79, and it passes at
    // the record's store 21.
    // Three whole rides: 501 turns for 39 cents, 62,001 for 900, and 0 for 0,
    // which is a group like any other. Then 939 cents are 3ab.
    (&[8, 8, 19], 1, true, &[
        ("paid 501", "0 Grouping 0 0 0"),
        ("payload", "02 00 f5 01 00 00 00 00 00 00 01 27"),
        ("image", "01 00*16 01 00*16 01 00*38"),
        ("step 21", "0 Grouping 0 21 21"),
        ("image", "01 00*16 01 00*16 04 02 00 f5 01 00*6 01 27 00*7 00*19"),
        ("step 20", "0 Grouping 1 0 41"),
        ("step 2", "0 Grouping 1 2 43"),
        ("image", "02 f5 00*15 01 00*16 01 02 00 f5 01 00*6 01 27 00*7 \
                   02 00 f5 01 00*6 01 27 00*7"),
        ("step 17", "0 Grouping 2 0 60"),
        ("step 2", "0 Grouping 2 2 62"),
        ("image", "01 f5 01 00*6 f5 01 00*6 02 27 00*15 01 02 00 f5 01 00*6 01 27 00*7 \
                   02 00 f5 01 00*6 01 27 00*7"),
        ("paid 501", "5 Grouping 2 2 62"),
        ("step 17", "0 Grouping 3 0 79"),
        ("step 40", "0 Grouping 3 40 119"),
        ("step", "0 Ready 120"),
        ("image", "01 f5 01 00*6 f5 01 00*6 01 27 00*7 27 00*7 01 00*38"),
        ("payload", "02 00 f5 01 00 00 00 00 00 00 01 27"),
        ("paid 62001", "0 Grouping 0 0 120"),
        ("payload", "02 00 26 f4 00 00 00 00 00 00 01 ab 03"),
        ("step 120", "0 Ready 240"),
        ("paid 0", "0 Grouping 0 0 240"),
        ("payload", "02 00 26 f4 00 00 00 00 00 00 01 ab 03"),
        ("step 119", "0 Grouping 3 40 359"),
        ("step", "0 Ready 360"),
        ("image", "01 26 f4 00*6 26 f4 00*6 01 ab 03 00*6 ab 03 00*6 01 00*38"),
    ]),
    // The prices of the ticket, as the record has them: 32 is 20, 39 is 27, 893
    // is 37d and 900 is 384.
    (&[8, 8, 19], 1, true, &[
        ("paid 0", "0 Grouping 0 0 0"),
        ("payload", "02 00 00 00 00 00 00 00 00 00 01"),
        ("cut 00", "0 Cold 0"),
        ("wake", "0 Ready 0"),
        ("paid 1", "0 Grouping 0 0 0"),
        ("payload", "02 00 01 00 00 00 00 00 00 00 01 20"),
        ("cut 00", "0 Cold 0"),
        ("wake", "0 Ready 0"),
        ("paid 500", "0 Grouping 0 0 0"),
        ("payload", "02 00 f4 01 00 00 00 00 00 00 01 20"),
        ("cut 00", "0 Cold 0"),
        ("wake", "0 Ready 0"),
        ("paid 62000", "0 Grouping 0 0 0"),
        ("payload", "02 00 30 f2 00 00 00 00 00 00 01 7d 03"),
        ("cut 00", "0 Cold 0"),
        ("wake", "0 Ready 0"),
        ("paid 62001", "0 Grouping 0 0 0"),
        ("payload", "02 00 31 f2 00 00 00 00 00 00 01 84 03"),
        ("cut 00", "0 Cold 0"),
        ("wake", "0 Ready 0"),
        ("paid 18446744073709551615", "0 Grouping 0 0 0"),
        ("payload", "02 00 ff ff ff ff ff ff ff ff 01 84 03"),
    ]),
    // Store 21 torn and still 2: neither turns nor cents. Torn off 2, to 0:
    // both, after the cleanup of 20 and 79 stores. 5 in each phase between.
    (&[8, 8, 19], 1, true, &[
        ("paid 1", "0 Grouping 0 0 0"),
        ("step 20", "0 Grouping 0 20 20"),
        ("cut f9", "0 Cold 20"),
        ("paid 1", "5 Cold 20"),
        ("wake", "0 Recovering 2 0 BToA 20"),
        ("paid 1", "5 Recovering 2 0 BToA 20"),
        ("step 20", "0 Ready 40"),
        ("image", "01 00*16 01 00*16 01 00*38"),
        ("paid 2", "0 Grouping 0 0 40"),
        ("step 20", "0 Grouping 0 20 60"),
        ("cut 02", "0 Cold 60"),
        ("wake", "0 Recovering 2 0 AToB 60"),
        ("step 20", "0 Grouping 1 0 80"),
        ("payload", "02 00 02 00 00 00 00 00 00 00 01 20"),
        ("paid 1", "5 Grouping 1 0 80"),
        ("step 78", "0 Grouping 3 40 158"),
        ("step", "0 Ready 159"),
        ("image", "01 02 00*7 02 00*7 01 20 00*7 20 00*7 01 00*38"),
    ]),
    // Cut in the cents' own write, where the turns stand already, and again in
    // the turns' write of the repair.
    (&[8, 8, 19], 1, true, &[
        ("paid 1", "0 Grouping 0 0 0"),
        ("step 63", "0 Grouping 2 3 63"),
        ("cut 99", "0 Cold 63"),
        ("image", "01 01 00*7 01 00*7 02 20 00 99 00*13 01 02 00 01 00*7 01 20 00*7 \
                   02 00 01 00*7 01 20 00*7"),
        ("wake", "0 Recovering 1 0 BToA 63"),
        ("step 9", "0 Grouping 1 0 72"),
        ("step 10", "0 Grouping 1 10 82"),
        ("cut 99", "0 Cold 82"),
        ("wake", "0 Recovering 0 0 AToB 82"),
        ("step 9", "0 Grouping 1 0 91"),
        ("step 79", "0 Ready 170"),
        ("image", "01 01 00*7 01 00*7 01 20 00*7 20 00*7 01 00*38"),
    ]),
    // Both totals are copy A's, lowest byte first, and a wider record and a
    // fourth unit, whose marker is not looked at, change nothing. Markers at 0,
    // 17, 34 and 37; the record is 24 wide: 51 + 19 + 19 + 51 = 140 stores.
    (&[8, 8, 1, 24], 1, true, &[
        ("set 1 05 00 00 00 00 00 00 01 07 00 00 00 00 00 00 02", ""),
        ("set 18 e0 ff ff 00 00 00 00 03 09 00 00 00 00 00 00 04", ""),
        ("set 34 06 dd dd", ""),
        ("paid 1", "0 Grouping 0 0 0"),
        ("payload", "02 00 06 00 00 00 00 00 00 01 01 00 00 00 01 00 00 00 03"),
        ("step 140", "0 Ready 140"),
        ("image", "01 06 00*6 01 06 00*6 01 01 00 00 00 01 00 00 00 03 00 00 00 01 00 00 00 03 \
                   06 dd dd 01 00*48"),
    ]),
    // Pages of 4: markers at 0, 20 and 40, copies A at 4, 24 and 44, copies B
    // at 12, 32 and 64, a byte of filler after 19; 84 bytes.
    (&[8, 8, 19], 4, true, &[
        ("paid 258", "0 Grouping 0 0 0"),
        ("step 19", "0 Grouping 0 19 19"),
        ("cut d0", "18 Grouping 0 19 19"),
        ("step", "0 Grouping 0 20 20"),
        ("cut 02 e1 e2 e3", "0 Cold 20"),
        ("image", "01000000 00000000 00000000 00000000 00000000 \
                   01000000 00000000 00000000 00000000 00000000 \
                   00e1e2e3 02000201 00000000 00000120 00000000 00000000 \
                   00000000 00000000 00000000 00000000 00000000"),
        ("wake", "0 Recovering 2 0 AToB 20"),
        ("step 99", "0 Ready 119"),
        ("image", "01000000 02010000 00000000 02010000 00000000 \
                   01000000 20000000 00000000 20000000 00000000 \
                   01e1e2e3 00000000 00000000 00000000 00000000 00000000 \
                   00000000 00000000 00000000 00000000 00000000"),
    ]),
    // ---- 16, after 5 and before 20, 21, 8 and 15, with markers and totals set
    // so that those would apply. Unit 1 absent, the record or not:
    (&[8], 1, false, &[
        ("paid 1", "16 Ready 0"),
        ("paid 0", "16 Ready 0"),
        ("set 0 00 ff*8", ""),
        ("paid 1", "16 Ready 0"),
        ("cut 00", "0 Cold 0"),
        ("paid 1", "5 Cold 0"),
    ]),
    (&[8], 1, true, &[("paid 1", "16 Ready 0")]),
    (&[19], 1, true, &[("paid 1", "16 Ready 0")]),
    // Of another width, unit 0 or unit 1:
    (&[7, 8, 19], 1, true, &[("paid 1", "16 Ready 0")]),
    (&[9, 8, 20], 1, true, &[("paid 1", "16 Ready 0")]),
    (&[8, 7, 19], 1, true, &[
        ("paid 1", "16 Ready 0"),
        ("set 0 00 ff*8", ""),
        ("paid 1", "16 Ready 0"),
    ]),
    (&[8, 9, 20], 1, true, &[("paid 0", "16 Ready 0")]),
    (&[8, 256, 256], 1, true, &[("paid 1", "16 Ready 0")]),
    (&[8, 19], 1, true, &[("paid 1", "16 Ready 0")]),
    (&[7, 8], 1, true, &[("paid 1", "16 Ready 0")]),
    (&[8, 7], 1, false, &[("paid 1", "16 Ready 0")]),
    (&[8, 1, 8], 1, true, &[("paid 1", "16 Ready 0")]),
    // ---- 20, before 21, 8 and 15; ungrouped it is 21.
    (&[8, 8], 1, true, &[
        ("paid 1", "20 Ready 0"),
        ("paid 0", "20 Ready 0"),
        ("set 0 00 ff*8", ""),
        ("set 17 00 ff*8", ""),
        ("paid 1", "20 Ready 0"),
        ("ungrouped", ""),
        ("paid 1", "21 Ready 0"),
        ("cold", ""),
        ("paid 1", "5 Cold 0"),
    ]),
    // ---- 21, before 8 and 15: no record, or a record of 18.
    (&[8, 8, 19], 1, false, &[
        ("paid 1", "21 Ready 0"),
        ("paid 0", "21 Ready 0"),
        ("set 0 02 ff*8", ""),
        ("set 17 04 ff*8", ""),
        ("paid 1", "21 Ready 0"),
        ("begin 2 05*19", "0 Writing 2 0 0"),
        ("paid 1", "5 Writing 2 0 0"),
    ]),
    (&[8, 8, 18], 1, true, &[
        ("paid 1", "21 Ready 0"),
        ("paid 0", "21 Ready 0"),
        ("set 0 02 ff*8", ""),
        ("set 17 04 ff*8", ""),
        ("set 34 00", ""),
        ("paid 1", "21 Ready 0"),
    ]),
    // The record is the last unit, not the third.
    (&[8, 8, 19, 18], 1, true, &[("paid 1", "21 Ready 0")]),
    (&[8, 8, 1, 19], 1, true, &[("paid 1", "0 Grouping 0 0 0")]),
    (&[8, 8, 18], 16, true, &[("paid 1", "21 Ready 0")]),
    // ---- 8, before 15: the record's marker, unit 0's, unit 1's.
    (&[8, 8, 19], 1, true, &[
        ("set 34 00", ""),
        ("paid 1", "8 Ready 0"),
        ("paid 0", "8 Ready 0"),
        ("set 34 01", ""),
        ("set 0 02", ""),
        ("paid 1", "8 Ready 0"),
        ("set 0 01", ""),
        ("set 17 ff", ""),
        ("paid 1", "8 Ready 0"),
        ("set 1 ff*8", ""),
        ("paid 1", "8 Ready 0"),
        ("set 17 01 ff*8", ""),
        ("set 34 08", ""),
        ("paid 1", "8 Ready 0"),
        ("set 34 01", ""),
        ("paid 1", "15 Ready 0"),
        ("payload", ""),
    ]),
    // ---- 15: the turns, the cents, both; 0 turns always fit. 223 cents, df,
    // are 255 with the 32 of 1 turn; 224 are one too many.
    (&[8, 8, 19], 1, true, &[
        ("set 1 fe ff*7", ""),
        ("paid 2", "15 Ready 0"),
        ("paid 18446744073709551615", "15 Ready 0"),
        ("paid 1", "0 Grouping 0 0 0"),
        ("payload", "02 00 ff ff ff ff ff ff ff ff 01 20"),
        ("step 120", "0 Ready 120"),
        ("paid 1", "15 Ready 120"),
        ("paid 0", "0 Grouping 0 0 120"),
        ("cut 00", "0 Cold 120"),
        ("wake", "0 Ready 120"),
        ("set 1 00*16", ""),
        ("set 18 e0 ff*7", ""),
        ("paid 1", "15 Ready 120"),
        ("paid 500", "15 Ready 120"),
        ("set 18 df ff*7", ""),
        ("paid 501", "15 Ready 120"),
        ("paid 500", "0 Grouping 0 0 120"),
        ("payload", "02 00 f4 01 00 00 00 00 00 00 01 ff ff ff ff ff ff ff ff"),
        ("step 120", "0 Ready 240"),
        ("paid 1", "15 Ready 240"),
        ("set 1 ff*8", ""),
        ("paid 1", "15 Ready 240"),
        ("paid 0", "0 Grouping 0 0 240"),
        ("payload", "02 00 ff ff ff ff ff ff ff ff 01 ff ff ff ff ff ff ff ff"),
    ]),
    // 2^64 - 900 cents, whose lowest bytes are 7c and fc: the last 900 don't
    // fit, 893 do.
    (&[8, 8, 19], 1, true, &[
        ("set 18 7c fc ff*6", ""),
        ("paid 62001", "15 Ready 0"),
        ("paid 18446744073709551615", "15 Ready 0"),
        ("paid 62000", "0 Grouping 0 0 0"),
        ("payload", "02 00 30 f2 00 00 00 00 00 00 01 f9 ff ff ff ff ff ff ff"),
    ]),
    // ---- It takes no role: nobody has a right, and it is accepted.
    (&[8, 8, 19], 1, true, &[
        ("service rights", ""),
        ("begin 1 00*8", "22 Ready 0"),
        ("paid 1", "0 Grouping 0 0 0"),
        ("step 120", "0 Ready 120"),
        ("service read 1", "22"),
        ("gym rights 0 1", ""),
        ("gym read 1", "0 20 00 00 00 00 00 00 00"),
    ]),
    // Beside rides, groups and begins of the same units.
    (&[8, 8, 1, 19], 1, true, &[
        ("ride 1000", "0 Writing 0 0 0"),
        ("paid 1", "5 Writing 0 0 0"),
        ("step 19", "0 Ready 19"),
        ("begin 1 01 01 00*6", "0 Writing 1 0 19"),
        ("step 19", "0 Ready 38"),
        ("paid 1001", "0 Grouping 0 0 38"),
        ("payload", "02 00 d1 07 00 00 00 00 00 00 01 2f 01"),
        ("step 120", "0 Ready 158"),
        ("group 02 77 01 00*8", "0 Grouping 0 0 158"),
        ("paid 1", "5 Grouping 0 0 158"),
        ("step 106", "0 Ready 264"), // 41 + 5 + 19 + 41
        ("paid 0", "0 Grouping 0 0 264"),
        ("payload", "02 00 d1 07 00 00 00 00 00 00 01"),
    ]),
];

/// Input of the mode `lists` in hexadecimal digits, and what it prints; of the
/// payload up to its last byte that isn't 0. `S` is the bench's rights: sixteen
/// bytes 00 for rider and gym, eight 02 for service.
const LIST_CASES: &[(&str, &str)] = &[
    ("", ""),
    // One unit of width 1, a page of 1, not grouped, an image of 4 bytes, 24
    // bytes of calls: a begin, a step of kind 0, a cut, a wake, and too few
    // bytes for one more.
    ("01 0001 0000 0000 0000 0000 0000 0000 0000 01 00 S 0004 0018 \
      01 0000 0001 0a  00 0000 0000  02 0000 0001 00  03 0000 0000  00 00",
     "start 0\nformat 0\nbegin 0 Writing 0 0 0\nstep 0 Writing 0 1 1\ncut 0 Cold 1\n\
      wake 0 Recovering 0 0 BToA 1\nimage 02 00 00 77\npayload\n"),
    // Two lists. The first start is refused for its page, the second format
    // for its image; a third list is cut short, first in its calls.
    ("01 0001 0000 0000 0000 0000 0000 0000 0000 02 01 S 0003 0005 00 0000 0000 \
      01 0001 0000 0000 0000 0000 0000 0000 0000 01 00 S 0002 000a 03 0000 0000 02 0000 0000 \
      01 0001 0000 0000 0000 0000 0000 0000 0000 01 00 S 0003 0005 03 0000 00",
     "start 17\nformat 1\nstep 1 Cold 0\nimage 77 77 77\npayload\n\
      start 0\nformat 3\nwake 3 Cold 0\ncut 3 Cold 0\nimage 77 77\npayload\n"),
    // ... and in its first bytes. The unit is looked at by begin and read
    // alone, high byte first; the kinds 6 and ff are steps, and own bytes of
    // theirs are left unread; image and calls may be of length 0.
    ("01 0001 0000 0000 0000 0000 0000 0000 0000 01 00 S 0003 001e \
      01 0100 0001 0a  06 0000 0002 aabb  01 0000 0001 0b  ff 0102 0001 03  02 ffff 0000 \
      09 0000 0000 0000 0000 0000 0000 0000 0000 01 01 S 0000 0000 01 00",
     "start 0\nformat 0\nbegin 6 Ready 0\nstep 5 Ready 0\nbegin 0 Writing 0 0 0\n\
      step 0 Writing 0 1 1\ncut 18 Writing 0 1 1\nimage 02 00 00\npayload 0b\n\
      start 1\nformat 1\nimage\npayload\n"),
    // A grouped plan (8 1 1 5), 17 + 3 + 3 + 11 bytes: a ride of fewer than
    // eight bytes, cut, and one of more than eight, of 2 + 1 × 256 turns.
    ("04 0008 0001 0001 0005 0000 0000 0000 ffff 01 ff S 0022 0025 \
      04 0000 0007 01010101010101  02 0000 0001 00 \
      03 0000 0000  04 0000 0009 020100000000000009",
     "start 0\nformat 0\nride 0 Writing 0 0 0\ncut 0 Cold 0\nwake 0 Ready 0\n\
      ride 0 Writing 0 0 0\n\
      image 01 00 00 00 00 00 00 00 00 00 00 00 00 00 00 00 00 01 00 00 01 00 00 \
      01 00 00 00 00 00 00 00 00 00 00\npayload 02 01\n"),
    // A group and three of its stores.
    ("03 0001 0001 0005 0000 0000 0000 0000 0000 01 01 S 0011 0018 \
      05 0007 0004 01440033  00 0000 0000  00 0000 0000  00 0000 0000",
     "start 0\nformat 0\ngroup 0 Grouping 0 0 0\nstep 0 Grouping 0 1 1\n\
      step 0 Grouping 0 2 2\nstep 0 Grouping 0 3 3\n\
      image 01 00 00 01 00 00 02 02 01 00 00 00 00 00 00 00 00\n\
      payload 02 01 44 00 33\n"),
    // Two units of widths 1 and 2 and each role's rights on them: the rider
    // sees 0 and writes 1, the gym writes 0 and has nothing on 1, service has
    // 3 and ff, which are nothing, but would write 2 to 7. The kinds 7, b, f
    // and 13 are steps. A read looks at both bytes of the unit and at none of
    // its own, and prints neither phase nor count.
    ("02 0001 0002 0000 0000 0000 0000 0000 0000 01 00 \
      0102000000000000 0200000000000000 03ff020202020202 0008 007f \
      11 0000 0000  11 0001 0000  11 0002 0000  11 0100 0000 \
      12 0000 0000  12 0001 0000  10 0000 0000  10 0001 0000 \
      08 0000 0001 aa  09 0001 0002 bbcc  01 0000 0001 aa  01 0001 0002 bbcc \
      08 0001 0002 bbcc  07 0000 0000  0b 0000 0000  0f 0000 0000  13 0000 0000 \
      11 0001 0000  00 0000 0000  00 0000 0000  00 0000 0000 \
      11 0001 0003 020202  09 0000 0001 dd",
     "start 0\nformat 0\nread 0 00\nread 0 00 00\nread 6\nread 6\n\
      read 0 00\nread 22\nread 22\nread 22\n\
      begin 22 Ready 0\nbegin 22 Ready 0\nbegin 22 Ready 0\nbegin 22 Ready 0\n\
      begin 0 Writing 1 0 0\nstep 0 Writing 1 1 1\nstep 0 Writing 1 2 2\n\
      step 0 Writing 1 3 3\nstep 0 Writing 1 4 4\nread 5\n\
      step 0 Writing 1 5 5\nstep 0 Writing 1 6 6\nstep 0 Ready 7\n\
      read 0 bb cc\nbegin 0 Writing 0 0 7\n\
      image 01 00 00 01 bb cc bb cc\npayload dd\n"),
    // A refused start, and one with too short an image: no right is asked for.
    ("01 0001 0000 0000 0000 0000 0000 0000 0000 02 00 S 0003 000b \
      11 0000 0000  09 0000 0001 0a \
      01 0001 0000 0000 0000 0000 0000 0000 0000 01 00 S 0002 000b \
      11 0000 0000  09 0000 0001 0a \
      01 0001 0000 0000 0000 0000 0000 0000 0000 01 00 00000000000000",
     "start 17\nformat 1\nread 1\nbegin 1 Cold 0\nimage 77 77 77\npayload\n\
      start 0\nformat 3\nread 3\nbegin 3 Cold 0\nimage 77 77\npayload\n"),
    // Paid rides, which look at no unit: of seven bytes 0 turns; of nine the
    // first eight, 501 turns for 39 cents, the record 22 wide; and of none.
    ("04 0008 0008 0001 0016 0000 0000 0000 0000 01 01 S 0052 002f \
      0a 0000 0007 01010101010101  02 0000 0001 00  03 0000 0000 \
      0a ffff 0009 f50100000000000009  00 0000 0000  0a 0001 0000",
     "start 0\nformat 0\npaid 0 Grouping 0 0 0\ncut 0 Cold 0\nwake 0 Ready 0\n\
      paid 0 Grouping 0 0 0\nstep 0 Grouping 0 1 1\npaid 5 Grouping 0 1 1\n\
      image 01 00 00 00 00 00 00 00 00 00 00 00 00 00 00 00 00 \
      01 00 00 00 00 00 00 00 00 00 00 00 00 00 00 00 00 01 00 00 \
      02 00 00 00 00 00 00 00 00 00 00 00 00 00 00 00 00 00 00 00 00 00 00 \
      00 00 00 00 00 00 00 00 00 00 00 00 00 00 00 00 00 00 00 00 00 00\n\
      payload 02 00 f5 01 00 00 00 00 00 00 01 27\n"),
    // A refused start; too short an image; unit 1 absent, though the widths
    // past the count would do; and a grouped plan of two.
    ("03 0008 0008 0013 0000 0000 0000 0000 0000 02 01 S 0001 0005 0a 0000 0000 \
      03 0008 0008 0013 0000 0000 0000 0000 0000 01 01 S 0048 0005 0a 0000 0000 \
      01 0008 0008 0013 0000 0000 0000 0000 0000 01 01 S 0011 0005 0a 0000 0000 \
      02 0008 0008 0013 0000 0000 0000 0000 0000 01 01 S 0022 0005 0a 0000 0000",
     "start 17\nformat 1\npaid 1 Cold 0\nimage 77\npayload\n\
      start 0\nformat 3\npaid 3 Cold 0\nimage 77 77 77 77 77 77 77 77 77 77 77 77 77 77 77 \
      77 77 77 77 77 77 77 77 77 77 77 77 77 77 77 77 77 77 77 77 77 77 77 77 77 77 77 77 77 \
      77 77 77 77 77 77 77 77 77 77 77 77 77 77 77 77 77 77 77 77 77 77 77 77 77 77 77 77\n\
      payload\n\
      start 0\nformat 0\npaid 16 Ready 0\nimage 01 00 00 00 00 00 00 00 00 00 00 00 00 00 \
      00 00 00\npayload\n\
      start 0\nformat 0\npaid 20 Ready 0\nimage 01 00 00 00 00 00 00 00 00 00 00 00 00 00 \
      00 00 00 01 00 00 00 00 00 00 00 00 00 00 00 00 00 00 00 00\npayload\n"),
];

/// The lines of the mode `together`, as runs of letters. The record is 6 wide,
/// so it passes at its store 8, which is torn after 7 steps; some bytes leave
/// the marker at 2 there and others don't.
const TOGETHER_LETTERS: [&str; TOGETHER_LINES.len()] = [
    "7 o, 1 m, 35 n",
    "7 o, 1 m, 35 n",
    "7 o, 1 m, 35 n",
    "7 o, 1 m, 35 n",
    "28 n",
    "35 n",
    "8 o",
    "31 n",
];

/// Input of the mode `hotel` and what it prints. A ride is the record's 41
/// stores, 19 for the turns, 19 for the cents and 41 for the zeros, 120 in all.
/// It passes at store 21, the record's second marker: after 20 the byte 0 leaves
/// that marker at 2 and the ride is lost, after 21 it is kept.
const HOTEL_CASES: &[(&str, &str)] = &[
    ("", ""),
    // The price of each ride that is kept: 32, 39, 0, 893, 900 and 32 cents.
    ("(ride 500 120)\n(ride 501 20)\n(ride 501 21)\n(ride 0 41)\n(ride 62000 50)\n\
      (ride 62001 70)\n(ride 1 119)\n(ride 18446744073709551615 0)\n",
     "ride of 500, cut after 120: turns 500, cents 32\n\
      ride of 501, cut after 20: turns 500, cents 32\n\
      ride of 501, cut after 21: turns 1001, cents 71\n\
      ride of 0, cut after 41: turns 1001, cents 71\n\
      ride of 62000, cut after 50: turns 63001, cents 964\n\
      ride of 62001, cut after 70: turns 125002, cents 1864\n\
      ride of 1, cut after 119: turns 125003, cents 1896\n\
      ride of 18446744073709551615: refused 15\n"),
    // Lost at the first stores, and kept in each of the four writes, where one
    // goes over into the next, and in Ready, also where the steps end early. No
    // LF at the end.
    ("(ride 1 0)\n(ride 1 1)\n(ride 1 19)\n(ride 1 22)\n(ride 1 40)\n(ride 1 60)\n\
      (ride 1 79)\n(ride 1 80)\n(ride 1 121)\n(ride 1 65535)",
     "ride of 1, cut after 0: turns 0, cents 0\n\
      ride of 1, cut after 1: turns 0, cents 0\n\
      ride of 1, cut after 19: turns 0, cents 0\n\
      ride of 1, cut after 22: turns 1, cents 32\n\
      ride of 1, cut after 40: turns 2, cents 64\n\
      ride of 1, cut after 60: turns 3, cents 96\n\
      ride of 1, cut after 79: turns 4, cents 128\n\
      ride of 1, cut after 80: turns 5, cents 160\n\
      ride of 1, cut after 121: turns 6, cents 192\n\
      ride of 1, cut after 65535: turns 7, cents 224\n"),
    // All the turns there is room for, lost and then kept. A refused ride
    // changes nothing, and one of 0 turns still fits.
    ("(ride 18446744073709551615 20)\n(ride 18446744073709551615 21)\n(ride 1 120)\n\
      (ride 0 120)\n(ride 18446744073709551615 65535)\n(ride 0 0)\n",
     "ride of 18446744073709551615, cut after 20: turns 0, cents 0\n\
      ride of 18446744073709551615, cut after 21: turns 18446744073709551615, cents 900\n\
      ride of 1: refused 15\n\
      ride of 0, cut after 120: turns 18446744073709551615, cents 900\n\
      ride of 18446744073709551615: refused 15\n\
      ride of 0, cut after 0: turns 18446744073709551615, cents 900\n"),
    // Turns and cents of more than one byte, the first of them 0.
    ("(ride 256 41)\n(ride 65280 21)\n(ride 4294901760 120)\n(ride 62001 20)\n",
     "ride of 256, cut after 41: turns 256, cents 32\n\
      ride of 65280, cut after 21: turns 65536, cents 932\n\
      ride of 4294901760, cut after 120: turns 4294967296, cents 1832\n\
      ride of 62001, cut after 20: turns 4294967296, cents 1832\n"),
    // A bad line ends the run, and what was printed before stays.
    ("\n", "bad 1\n"),
    ("(ride 1 21)\n\n(ride 1 21)\n", "ride of 1, cut after 21: turns 1, cents 32\nbad 2\n"),
    ("(ride 1 21)\n(ride 1 21", "ride of 1, cut after 21: turns 1, cents 32\nbad 2\n"),
];

/// Lines that are bad in the mode `hotel`.
const HOTEL_BAD_LINES: [&str; 24] = [
    "(ride)", "(ride 1)", "(ride 1 )", "(ride 1 2", "(ride 1 2))", "(ride 1 2) ", " (ride 1 2)",
    "(ride 1 2)\r", "(ride  1 2)", "(ride 1  2)", "(ride 1 2 )", "(ride 1 2 3)", "(ride 1,2)",
    "(ride 01 2)", "(ride 1 02)", "(ride 00 2)", "(ride -1 2)", "(ride +1 2)", "(ride a 2)",
    "(ride 18446744073709551616 2)", "(ride 1 65536)", "(Ride 1 2)", "(paid 1 2)", "(wake)",
];

/// What a script prints.
fn played(script: &str, mode: Mode) -> io::Result<String> {
    let mut printer = Printer::new(Vec::new());
    play(script.as_bytes(), mode, &mut printer)?;
    printer.hand_on()?;
    Ok(String::from_utf8_lossy(&printer.to).into_owned())
}

/// The whole image that a script leaves, a space between its pages; nothing
/// if the plan is refused or a line is bad.
fn image_left(script: &str) -> Option<String> {
    let mut lines = lines(script.as_bytes());
    let plan = parse_plan(lines.next()?)?;
    let (mut device, mut image) = lay_out(plan, false, BENCH_RIGHTS).ok()?;
    for line in lines {
        let form = parse_form(line, Mode::Bench, image.len())?;
        run(form, &mut device, &mut image, &mut Printer::new(io::sink())).ok()?;
    }
    Some(in_pages(&image, plan.page))
}

/// Hexadecimal digits with a space between pages.
fn in_pages(image: &[u8], page: usize) -> String {
    let page_digits = |page: &[u8]| page.iter().map(|byte| format!("{byte:02x}")).collect();
    let pages: Vec<String> = image.chunks(page).map(page_digits).collect();
    pages.join(" ")
}

fn device_of(widths: &[u16], page: u16, phase: Phase) -> Device {
    let plan = Plan::from_script(widths, page);
    let rights = BENCH_RIGHTS;
    Device { plan, grouped: false, rights, payload: [0; MAX_WIDTH], phase, stores: 0 }
}

/// Bytes written as `HH`, or `HH*N` for N of them.
fn byte_words(words: &[&str]) -> Option<Vec<u8>> {
    let mut bytes = Vec::new();
    for word in words {
        let (digits, times) = word.split_once('*').unwrap_or((word, "1"));
        let byte = u8::from_str_radix(digits, 16).ok()?;
        bytes.extend(vec![byte; times.parse().ok()?]);
    }
    Some(bytes)
}

/// Without the bytes at the end that are 0.
fn to_last_byte(bytes: &[u8]) -> &[u8] {
    let length = bytes.iter().rposition(|&byte| byte != 0).map_or(0, |last| last + 1);
    &bytes[..length]
}

fn role_word(word: &str) -> Option<Role> {
    match word {
        "rider" => Some(Role::Rider),
        "gym" => Some(Role::Gym),
        "service" => Some(Role::Service),
        _ => None,
    }
}

/// Runs one line of a case and gives what it says, without its word; none if
/// there is no such line.
fn group_case_line(line: &str, device: &mut Device, image: &mut [u8]) -> Option<String> {
    let mut words: Vec<&str> = line.split(' ').collect();
    let role = role_word(words[0]);
    if role.is_some() {
        words.remove(0);
    }
    let numbers: Vec<usize> = words.get(1..)?.iter().flat_map(|word| word.parse()).collect();
    let call = match (words[0], &numbers[..]) {
        ("begin", [unit, ..]) => {
            let (role, payload) = (role.unwrap_or(Role::Service), byte_words(&words[2..])?);
            Call::Begin { role, unit: *unit, payload }
        }
        ("read", [unit]) if role.is_some() => Call::Read { role: role?, unit: *unit },
        ("rights", _) => {
            let row = &mut device.rights[role? as usize];
            row.fill(Right::Nothing);
            for (right, &number) in row.iter_mut().zip(&numbers) {
                *right = right_of_byte(u8::try_from(number).ok()?);
            }
            return Some(String::new());
        }
        _ if role.is_some() => return None,
        ("cut", _) => Call::Cut { given: byte_words(&words[1..])? },
        ("wake", []) => Call::Wake,
        ("ride", [turns]) => Call::Ride { turns: *turns as u64 },
        ("paid", [turns]) => Call::Paid { turns: *turns as u64 },
        ("group", _) => Call::Group { bytes: byte_words(&words[1..])? },
        ("step", [] | [_]) => {
            for _ in 1..numbers.first().copied().unwrap_or(1) {
                let _ = step(device, image);
            }
            Call::Step
        }
        _ => return group_case_look(&words, &numbers, device, image),
    };
    let said = call_line(&call, device, image);
    said.split_once(' ').map(|(_, rest)| rest.into())
}

/// The lines of a group case that are no call of a list.
fn group_case_look(
    words: &[&str],
    numbers: &[usize],
    device: &mut Device,
    image: &mut [u8],
) -> Option<String> {
    let without_word = |said: String| said.split_once(' ').map(|(_, rest)| rest.into());
    match (words[0], numbers) {
        ("read", [unit]) => {
            return without_word(read_line(read(device, image, Role::Service, *unit)));
        }
        ("inspect", []) => return without_word(inspect_line(inspect(device, image))),
        ("format", []) => {
            let answer = number(format(device, image));
            return Some(format!("{answer} {} {}", phase_words(device.phase), device.stores));
        }
        ("image", []) => return Some(in_pages(image, device.plan.page)),
        ("payload", []) => return Some(plain(to_last_byte(&device.payload))),
        ("set", [place, ..]) => {
            let bytes = byte_words(&words[2..])?;
            image.get_mut(*place..place + bytes.len())?.copy_from_slice(&bytes);
        }
        ("hold", [place, ..]) => {
            let bytes = byte_words(&words[2..])?;
            device.payload.get_mut(*place..place + bytes.len())?.copy_from_slice(&bytes);
        }
        ("cold", []) => device.phase = Phase::Cold,
        ("ready", []) => device.phase = Phase::Ready,
        ("writing", [unit, made]) => device.phase = Phase::Writing { unit: *unit, made: *made },
        ("recovering", [unit, made]) => device.phase = recovering(*unit, *made),
        ("grouping", [write, made]) => {
            device.phase = Phase::Grouping { write: *write, made: *made };
        }
        ("stores", [stores]) => device.stores = u32::try_from(*stores).ok()?,
        ("ungrouped", []) => device.grouped = false,
        _ => return None,
    }
    Some(String::new())
}

/// A group case's lines with what each says, and with what it should say. The
/// bytes of an image are told page by page.
fn group_case(case: &GroupCase) -> Option<(String, String)> {
    let &(widths, page, grouped, lines) = case;
    let plan = Plan::from_script(widths, page);
    let (mut device, mut image) = lay_out(plan, grouped, BENCH_RIGHTS).ok()?;
    let (mut got, mut expected) = (String::new(), String::new());
    for (line, says) in lines {
        let said = group_case_line(line, &mut device, &mut image);
        got += &format!("{line}: {}\n", said.unwrap_or(String::from("no such line")));
        expected += &format!("{line}: {}\n", spelled_out(says));
    }
    Some((got, expected))
}

/// Expected bytes with `HH*N` as N bytes; anything else as it is.
fn spelled_out(says: &str) -> String {
    if !says.contains('*') {
        return says.into();
    }
    let words: Vec<&str> = says.split(' ').collect();
    byte_words(&words).map_or(says.into(), |bytes| plain(&bytes))
}

/// What the mode `lists` prints for an input in hexadecimal digits.
fn lists_played(digits: &str) -> io::Result<String> {
    let digits = digits.replace('S', &("00".repeat(16) + &"02".repeat(8)));
    let digits: Vec<u8> = digits.bytes().filter(|digit| *digit != b' ').collect();
    let halves = digits.iter().map(|&digit| hex_digit(digit).unwrap_or(0));
    let halves: Vec<u8> = halves.collect();
    let input: Vec<u8> = halves.chunks(2).map(|pair| pair[0] << 4 | pair[1]).collect();
    let mut printer = Printer::new(Vec::new());
    play_lists(&input, &mut printer)?;
    printer.hand_on()?;
    let mut printed = String::new();
    for line in String::from_utf8_lossy(&printer.to).lines() {
        let cuts_zeros = line.starts_with("payload");
        printed += if cuts_zeros { line.trim_end_matches(" 00") } else { line };
        printed += "\n";
    }
    Ok(printed)
}

/// What the mode `hotel` prints.
fn hotel_played(input: &str) -> io::Result<String> {
    let mut printer = Printer::new(Vec::new());
    play_hotel(input.as_bytes(), &mut printer)?;
    printer.hand_on()?;
    Ok(String::from_utf8_lossy(&printer.to).into_owned())
}

/// A device case's lines of inspect and of read of unit 0.
fn looked(device: &Device, image_length: usize) -> String {
    let image = vec![1; image_length];
    let read = read(device, &image, Role::Service, 0);
    inspect_line(inspect(device, &image)) + "\n" + &read_line(read)
}

/// Every case: its name, what came out and what should have.
fn cases() -> io::Result<Vec<(String, String, String)>> {
    let mut cases = Vec::new();
    for (level, rate, line) in DRIVE_CASES {
        cases.push((format!("drive {level} {rate}"), drive_line(drive(level, rate)), line.into()));
    }
    for (i, (widths, page, length, phase, inspected, read)) in
        DEVICE_CASES.into_iter().enumerate()
    {
        let got = looked(&device_of(widths, page, phase), length);
        cases.push((format!("device case {i}"), got, format!("{inspected}\n{read}")));
    }
    for (i, (widths, page, length, phase, bytes, answer)) in CUT_CASES.into_iter().enumerate() {
        let mut device = device_of(widths, page, phase);
        let got = number(cut(&mut device, &mut vec![1; length], &vec![0; bytes]));
        cases.push((format!("cut case {i}"), got.to_string(), answer.to_string()));
    }
    for (turns, cents) in PRICE_CASES {
        cases.push((format!("price of {turns}"), price(turns).to_string(), cents.to_string()));
    }
    for (i, (widths, page, length, phase, answer)) in PAID_DEVICE_CASES.into_iter().enumerate() {
        let mut device = device_of(widths, page, phase);
        let got = number(paid(&mut device, &vec![1; length], 1));
        cases.push((format!("paid device case {i}"), got.to_string(), answer.to_string()));
    }
    let all = [[Right::SeeAndWrite; MAX_UNITS]; ROLES.len()];
    for (page, rights) in [(1, all), (2, NO_RIGHTS)] {
        let (_, device) = start(Plan::from_script(&[2, 1], page), true, all);
        let (got, expected) = (format!("{:?}", device.rights), format!("{rights:?}"));
        cases.push((format!("rights of start with page {page}"), got, expected));
    }
    for (line, printed) in PLAN_CASES {
        cases.push((line.into(), played(line, Mode::Bench)?, format!("{printed}\n")));
    }
    for (lines, printed) in LOOK_CASES {
        let script = format!("(plan (2 1))\n{lines}");
        let got = played(&script, Mode::Looks)?;
        cases.push((script, got, format!("plan 0\n{printed}")));
    }
    for (plan, lines, printed) in PAGE_CASES {
        let script = format!("{plan}\n{lines}");
        let got = played(&script, Mode::Looks)?;
        cases.push((script, got, format!("plan 0\n{printed}")));
    }
    for (plan, lines, image) in IMAGE_CASES {
        let script = format!("{plan}\n{lines}");
        let got = image_left(&script).unwrap_or_default();
        cases.push((script, got, image.into()));
    }
    let group_cases = GROUP_CASES.iter().map(|case| ("group", case));
    let role_cases = ROLE_CASES.iter().map(|case| ("role", case));
    let paid_cases = PAID_CASES.iter().map(|case| ("paid", case));
    for (i, (kind, case)) in group_cases.chain(role_cases).chain(paid_cases).enumerate() {
        let (got, expected) = group_case(case).unwrap_or_default();
        // A plan that is refused would give nothing for both.
        let got = if got.is_empty() { String::from("refused") } else { got };
        cases.push((format!("{kind} case {i}"), got, expected));
    }
    for (digits, printed) in LIST_CASES {
        cases.push((format!("lists {digits}"), lists_played(digits)?, (*printed).into()));
    }
    for (i, (line, expected)) in together_lines()?.into_iter().zip(TOGETHER_LETTERS).enumerate() {
        let runs: Vec<String> = line
            .as_bytes()
            .chunk_by(|one, next| one == next)
            .map(|run| format!("{} {}", run.len(), char::from(run[0])))
            .collect();
        cases.push((format!("together line {i}"), runs.join(", "), expected.into()));
    }
    for (input, printed) in HOTEL_CASES {
        cases.push((format!("hotel {input}"), hotel_played(input)?, (*printed).into()));
    }
    for line in HOTEL_BAD_LINES {
        let got = hotel_played(&format!("{line}\n(ride 1 2)\n"))?;
        cases.push((format!("{line} in the hotel"), got, "bad 1\n".into()));
    }
    for line in REFUSED_CUTS {
        let got = played(&format!("(plan (2 1))\n{line}\n"), Mode::Bench)?;
        cases.push((line.into(), got, "plan 0\ncut 18\n".into()));
    }
    for line in BAD_LINES.into_iter().chain(LOOK_LINES) {
        let got = played(&format!("(plan (2 1))\n{line}\n"), Mode::Bench)?;
        cases.push((format!("{line} on the bench"), got, "plan 0\nbad 2\n".into()));
    }
    for line in BAD_LINES {
        let got = played(&format!("(plan (2 1))\n{line}\n"), Mode::Looks)?;
        cases.push((format!("{line} in looks"), got, "plan 0\nbad 2\n".into()));
    }
    for line in LOOK_LINES {
        let got = played(&format!("(plan (2 1))\n{line}\n(wake)\n"), Mode::Looks)?;
        let end = got.lines().last().unwrap_or("").into();
        cases.push((format!("{line} in looks"), end, "wake 5".into()));
    }
    Ok(cases)
}

// ------------------------------------------------------------------ claims
// The claims about lists from a formatted device, tried on lists made at
// random, on all pairs of cuts in one group and on all cuts in one paid ride.
// Groups, rides, pages, roles and the count are in them. Then that of what a
// role can tell, on pairs of images.

/// Random numbers that are the same in every run.
struct Random {
    state: u64,
}

impl Random {
    fn next(&mut self) -> u64 {
        self.state = self.state.wrapping_add(0x9e37_79b9_7f4a_7c15);
        let mut z = self.state;
        z = (z ^ (z >> 30)).wrapping_mul(0xbf58_476d_1ce4_e5b9);
        z = (z ^ (z >> 27)).wrapping_mul(0x94d0_49bb_1331_11eb);
        z ^ (z >> 31)
    }

    fn below(&mut self, limit: usize) -> usize {
        (self.next() % limit as u64) as usize
    }

    fn one_in(&mut self, times: usize) -> bool {
        self.below(times) == 0
    }

    fn of<T: Copy>(&mut self, items: &[T]) -> T {
        items[self.below(items.len())]
    }

    fn byte(&mut self) -> u8 {
        self.next() as u8
    }

    fn bytes(&mut self, count: usize) -> Vec<u8> {
        (0..count).map(|_| self.byte()).collect()
    }
}

/// A table of rights as a list has it.
type RightBytes = [u8; 3 * MAX_UNITS];

/// Service may all, as on the bench.
const BENCH_RIGHT_BYTES: RightBytes = {
    let mut bytes = [0; 3 * MAX_UNITS];
    let mut i = 2 * MAX_UNITS;
    while i < bytes.len() {
        bytes[i] = 2;
        i += 1;
    }
    bytes
};

fn rights_of_bytes(bytes: &RightBytes) -> Rights {
    Input { rest: bytes }.rights().unwrap_or(NO_RIGHTS)
}

/// Which write a ledger is at; the direction of a cleanup is not kept.
#[derive(Clone, Copy, PartialEq, Debug)]
enum LedgerPhase {
    Cold,
    Ready,
    Writing(usize, usize),
    Recovering(usize, usize),
    Grouping(usize, usize),
}

/// The ledger of 'What demand 3 compares with', with groups: it "is fed what
/// start got and each call's arguments", and "nothing of device or image".
/// Its refusals, its splitting of a group and its going through the stores are
/// written apart from the device's, to be held against them.
struct Ledger {
    plan: Plan,
    grouped: bool,
    /// As a list has them: the rider's, the gym's and the service's.
    rights: RightBytes,
    phase: LedgerPhase,
    payload: Vec<u8>,
    last: usize,
    marker: u8,
    saved: Vec<Vec<u8>>,
    /// The members of the group at hand, or of the record that stands.
    members: Vec<(usize, Vec<u8>)>,
    /// Whether a record's first write passed, and not yet that of its zeros.
    stands: bool,
    /// What each unit's own last write that passed gave it, the record's and
    /// the members' too, each passing at its own store w + 2.
    mirror: Vec<Vec<u8>>,
    /// The turns of the ride at hand, and of those that passed together.
    turns: u64,
    turns_passed: u128,
    /// The turns of the paid ride at hand, if the group at hand is one, and of
    /// each whose record passed.
    paid: Option<u64>,
    paid_passed: Vec<u64>,
    /// Whether unit 0 was written by begins or groups too, and unit 1 by other
    /// calls than paid rides.
    total_disturbed: bool,
    cents_disturbed: bool,
    /// Whether unit 0 was written by a ride that isn't paid.
    unpaid: bool,
    completed: u64,
    ceiling: u64,
}

impl Ledger {
    fn new(plan: Plan, grouped: bool, rights: RightBytes) -> Ledger {
        let zeros: Vec<Vec<u8>> = (0..plan.count).map(|unit| vec![0; plan.width(unit)]).collect();
        Ledger {
            plan,
            grouped,
            rights,
            phase: LedgerPhase::Ready,
            payload: Vec::new(),
            last: 0,
            marker: 1,
            saved: zeros.clone(),
            members: Vec::new(),
            stands: false,
            mirror: zeros,
            turns: 0,
            turns_passed: 0,
            paid: None,
            paid_passed: Vec::new(),
            total_disturbed: false,
            cents_disturbed: false,
            unpaid: false,
            completed: 0,
            ceiling: 0,
        }
    }

    fn is_record(&self, unit: usize) -> bool {
        self.grouped && unit + 1 == self.plan.count
    }

    fn width(&self, unit: usize) -> usize {
        self.saved[unit].len()
    }

    fn write_stores(&self, unit: usize) -> u64 {
        2 * self.width(unit) as u64 + 3
    }

    /// "2w + 3 for each member and the record if one stands".
    fn rewrite_stores(&self) -> u64 {
        if !self.stands {
            return 0;
        }
        let members: u64 = self.members.iter().map(|(unit, _)| self.write_stores(*unit)).sum();
        members + self.write_stores(self.plan.count - 1)
    }

    /// The steps to Ready after a cut and a wake.
    fn repair_stores(&self) -> u64 {
        let cleanup = if self.marker == 1 { 0 } else { self.width(self.last) as u64 + 1 };
        cleanup + self.rewrite_stores()
    }

    fn widest(&self) -> u64 {
        (0..self.plan.count).map(|unit| self.width(unit) as u64).max().unwrap_or(0)
    }

    /// The stores left to make without a cut; in Cold the most they can be.
    fn to_come(&self) -> u64 {
        match self.phase {
            LedgerPhase::Ready => 0,
            LedgerPhase::Cold => 1 + self.widest() + self.rewrite_stores(),
            LedgerPhase::Writing(unit, made) => self.write_stores(unit) - made as u64,
            LedgerPhase::Recovering(unit, made) => {
                self.width(unit) as u64 + 1 - made as u64 + self.rewrite_stores()
            }
            LedgerPhase::Grouping(write, made) => {
                let record = self.write_stores(self.plan.count - 1);
                let members = self.members.iter().map(|(unit, _)| self.write_stores(*unit));
                let writes = std::iter::once(record).chain(members).chain(Some(record));
                writes.skip(write).sum::<u64>() - made as u64
            }
        }
    }

    /// The members of these bytes, or the number of the refusal.
    fn split(&self, bytes: &[u8]) -> Result<Vec<(usize, Vec<u8>)>, u8> {
        let mut members = Vec::new();
        let mut at = 0;
        while at < bytes.len() {
            let unit = usize::from(bytes[at]);
            let end = at + 1 + self.saved.get(unit).ok_or(19)?.len();
            members.push((unit, bytes.get(at + 1..end).ok_or(19)?.to_vec()));
            at = end;
        }
        if members.len() < 2 || members.len() > 4 {
            return Err(19);
        }
        let mut units: Vec<usize> = members.iter().map(|(unit, _)| *unit).collect();
        units.sort_unstable();
        if units.windows(2).any(|pair| pair[0] == pair[1]) {
            return Err(20);
        }
        if units.iter().any(|&unit| self.is_record(unit)) {
            return Err(20);
        }
        if !self.grouped || self.saved[self.plan.count - 1].len() <= bytes.len() {
            return Err(21);
        }
        Ok(members)
    }

    /// The unit at hand, what is stored there and the stores made, if a write
    /// is under way.
    fn write_at_hand(&self) -> Option<(usize, Vec<u8>, usize)> {
        match self.phase {
            LedgerPhase::Writing(unit, made) => Some((unit, self.payload.clone(), made)),
            LedgerPhase::Grouping(write, made) => {
                let record = self.plan.count - 1;
                let zeros = vec![0; self.width(record)];
                Some(if write == 0 {
                    let mut bytes = self.payload.clone();
                    bytes.resize(self.width(record), 0);
                    (record, bytes, made)
                } else if write > self.members.len() {
                    (record, zeros, made)
                } else {
                    let (unit, bytes) = self.members[write - 1].clone();
                    (unit, bytes, made)
                })
            }
            _ => None,
        }
    }

    /// The write at hand passes at its store w + 2, "a member's write .. exactly
    /// when its record's first write passed".
    fn passes(&mut self) {
        let Some((unit, bytes, _)) = self.write_at_hand() else { return };
        match self.phase {
            LedgerPhase::Grouping(0, _) => {
                for (member, payload) in self.members.clone() {
                    self.saved[member] = payload;
                }
                self.stands = true;
                self.paid_passed.extend(self.paid);
            }
            LedgerPhase::Grouping(write, _) => {
                if write > self.members.len() {
                    self.stands = false;
                }
            }
            _ => {
                self.saved[unit] = bytes.clone();
                if unit == 0 {
                    self.turns_passed += u128::from(self.turns);
                }
            }
        }
        self.mirror[unit] = bytes;
    }

    fn after_cleanup(&mut self) {
        if self.stands {
            let members = self.members.iter();
            let bytes = members.flat_map(|(unit, payload)| {
                std::iter::once(*unit as u8).chain(payload.iter().copied())
            });
            self.payload = std::iter::once(self.members.len() as u8).chain(bytes).collect();
            self.phase = LedgerPhase::Grouping(1, 0);
        } else {
            self.phase = LedgerPhase::Ready;
        }
    }

    fn step(&mut self) -> u8 {
        if let LedgerPhase::Recovering(unit, made) = self.phase {
            self.completed += 1;
            self.phase = LedgerPhase::Recovering(unit, made + 1);
            if made == self.width(unit) {
                self.marker = 1;
                self.after_cleanup();
            }
            return 0;
        }
        let Some((unit, _, made)) = self.write_at_hand() else { return 5 };
        let w = self.width(unit);
        self.completed += 1;
        self.last = unit;
        if made == 0 {
            self.marker = 2;
        } else if made == w + 1 {
            self.marker = 4;
            self.passes();
        } else if made == 2 * w + 2 {
            self.marker = 1;
        }
        self.phase = match self.phase {
            LedgerPhase::Writing(..) if made == 2 * w + 2 => LedgerPhase::Ready,
            LedgerPhase::Writing(..) => LedgerPhase::Writing(unit, made + 1),
            LedgerPhase::Grouping(write, _) if made == 2 * w + 2 => {
                if write > self.members.len() {
                    LedgerPhase::Ready
                } else {
                    LedgerPhase::Grouping(write + 1, 0)
                }
            }
            LedgerPhase::Grouping(write, _) => LedgerPhase::Grouping(write, made + 1),
            other => other,
        };
        0
    }

    fn cut(&mut self, given: &[u8]) -> u8 {
        if given.len() != self.plan.page {
            return 18;
        }
        let torn = |new: u8, old: u8| -> u8 {
            let bits = (0..8).map(|bit| 1 << bit);
            bits.map(|bit| bit & if given[0] & bit != 0 { new } else { old }).sum()
        };
        if let LedgerPhase::Recovering(unit, made) = self.phase {
            if made == self.width(unit) {
                self.marker = torn(1, self.marker);
            }
        }
        if let Some((unit, _, made)) = self.write_at_hand() {
            let w = self.width(unit);
            let old = if self.last == unit { self.marker } else { 1 };
            self.last = unit;
            self.marker = old;
            if made == 0 {
                self.marker = torn(2, old);
            } else if made == w + 1 {
                self.marker = torn(4, old);
                if self.marker != 2 {
                    self.passes();
                }
            } else if made == 2 * w + 2 {
                self.marker = torn(1, old);
            }
        }
        self.phase = LedgerPhase::Cold;
        self.payload.clear();
        self.ceiling += 1 + self.widest() + self.rewrite_stores();
        0
    }

    fn right(&self, role: Role, unit: usize) -> u8 {
        let first = match role {
            Role::Rider => 0,
            Role::Gym => 8,
            Role::Service => 16,
        };
        self.rights[first + unit]
    }

    fn begin(&mut self, role: Role, unit: usize, payload: &[u8]) -> u8 {
        if self.phase != LedgerPhase::Ready {
            return 5;
        }
        if unit >= self.plan.count {
            return 6;
        }
        if self.is_record(unit) {
            return 20;
        }
        if self.right(role, unit) != 2 {
            return 22;
        }
        if payload.len() != self.width(unit) {
            return 7;
        }
        if unit == self.last && self.marker != 1 {
            return 8;
        }
        self.write(unit, payload.to_vec());
        self.total_disturbed |= unit == 0;
        self.cents_disturbed |= unit == 1;
        self.turns = 0;
        0
    }

    fn ride(&mut self, turns: u64) -> u8 {
        if self.phase != LedgerPhase::Ready {
            return 5;
        }
        let Ok(total) = <[u8; 8]>::try_from(&self.saved[0][..]) else { return 16 };
        if self.is_record(0) {
            return 20;
        }
        if self.last == 0 && self.marker != 1 {
            return 8;
        }
        let sum = u128::from(u64::from_le_bytes(total)) + u128::from(turns);
        let Ok(sum) = u64::try_from(sum) else { return 15 };
        self.write(0, sum.to_le_bytes().to_vec());
        self.turns = turns;
        self.unpaid = true;
        0
    }

    fn write(&mut self, unit: usize, payload: Vec<u8>) {
        self.phase = LedgerPhase::Writing(unit, 0);
        self.payload = payload;
        self.ceiling += self.write_stores(unit);
    }

    fn group(&mut self, bytes: &[u8]) -> u8 {
        if self.phase != LedgerPhase::Ready {
            return 5;
        }
        let members = match self.split(bytes) {
            Ok(members) => members,
            Err(number) => return number,
        };
        let is_last = |unit: usize| unit == self.last;
        let last_in_it =
            self.is_record(self.last) || members.iter().any(|(unit, _)| is_last(*unit));
        if last_in_it && self.marker != 1 {
            return 8;
        }
        self.payload = [&[members.len() as u8], bytes].concat();
        self.phase = LedgerPhase::Grouping(0, 0);
        self.total_disturbed |= members.iter().any(|(unit, _)| *unit == 0);
        self.cents_disturbed |= members.iter().any(|(unit, _)| *unit == 1);
        self.ceiling += members.iter().map(|(unit, _)| self.write_stores(*unit)).sum::<u64>();
        self.ceiling += 2 * self.write_stores(self.plan.count - 1);
        self.members = members;
        self.paid = None;
        0
    }

    /// The price in cents, worked out apart from the device's.
    fn price(turns: u64) -> u128 {
        match turns {
            0 => 0,
            1..=62_000 => 25 + 7 * ((u128::from(turns) + 499) / 500),
            _ => 900,
        }
    }

    fn paid(&mut self, turns: u64) -> u8 {
        if self.phase != LedgerPhase::Ready {
            return 5;
        }
        let totals = [0, 1].map(|unit| {
            let saved = self.saved.get(unit)?;
            <[u8; 8]>::try_from(&saved[..]).ok().map(u64::from_le_bytes)
        });
        let [Some(turns_before), Some(cents_before)] = totals else { return 16 };
        if self.is_record(1) {
            return 20;
        }
        if !self.grouped || self.saved.last().is_none_or(|record| record.len() < 19) {
            return 21;
        }
        if self.marker != 1 && (self.last < 2 || self.is_record(self.last)) {
            return 8;
        }
        let turns_after = u128::from(turns_before) + u128::from(turns);
        let cents_after = u128::from(cents_before) + Self::price(turns);
        if turns_after >> 64 != 0 || cents_after >> 64 != 0 {
            return 15;
        }
        let member = |unit: usize, sum: u128| (unit, sum.to_le_bytes()[..8].to_vec());
        self.members = vec![member(0, turns_after), member(1, cents_after)];
        self.payload = [&[2, 0], &self.members[0].1[..], &[1], &self.members[1].1[..]].concat();
        self.phase = LedgerPhase::Grouping(0, 0);
        self.ceiling += 2 * 19 + 2 * self.write_stores(self.plan.count - 1);
        self.paid = Some(turns);
        0
    }

    /// Whether units 0 and 1 were written by paid rides alone, some passing.
    fn paid_alone(&self) -> bool {
        let disturbed = self.total_disturbed || self.cents_disturbed || self.unpaid;
        !disturbed && !self.paid_passed.is_empty()
    }

    fn read(&self, role: Role, unit: usize) -> u8 {
        if self.phase != LedgerPhase::Ready {
            return 5;
        }
        if unit >= self.plan.count {
            return 6;
        }
        if self.right(role, unit) != 1 && self.right(role, unit) != 2 {
            return 22;
        }
        if unit == self.last && self.marker != 1 {
            return 8;
        }
        0
    }

    /// From a formatted device no marker is foreign, so wake gives no 14.
    fn wake(&mut self) -> u8 {
        if self.phase != LedgerPhase::Cold {
            return 5;
        }
        if self.marker == 1 {
            self.after_cleanup();
        } else {
            self.phase = LedgerPhase::Recovering(self.last, 0);
        }
        0
    }

    /// Takes a call and gives the number it must answer.
    fn hear(&mut self, call: &Call) -> u8 {
        match call {
            Call::Begin { role, unit, payload } => self.begin(*role, *unit, payload),
            Call::Cut { given } => self.cut(given),
            Call::Wake => self.wake(),
            Call::Ride { turns } => self.ride(*turns),
            Call::Group { bytes } => self.group(bytes),
            Call::Paid { turns } => self.paid(*turns),
            Call::Read { role, unit } => self.read(*role, *unit),
            Call::Step => self.step(),
        }
    }
}

/// One list under test: the device, the ledger, and what a group's units held
/// when it was begun and hold if it passes, for a look without the ledger.
struct Trial {
    device: Device,
    image: Vec<u8>,
    ledger: Ledger,
    calls: Vec<Call>,
    group: Option<GroupAtHand>,
}

struct GroupAtHand {
    old: Vec<Vec<u8>>,
    new: Vec<Vec<u8>>,
    passed: bool,
}

impl Trial {
    fn new(plan: Plan, grouped: bool, rights: RightBytes) -> Result<Trial, String> {
        let laid_out = lay_out(plan, grouped, rights_of_bytes(&rights));
        let (device, image) = laid_out.map_err(|refusal| format!("{refusal:?}"))?;
        let ledger = Ledger::new(plan, grouped, rights);
        Ok(Trial { device, image, ledger, calls: Vec::new(), group: None })
    }

    /// Makes a call and looks at every claim that can be judged after it.
    fn make(&mut self, call: Call) -> Result<u8, String> {
        let before = (self.device.clone(), self.image.clone());
        let given = number(call.make(&mut self.device, &mut self.image));
        let expected = self.ledger.hear(&call);
        self.calls.push(call);
        if given != expected {
            return self.fail(&format!("answer {given}, the ledger's is {expected}"));
        }
        if given != 0 {
            if (&self.device, &self.image) != (&before.0, &before.1) {
                return self.fail("a refused call changed something");
            }
            return Ok(given);
        }
        if let Some(Call::Read { role, unit }) = self.calls.last() {
            let saved = &self.ledger.saved[*unit][..];
            if read(&self.device, &self.image, *role, *unit) != Ok(saved) {
                return self.fail("a read does not give what passed");
            }
            if (&self.device, &self.image) != (&before.0, &before.1) {
                return self.fail("a read changed something");
            }
        }
        if self.device.rights != before.0.rights {
            return self.fail("the rights are not kept");
        }
        self.look_at_group(before.0.phase)?;
        self.look_at_ledger()?;
        Ok(given)
    }

    /// "A member's write counts as passed exactly when its record's first write
    /// passed": judged by the image alone, whenever the device is Ready.
    fn look_at_group(&mut self, phase_before: Phase) -> Result<(), String> {
        let plan = self.device.plan;
        let copies = |image: &[u8]| -> Vec<Vec<u8>> {
            (0..plan.count).map(|unit| image[plan.copy_a(unit)].to_vec()).collect()
        };
        if let Some(Call::Group { bytes }) = self.calls.last() {
            let old = copies(&self.image);
            let mut new = old.clone();
            for member in self.device.members(bytes).unwrap_or_default() {
                new[member.unit] = member.payload.to_vec();
            }
            self.group = Some(GroupAtHand { old, new, passed: false });
        }
        if let Some(Call::Paid { turns }) = self.calls.last() {
            let old = copies(&self.image);
            let mut new = old.clone();
            for (unit, more) in [(0, *turns), (1, price(*turns))] {
                add_to(&mut new[unit], more);
            }
            self.group = Some(GroupAtHand { old, new, passed: false });
        }
        if let Some(Call::Begin { .. } | Call::Ride { .. }) = self.calls.last() {
            self.group = None;
        }
        let record_unit = plan.count - 1;
        let Some(group) = &mut self.group else { return Ok(()) };
        let passing = Phase::Grouping { write: 0, made: plan.width(record_unit) + 1 };
        if phase_before == passing {
            group.passed |= self.image[plan.marker_place(record_unit)] != WRITING_A;
        }
        if self.device.phase != Phase::Ready {
            return Ok(());
        }
        let expected = if group.passed { &group.new } else { &group.old };
        if &copies(&self.image) != expected {
            return self.fail("a group is neither all new nor all old, or the wrong one");
        }
        Ok(())
    }

    fn look_at_ledger(&self) -> Result<(), String> {
        let (device, ledger, plan) = (&self.device, &self.ledger, &self.device.plan);
        let phase = match device.phase {
            Phase::Cold => LedgerPhase::Cold,
            Phase::Ready => LedgerPhase::Ready,
            Phase::Writing { unit, made } => LedgerPhase::Writing(unit, made),
            Phase::Recovering { unit, made, .. } => LedgerPhase::Recovering(unit, made),
            Phase::Grouping { write, made } => LedgerPhase::Grouping(write, made),
        };
        if phase != ledger.phase {
            return self.fail("the phase is not the ledger's");
        }
        let mut payload = ledger.payload.clone();
        payload.resize(MAX_WIDTH, 0);
        if device.payload[..] != payload {
            return self.fail("the payload is not the ledger's");
        }
        if u64::from(device.stores) != ledger.completed {
            return self.fail("the count is not that of the completed stores");
        }
        if ledger.completed + ledger.to_come() > ledger.ceiling {
            return self.fail("the count is above the ceiling, or will be");
        }
        for unit in 0..plan.count {
            let marker = device.marker(unit, &self.image);
            if marker != (if unit == ledger.last { ledger.marker } else { 1 }) || marker > 7 {
                return self.fail("a marker is not the ledger's");
            }
            let (a, b) = (&self.image[plan.copy_a(unit)], &self.image[plan.copy_b(unit)]);
            let good = match marker {
                1 => a == ledger.mirror[unit] && b == ledger.mirror[unit],
                2 => b == ledger.mirror[unit],
                _ => a == ledger.mirror[unit],
            };
            if !good {
                return self.fail("the good copy is not what last passed");
            }
            let standing = ledger.members.iter().filter(|_| ledger.stands);
            let mut standing = standing.filter(|(member, _)| *member == unit);
            let saved = standing.next().map_or(&ledger.mirror[unit], |(_, payload)| payload);
            if !ledger.is_record(unit) && saved != &ledger.saved[unit] {
                return self.fail("saved bytes are not the standing record's or the mirror's");
            }
        }
        Ok(())
    }

    /// The closing cut, the wake, the steps to Ready, and the claims on them.
    fn close(&mut self, given: Vec<u8>) -> Result<(), String> {
        if self.make(Call::Cut { given })? != 0 {
            return self.fail("the closing cut is refused");
        }
        let expected_steps = self.ledger.repair_stores();
        let passed = self.ledger.saved.clone();
        let rides = self.ledger.paid_passed.clone();
        let turns = rides.iter().map(|&turns| u128::from(turns)).sum::<u128>();
        let turns = turns + self.ledger.turns_passed;
        let cents = rides.iter().map(|&turns| Ledger::price(turns)).sum::<u128>();
        self.make(Call::Wake)?;
        let mut steps = 0;
        while self.make(Call::Step)? == 0 {
            steps += 1;
        }
        if steps != expected_steps {
            return self.fail(&format!("{steps} steps to Ready, not {expected_steps}"));
        }
        if self.device.phase != Phase::Ready {
            return self.fail("not Ready after the repair");
        }
        let plan = self.device.plan;
        for unit in 0..plan.count {
            let zeros = vec![0; plan.width(unit)];
            let expected = if self.ledger.is_record(unit) { &zeros } else { &passed[unit] };
            if self.device.marker(unit, &self.image) != OK {
                return self.fail("a marker is not 1 after the repair");
            }
            if &self.image[plan.copy_a(unit)] != expected
                || &self.image[plan.copy_b(unit)] != expected
            {
                return self.fail(&format!("unit {unit} does not hold what passed"));
            }
        }
        if plan.width(0) == 8 && !self.ledger.is_record(0) && !self.ledger.total_disturbed {
            if self.total(0) != Some(turns) {
                return self.fail("the total is not the sum over rides that passed");
            }
        }
        // Ticket 12, "the sum of prices over the same rides".
        if self.takes_paid_rides() && !self.ledger.cents_disturbed && self.total(1) != Some(cents) {
            return self.fail("the cents are not the sum over paid rides that passed");
        }
        Ok(())
    }

    fn total(&self, unit: usize) -> Option<u128> {
        let copy_a = &self.image[self.device.plan.copy_a(unit)];
        <[u8; 8]>::try_from(copy_a).ok().map(|bytes| u128::from(u64::from_le_bytes(bytes)))
    }

    fn takes_paid_rides(&self) -> bool {
        let plan = &self.device.plan;
        self.device.grouped && plan.count > 2 && plan.widths[..2] == [8, 8]
    }

    fn fail<T>(&self, what: &str) -> Result<T, String> {
        let plan = &self.device.plan;
        Err(format!(
            "{what}\nwidths {:?}, page {}, grouped {}\n{:?}\n{:?}\nunits {:?}\n{}",
            &plan.widths[..plan.count],
            plan.page,
            self.device.grouped,
            self.device.rights,
            self.device.phase,
            plain(&self.image),
            self.calls.iter().map(call_words).collect::<Vec<_>>().join("; "),
        ))
    }
}

/// Adds to a number, lowest byte first, byte by byte.
fn add_to(bytes: &mut [u8], more: u64) {
    let mut carry = 0;
    for (i, byte) in bytes.iter_mut().enumerate() {
        carry += u16::from(*byte) + u16::from((more >> (8 * i)) as u8);
        *byte = carry as u8;
        carry >>= 8;
    }
}

fn call_words(call: &Call) -> String {
    match call {
        Call::Begin { role, unit, payload } => {
            format!("{role:?} begin {unit} {}", plain(payload))
        }
        Call::Read { role, unit } => format!("{role:?} read {unit}"),
        Call::Cut { given } => format!("cut {}", plain(given)),
        Call::Ride { turns } => format!("ride {turns}"),
        Call::Group { bytes } => format!("group {}", plain(bytes)),
        Call::Paid { turns } => format!("paid {turns}"),
        Call::Wake | Call::Step => call.word().into(),
    }
}

// ---------------------------------------------------------- lists at random

fn random_plan(random: &mut Random) -> Plan {
    let count = match random.below(16) {
        0 => 1,
        1 => 2,
        _ => random.of(&[3, 3, 3, 4, 4, 5, 6, 8]),
    };
    let mut widths = [0; MAX_UNITS];
    for width in &mut widths[..count] {
        *width = random.of(&[1, 1, 1, 2, 2, 3, 4, 5, 8, 9]);
    }
    if random.one_in(2) {
        widths[0] = 8;
    }
    let all: u16 = widths[..count - 1].iter().map(|width| 1 + width).sum();
    widths[count - 1] = match random.below(12) {
        0 => 1 + random.below(12) as u16,
        1 => 40,
        2 => 5,
        _ => 1 + all.min(24),
    };
    Plan { count, widths, page: random.of(&PAGE_SIZES) }
}

/// A plan that takes paid rides, now and then but for one thing.
fn random_paid_plan(random: &mut Random) -> Plan {
    let mut widths = [8; MAX_UNITS];
    let count = random.of(&[3, 3, 3, 4, 4, 5]);
    for width in &mut widths[2..count] {
        *width = random.of(&[1, 1, 2, 3, 8]);
    }
    widths[count - 1] = random.of(&[19, 19, 19, 20, 21, 24, 31, 33, 40]);
    let mut plan = Plan { count, widths, page: random.of(&PAGE_SIZES) };
    match random.below(40) {
        0 => plan.count = random.of(&[1, 2]),
        1 => plan.widths[random.below(2)] = random.of(&[1, 7, 9, 16]),
        2 => plan.widths[count - 1] = random.of(&[1, 8, 17, 18]),
        _ => {}
    }
    plan
}

/// The turns of a paid ride: those where the price changes, and others; seldom
/// so many that the total comes to its end.
fn random_turns(random: &mut Random) -> u64 {
    let any = random.next();
    match random.below(12) {
        0 => 0,
        1 => any,
        2 => any % (1 << 40),
        3..=5 => random.of(&[1, 499, 500, 501, 61_500, 61_501, 62_000, 62_001, 62_501]),
        _ => any % 70_000,
    }
}

/// Often service's alone; otherwise mixed, with bytes that are no right.
fn random_rights(random: &mut Random) -> RightBytes {
    if random.one_in(3) {
        return BENCH_RIGHT_BYTES;
    }
    [(); 3 * MAX_UNITS].map(|()| random.of(&[0, 0, 1, 1, 2, 2, 2, 2, 3, 255]))
}

/// A role, mostly one that may write the unit if there is such.
fn random_role(random: &mut Random, device: &Device, unit: usize) -> Role {
    let role = random.of(&ROLES);
    let may = |role: &Role| {
        unit < device.plan.count && device.rights[*role as usize][unit] == Right::SeeAndWrite
    };
    if random.one_in(4) {
        return role;
    }
    ROLES.into_iter().find(may).unwrap_or(role)
}

fn random_read(random: &mut Random, plan: &Plan) -> Call {
    let beyond = usize::from(random.one_in(8));
    Call::Read { role: random.of(&ROLES), unit: random.below(plan.count + beyond) }
}

fn random_begin(random: &mut Random, device: &Device) -> Call {
    let plan = &device.plan;
    let beyond = usize::from(random.one_in(10));
    let unit = random.below(plan.count + beyond);
    let width = if unit < plan.count { plan.width(unit) } else { 1 };
    let length = if random.one_in(10) { random.below(9) } else { width };
    let role = random_role(random, device, unit);
    Call::Begin { role, unit, payload: random.bytes(length) }
}

/// The bytes of a group, mostly of different units below the record.
fn random_group(random: &mut Random, plan: &Plan) -> Vec<u8> {
    let wild = random.one_in(8);
    let mut units: Vec<usize> = (0..plan.count - usize::from(!wild)).collect();
    let mut bytes = Vec::new();
    for _ in 0..random.of(if wild { &[0, 1, 2, 3, 4, 5] } else { &[2, 2, 2, 3, 3, 4] }) {
        if units.is_empty() {
            break;
        }
        let at = random.below(units.len());
        let unit = if wild { units[at] } else { units.swap_remove(at) };
        bytes.push(unit as u8);
        let byte = random.below(5) as u8; // looks like a unit number
        let payload = random.bytes(plan.width(unit));
        bytes.extend(if random.one_in(3) { vec![byte; payload.len()] } else { payload });
    }
    match random.below(40) {
        0 => drop(bytes.pop()),
        1 => bytes.push(random.below(4) as u8),
        2 if !bytes.is_empty() => {
            let at = random.below(bytes.len());
            bytes[at] = random.below(9) as u8;
        }
        _ => {}
    }
    bytes
}

fn random_cut(random: &mut Random, plan: &Plan) -> Vec<u8> {
    let length = if random.one_in(20) { random.below(18) } else { plan.page };
    right_cut(random, length)
}

/// The first byte tears markers, so that those bits count most.
fn right_cut(random: &mut Random, length: usize) -> Vec<u8> {
    let mut given = random.bytes(length);
    if let Some(first) = given.first_mut() {
        *first = if random.one_in(3) { *first } else { random.below(8) as u8 };
    }
    given
}

/// A call that mostly goes on from the phase; one step in so many is a cut.
fn random_call(random: &mut Random, device: &Device, steps_to_a_cut: usize) -> Call {
    let plan = &device.plan;
    let usual = match device.phase {
        _ if random.one_in(60) => random.below(8),
        Phase::Cold => 3,
        Phase::Ready => random.of(&[1, 1, 1, 4, 4, 5, 5, 5, 5, 5, 5, 6, 6, 6, 7]),
        _ if random.one_in(steps_to_a_cut) => 2,
        _ => 0,
    };
    match usual {
        1 => random_begin(random, device),
        2 => Call::Cut { given: random_cut(random, plan) },
        3 => Call::Wake,
        4 => {
            let turns = random.next();
            Call::Ride { turns: if random.one_in(6) { turns } else { turns % 1000 } }
        }
        5 => Call::Group { bytes: random_group(random, plan) },
        6 => random_read(random, plan),
        7 => Call::Paid { turns: random_turns(random) },
        _ => Call::Step,
    }
}

fn random_trial(random: &mut Random) -> Result<Trial, String> {
    let plan = random_plan(random);
    let grouped = !random.one_in(8);
    let mut trial = Trial::new(plan, grouped, random_rights(random))?;
    let steps_to_a_cut = random.of(&[10, 30, 60, 60, 100, 150, 400]);
    // In some lists unit 0 is written by rides alone.
    let rides_alone = random.one_in(3);
    for _ in 0..random.of(&[60, 150, 400, 400, 800]) {
        let call = random_call(random, &trial.device, steps_to_a_cut);
        let disturbs = match &call {
            Call::Begin { unit, .. } => *unit == 0,
            Call::Group { bytes } => trial
                .device
                .members(bytes)
                .is_ok_and(|members| members.iter().any(|member| member.unit == 0)),
            _ => false,
        };
        if !(rides_alone && disturbs) {
            trial.make(call)?;
        }
    }
    trial.close(right_cut(random, plan.page))?;
    Ok(trial)
}

/// Paid rides on plans that take them, with cuts that are often at the store
/// where the record passes. In most lists the two units are written by them
/// alone, while the others are written in any way.
fn random_paid_trial(random: &mut Random) -> Result<Trial, String> {
    let plan = random_paid_plan(random);
    let grouped = !random.one_in(20);
    let mut trial = Trial::new(plan, grouped, random_rights(random))?;
    let steps_to_a_cut = random.of(&[30, 60, 100, 150, 400]);
    let paid_alone = !random.one_in(4);
    let record_width = plan.width(plan.count - 1);
    for _ in 0..random.of(&[150, 400, 800, 1500]) {
        let passing = Phase::Grouping { write: 0, made: record_width + 1 };
        let call = match trial.device.phase {
            Phase::Ready if !random.one_in(3) => Call::Paid { turns: random_turns(random) },
            phase if phase == passing && random.one_in(4) => {
                Call::Cut { given: right_cut(random, plan.page) }
            }
            _ => random_call(random, &trial.device, steps_to_a_cut),
        };
        let others = match &call {
            Call::Begin { unit, .. } => *unit < 2,
            Call::Ride { .. } => true,
            Call::Group { bytes } => trial
                .device
                .members(bytes)
                .is_ok_and(|members| members.iter().any(|member| member.unit < 2)),
            _ => false,
        };
        if !(paid_alone && others) {
            trial.make(call)?;
        }
    }
    trial.close(right_cut(random, plan.page))?;
    Ok(trial)
}

/// On (8 8 19): a paid ride of 62,000 turns after one of 501, cut at each of its
/// 120 stores and at none, with every byte that a marker can tell apart, for
/// every page. The first ride stands, and the second from the record's store 21
/// on, whole. Gives how many cuts left one ride and how many left both.
fn cuts_in_a_paid_ride() -> Result<[usize; 2], String> {
    let mut left = [0, 0];
    for page in [1, 4, 8, 16] {
        let plan = Plan::from_script(&[8, 8, 19], page);
        for made in 0..=120 {
            for byte in 0..8 {
                let mut trial = Trial::new(plan, true, BENCH_RIGHT_BYTES)?;
                trial.make(Call::Paid { turns: 501 })?;
                for _ in 0..120 {
                    trial.make(Call::Step)?;
                }
                trial.make(Call::Paid { turns: 62_000 })?;
                for _ in 0..made {
                    trial.make(Call::Step)?;
                }
                let mut given = vec![0x5a; plan.page];
                given[0] = byte;
                trial.close(given)?;
                // From 2 to 4 the marker stays 2 if it keeps 2 and takes no 4.
                let both = made > 20 || made == 20 && byte & 6 != 0;
                let sums = if both { (62_501, 932) } else { (501, 39) };
                if (trial.total(0), trial.total(1)) != (Some(sums.0), Some(sums.1)) {
                    return trial.fail("a cut paid ride is neither saved whole nor not at all");
                }
                left[usize::from(both)] += 1;
            }
        }
    }
    Ok(left)
}

/// On (1 1 5): the group cut at each of its 36 stores and at none, with every
/// byte that a marker can tell apart, and then so at each store of the repair.
fn pairs_of_cuts() -> Result<usize, String> {
    let plan = Plan::from_script(&[1, 1, 5], 1);
    let mut pairs = 0;
    for first in 0..=36 {
        for first_byte in 0..8 {
            let mut trial = Trial::new(plan, true, BENCH_RIGHT_BYTES)?;
            trial.make(Call::Group { bytes: vec![0x00, 0x33, 0x01, 0x44] })?;
            for _ in 0..first {
                trial.make(Call::Step)?;
            }
            trial.make(Call::Cut { given: vec![first_byte] })?;
            let most = trial.ledger.repair_stores();
            let calls = trial.calls;
            for second in 0..=most {
                for second_byte in 0..8 {
                    let mut trial = Trial::new(plan, true, BENCH_RIGHT_BYTES)?;
                    for call in &calls {
                        trial.make(call.clone())?;
                    }
                    trial.make(Call::Wake)?;
                    for _ in 0..second {
                        trial.make(Call::Step)?;
                    }
                    trial.close(vec![second_byte])?;
                    pairs += 1;
                }
            }
        }
    }
    Ok(pairs)
}

/// Devices and images of any kind, which no list need reach: a refused call
/// changes nothing, and an accepted one leaves no phase that 4 refuses.
fn random_device_trial(random: &mut Random) -> Result<(), String> {
    let plan = random_plan(random);
    let grouped = !random.one_in(4);
    let (_, mut device) = start(plan, grouped, rights_of_bytes(&random_rights(random)));
    device.stores = random.of(&[0, 7, u32::MAX - 1, u32::MAX]);
    let mut image: Vec<u8> = (0..plan.image_length()).map(|_| random.below(5) as u8).collect();
    for unit in 0..plan.count {
        image[plan.marker_place(unit)] = random.of(&[1, 1, 1, 1, 1, 0, 2, 4, 6, 7, 8]);
    }
    let group = [&[random.below(6) as u8], &random_group(random, &plan)[..]].concat();
    let record = plan.copy_a(plan.count - 1);
    for (place, &byte) in image[record].iter_mut().zip(&group) {
        *place = byte;
    }
    if !random.one_in(4) {
        let length = group.len().min(MAX_WIDTH);
        device.payload[..length].copy_from_slice(&group[..length]);
    }
    let (unit, made) = (random.below(plan.count + 1), random.below(60));
    let direction = random.of(&[Direction::AToB, Direction::BToA]);
    device.phase = match random.below(6) {
        0 => Phase::Cold,
        1 => Phase::Ready,
        2 => Phase::Writing { unit, made: made % 12 },
        3 => Phase::Recovering { unit, made: made % 6, direction },
        _ => Phase::Grouping { write: random.below(7), made: made % random.of(&[3, 8, 60]) },
    };
    let call = random_call(random, &device, 4);
    let before = (device.clone(), image.clone());
    let answer = call.make(&mut device, &mut image);
    let fault = match answer {
        Err(_) if (&device, &image) != (&before.0, &before.1) => "a refused call changed something",
        Ok(()) if device.check(&image).is_err() => "an accepted call left a phase that 4 refuses",
        _ => return given_record_trial(&device, &group),
    };
    Err(format!("{fault}\n{:?}\n{}\n{}", before.0, plain(&before.1), call_words(&call)))
}

/// Whether a record is one that a group gives, in the words of the ticket: some
/// group's bytes pass 19 to 21, and their count, they and zeros are the record.
fn given_record_trial(device: &Device, bytes: &[u8]) -> Result<(), String> {
    let Some(record_unit) = device.record_unit() else { return Ok(()) };
    let mut record = bytes.to_vec();
    record.resize(device.plan.width(record_unit), 0);
    let given = (1..=record.len()).any(|end| {
        let Ok(members) = device.members(&record[1..end]) else { return false };
        let mut gives = [&[members.len() as u8], &record[1..end]].concat();
        gives.resize(record.len(), 0);
        gives == record
    });
    if given == device.members_of_record(&record).is_some() {
        return Ok(());
    }
    Err(format!("given {given}: widths {:?}, record {}", device.plan.widths, plain(&record)))
}

/// Two Ready devices alike "in plan, grouping, rights, count and payload, over
/// images of equal length that are alike in every unit" that a role may see: its
/// reads and begins, "with steps between", give equal answers, the bytes read
/// too. Every marker may be bad. Gives the answers of the reads and begins.
fn pair_of_images_trial(random: &mut Random) -> Result<Vec<u8>, String> {
    let plan = random_plan(random);
    let grouped = !random.one_in(3);
    let (_, mut device) = start(plan, grouped, rights_of_bytes(&random_rights(random)));
    device.phase = Phase::Ready;
    device.stores = random.of(&[0, 7, u32::MAX - 1, u32::MAX]);
    device.payload.copy_from_slice(&random.bytes(MAX_WIDTH));
    let role = random.of(&ROLES);
    let length = plan.image_length() + random.below(3);
    let mut images = [random.bytes(length), random.bytes(length)];
    let mut first = 0;
    for unit in 0..plan.count {
        let end = plan.length(unit + 1);
        for image in &mut images {
            image[first] = random.of(&[1, 1, 1, 1, 0, 2, 4, 6, 7, 8, 255]);
        }
        if device.rights[role as usize][unit] != Right::Nothing {
            let [one, other] = &mut images;
            other[first..end].copy_from_slice(&one[first..end]);
        }
        first = end;
    }
    let mut devices = [device.clone(), device.clone()];
    let mut answers = Vec::new();
    let mut calls = Vec::new();
    for _ in 0..random.of(&[10, 40, 100]) {
        let mut call = match devices[0].phase {
            Phase::Ready if random.one_in(2) => random_begin(random, &device),
            Phase::Ready => random_read(random, &plan),
            _ if random.one_in(10) => random_read(random, &plan),
            _ => Call::Step,
        };
        if let Call::Begin { role: asks, .. } | Call::Read { role: asks, .. } = &mut call {
            *asks = role;
        }
        calls.push(call_words(&call));
        let [one, other] = [0, 1].map(|i| call_line(&call, &mut devices[i], &mut images[i]));
        if one != other {
            return Err(format!(
                "{role:?} is given {one} and {other}\n{device:?}\n{}",
                calls.join("; ")
            ));
        }
        if !matches!(call, Call::Step) {
            let number = one.split(' ').nth(1).and_then(|number| number.parse().ok());
            answers.push(number.unwrap_or(255));
        }
    }
    Ok(answers)
}

const RANDOM_LISTS: usize = 4000;
const RANDOM_PAID_LISTS: usize = 3000;
const RANDOM_DEVICES: usize = 200_000;
const RANDOM_PAIRS: usize = 20_000;

/// Tries the claims; what the lists met is counted, so that none is empty.
fn try_claims() -> Result<String, String> {
    let mut random = Random { state: 10 };
    let (mut groups, mut cuts, mut torn, mut rewrites) = (0, 0, 0, 0);
    let (mut reads, mut lacking) = (0, 0);
    for _ in 0..RANDOM_LISTS {
        let trial = random_trial(&mut random)?;
        let (mut device, mut image) =
            lay_out(trial.device.plan, trial.device.grouped, trial.device.rights)
                .map_err(|refusal| format!("{refusal:?}"))?;
        for call in &trial.calls {
            let phase = device.phase;
            if let Err(refusal) = call.make(&mut device, &mut image) {
                lacking += usize::from(refusal == Refusal::NoRight);
                continue;
            }
            match call {
                Call::Read { .. } => reads += 1,
                Call::Group { .. } => groups += 1,
                Call::Cut { .. } => {
                    cuts += 1;
                    torn += usize::from(matches!(phase, Phase::Grouping { .. }));
                }
                _ => {
                    let again = Phase::Grouping { write: 1, made: 0 };
                    let recovers = matches!(phase, Phase::Cold | Phase::Recovering { .. });
                    rewrites += usize::from(recovers && device.phase == again);
                }
            }
        }
    }
    let pairs = pairs_of_cuts()?;
    let (mut lists_alone, mut rides, mut most_cents) = (0, 0, 0);
    for _ in 0..RANDOM_PAID_LISTS {
        let trial = random_paid_trial(&mut random)?;
        if trial.takes_paid_rides() && trial.ledger.paid_alone() {
            lists_alone += 1;
            rides += trial.ledger.paid_passed.len();
            most_cents = most_cents.max(trial.total(1).unwrap_or(0));
        }
    }
    let [one_left, both_left] = cuts_in_a_paid_ride()?;
    for _ in 0..RANDOM_DEVICES {
        random_device_trial(&mut random)?;
    }
    let mut answers = Vec::new();
    for _ in 0..RANDOM_PAIRS {
        answers.extend(pair_of_images_trial(&mut random)?);
    }
    let times = |number: u8| answers.iter().filter(|&&answer| answer == number).count();
    Ok(format!(
        "{RANDOM_LISTS} lists ({groups} groups, {cuts} cuts, {torn} of them in a group phase, \
         {rewrites} records written again, {reads} reads, {lacking} rights lacking), {pairs} \
         pairs of cuts, {RANDOM_PAID_LISTS} lists with paid rides ({lists_alone} where they alone \
         write both units and some pass, {rides} there, at most {most_cents} cents), {one_left} \
         cuts before a paid ride passed and {both_left} after, {RANDOM_DEVICES} devices and \
         {RANDOM_PAIRS} pairs of images ({} answers, {} of them 0, {} of them 8, {} of them 22) \
         at random, every claim holds",
        answers.len(),
        times(0),
        times(8),
        times(22),
    ))
}

fn selftest() -> io::Result<()> {
    let cases = cases()?;
    let mut wrong = 0;
    for (name, got, expected) in &cases {
        if got != expected {
            eprintln!("{name}\nexpected:\n{expected}\ngot:\n{got}");
            wrong += 1;
        }
    }
    if wrong > 0 {
        return Err(io::Error::other(format!("{wrong} of {} cases are wrong", cases.len())));
    }
    println!("{} cases, all as worked out by hand", cases.len());
    println!("{}", try_claims().map_err(io::Error::other)?);
    Ok(())
}

fn main() -> ExitCode {
    let arguments: Vec<String> = std::env::args().skip(1).collect();
    let done = match arguments.iter().map(String::as_str).collect::<Vec<_>>()[..] {
        [] => play_input(Mode::Bench),
        ["looks"] => play_input(Mode::Looks),
        ["lists"] => play_lists_input(),
        ["together"] => together(),
        ["hotel"] => play_hotel_input(),
        ["--selftest"] => selftest(),
        _ => Err(io::Error::other(
            "usage: simulator [looks | lists | together | hotel | --selftest]",
        )),
    };
    match done {
        Ok(()) => ExitCode::SUCCESS,
        Err(error) => {
            eprintln!("simulator: {error}");
            ExitCode::FAILURE
        }
    }
}
