// The same rules in plain Rust over bit masks.
use crate::cases::{Crew, Frame, LINE_BYTES};
use std::cmp::Ordering;

const MOST_GROUPS: usize = 512;

/// A group by the ends of its levers: + has the upper end, - the lower, * both.
#[derive(Clone, Copy, PartialEq, Eq)]
struct Group {
    up: u32,
    down: u32,
}

const EMPTY: Group = Group { up: 0, down: 0 };

impl Group {
    fn covers(self, other: Group) -> bool {
        (self.up & !other.up) | (self.down & !other.down) == 0
    }

    fn named(self) -> u32 {
        self.up | self.down
    }

    fn stars(self) -> u32 {
        self.up & self.down
    }

    /// The levers on which one of the two has + and the other -.
    fn opposing(self, other: Group) -> u32 {
        (self.up & other.down | self.down & other.up) & !(self.stars() | other.stars())
    }

    /// The items of both, but for those of the lever of a bit.
    fn join(self, other: Group, bit: u32) -> Group {
        Group { up: (self.up | other.up) & !bit, down: (self.down | other.down) & !bit }
    }

    /// The ends of a line that this group lacks, as levers; none where a lever that is named, or one with *, is among them.
    fn lacks(self, line: Group) -> Option<u32> {
        let missing = (line.up & !self.up) | (line.down & !self.down);
        if missing & (self.named() | line.stars()) == 0 { Some(missing) } else { None }
    }

    fn order(&self, other: &Group) -> Ordering {
        let counts = self.named().count_ones().cmp(&other.named().count_ones());
        counts.then_with(|| {
            let differ = (self.up ^ other.up) | (self.down ^ other.down);
            let bit = differ & differ.wrapping_neg();
            self.rank(bit).cmp(&other.rank(bit))
        })
    }

    /// + before - before *, and a sign before none.
    fn rank(self, bit: u32) -> u8 {
        match (self.up & bit != 0, self.down & bit != 0) {
            (true, false) => 0,
            (false, true) => 1,
            (true, true) => 2,
            (false, false) => 3,
        }
    }
}

fn manages(crew: Crew, group: Group) -> bool {
    let stars = group.stars();
    match crew {
        Crew::Free => true,
        Crew::Hands(count) => stars.count_ones() <= count,
        Crew::Split(plate) => {
            // The plate p stands at the place p - 1.
            let below = if plate > 32 { u32::MAX } else { ((1u64 << plate.saturating_sub(1)) - 1) as u32 };
            (stars & below).count_ones() <= 1 && (stars & !below).count_ones() <= 1
        }
    }
}

fn covered(table: &[Group], group: Group) -> bool {
    table.iter().any(|other| other.covers(group))
}

/// Whether a group is forbidden with one more line.
fn forbidden(table: &[Group], line: Group, group: Group) -> bool {
    if covered(table, group) {
        return true;
    }
    let Some(mut missing) = group.lacks(line) else {
        return false;
    };
    while missing != 0 {
        let bit = missing & missing.wrapping_neg();
        missing ^= bit;
        let mut opposite = group;
        if line.up & bit != 0 {
            opposite.down |= bit;
        } else {
            opposite.up |= bit;
        }
        if !covered(table, opposite) {
            return false;
        }
    }
    true
}

/// What is left of a forbidden group when each end that can go is gone, from the lowest lever on, the upper end first.
fn shorten(table: &[Group], line: Group, group: Group) -> Group {
    let mut short = group;
    let mut left = group.named();
    while left != 0 {
        let bit = left & left.wrapping_neg();
        left ^= bit;
        if short.up & bit != 0 {
            let less = Group { up: short.up ^ bit, ..short };
            if forbidden(table, line, less) {
                short = less;
            }
        }
        if short.down & bit != 0 {
            let less = Group { down: short.down ^ bit, ..short };
            if forbidden(table, line, less) {
                short = less;
            }
        }
    }
    short
}

/// Takes in a group that is not covered yet. False where more than 512 come up.
fn consider(crew: Crew, table: &[Group], line: Group, new: &mut Vec<Group>, group: Group) -> bool {
    if covered(table, group) || covered(new, group) || !manages(crew, group) || !forbidden(table, line, group) {
        return true;
    }
    if new.len() == MOST_GROUPS {
        return false;
    }
    new.push(shorten(table, line, group));
    true
}

fn pair(crew: Crew, table: &[Group], line: Group, new: &mut Vec<Group>, a: Group, b: Group) -> bool {
    let mut opposing = a.opposing(b);
    while opposing != 0 {
        let bit = opposing & opposing.wrapping_neg();
        opposing ^= bit;
        if !consider(crew, table, line, new, a.join(b, bit)) {
            return false;
        }
    }
    true
}

enum Answer {
    Entered = 0,
    NothingPossible = 1,
    TooMany = 2,
    NotFitted = 3,
}

/// Turns the table into that with one more line, or leaves it.
fn grow(crew: Crew, table: &mut Vec<Group>, new: &mut Vec<Group>, line: Group) -> Answer {
    if forbidden(table, line, EMPTY) {
        return Answer::NothingPossible;
    }
    new.clear();
    if !consider(crew, table, line, new, line) {
        return Answer::TooMany;
    }
    let mut at = 0;
    while at < new.len() {
        let group = new[at];
        for other in table.iter() {
            if !pair(crew, table, line, new, group, *other) {
                return Answer::TooMany;
            }
        }
        for before in 0..at {
            let other = new[before];
            if !pair(crew, table, line, new, group, other) {
                return Answer::TooMany;
            }
        }
        at += 1;
    }
    let gone = table.iter().filter(|group| covered(new, **group)).count();
    if table.len() - gone + new.len() > MOST_GROUPS {
        return Answer::TooMany;
    }
    table.retain(|group| !covered(new, *group));
    table.extend_from_slice(new);
    table.sort_unstable_by(Group::order);
    Answer::Entered
}

/// Whether a setting shows the group and none of the lines.
fn escapes(lines: &[Group], set: Group) -> bool {
    let mut fewest = u32::MAX;
    let mut choice = (EMPTY, 0);
    for line in lines {
        if let Some(missing) = set.lacks(*line) {
            if missing == 0 {
                return false;
            }
            let count = missing.count_ones();
            if count < fewest {
                fewest = count;
                choice = (*line, missing);
            }
        }
    }
    if fewest == u32::MAX {
        return true;
    }
    let (line, missing) = choice;
    let bit = missing & missing.wrapping_neg();
    let plus = Group { up: set.up | bit, ..set };
    let minus = Group { down: set.down | bit, ..set };
    let (against, along) = if line.up & bit != 0 { (minus, plus) } else { (plus, minus) };
    escapes(lines, against) || (fewest > 1 && escapes(lines, along))
}

/// The room that is made before the clock starts.
pub struct Room {
    table: Vec<Group>,
    new: Vec<Group>,
    others: Vec<Group>,
    kept: Vec<Group>,
}

impl Room {
    pub fn new() -> Room {
        Room {
            table: Vec::with_capacity(2 * MOST_GROUPS),
            new: Vec::with_capacity(MOST_GROUPS),
            others: Vec::with_capacity(128),
            kept: Vec::with_capacity(128),
        }
    }
}

fn read(levers: u32, bytes: &[u8]) -> Option<Group> {
    let mut group = EMPTY;
    for item in bytes.chunks_exact(2) {
        let plate = item[0] as u32;
        if plate == 0 {
            continue;
        }
        if plate > levers {
            return None;
        }
        let bit = 1 << (plate - 1);
        if group.named() & bit == 0 {
            if item[1] != b'-' {
                group.up |= bit;
            }
            if item[1] != b'+' {
                group.down |= bit;
            }
        }
    }
    Some(group)
}

fn write(groups: &[Group], out: &mut [u8]) {
    for (group, bytes) in groups.iter().zip(out.chunks_exact_mut(8)) {
        bytes[..4].copy_from_slice(&group.up.to_le_bytes());
        bytes[4..].copy_from_slice(&group.down.to_le_bytes());
    }
}

/// The table of the lines, entered one after the other.
pub fn table(room: &mut Room, frame: &Frame, lines: &[u8], answers: &mut [u8], groups: &mut [u8]) -> usize {
    room.table.clear();
    for (line, answer) in lines.chunks(LINE_BYTES).zip(answers) {
        *answer = match read(frame.levers, line) {
            None => Answer::NotFitted,
            Some(line) => grow(frame.crew, &mut room.table, &mut room.new, line),
        } as u8;
    }
    write(&room.table, groups);
    room.table.len()
}

/// The cut list of the lines.
pub fn cut(room: &mut Room, frame: &Frame, lines: &[u8], groups: &mut [u8]) -> usize {
    room.others.clear();
    room.others.extend(lines.chunks(LINE_BYTES).filter_map(|line| read(frame.levers, line)));
    room.kept.clear();
    // `others` has the lines not looked at yet in front, and those that stay behind them, last first.
    for at in (0..room.others.len()).rev() {
        let line = room.others.remove(at);
        if manages(frame.crew, line) && escapes(&room.others, line) {
            room.others.push(line);
            room.kept.push(line);
        }
    }
    room.kept.reverse();
    write(&room.kept, groups);
    room.kept.len()
}
