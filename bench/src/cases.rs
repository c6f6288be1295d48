// The frames that are compared.

/// The bytes of one line: eight times a plate and a sign, the plate 0 for no item.
pub const LINE_BYTES: usize = 16;

#[derive(Clone, Copy)]
pub enum Crew {
    Free,
    Hands(u32),
    Split(u32),
}

impl Crew {
    /// The crew's kind and its number, as the proved library takes them.
    pub fn code(self) -> (u32, u32) {
        match self {
            Crew::Free => (0, 0),
            Crew::Hands(count) => (1, count),
            Crew::Split(plate) => (2, plate),
        }
    }

    fn name(self) -> String {
        match self {
            Crew::Free => "free".to_string(),
            Crew::Hands(count) => format!("hands {count}"),
            Crew::Split(plate) => format!("split {plate}"),
        }
    }
}

pub struct Frame {
    pub name: String,
    pub levers: u32,
    pub crew: Crew,
    /// The lines, in the order of their entry.
    pub lines: Vec<u8>,
    /// Whether the lines are also struck, one after the other.
    pub struck: bool,
}

fn put(lines: &mut Vec<u8>, items: &[(u8, u8)]) {
    let mut line = [0; LINE_BYTES];
    for (at, (plate, sign)) in items.iter().enumerate() {
        line[2 * at] = *plate;
        line[2 * at + 1] = *sign;
    }
    lines.extend_from_slice(&line);
}

/// Seven lines (1- a-), seven (2- b-), six (3- c-), all a, b and c different, and (1+ 2+ 3+).
fn fan(crew: Crew) -> Frame {
    let mut lines = Vec::new();
    let mut other = 4;
    for (plate, count) in [(1, 7), (2, 7), (3, 6)] {
        for _ in 0..count {
            put(&mut lines, &[(plate, b'-'), (other, b'-')]);
            other += 1;
        }
    }
    put(&mut lines, &[(1, b'+'), (2, b'+'), (3, b'+')]);
    Frame {
        name: format!("fan of 20 and 1, {}", crew.name()),
        levers: 23,
        crew,
        lines,
        struck: true,
    }
}

/// The lines (k+ (k+1)-) over 32 levers.
fn chain(crew: Crew) -> Frame {
    let mut lines = Vec::new();
    for plate in 1..32 {
        put(&mut lines, &[(plate, b'+'), (plate + 1, b'-')]);
    }
    Frame {
        name: format!("chain of 31, {}", crew.name()),
        levers: 32,
        crew,
        lines,
        struck: false,
    }
}

/// A sequence of numbers that look random, the same for the same seed.
struct Draw(u64);

impl Draw {
    fn below(&mut self, limit: u64) -> u64 {
        self.0 = self.0.wrapping_add(0x9E37_79B9_7F4A_7C15);
        let mut z = self.0;
        z = (z ^ (z >> 30)).wrapping_mul(0xBF58_476D_1CE4_E5B9);
        z = (z ^ (z >> 27)).wrapping_mul(0x94D0_49BB_1331_11EB);
        (z ^ (z >> 31)) % limit
    }
}

/// 128 different lines of so many items over 32 levers; one sign in eight is *.
fn random(items: usize, crew: Crew, seed: u64) -> Frame {
    let mut draw = Draw(seed);
    let mut all: Vec<Vec<(u8, u8)>> = Vec::new();
    while all.len() < 128 {
        let mut line: Vec<(u8, u8)> = Vec::new();
        while line.len() < items {
            let plate = 1 + draw.below(32) as u8;
            if line.iter().all(|(other, _)| *other != plate) {
                let sign = match draw.below(16) {
                    0..=6 => b'+',
                    7..=13 => b'-',
                    _ => b'*',
                };
                line.push((plate, sign));
            }
        }
        line.sort();
        if !all.contains(&line) {
            all.push(line);
        }
    }
    let mut lines = Vec::new();
    for line in &all {
        put(&mut lines, line);
    }
    Frame {
        name: format!("random {items} items, {}, seed {seed}", crew.name()),
        levers: 32,
        crew,
        lines,
        struck: false,
    }
}

pub fn frames() -> Vec<Frame> {
    let mut frames = vec![fan(Crew::Free), chain(Crew::Free)];
    for (at, items) in [2, 3, 4, 8].into_iter().enumerate() {
        for crew in [Crew::Free, Crew::Hands(1)] {
            frames.push(random(items, crew, 11 + at as u64));
        }
    }
    frames.push(random(2, Crew::Split(17), 15));
    frames
}
