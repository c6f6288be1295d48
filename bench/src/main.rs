// Compares the proved engine with a plain Rust implementation, for result and for speed.
mod cases;
mod plain;
mod proved;

use cases::{Frame, LINE_BYTES};
use std::process::ExitCode;
use std::time::{Duration, Instant};

/// The time that each side of a case is given, and the fewest and the most runs.
const TIME: Duration = Duration::from_millis(1000);
const FEWEST: usize = 5;
const MOST: usize = 2001;

/// The buffers that results go to.
struct Outcome {
    answers: Vec<u8>,
    groups: Vec<u8>,
    count: usize,
}

impl Outcome {
    fn new(lines: usize) -> Outcome {
        Outcome { answers: vec![255; lines], groups: vec![0; 512 * 8], count: 0 }
    }

    /// The results themselves, without what earlier runs left behind them.
    fn same(&self, other: &Outcome) -> bool {
        self.count == other.count
            && self.answers == other.answers
            && self.groups[..8 * self.count] == other.groups[..8 * other.count]
    }
}

fn median(times: &mut [Duration]) -> Duration {
    times.sort();
    times[times.len() / 2]
}

/// Runs both sides in turn and gives the median time of each.
fn measure(mut proved: impl FnMut(), mut plain: impl FnMut()) -> (Duration, Duration, usize) {
    let mut times = (Vec::new(), Vec::new());
    let start = Instant::now();
    while times.0.len() < FEWEST || times.0.len() < MOST && start.elapsed() < 2 * TIME {
        let clock = Instant::now();
        proved();
        times.0.push(clock.elapsed());
        let clock = Instant::now();
        plain();
        times.1.push(clock.elapsed());
    }
    (median(&mut times.0), median(&mut times.1), times.0.len())
}

fn micros(time: Duration) -> f64 {
    time.as_nanos() as f64 / 1000.0
}

fn report(case: &str, what: &str, same: bool, (proved, plain, runs): (Duration, Duration, usize)) -> bool {
    println!(
        "{case:<58} {} proved {:>12.1} us  plain {:>12.1} us  ratio {:>5.2}  {what}; {runs} runs",
        if same { "equal " } else { "DIFFER" },
        micros(proved),
        micros(plain),
        proved.as_secs_f64() / plain.as_secs_f64(),
    );
    same
}

/// The lines in force: those that were entered.
fn in_force(frame: &Frame, answers: &[u8]) -> Vec<u8> {
    let entered = frame.lines.chunks(LINE_BYTES).zip(answers).filter(|(_, answer)| **answer == 0);
    entered.flat_map(|(line, _)| line).copied().collect()
}

fn entering(frame: &Frame, a: &mut Outcome, b: &mut Outcome) -> bool {
    let mut room = plain::Room::new();
    let times = measure(
        || a.count = proved::table(frame, &frame.lines, &mut a.answers, &mut a.groups),
        || b.count = plain::table(&mut room, frame, &frame.lines, &mut b.answers, &mut b.groups),
    );
    let count = |answer: u8| a.answers.iter().filter(|one| **one == answer).count();
    let what = format!(
        "{} entered, {} leave nothing, {} too many, {} groups",
        count(0),
        count(1),
        count(2),
        a.count
    );
    report(&format!("table: {}", frame.name), &what, a.same(b), times)
}

/// Strikes the lines in the order of their entry: after each, the table is that of the lines left, from nothing.
fn striking(frame: &Frame) -> bool {
    let lines = frame.lines.len() / LINE_BYTES;
    let mut a: Vec<Outcome> = (1..=lines).map(|struck| Outcome::new(lines - struck)).collect();
    let mut b: Vec<Outcome> = (1..=lines).map(|struck| Outcome::new(lines - struck)).collect();
    let mut room = plain::Room::new();
    let times = measure(
        || {
            for (struck, to) in a.iter_mut().enumerate() {
                let left = &frame.lines[(struck + 1) * LINE_BYTES..];
                to.count = proved::table(frame, left, &mut to.answers, &mut to.groups);
            }
        },
        || {
            for (struck, to) in b.iter_mut().enumerate() {
                let left = &frame.lines[(struck + 1) * LINE_BYTES..];
                to.count = plain::table(&mut room, frame, left, &mut to.answers, &mut to.groups);
            }
        },
    );
    let same = a.iter().zip(&b).all(|(a, b)| a.same(b));
    let what = format!("{lines} strikes, {} groups after the first", a[0].count);
    report(&format!("struck: {}", frame.name), &what, same, times)
}

fn cutting(frame: &Frame, lines: &[u8]) -> bool {
    let (mut a, mut b) = (Outcome::new(0), Outcome::new(0));
    let mut room = plain::Room::new();
    let times = measure(
        || a.count = proved::cut(frame, lines, &mut a.groups),
        || b.count = plain::cut(&mut room, frame, lines, &mut b.groups),
    );
    let what = format!("{} of {} lines stay", a.count, lines.len() / LINE_BYTES);
    report(&format!("cut list: {}", frame.name), &what, a.same(&b), times)
}

fn main() -> ExitCode {
    let wanted = std::env::args().nth(1).unwrap_or_default();
    println!("All buffers, those for the plain side's own work too, are made before the clock starts.");
    println!("Times are medians, of at least {FEWEST} runs, of proved and plain in turn; the ratio is proved to plain.");
    let mut same = true;
    for frame in cases::frames().iter().filter(|frame| frame.name.contains(&wanted)) {
        let lines = frame.lines.len() / LINE_BYTES;
        let (mut a, mut b) = (Outcome::new(lines), Outcome::new(lines));
        same &= entering(frame, &mut a, &mut b);
        if frame.struck {
            same &= striking(frame);
        }
        same &= cutting(frame, &in_force(frame, &a.answers));
    }
    println!("{}", if same { "All results are equal." } else { "Results differ." });
    if same { ExitCode::SUCCESS } else { ExitCode::FAILURE }
}
