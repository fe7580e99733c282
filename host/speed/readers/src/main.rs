//! Where the proved readers of the CSV files stand beside hand-written ones: both read the same texts in one process, by turns.
//!
//!     readers [RUNS]
//!
//! Before anything is timed both must give the same counts and the same tables, and the same refusals on texts with one byte changed.

mod instance;
mod proved;

use instance::{Dice, Lists, H};
use instances::exported;
use std::time::Duration;
use yardstick::{self as plain, clock, Said};

const SEED: u64 = 1;
const RUNS: usize = 25;
const EDITS: u32 = 4_000;
/// What is put in or changed to.
const BYTES: &[u8] = b"0123456789_,.- \n\"\r";

/// The tables of a reading, with all the room that a text may need.
#[derive(Clone, PartialEq)]
struct Tables {
    rows: Vec<u32>,
    entries: Vec<u32>,
    samples: Vec<i32>,
}

impl Tables {
    fn new() -> Tables {
        Tables { rows: vec![u32::MAX; 32_768 * 8], entries: vec![u32::MAX; 1_048_576 * 3], samples: vec![i32::MIN; 1_048_576] }
    }

    /// FNV-1a, a number at a time.
    fn hash(&self) -> u64 {
        let samples = self.samples.iter().map(|kw| *kw as u32);
        self.rows
            .iter()
            .chain(&self.entries)
            .copied()
            .chain(samples)
            .fold(0xcbf2_9ce4_8422_2325, |hash, number| (hash ^ u64::from(number)).wrapping_mul(0x0100_0000_01b3))
    }
}

type Reader = fn(&[u8], &mut Tables) -> Said;

fn plain_timetable(text: &[u8], tables: &mut Tables) -> Said {
    plain::timetable::read(text, H, &mut tables.rows, &mut tables.entries)
}

fn proved_timetable(text: &[u8], tables: &mut Tables) -> Said {
    proved::timetable(text, H, &mut tables.rows, &mut tables.entries)
}

fn plain_profiles(text: &[u8], tables: &mut Tables) -> Said {
    plain::profiles::read(text, &mut tables.rows, &mut tables.samples)
}

fn proved_profiles(text: &[u8], tables: &mut Tables) -> Said {
    proved::profiles(text, &mut tables.rows, &mut tables.samples)
}

fn same_answers(name: &str, text: &[u8], plain: Reader, proved: Reader) {
    let (mut one, mut other) = (Tables::new(), Tables::new());
    let (said, also) = (plain(text, &mut one), proved(text, &mut other));
    assert_eq!(said, also, "{name}: the readers differ");
    assert!(matches!(said, Said::Read(..)), "{name}: the text is refused: {said:?}");
    let (hash, its) = (one.hash(), other.hash());
    assert_eq!(hash, its, "{name}: the tables differ");
    if let Said::Read(rows, entries) = said {
        println!("{name}: {:.1} MB, {rows} rows, {entries} entries, tables {hash:016x} on both sides", text.len() as f64 / 1e6);
    }
}

/// The first rows of a text, each time with one byte changed, left out or put in.
fn same_refusals(name: &str, text: &[u8], plain: Reader, proved: Reader) {
    let few = text.iter().enumerate().filter(|(_, byte)| **byte == b'\n').nth(12).map_or(text.len(), |(at, _)| at + 1);
    let few = &text[..few];
    let mut dice = Dice::new(SEED);
    let (mut one, mut other) = (Tables::new(), Tables::new());
    let mut refused = 0;
    for _ in 0..EDITS {
        let mut edited = few.to_vec();
        let at = dice.below(few.len() as u32) as usize;
        let byte = BYTES[dice.below(BYTES.len() as u32) as usize];
        match dice.below(3) {
            0 => edited[at] = byte,
            1 => edited.insert(at, byte),
            _ => drop(edited.remove(at)),
        }
        let (said, also) = (plain(&edited, &mut one), proved(&edited, &mut other));
        assert_eq!(said, also, "{name}: the readers differ on {:?}", String::from_utf8_lossy(&edited));
        refused += u32::from(matches!(said, Said::Refused(..)));
    }
    println!("{name}: the same answer on {EDITS} edits of its first rows, {refused} of them refused");
}

fn timed(reader: Reader, text: &[u8], tables: &mut Tables) -> Duration {
    let start = clock::now();
    let said = clock::kept(reader(clock::kept(text), tables));
    let took = clock::now() - start;
    assert!(matches!(said, Said::Read(..)));
    took
}

fn speed(text: &[u8], took: Duration) -> f64 {
    text.len() as f64 / 1e6 / took.as_secs_f64()
}

fn measure(name: &str, text: &[u8], plain: Reader, proved: Reader, runs: usize) {
    let mut tables = Tables::new();
    let mut best = (Duration::MAX, Duration::MAX);
    for _ in 0..runs {
        best.0 = best.0.min(timed(plain, text, &mut tables));
        best.1 = best.1.min(timed(proved, text, &mut tables));
    }
    let ratio = best.1.as_secs_f64() / best.0.as_secs_f64();
    println!("| {name} | {:.1} | {:.0} | {:.0} | {ratio:.2} |", text.len() as f64 / 1e6, speed(text, best.0), speed(text, best.1));
}

/// The best time of a proved reader on a text that its first row breaks.
fn refused(text: &[u8], proved: Reader, runs: usize) -> f64 {
    let first = text.iter().position(|byte| *byte == b'\n').map_or(0, |at| at + 1);
    let mut broken = text.to_vec();
    broken[first] = b'x';
    let mut tables = Tables::new();
    let mut best = Duration::MAX;
    for _ in 0..runs {
        let start = clock::now();
        let said = proved(clock::kept(&broken), &mut tables);
        best = best.min(clock::now() - start);
        assert_eq!(said, Said::Refused(plain::FORM, first as u32));
    }
    best.as_secs_f64() * 1e3
}

fn measure_plain_solution(text: &[u8], runs: usize) {
    let (mut tables, mut ids) = (Tables::new(), Vec::new());
    let mut best = Duration::MAX;
    for _ in 0..runs {
        let start = clock::now();
        let said = plain::solution::read(clock::kept(text), H, &mut tables.rows, &mut ids);
        best = best.min(clock::now() - start);
        assert!(matches!(said, Said::Read(..)));
    }
    println!("| solution | {:.1} | {:.0} | - | - |", text.len() as f64 / 1e6, speed(text, best));
}

fn main() {
    let runs = std::env::args().nth(1).map_or(RUNS, |runs| runs.parse().expect("the number of runs"));
    let regular = instance::timetables(SEED, Lists::Regular);
    let random = instance::timetables(SEED, Lists::Random);
    let profiles = instance::profiles(SEED);
    let [quoted_timetable, quoted_profiles] = [&regular.draft, &profiles].map(|text| exported(text));
    let cases: [(&str, &[u8], Reader, Reader); 5] = [
        ("timetable", regular.draft.as_bytes(), plain_timetable, proved_timetable),
        ("timetable, random lengths", random.draft.as_bytes(), plain_timetable, proved_timetable),
        ("profiles", profiles.as_bytes(), plain_profiles, proved_profiles),
        ("timetable, quoted", quoted_timetable.as_bytes(), plain_timetable, proved_timetable),
        ("profiles, quoted", quoted_profiles.as_bytes(), plain_profiles, proved_profiles),
    ];
    for (name, text, plain, proved) in cases {
        same_answers(name, text, plain, proved);
        same_refusals(name, text, plain, proved);
    }
    println!("\nBest of {runs}, by turns; the ratio is the proved reader's time over the hand-written one's.\n");
    println!("| text | MB | hand-written, MB/s | proved, MB/s | ratio |");
    println!("|-|-|-|-|-|");
    for (name, text, plain, proved) in cases {
        measure(name, text, plain, proved, runs);
    }
    measure_plain_solution(regular.solution.as_bytes(), runs);
    let [(_, timetable, _, timetable_reader), _, (_, profiles, _, profiles_reader), ..] = cases;
    let times = (refused(timetable, timetable_reader, runs), refused(profiles, profiles_reader, runs));
    println!("\nRefused in the first row, proved: timetable {:.3} ms, profiles {:.3} ms.", times.0, times.1);
}
