//! The energies by hand, over the tables.

use crate::ids::Rows;
use crate::{CONFIGURATION, PROFILE};

#[derive(Clone, Copy, Debug, Default, PartialEq, Eq)]
pub struct Figures {
    pub before: i64,
    pub drawn: i64,
    pub lost: i64,
    pub fluctuation: i64,
    pub peak_before: i64,
    pub peak_drawn: i64,
}

const QUARTER: usize = 900;

/// How many quarters begin before H: the last may be shorter.
fn quarters(h: usize) -> usize {
    (h + QUARTER - 1) / QUARTER
}

/// What the legs run with.
pub struct Tables<'a> {
    /// The choice of each leg.
    pub choices: &'a [u32],
    pub profiles: &'a [u32],
    pub samples: &'a [i32],
    /// The place of each leg's subnet.
    pub subnets: &'a [u32],
}

/// None where the room for the curves is too short.
pub fn energy(h: usize, subnets: usize, tables: &Tables, rows: &mut Rows, curves: &mut [i32]) -> Option<Figures> {
    let curves = curves.get_mut(..subnets * h)?;
    curves.fill(0);
    let mut before = vec![0i64; quarters(h)];
    for (choice, subnet) in tables.choices.chunks_exact(CONFIGURATION).zip(tables.subnets) {
        let profile = &tables.profiles[rows.of(choice[2])? as usize * PROFILE..][..PROFILE];
        let samples = &tables.samples[profile[1] as usize..][..profile[2] as usize];
        let departure = choice[0] as usize;
        let curve = &mut curves[*subnet as usize * h + departure..][..samples.len()];
        for (power, sample) in curve.iter_mut().zip(samples) {
            *power += sample;
        }
        add_before(&mut before, departure, samples);
    }
    Some(figures(h, curves, &before))
}

/// The positive samples, quarter by quarter.
#[inline(always)]
fn add_before(before: &mut [i64], departure: usize, samples: &[i32]) {
    let (mut at, mut rest) = (departure, samples);
    while !rest.is_empty() {
        let (now, later) = rest.split_at(rest.len().min(QUARTER - at % QUARTER));
        before[at / QUARTER] += i64::from(now.iter().map(|sample| (*sample).max(0)).sum::<i32>());
        at += now.len();
        rest = later;
    }
}

fn figures(h: usize, curves: &[i32], before: &[i64]) -> Figures {
    let mut drawn = vec![0i64; quarters(h)];
    let mut all = vec![0i32; h];
    let mut lost = 0;
    for curve in curves.chunks_exact(h.max(1)) {
        for (quarter, powers) in drawn.iter_mut().zip(curve.chunks(QUARTER)) {
            *quarter += powers.iter().map(|power| i64::from((*power).max(0))).sum::<i64>();
            lost -= powers.iter().map(|power| i64::from((*power).min(0))).sum::<i64>();
        }
        for (sum, power) in all.iter_mut().zip(curve) {
            *sum += power;
        }
    }
    let (least, greatest) = all.iter().fold((i32::MAX, i32::MIN), |(least, greatest), power| (least.min(*power), greatest.max(*power)));
    Figures {
        before: before.iter().sum(),
        drawn: drawn.iter().sum(),
        lost,
        fluctuation: i64::from(greatest) - i64::from(least),
        peak_before: before.iter().copied().max().unwrap_or(0),
        peak_drawn: drawn.iter().copied().max().unwrap_or(0),
    }
}
