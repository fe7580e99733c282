//! "Energy, for accepted solutions only".

use crate::answers::{Answer, Rooms, Tally, Verdict};
use crate::files::Files;
use crate::stated::Stated;
use crate::tables::Tables;
use crate::timetable::Leg;
use crate::verdict::{read_all, verdict};
use std::collections::HashMap;

/// The figures in kilojoules, and the fluctuation in kilowatts.
#[derive(Clone, Copy, Debug, PartialEq, Eq, Default)]
pub struct Figures {
    pub before: i64,
    pub drawn: i64,
    pub lost: i64,
    pub fluctuation: i64,
    pub peak_before: i64,
    pub peak_drawn: i64,
}

impl Figures {
    /// The record of four doubles for the operator's desk tool.
    pub fn desk(&self) -> Desk {
        Desk {
            before: self.before as f64 / 3_600_000.0,
            drawn: self.drawn as f64 / 3_600_000.0,
            lost: self.lost as f64 / 3_600_000.0,
            peak: self.peak_drawn as f64 / 900_000.0,
        }
    }
}

/// "before, drawn and lost kJ, each divided once by 3,600,000, and the drawn peak divided once by
/// 900,000".
#[derive(Clone, Copy, Debug, PartialEq, Default)]
pub struct Desk {
    pub before: f64,
    pub drawn: f64,
    pub lost: f64,
    pub peak: f64,
}

/// The answer with the figures, which are all 0 short of acceptance, the tally and the tables as
/// read where nothing is refused, and the curves where the solution is accepted.
#[derive(Clone, Debug, PartialEq)]
pub struct Report {
    pub answer: Answer,
    pub tally: Option<Tally>,
    pub tables: Option<Tables>,
    pub figures: Figures,
    pub desk: Desk,
    /// The first quarters that have the two peaks, before recuperation and drawn.
    pub quarters: [usize; 2],
    pub curves: Option<Vec<i32>>,
}

/// Reads the four texts, judges the solution and, if it is accepted, reckons its energies.
pub fn energy(
    stated: Stated,
    timetable: &[u8],
    profiles: &[u8],
    constraints: &[u8],
    solution: &[u8],
    rooms: &Rooms,
) -> Report {
    let h = stated.horizon;
    let (files, solution) = match read_all(stated, timetable, profiles, constraints, solution, rooms) {
        Err(refusal) => return report_without_figures(refusal.into(), None, None),
        Ok(read) => read,
    };
    let Verdict { answer, tally } = verdict(&files, &solution, 4);
    let tables = Tables::of(&files, &solution);
    if answer != Answer::Accepted {
        return report_without_figures(answer, Some(tally), Some(tables));
    }
    // "less room is 16 (file 0, place 0), after acceptance".
    if files.constraints.subnets * h as usize > rooms.curves {
        let refused = Answer::Refused { number: 16, file: 0, place: 0 };
        return report_without_figures(refused, None, None);
    }
    let runs = runs(&files, &solution);
    let curves = curves(&runs, files.constraints.subnets, h as usize);
    let figures = figures(&runs, &curves, h as usize);
    Report {
        answer,
        tally: Some(tally),
        tables: Some(tables),
        figures,
        desk: figures.desk(),
        quarters: [before_by_second(&runs, h as usize), drawn_by_second(&curves, h as usize)]
            .map(|by_second| quarter_of(&by_second)),
        curves: Some(curves.concat().into_iter().map(|power| power as i32).collect()),
    }
}

/// "Short of acceptance all figures are 0".
fn report_without_figures(answer: Answer, tally: Option<Tally>, tables: Option<Tables>) -> Report {
    let (figures, desk) = (Figures::default(), Desk::default());
    Report { answer, tally, tables, figures, desk, quarters: [0; 2], curves: None }
}

/// A leg as it runs: its subnet, its departure and the samples of its chosen profile.
struct Run<'a> {
    subnet: usize,
    departure: usize,
    samples: &'a [i32],
}

/// The runs of an accepted solution.
fn runs<'a>(files: &'a Files, solution: &[Leg]) -> Vec<Run<'a>> {
    let samples: HashMap<u32, &[i32]> =
        files.profiles.iter().map(|profile| (profile.id, profile.samples.as_slice())).collect();
    let mut runs = Vec::new();
    for leg in solution {
        if let Some(subnet) = files.constraints.subnet_of(leg.track()) {
            runs.push(Run {
                subnet: subnet as usize,
                departure: leg.nominal.departure as usize,
                samples: samples[&leg.nominal.profile],
            });
        }
    }
    runs
}

/// "P(s,t) is the sum, over legs in subnet s with d ≤ t < d+travel, of sample t-d."
fn curves(runs: &[Run], subnets: usize, h: usize) -> Vec<Vec<i64>> {
    let mut curves = vec![vec![0; h]; subnets];
    for run in runs {
        for (second, sample) in run.samples.iter().enumerate() {
            curves[run.subnet][run.departure + second] += i64::from(*sample);
        }
    }
    curves
}

/// The six figures.
fn figures(runs: &[Run], curves: &[Vec<i64>], h: usize) -> Figures {
    let before = before_by_second(runs, h);
    let drawn = drawn_by_second(curves, h);
    Figures {
        // "Before recuperation: the sum of all positive chosen samples."
        before: before.iter().sum(),
        // "Drawn: the sum over s and t of max(P,0)."
        drawn: drawn.iter().sum(),
        // "Lost: the sum of max(-P,0)."
        lost: curves.iter().flatten().map(|power| (-power).max(0)).sum(),
        fluctuation: fluctuation(curves, h),
        peak_before: peak_quarter(&before),
        peak_drawn: peak_quarter(&drawn),
    }
}

/// For each second, the sum of the positive chosen samples.
fn before_by_second(runs: &[Run], h: usize) -> Vec<i64> {
    let mut sums = vec![0; h];
    for run in runs {
        for (second, sample) in run.samples.iter().enumerate() {
            sums[run.departure + second] += i64::from(*sample).max(0);
        }
    }
    sums
}

/// For each second, the sum over the subnets of max(P,0).
fn drawn_by_second(curves: &[Vec<i64>], h: usize) -> Vec<i64> {
    (0..h).map(|second| curves.iter().map(|curve| curve[second].max(0)).sum()).collect()
}

/// "Fluctuation: greatest minus least, over 0 ≤ t < H, of P summed over subnets."
fn fluctuation(curves: &[Vec<i64>], h: usize) -> i64 {
    let sums: Vec<i64> =
        (0..h).map(|second| curves.iter().map(|curve| curve[second]).sum()).collect();
    match (sums.iter().max(), sums.iter().min()) {
        (Some(greatest), Some(least)) => greatest - least,
        _ => 0,
    }
}

/// "Quarter k covers 900k to 900k+899", and by document 02's E3 "a last, shorter quarter now counts,
/// with its own sum".
fn quarter_sums(by_second: &[i64]) -> impl Iterator<Item = i64> + '_ {
    by_second.chunks(900).map(|quarter| quarter.iter().sum())
}

/// "The peak quarter [...] is the greatest quarter sum in kJ". No sum is below 0.
fn peak_quarter(by_second: &[i64]) -> i64 {
    quarter_sums(by_second).fold(0, i64::max)
}

/// The first quarter that has the greatest sum: those before it have less.
fn quarter_of(by_second: &[i64]) -> usize {
    let peak = peak_quarter(by_second);
    quarter_sums(by_second).take_while(|sum| *sum < peak).count()
}
