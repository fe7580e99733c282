//! A yardstick that measures something else is none: it gives the independent program's tables, verdicts and figures.

use independent::{check, energy, Answer, Rooms, Stated};
use instances::{exported, indented, Aim, Choices, Ids, Plan, Shape, Style, Worst};
use yardstick::energy::Figures;
use yardstick::verdict::Violation;
use yardstick::whole::{Stopped, Tables, Texts};

fn tables() -> Tables {
    Tables::new([24_000, 240_000, 12_000, 600_000, 60_000, 8_000, 9_000, 8 * 176_400])
}

/// The yardstick's edition.
fn stated(horizon: u32) -> Stated {
    Stated { horizon, edition: 2 }
}

fn shapes() -> Vec<Shape> {
    let sizes = [(2, 1), (40, 2), (600, 3)];
    let orders = [Ids::InOrder, Ids::Shuffled];
    let mut shapes = Vec::new();
    for style in [Style::Underground, Style::Railway] {
        for (legs, seed) in sizes {
            shapes.extend(orders.map(|ids| Shape::of(style, legs).seeded(seed).with_ids(ids)));
        }
    }
    shapes
}

/// The CSV files as they are, and as a spreadsheet exports them.
const SPELLINGS: [fn(String) -> String; 2] = [|text| text, |text| exported(&text)];

/// Plain ones, and the worst legal file made small; each with the draft's lists, and with lists of the choice alone and indented constraints.
#[test]
fn good_files() {
    let worst = [Ids::InOrder, Ids::Shuffled].map(|ids| Plan::worst(Worst::at_the_limits().smaller(128).with_ids(ids)));
    for plan in shapes().into_iter().map(Plan::new).chain(worst) {
        let chosen = plan.choose(Choices::Faster(7));
        let lists = [(plan.solution(&chosen), plan.constraints()), (plan.solution_of_choices(&chosen), indented(&plan.constraints()))];
        for (spelled, (solution, constraints)) in SPELLINGS.into_iter().flat_map(|spelled| lists.clone().map(|lists| (spelled, lists))) {
            let [timetable, profiles, solution] = [plan.timetable(), plan.profiles_text(), solution].map(|text| spelled(text).into_bytes());
            let texts = Texts { timetable: &timetable, profiles: &profiles, constraints: constraints.as_bytes(), solution: &solution };
            is_as_independent(plan.horizon(), &texts);
        }
    }
}

/// Figures and tables.
fn is_as_independent(h: u32, texts: &Texts) {
    let mut tables = tables();
    let figures = tables.energy(h, texts).unwrap().unwrap();
    let report = energy(stated(h), texts.timetable, texts.profiles, texts.constraints, texts.solution, &Rooms::all(67_108_864));
    let its = report.figures;
    let its_figures = Figures {
        before: its.before,
        drawn: its.drawn,
        lost: its.lost,
        fluctuation: its.fluctuation,
        peak_before: its.peak_before,
        peak_drawn: its.peak_drawn,
    };
    assert_eq!(figures, its_figures);
    let its = report.tables.unwrap();
    assert_eq!(tables.legs[..its.legs.len()], its.legs);
    assert_eq!(tables.configurations[..its.configurations.len()], its.configurations);
    assert_eq!(tables.profiles[..its.profiles.len()], its.profiles);
    assert_eq!(tables.samples[..its.samples.len()], its.samples);
    assert_eq!(tables.constraints[..its.constraints.len()], its.constraints);
    assert_eq!(tables.tracks[..its.tracks.len()], its.tracks);
    assert_eq!(tables.choices[..its.choices.len()], its.choices);
    let curves = report.curves.unwrap();
    assert_eq!(tables.curves[..curves.len()], curves);
}

#[test]
fn violations() {
    for shape in shapes() {
        let plan = Plan::new(shape);
        let (timetable, profiles) = (plan.timetable(), plan.profiles_text());
        let mut tables = tables();
        for aim in Aim::ALL {
            if let Some(violated) = plan.violated(aim, 1) {
                let texts = Texts {
                    timetable: timetable.as_bytes(),
                    profiles: profiles.as_bytes(),
                    constraints: violated.constraints.as_bytes(),
                    solution: violated.solution.as_bytes(),
                };
                let (position, shortfall) = (violated.position, violated.shortfall);
                let expected = Violation { kind: aim.kind, position, inequality: aim.inequality, shortfall };
                assert_eq!(tables.check(plan.horizon(), &texts), Ok(Some(expected)), "{shape:?} {aim:?}");
            }
        }
    }
}

/// About how many bytes of each text are changed.
const PLACES: usize = 100;
/// Each of them into these. The constraints' reader is for good files, and looks for no sign that stands elsewhere.
const CSV_BYTES: &[u8] = b"_\"\r,";
const JSON_BYTES: &[u8] = b"_";
const JSON: usize = 2;

/// It stops where the independent program refuses, and at the same file: each text in turn with one byte changed.
#[test]
fn files_that_are_not_good() {
    let plan = Plan::new(Shape::of(Style::Underground, 12));
    let mut tables = tables();
    let mut stopped = 0;
    for spelled in SPELLINGS {
        let [timetable, profiles] = [plan.timetable(), plan.profiles_text()].map(|text| spelled(text).into_bytes());
        let good = [timetable.clone(), profiles, plan.constraints().into_bytes(), timetable];
        for (file, text) in good.iter().enumerate() {
            let places = (0..text.len()).step_by(text.len() / PLACES).chain(0..PLACES.min(text.len()));
            let bytes = if file == JSON { JSON_BYTES } else { CSV_BYTES };
            for (at, byte) in places.flat_map(|at| bytes.iter().map(move |byte| (at, *byte))) {
                let mut texts = good.clone();
                texts[file][at] = byte;
                stopped += usize::from(is_stopped(&mut tables, plan.horizon(), &texts, &format!("file {file}, byte {at}")));
            }
        }
    }
    assert!(stopped > 800, "{stopped}");
}

/// Whether a check stops, which it does just where the independent program refuses.
fn is_stopped(tables: &mut Tables, h: u32, [timetable, profiles, constraints, solution]: &[Vec<u8>; 4], what: &str) -> bool {
    let said = tables.check(h, &Texts { timetable, profiles, constraints, solution });
    let expected = match check(stated(h), timetable, profiles, constraints, solution, &Rooms::all(67_108_864)).answer {
        Answer::Accepted => Ok(None),
        Answer::Violated { kind, position, inequality, shortfall, .. } => {
            Ok(Some(Violation { kind, position, inequality, shortfall: shortfall as u32 }))
        }
        Answer::Refused { file, .. } => Err(Stopped(file as u8)),
        broken @ Answer::Broken { .. } => panic!("{what}: a check has no duties: {broken:?}"),
    };
    assert_eq!(said, expected, "{what}");
    said.is_err()
}
