//! Every instance reads, its solutions are accepted, and each aimed violation is the one that is found: by the independent program.

use independent::{check, energy, merge, Answer, Direction, Rooms, Stated};
use instances::{exported, indented, Aim, Choices, Edition, Ids, Plan, Shape, Style, Worst};

struct Texts {
    stated: Stated,
    timetable: String,
    profiles: String,
    constraints: String,
}

impl Texts {
    fn of(plan: &Plan) -> Texts {
        let stated = Stated { horizon: plan.horizon(), edition: plan.edition().number() };
        Texts { stated, timetable: plan.timetable(), profiles: plan.profiles_text(), constraints: plan.constraints() }
    }

    fn check(&self, constraints: &str, solution: &str) -> Answer {
        let (timetable, profiles) = (self.timetable.as_bytes(), self.profiles.as_bytes());
        check(self.stated, timetable, profiles, constraints.as_bytes(), solution.as_bytes(), &ample()).answer
    }
}

fn ample() -> Rooms {
    Rooms::all(67_108_864)
}

/// Small shapes of both styles.
fn shapes() -> Vec<Shape> {
    let mut shapes = Vec::new();
    for style in [Style::Underground, Style::Railway] {
        for (legs, seed) in [(2, 1), (3, 2), (7, 3), (40, 4), (150, 5), (600, 6)] {
            shapes.push(Shape::of(style, legs).seeded(seed));
            shapes.push(Shape::of(style, legs).seeded(seed + 100).with_ids(Ids::Shuffled));
        }
    }
    shapes
}

/// The worst file made small, in both orders of ids.
fn worst() -> impl Iterator<Item = Worst> {
    let sizes = [(8_192, 1), (1_024, 2), (128, 3)].into_iter().map(|(times, seed)| Worst::at_the_limits().smaller(times).seeded(seed));
    sizes.flat_map(|size| [Ids::InOrder, Ids::Shuffled].map(|ids| size.with_ids(ids)))
}

/// With constraints in both layouts, and a choice's list as the draft has it or the choice alone.
#[test]
fn solutions_are_accepted() {
    let plans = shapes().into_iter().map(Plan::new).chain(worst().map(Plan::worst));
    for (place, plan) in plans.enumerate() {
        let texts = Texts::of(&plan);
        let constraints = [indented(&texts.constraints), texts.constraints.clone()];
        for choices in [Choices::Nominal, Choices::Moved(1), Choices::Moved(2), Choices::Faster(3)] {
            let chosen = plan.choose(choices);
            for (constraints, solution) in constraints.iter().zip([plan.solution_of_choices(&chosen), plan.solution(&chosen)]) {
                assert_eq!(texts.check(constraints, &solution), Answer::Accepted, "plan {place}, {choices:?}");
            }
        }
    }
}

/// A list of one entry has no space in it.
#[test]
fn lists_are_the_choice_alone() {
    let plan = Plan::new(Shape::of(Style::Underground, 40));
    let chosen = plan.choose(Choices::Faster(1));
    assert!(plan.solution(&chosen).contains(' ') && !plan.solution_of_choices(&chosen).contains(' '));
}

/// The worst file whole: its tables are full, its ids have nine digits and the order that was asked for, and it is accepted.
#[test]
fn the_worst_is_at_the_limits() {
    for ids in [Ids::InOrder, Ids::Shuffled] {
        let plan = Plan::worst(Worst::at_the_limits().with_ids(ids));
        let texts = Texts::of(&plan);
        let samples: usize = plan.profiles.iter().map(|(_, samples)| samples.len()).sum();
        let tracks: usize = plan.subnets.iter().map(Vec::len).sum();
        assert_eq!([plan.legs.len(), plan.configurations(), plan.profiles.len(), samples], [32_768, 1_048_576, 16_384, 1_048_576]);
        assert_eq!([plan.records[0].len(), tracks, plan.subnets.len()], [65_536, 4_096, 8]);
        assert!(plan.legs.iter().all(|leg| (100_000_000..=999_999_999).contains(&leg.id)));
        assert_eq!(plan.legs.windows(2).all(|legs| legs[0].id < legs[1].id), ids == Ids::InOrder);
        assert_eq!(plan.profiles.windows(2).all(|profiles| profiles[0].0 < profiles[1].0), ids == Ids::InOrder);
        assert_eq!(texts.check(&texts.constraints, &plan.solution(&plan.choose(Choices::Faster(1)))), Answer::Accepted);
    }
}

/// As a spreadsheet exports them, the files say the same.
#[test]
fn exported_solutions_are_accepted() {
    for shape in shapes() {
        let plan = Plan::new(shape);
        let texts = Texts::of(&plan);
        let solution = plan.solution(&plan.choose(Choices::Faster(3)));
        let quoted = Texts { timetable: exported(&texts.timetable), profiles: exported(&texts.profiles), ..Texts::of(&plan) };
        for solution in [exported(&solution), solution] {
            assert_eq!(quoted.check(&texts.constraints, &solution), Answer::Accepted, "{shape:?}");
        }
    }
}

/// The other edition has another key for turnarounds and says the same; under the edition of the other it is not read.
#[test]
fn each_edition_is_accepted_as_itself() {
    let texts =
        [Edition::Table, Edition::Example].map(|edition| Texts::of(&Plan::new(Shape::of(Style::Underground, 40).in_edition(edition))));
    for (one, other) in [(&texts[0], &texts[1]), (&texts[1], &texts[0])] {
        assert_eq!(one.check(&one.constraints, &one.timetable), Answer::Accepted);
        assert!(matches!(one.check(&other.constraints, &one.timetable), Answer::Refused { number: 10, file: 3, .. }));
    }
    assert_eq!(
        texts[0].constraints.replace("min_dwell_time", ""),
        texts[1].constraints.replace("min_turnaround_time", "").replace("min_dwell_time", "")
    );
}

#[test]
fn solutions_differ() {
    for shape in shapes().into_iter().filter(|shape| shape.legs > 7) {
        let plan = Plan::new(shape);
        let moved = plan.choose(Choices::Moved(1));
        assert_ne!(moved, plan.choose(Choices::Nominal));
        assert_ne!(moved, plan.choose(Choices::Moved(2)));
        if shape.style == Style::Underground {
            assert!(plan.choose(Choices::Faster(1)).iter().zip(&plan.legs).any(|(offer, leg)| offer.travel < leg.nominal.travel));
        }
    }
}

#[test]
fn moved_solutions_can_be_merged() {
    for shape in shapes() {
        let plan = Plan::new(shape);
        let texts = Texts::of(&plan);
        let [first, second] = [1, 2].map(|seed| plan.solution(&plan.choose(Choices::Moved(seed))));
        let (timetable, profiles, constraints) = (texts.timetable.as_bytes(), texts.profiles.as_bytes(), texts.constraints.as_bytes());
        let merged =
            merge(Direction::Earlier, texts.stated, timetable, profiles, constraints, first.as_bytes(), second.as_bytes(), &ample());
        assert_eq!(merged.answer, Answer::Accepted, "{shape:?}");
    }
}

#[test]
fn violations_are_where_they_are_aimed() {
    let mut met = [0; Aim::ALL.len()];
    for shape in shapes() {
        let plan = Plan::new(shape);
        let texts = Texts::of(&plan);
        for (place, aim) in Aim::ALL.into_iter().enumerate() {
            for violated in (0..2).filter_map(|seed| plan.violated(aim, seed)) {
                let (kind, inequality, shortfall) = (aim.kind, aim.inequality, i64::from(violated.shortfall));
                let expected = Answer::Violated { kind, position: violated.position, inequality, shortfall, file: 4 };
                assert_eq!(texts.check(&violated.constraints, &violated.solution), expected, "{shape:?} {aim:?}");
                met[place] += 1;
            }
        }
    }
    assert!(met.iter().all(|count| *count > 4), "{met:?}");
}

#[test]
fn seeds_give_other_instances_and_the_same_again() {
    let text = |seed| Plan::new(Shape::of(Style::Underground, 40).seeded(seed)).timetable();
    assert_eq!(text(1), text(1));
    assert_ne!(text(1), text(2));
}

/// The numbers of document 000's Table 4 and of 001's, and the house rules of the two styles.
#[test]
fn published_sizes() {
    for (shape, dwells, most, least) in
        [(Shape::largest_underground(), 23_038, 612_000, 606_000), (Shape::largest_railway(), 22_328, 7 * 24_191, 7 * 24_191)]
    {
        let plan = Plan::new(shape);
        assert_eq!(plan.legs.len(), shape.legs);
        let counts: Vec<usize> = plan.records.iter().map(Vec::len).collect();
        assert_eq!(counts, [shape.headways, shape.single_tracks, dwells, shape.turnarounds, shape.connections]);
        assert!((least..=most).contains(&plan.configurations()), "{}", plan.configurations());
        let (step, reach) = (shape.style.step(), shape.style.reach());
        for offer in plan.legs.iter().flat_map(|leg| leg.offers.iter().map(move |offer| offer.departure.abs_diff(leg.nominal.departure))) {
            assert!(offer % step == 0 && offer <= reach);
        }
    }
}

/// The largest instances whole, with their energies.
#[test]
fn the_largest_are_accepted() {
    for shape in [Shape::largest_underground(), Shape::largest_railway()] {
        let plan = Plan::new(shape);
        let texts = Texts::of(&plan);
        let (timetable, profiles, constraints) = (texts.timetable.as_bytes(), texts.profiles.as_bytes(), texts.constraints.as_bytes());
        let report = energy(texts.stated, timetable, profiles, constraints, timetable, &ample());
        assert_eq!(report.answer, Answer::Accepted);
        let figures = report.figures;
        assert!(0 < figures.lost && figures.lost < figures.drawn && figures.drawn < figures.before, "{figures:?}");
    }
}
