//! Every file of duties is accepted, with the sizes that it should have, and each broken rule is found in its row: by the independent program.

use independent::{check_duties, Answer, Duties, Rooms};
use instances::{exported, DutyPlan, DutyShape, Names};

fn checked(text: &str) -> Duties {
    check_duties(text.as_bytes(), &Rooms::all(4_096))
}

fn shapes() -> Vec<DutyShape> {
    let real = DutyShape::real();
    let mut shapes = vec![real, DutyShape::at_the_limits(), DutyShape::worst(), DutyShape { names: Names::Inside, ..real }];
    shapes.extend([2, 9, 70].map(|times| real.smaller(times).seeded(times as u64)));
    shapes.extend([8, 512].map(|times| DutyShape::worst().smaller(times)));
    shapes
}

#[test]
fn files_are_accepted_with_their_sizes() {
    for shape in shapes() {
        let plan = DutyPlan::new(shape);
        assert_eq!(plan.rows(), shape.duties * shape.rows_a_duty);
        for text in [plan.text(), exported(&plan.text())] {
            let duties = checked(&text);
            assert_eq!(duties.answer, Answer::Accepted, "{shape:?}");
            let balance = duties.balance.unwrap();
            assert!(balance.len() == shape.nodes || shape.duties * 2 < shape.nodes, "{shape:?}: {}", balance.len());
            assert_eq!(balance.iter().sum::<i32>(), 0);
        }
    }
}

#[test]
fn each_rule_is_broken_in_its_row() {
    let mut met = [0; 6];
    for shape in shapes() {
        let plan = DutyPlan::new(shape);
        for rule in 1..=6 {
            if let Some((broken, row)) = plan.broken(rule) {
                let text = broken.text();
                let place = text.split_inclusive('\n').take(1 + row).map(str::len).sum();
                let duties = checked(&text);
                assert_eq!(duties.answer, Answer::Broken { row, rule, place }, "{shape:?} {rule}");
                met[rule as usize - 1] += 1;
            }
        }
    }
    assert!(met.iter().all(|count| *count > 4), "{met:?}");
}

/// Names of one length that begin alike; in the worst file they end alike too.
#[test]
fn names_are_as_they_are_said_to_be() {
    for (shape, ends_alike) in [(DutyShape::at_the_limits(), false), (DutyShape::worst(), true)] {
        let text = DutyPlan::new(shape).text();
        let nodes: Vec<&str> = text.lines().skip(1).flat_map(|line| line.split(',').skip(6).take(2)).collect();
        let duties: Vec<&str> = text.lines().skip(1).filter_map(|line| line.split(',').next()).collect();
        for names in [nodes, duties] {
            assert!(names.iter().all(|name| name.len() == 32 && name[..27] == names[0][..27]));
            assert_eq!(names.iter().all(|name| name.ends_with(&names[0][31..])), ends_alike);
        }
        assert_eq!(text.lines().count(), 8_193);
    }
}

#[test]
fn seeds_give_other_files_and_the_same_again() {
    let text = |seed| DutyPlan::new(DutyShape::real().seeded(seed)).text();
    assert_eq!(text(1), text(1));
    assert_ne!(text(1), text(2));
}
