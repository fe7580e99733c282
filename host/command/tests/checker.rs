//! The safe wrapper on document 01's worked example: what crosses the C interface arrives.

mod common;

use common::{broken_duties, constraints, draft, duties, dwell, solution, turnaround, DUTIES_HEADER, DUTY_ROWS, H, PROFILES};
use wagontulip::{
    row_at, Answer, Broken, Checker, Duties, Edition, Energies, File, Files, Kind, NoRoom, Node, Reason, Refusal, Rooms, Rule, Ruling,
    Stated, Table, Tally, Unknown, Violation,
};

const STATED: Stated = Stated { horizon: H, edition: Edition::EXAMPLE };

struct Texts {
    timetable: String,
    constraints: String,
}

impl Texts {
    fn new() -> Texts {
        Texts { timetable: draft(), constraints: dwell(20) }
    }

    fn files(&self) -> Files<'_> {
        Files { timetable: self.timetable.as_bytes(), profiles: PROFILES.as_bytes(), constraints: self.constraints.as_bytes() }
    }
}

/// An answer, and so many tests of each kind.
fn ruled<T>(answer: Answer<T>, kinds: [u32; 6]) -> Result<Ruling<T>, Unknown> {
    Ok(Ruling { answer, tally: Tally { kinds, total: kinds.iter().sum() } })
}

/// A refusal, or a text that is written.
fn untested<T>(answer: Answer<T>) -> Result<Ruling<T>, Unknown> {
    ruled(answer, [0; 6])
}

/// Both choices and the one dwell time of the example.
const OF_THE_EXAMPLE: [u32; 6] = [2, 0, 0, 1, 0, 0];

const UNSIGNED: u32 = 4_294_967_295;
const SIGNED: i32 = -2_147_483_648;

/// Room for the example and one entry more in each table, which keeps a seven.
fn small() -> Checker {
    let rooms = [(Table::Legs, 24), (Table::Configurations, 15), (Table::Profiles, 9), (Table::Samples, 8), (Table::Constraints, 12)];
    let more = [(Table::Tracks, 6), (Table::Choices, 9), (Table::SecondChoices, 9), (Table::Curves, 200), (Table::Text, 300)];
    let mut lent = Rooms::at_the_limits();
    for (table, room) in rooms.into_iter().chain(more) {
        lent[table] = room;
    }
    let mut checker = Checker::with_rooms(&lent).unwrap();
    let room = &mut checker.room;
    for table in [&mut room.legs, &mut room.configurations, &mut room.profiles, &mut room.constraints, &mut room.tracks] {
        table.fill(7);
    }
    room.samples.fill(7);
    room.choices.fill(7);
    room.second_choices.fill(7);
    room.text.fill(7);
    checker
}

#[test]
fn an_accepted_solution_leaves_its_tables() {
    let mut checker = small();
    let said = checker.check(STATED, &Texts::new().files(), solution("15_4_7", "40_3_8").as_bytes());
    assert_eq!(said, ruled(Answer::Accepted(()), OF_THE_EXAMPLE));
    let room = &checker.room;
    assert_eq!(room.legs[..], [1, 1, 1, 1, 2, 0, 2, 0, 2, 1, 2, 2, 3, 2, 2, 0, 7, 7, 7, 7, 7, 7, 7, 7]);
    assert_eq!(room.configurations[..], [10, 4, 7, 15, 4, 7, 40, 3, 8, 45, 3, 8, 7, 7, 7]);
    assert_eq!(room.profiles[..], [7, 0, 4, 8, 4, 3, 7, 7, 7]);
    assert_eq!(room.samples[..], [500, 1_000, 250, -400, 300, 0, -200, 7]);
    assert_eq!(room.constraints[..], [3, 0, 1, 20, 0, 0, 7, 7, 7, 7, 7, 7]);
    assert_eq!(room.tracks[..], [1, 0, 2, 0, 7, 7]);
    assert_eq!(room.choices[..], [15, 4, 7, 40, 3, 8, 7, 7, 7]);
}

#[test]
fn a_violation_is_named() {
    let texts = Texts { constraints: dwell(22), ..Texts::new() };
    let said = Checker::new().unwrap().check(STATED, &texts.files(), solution("15_4_7", "40_3_8").as_bytes());
    let violation = Violation { kind: Kind::Dwell, position: 0, inequality: 1, shortfall: 1, file: File::Solution };
    assert_eq!(said, ruled(Answer::Violated(violation), OF_THE_EXAMPLE));
}

/// Horizon and edition arrive as they are stated, at every entry: each edition has its own key, and any other number is refused after the horizon.
#[test]
fn what_is_stated_arrives() {
    let mut checker = Checker::new().unwrap();
    let refused = |reason, file, place| Answer::Refused(Refusal { reason, file, place });
    for (key, known) in [("min_dwell_time", Edition::TABLE), ("min_turnaround_time", Edition::EXAMPLE)] {
        let texts = Texts { constraints: turnaround(key, 26), ..Texts::new() };
        let place = texts.constraints.find(key).unwrap() as u32 - 1;
        for (horizon, edition) in [H, 0].into_iter().flat_map(|horizon| [0, 1, 2, 3, u32::MAX].map(|edition| (horizon, edition))) {
            let wanted = match (horizon, edition) {
                (0, _) => refused(Reason::Horizon, File::None, 0),
                (_, edition) if edition == known => Answer::Accepted(()),
                (_, Edition::TABLE | Edition::EXAMPLE) => refused(Reason::UnknownName, File::Constraints, place),
                _ => refused(Reason::Edition, File::None, 0),
            };
            let (stated, files, draft) = (Stated { horizon, edition }, texts.files(), draft());
            assert_eq!(checker.check(stated, &files, draft.as_bytes()).unwrap().answer, wanted);
            assert_eq!(checker.energy(stated, &files, draft.as_bytes()).unwrap().map(|_| ()).answer, wanted);
            assert_eq!(checker.merge_earlier(stated, &files, draft.as_bytes(), draft.as_bytes()).unwrap().map(|_| ()).answer, wanted);
            assert_eq!(checker.merge_later(stated, &files, draft.as_bytes(), draft.as_bytes()).unwrap().map(|_| ()).answer, wanted);
        }
    }
}

#[test]
fn a_refusal_fills_every_table() {
    let mut checker = small();
    let texts = Texts { timetable: draft().replace(",2,3,40", ",2,3,41"), ..Texts::new() };
    let said = checker.energy(STATED, &texts.files(), draft().as_bytes());
    assert_eq!(said, untested(Answer::Refused(Refusal { reason: Reason::Nominal, file: File::Timetable, place: 145 })));
    let room = &checker.room;
    for table in [&room.legs, &room.configurations, &room.profiles, &room.constraints, &room.tracks, &room.choices] {
        assert!(table.iter().all(|number| *number == UNSIGNED));
    }
    assert!(room.samples.iter().chain(&room.curves).all(|number| *number == SIGNED));
}

#[test]
fn energies_come_with_a_curve_for_each_subnet() {
    let texts = Texts::new();
    let mut checker = small();
    let said = checker.energy(STATED, &texts.files(), draft().as_bytes()).unwrap();
    assert_eq!(said.tally.kinds, OF_THE_EXAMPLE);
    let energies = match said.answer {
        Answer::Accepted(energies) => energies,
        other => panic!("{other:?}"),
    };
    let figures = energies.figures;
    assert_eq!((figures.before_kj, figures.drawn_kj, figures.lost_kj, figures.fluctuation_kw), (2_050, 2_050, 600, 1_400));
    assert_eq!((figures.peak_before_kj, figures.peak_drawn_kj, figures.peak_drawn_mw), (2_050, 2_050, 2_050.0 / 900_000.0));
    assert_eq!(
        (figures.before_mwh, figures.drawn_mwh, figures.lost_mwh),
        (2_050.0 / 3_600_000.0, 2_050.0 / 3_600_000.0, 600.0 / 3_600_000.0)
    );
    assert_eq!(energies.curves.len(), 1);
    assert_eq!(energies.curves[0].len(), H as usize);
    assert_eq!(energies.curves[0][9..15], [0, 500, 1_000, 250, -400, 0]);
}

/// A subnet without tracks has a curve too.
#[test]
fn empty_subnets_count() {
    let mut texts = Texts::new();
    texts.constraints = texts.constraints.replace("[1, 2]}]", "[1, 2]}, {\"subnet_id\": 2, \"track_ids\": []}]");
    let mut checker = Checker::new().unwrap();
    match checker.energy(STATED, &texts.files(), draft().as_bytes()).unwrap().answer {
        Answer::Accepted(energies) => assert_eq!(energies.curves.len(), 2),
        other => panic!("{other:?}"),
    }
}

#[test]
fn merged_texts_are_handed_out_whole() {
    let texts = Texts::new();
    let (first, second) = (solution("15_4_7", "40_3_8"), solution("10_4_7", "45_3_8"));
    let mut checker = small();
    let said = checker.merge_earlier(STATED, &texts.files(), first.as_bytes(), second.as_bytes());
    assert_eq!(said, untested(Answer::Accepted(draft().as_bytes())));
    let said = checker.merge_later(STATED, &texts.files(), first.as_bytes(), second.as_bytes());
    assert_eq!(said, untested(Answer::Accepted(solution("15_4_7", "45_3_8").as_bytes())));
    assert_eq!(checker.room.text[draft().len()..], [7; 300][draft().len()..]);
    checker.room.text.truncate(draft().len() - 1);
    let said = checker.merge_later(STATED, &texts.files(), first.as_bytes(), second.as_bytes());
    assert_eq!(said, untested(Answer::Refused(Refusal { reason: Reason::Room, file: File::None, place: 0 })));
    assert!(checker.room.text.iter().all(|byte| *byte == 0));
}

#[test]
fn a_row_is_a_part_of_its_text() {
    let (draft, other) = (draft(), solution("15_4_7", "45_3_8"));
    let (draft, other) = (draft.as_bytes(), other.as_bytes());
    assert_eq!(row_at(draft, other, 1, 145), Ok(Some(&draft[145..draft.len() - 1])));
    assert_eq!(row_at(draft, other, 4, 145), Ok(Some(&other[145..other.len() - 1])));
    assert_eq!(row_at(draft, other, 4, 144), Ok(None));
    assert_eq!(row_at(draft, other, 4, 0), Ok(None));
    assert_eq!(row_at(draft, other, 5, 145), Ok(None));
    assert_eq!(row_at(b"\n\nx", b"", 1, 1), Ok(Some(&b""[..])));
    assert_eq!(row_at(b"\n\"x\"\r\ny\r", b"", 1, 1), Ok(Some(&b"\"x\""[..])));
    assert_eq!(row_at(b"\n\"x\"\r\ny\r", b"", 1, 6), Ok(Some(&b"y\r"[..])));
}

/// Each row's choice and each inequality, up to and with the first that fails; a merge that is violated has the tests of the solution that fails.
#[test]
fn tests_are_counted() {
    let mut checker = Checker::new().unwrap();
    let headway = |seconds: u32| {
        let record = format!(r#"{{"first_leg_id": 1, "second_leg_id": 2, "min_headway_time": {seconds}}}"#);
        Texts { constraints: constraints("headway_time_constraints", &record), ..Texts::new() }
    };
    let chosen = solution("15_4_7", "40_3_8");
    for (texts, kinds) in [(headway(20), [2, 2, 0, 0, 0, 0]), (headway(26), [2, 1, 0, 0, 0, 0]), (headway(25), [2, 2, 0, 0, 0, 0])] {
        assert_eq!(checker.check(STATED, &texts.files(), chosen.as_bytes()).unwrap().tally.kinds, kinds);
        assert_eq!(checker.energy(STATED, &texts.files(), chosen.as_bytes()).unwrap().tally.kinds, kinds);
    }
    let unlisted = solution("12_4_7", "40_3_8").replace("15_4_7", "12_4_7");
    assert_eq!(checker.check(STATED, &headway(20).files(), unlisted.as_bytes()).unwrap().tally.kinds, [1, 0, 0, 0, 0, 0]);
    let said = checker.merge_later(STATED, &headway(26).files(), draft().as_bytes(), chosen.as_bytes()).unwrap();
    assert_eq!((said.tally.kinds, said.tally.total), ([2, 1, 0, 0, 0, 0], 3));
}

/// No text, and no room at all.
#[test]
fn nothing_can_be_lent() {
    let mut rooms = Rooms::at_the_limits();
    for table in Table::ALL {
        rooms[table] = 0;
    }
    let files = Files { timetable: b"", profiles: b"", constraints: b"" };
    let said = Checker::with_rooms(&rooms).unwrap().check(STATED, &files, b"");
    assert_eq!(said, untested(Answer::Refused(Refusal { reason: Reason::Header, file: File::Timetable, place: 0 })));
}

/// More than the machine has, and more than a vector can be.
#[test]
fn room_that_cannot_be_had_is_an_error() {
    for table in Table::ALL {
        for room in [isize::MAX as usize / 8, isize::MAX as usize, usize::MAX] {
            let mut rooms = Rooms::at_the_limits();
            rooms[table] = room;
            assert_eq!(Checker::with_rooms(&rooms).err(), Some(NoRoom(table)), "{room}");
        }
    }
}

/// The draft drives in the first quarter alone, and the peaks move with it to the third.
#[test]
fn a_peak_has_its_quarter() {
    let quarters = |timetable: &str| {
        let texts = Texts { timetable: timetable.to_string(), constraints: constraints("", "") };
        match Checker::new().unwrap().energy(Stated { horizon: 2_700, ..STATED }, &texts.files(), timetable.as_bytes()).unwrap().answer {
            Answer::Accepted(Energies { figures: f, .. }) => (f.peak_before_kj, f.peak_before_quarter, f.peak_drawn_quarter),
            other => panic!("{other:?}"),
        }
    };
    assert_eq!(quarters(&draft()), (2_050, 0, 0));
    assert_eq!(quarters(&draft().replace("10_4_7", "1810_4_7").replace("40_3_8", "1840_3_8")), (2_050, 2, 2));
    // Leg 1 takes more than leg 2.
    assert_eq!(quarters(&draft().replace("10_4_7", "2000_4_7")), (1_750, 2, 2));
}

/// Room for so many nodes, full of sevens.
fn duty_room(nodes: usize, balance: usize) -> Checker {
    let mut rooms = Rooms::none();
    rooms[Table::Nodes] = nodes;
    rooms[Table::Balance] = balance;
    let mut checker = Checker::with_rooms(&rooms).unwrap();
    checker.room.nodes.fill(7);
    checker.room.balance.fill(7);
    checker
}

#[test]
fn duties_leave_their_nodes_and_balances() {
    let text = duties();
    let (a, b) = (text.find("A,B,").unwrap() as u32, text.find("B,TRAIN").unwrap() as u32);
    let mut checker = duty_room(6, 3);
    let said = checker.duties(text.as_bytes());
    assert_eq!(said, Ok(Duties::Accepted(vec![Node { name: b"A", balance: -1 }, Node { name: b"B", balance: 1 }])));
    assert_eq!((&checker.room.nodes[..], &checker.room.balance[..]), (&[a, 1, b, 1, 7, 7][..], &[-1, 1, 7][..]));
    assert_eq!(checker.duties(DUTIES_HEADER.as_bytes()), Ok(Duties::Accepted(Vec::new())));
}

#[test]
fn a_broken_rule_and_a_refusal_fill_both_tables() {
    let filled = |checker: &Checker| {
        assert_eq!((&checker.room.nodes[..], &checker.room.balance[..]), (&[UNSIGNED; 5][..], &[SIGNED; 3][..]));
    };
    for ((number, row, text), rule) in broken_duties().into_iter().zip(Rule::ALL) {
        let place = text.match_indices('\n').nth(row).unwrap().0 as u32 + 1;
        let mut checker = duty_room(5, 3);
        assert_eq!(rule.number(), number);
        assert_eq!(checker.duties(text.as_bytes()), Ok(Duties::Broken(Broken { row: row as u32, rule, place })));
        filled(&checker);
    }
    let mut checker = duty_room(5, 3);
    let place = (DUTIES_HEADER.len() + DUTY_ROWS[0].len()) as u32;
    let text = duties().replace("CHANGE_END", "RESERVE");
    let said = checker.duties(text.as_bytes());
    assert_eq!(said, Ok(Duties::Refused(Refusal { reason: Reason::UnknownName, file: File::Duties, place })));
    filled(&checker);
    for (nodes, balance) in [(3, 2), (4, 1), (0, 0)] {
        let refusal = Refusal { reason: Reason::Room, file: File::Duties, place: DUTIES_HEADER.len() as u32 };
        assert_eq!(duty_room(nodes, balance).duties(duties().as_bytes()), Ok(Duties::Refused(refusal)));
    }
    let refusal = Refusal { reason: Reason::Header, file: File::Duties, place: 0 };
    assert_eq!(duty_room(0, 0).duties(b""), Ok(Duties::Refused(refusal)));
}
