//! Rolling stock duties (document 02, E13): Table 8 of document 004 whole, and one sentence of the request or of its readings at a time.

use independent::{check_duties, Answer, Call, Case, Duties, Entry, Lent, Rooms, Said};

const HEADER: &str =
    "DUTY_ID,SEQ,START_TIME_SECONDS,START_TIME_HHMMSS,END_TIME_SECONDS,END_TIME_HHMMSS,START_NODE,END_NODE,EVENT_TYPE,TRAIN_COURSE_ID\n";

/// Document 004, Table 8.
const TABLE_8: [&str; 13] = [
    "RSDuty_29,1,70920,19:42:00,71580,19:53:00,OLDOXRS,PADTLL,TRAIN,5U75RX#1.A1\n",
    "RSDuty_29,2,71580,19:53:00,71640,19:54:00,PADTLL,PADTLL,CHANGE_END,\n",
    "RSDuty_29,3,71640,19:54:00,73380,20:23:00,PADTLL,ABWDXR,TRAIN,9U75RX#1.A1\n",
    "RSDuty_29,4,73380,20:23:00,73800,20:30:00,ABWDXR,ABWDXR,CHANGE_END,\n",
    "RSDuty_29,5,73800,20:30:00,77760,21:36:00,ABWDXR,HTRWTM5,TRAIN,9T54RV#1.A1\n",
    "RSDuty_29,6,77760,21:36:00,78180,21:43:00,HTRWTM5,HTRWTM5,CHANGE_END,\n",
    "RSDuty_29,7,78180,21:43:00,78720,21:52:00,HTRWTM5,HTRWTM5,SPARE,\n",
    "RSDuty_29,8,78720,21:52:00,82680,22:58:00,HTRWTM5,ABWDXR,TRAIN,9U79RV#1.A1\n",
    "RSDuty_29,9,82680,22:58:00,83100,23:05:00,ABWDXR,ABWDXR,CHANGE_END,\n",
    "RSDuty_29,10,83100,23:05:00,83580,23:13:00,ABWDXR,ABWDXR,SPARE,\n",
    "RSDuty_29,11,83580,23:13:00,87720,1d 00:22:00,ABWDXR,MDNHEAD,TRAIN,9N92RV#1.A1\n",
    "RSDuty_29,12,87720,1d 00:22:00,87840,1d 00:24:00,MDNHEAD,MDNHEAD,CHANGE_END,\n",
    "RSDuty_29,13,87840,1d 00:24:00,87960,1d 00:26:00,MDNHEAD,MDNHDCS,TRAIN,5N92RV#1.A1\n",
];

fn file(rows: &[&str]) -> String {
    format!("{HEADER}{}", rows.concat())
}

fn duties(text: &str) -> Duties {
    check_duties(text.as_bytes(), &Rooms::all(4_000))
}

fn answer(text: &str) -> Answer {
    duties(text).answer
}

/// The answer of one row.
fn row(row: &str) -> Answer {
    answer(&file(&[row]))
}

fn refused(number: u32, place: usize) -> Answer {
    Answer::Refused { number, file: 6, place }
}

fn broken(row: usize, rule: u32, place: usize) -> Answer {
    Answer::Broken { row, rule, place }
}

/// The names and their balances.
fn balances(text: &str) -> Vec<(String, i32)> {
    let duties = duties(text);
    assert_eq!(duties.answer, Answer::Accepted);
    let nodes = duties.nodes.unwrap();
    let name = |node: &[u32]| text[node[0] as usize..][..node[1] as usize].to_string();
    nodes.chunks(2).map(name).zip(duties.balance.unwrap()).collect()
}

#[test]
fn table_8_is_accepted() {
    let expected = [("OLDOXRS", -1), ("PADTLL", 0), ("ABWDXR", 0), ("HTRWTM5", 0), ("MDNHEAD", 0), ("MDNHDCS", 1)];
    assert_eq!(balances(&file(&TABLE_8)), expected.map(|(name, balance)| (name.to_string(), balance)));
    assert_eq!(balances(&file(&[])), []);
    assert_eq!(HEADER.len(), 129);
}

/// Of the table with another start node in its eighth row.
#[test]
fn a_broken_row_has_its_number_rule_and_first_byte() {
    let text = file(&TABLE_8).replacen("22:58:00,HTRWTM5,", "22:58:00,PADTLL,", 1);
    assert_eq!(answer(&text), broken(7, 5, 624));
    assert!(text[624..].starts_with("RSDuty_29,8,"));
}

/// "OLDOXRS" starts one and ends one more: the balance is of duties, not of rows.
#[test]
fn balances_add_up_to_zero() {
    let text = file(&[
        "A,1,0,00:00:00,1,00:00:01,x,y,TRAIN,c\n",
        "A,2,1,00:00:01,2,00:00:02,y,x,TRAIN,c\n",
        "B,1,0,00:00:00,1,00:00:01,z,x,TRAIN,c\n",
        "C,1,0,00:00:00,1,00:00:01,y,x,TRAIN,c\n",
    ]);
    assert_eq!(balances(&text), [("x", 2), ("y", -1), ("z", -1)].map(|(name, balance)| (name.to_string(), balance)));
}

#[test]
fn the_header_is_the_ten_names() {
    for text in ["", "\n", &HEADER[1..], &HEADER[..128], &HEADER.replace('_', " "), &HEADER.to_lowercase(), &format!("\u{feff}{HEADER}")] {
        assert_eq!(answer(text), refused(3, 0), "{text:?}");
    }
    assert_eq!(answer(&HEADER.replace(",SEQ,", ",\"SEQ\",").replace('\n', "\r\n")), Answer::Accepted);
    assert_eq!(check_duties(&vec![b'x'; 67_108_865], &Rooms::all(0)).answer, refused(2, 0));
    assert_eq!(check_duties(&vec![b'x'; 67_108_864], &Rooms::all(0)).answer, refused(3, 0));
}

/// Ten fields, names, whole numbers, and a course beside TRAIN alone.
#[test]
fn a_row_of_bad_form_is_4() {
    for bad in [
        "\n",
        "A,1,0,00:00:00,1,00:00:01,x,y,TRAIN\n",
        "A,1,0,00:00:00,1,00:00:01,x,y,TRAIN,c,\n",
        ",1,0,00:00:00,1,00:00:01,x,y,TRAIN,c\n",
        "A,1,0,00:00:00,1,00:00:01,,y,TRAIN,c\n",
        "A,1,0,00:00:00,1,00:00:01,x,,TRAIN,c\n",
        "A,1,0,00:00:00,1,00:00:01,x,y,TRAIN,\n",
        "A,1,0,00:00:00,1,00:00:01,x,y,TRAIN,\"\"\n",
        "A,1,0,00:00:00,1,00:00:01,x,x,SPARE,c\n",
        "A,1,0,00:00:00,1,00:00:01,x,x,RESERVE,c\n",
        "A b,1,0,00:00:00,1,00:00:01,x,y,TRAIN,c\n",
        "A,01,0,00:00:00,1,00:00:01,x,y,TRAIN,c\n",
        "A,1,,00:00:00,1,00:00:01,x,y,TRAIN,c\n",
        "A,1,0,00:00:00,-1,00:00:01,x,y,TRAIN,c\n",
        "A,1,0,00:00:00,1,00:00:01,x\u{7f},y,TRAIN,c\n",
        "A,1,0,00:00:00,1,00:00:01,x,y,TRAIN,c",
        "A,1,0,00:00:00,1,00:00:01,x,y,TRAIN,c\r",
        "A,1,0,00:00:00,1,00:00:01,x,y,TRAIN,c\r\r\n",
    ] {
        assert_eq!(row(bad), refused(4, 129), "{bad:?}");
    }
}

#[test]
fn names_of_1_to_32_bytes() {
    for (length, expected) in [(1, Answer::Accepted), (32, Answer::Accepted), (33, refused(4, 129))] {
        let name = "n".repeat(length);
        assert_eq!(row(&format!("{name},1,0,00:00:00,1,00:00:01,x,y,TRAIN,c\n")), expected);
        assert_eq!(row(&format!("A,1,0,00:00:00,1,00:00:01,{name},y,TRAIN,c\n")), expected);
        assert_eq!(row(&format!("A,1,0,00:00:00,1,00:00:01,x,{name},TRAIN,c\n")), expected);
        assert_eq!(row(&format!("A,1,0,00:00:00,1,00:00:01,x,y,TRAIN,{name}\n")), expected);
    }
}

#[test]
fn seq_and_seconds_to_863_999() {
    assert_eq!(row("A,1,0,00:00:00,863999,9d 23:59:59,x,y,TRAIN,c\n"), Answer::Accepted);
    for bad in ["A,1,0,00:00:00,864000,10d 00:00:00,x,y,TRAIN,c\n", "A,1,864000,,864001,,x,y,TRAIN,c\n", "A,864000,0,,1,,x,y,TRAIN,c\n"] {
        assert_eq!(row(bad), refused(5, 129), "{bad:?}");
    }
    assert_eq!(row("A,863999,0,00:00:00,1,00:00:01,x,y,TRAIN,c\n"), broken(0, 4, 129));
    assert_eq!(row("A,0,0,00:00:00,1,00:00:01,x,y,TRAIN,c\n"), broken(0, 4, 129));
    assert_eq!(row("A,18446744073709551617,0,00:00:00,1,00:00:01,x,y,TRAIN,c\n"), refused(5, 129));
}

#[test]
fn at_most_8192_rows_and_1024_nodes() {
    let rows = |count: usize| (0..count).map(|n| format!("D{n},1,0,00:00:00,1,00:00:01,x,y,TRAIN,c\n")).collect::<String>();
    assert_eq!(answer(&file(&[&rows(8_192)])), Answer::Accepted);
    let text = file(&[&rows(8_193)]);
    assert_eq!(answer(&text), refused(6, text.rfind("D8192").unwrap()));
    let nodes = |count: usize| (0..count / 2).map(|n| format!("D{n},1,0,00:00:00,1,00:00:01,x{n},y{n},TRAIN,c\n")).collect::<String>();
    assert_eq!(answer(&file(&[&nodes(1_024)])), Answer::Accepted);
    let text = file(&[&nodes(1_024), "E,1,0,00:00:00,1,00:00:01,x,x,SPARE,\n"]);
    assert_eq!(answer(&text), refused(6, text.rfind("E,1,").unwrap()));
    let text = file(&[&nodes(1_026)]);
    assert_eq!(answer(&text), refused(6, text.rfind("D512").unwrap()));
}

#[test]
fn an_event_type_that_is_not_known_is_10() {
    for kind in ["RESERVE", "train", "TRAIN ", "", "TRAINS", "SPARE\u{1}", "CHANGE END"] {
        assert_eq!(row(&format!("A,1,0,00:00:00,1,00:00:01,x,x,{kind},\n")), refused(10, 129), "{kind:?}");
    }
}

/// "the lowest": each later one stays where an earlier one is mended.
#[test]
fn the_lowest_number_in_a_row_counts() {
    let one = |text: &str, legs: usize| check_duties(file(&[text]).as_bytes(), &Rooms { legs, ..Rooms::all(4_000) });
    let all = one("A,1,864000,,1,,x,y,RESERVE,c\n", 0);
    assert_eq!((all.answer, all.faults), (refused(4, 129), vec![4, 5, 10, 16]));
    assert_eq!(one("A,1,864000,,1,,x,y,RESERVE,\n", 0).faults, [5, 10, 16]);
    assert_eq!(one("A,1,0,,1,,x,y,RESERVE,\n", 0).faults, [10, 16]);
    assert_eq!(one("A,1,0,,1,,x,y,TRAIN,c\n", 3).faults, [16]);
    assert_eq!(one("A,1,0,,1,,x,y,TRAIN,c\n", 4).faults, [6]);
}

/// Rules that one row breaks, all of them; the lowest is the answer.
fn rules(rows: &[&str]) -> Vec<u32> {
    duties(&file(rows)).faults
}

#[test]
fn each_rule() {
    let first = "A,1,0,00:00:00,10,00:00:10,x,y,TRAIN,c\n";
    let after = |rest: &str| rules(&[first, rest]);
    assert_eq!(after("A,2,10,00:00:10,11,00:00:11,y,x,TRAIN,c\n"), []);
    assert_eq!(after("A,2,10,00:00:10,11,00:00:11,y,y,TRAIN,c\n"), []);
    assert_eq!(after("A,2,10,00:00:10,10,00:00:10,y,x,TRAIN,c\n"), [1]);
    assert_eq!(after("A,2,10,00:00:10,11,00:00:11,y,x,SPARE,\n"), [2]);
    assert_eq!(rules(&[first, "B,1,0,00:00:00,1,00:00:01,x,y,TRAIN,c\n", "A,1,10,00:00:10,11,00:00:11,y,x,TRAIN,c\n"]), [3]);
    assert_eq!(after("A,3,10,00:00:10,11,00:00:11,y,x,TRAIN,c\n"), [4]);
    assert_eq!(after("B,2,10,00:00:10,11,00:00:11,y,x,TRAIN,c\n"), [4]);
    assert_eq!(after("A,2,11,00:00:11,12,00:00:12,y,x,TRAIN,c\n"), [5]);
    assert_eq!(after("A,2,10,00:00:10,11,00:00:11,Y,x,TRAIN,c\n"), [5]);
    assert_eq!(after("A,2,10,00:00:10,11,0d 00:00:11,y,x,TRAIN,c\n"), [6]);
    assert_eq!(after("A,2,10,,11,00:00:11,y,x,TRAIN,c\n"), [6]);
    assert_eq!(after("A,4,12,,11,,z,x,SPARE,\n"), [1, 2, 4, 5, 6]);
}

/// Reading 38: a refusal in a later row comes before a broken rule in an earlier one; the first broken row counts.
#[test]
fn the_whole_file_is_read_before_a_rule_is_judged() {
    let bad = "A,7,5,,5,,x,y,TRAIN,c\n";
    let duties = duties(&file(&[bad, bad, "A,1\n"]));
    assert_eq!((duties.answer, duties.is_behind_broken), (refused(4, 129 + 2 * bad.len()), true));
    assert_eq!(answer(&file(&[bad, bad])), broken(0, 1, 129));
}

/// Reading 40, and the place of a node behind a quote (39).
#[test]
fn names_are_compared_by_their_contents() {
    let text = file(&["\"A\",1,0,00:00:00,1,00:00:01,\"x\",X,TRAIN,c\r\n", "A,\"2\",1,\"00:00:01\",2,00:00:02,X,x,\"TRAIN\",\"c\"\n"]);
    assert_eq!(balances(&text), [("x", 0), ("X", 0)].map(|(name, balance)| (name.to_string(), balance)));
    assert_eq!(duties(&text).nodes.unwrap(), [129 + 29, 1, 129 + 32, 1]);
}

/// Both rooms at and below the need, and what is left in them.
#[test]
fn rooms_and_what_is_left_in_them() {
    let run = |text: &str, legs: usize, curves: usize| {
        let rooms = Rooms { legs, curves, ..Rooms::all(3) };
        let mut texts: [Vec<u8>; 5] = Default::default();
        texts[0] = text.as_bytes().to_vec();
        let mut lent = Lent::full_of(9, &rooms);
        let said = Call::of(Entry::Duties, Case { h: 0, edition: 0, texts, rooms }).run(&mut lent);
        assert_eq!(Lent { legs: vec![9; legs], curves: vec![9; curves], ..lent.clone() }, Lent::full_of(9, &rooms));
        (said, lent.legs, lent.curves)
    };
    let two = file(&["A,1,0,00:00:00,1,00:00:01,x,y,TRAIN,c\n"]);
    let nodes = vec![155, 1, 157, 1];
    assert_eq!(run(&two, 4, 2), (Said::Duties(Answer::Accepted, 2), nodes.clone(), vec![-1, 1]));
    assert_eq!(run(&two, 5, 3), (Said::Duties(Answer::Accepted, 2), [nodes, vec![9]].concat(), vec![-1, 1, 9]));
    for (legs, curves) in [(3, 2), (4, 1), (0, 0), (3, 9), (9, 1)] {
        let filled = (Said::Duties(refused(16, 129), 0), vec![u32::MAX; legs], vec![i32::MIN; curves]);
        assert_eq!(run(&two, legs, curves), filled, "{legs} {curves}");
    }
    let broken_rule = two.replace("A,1,", "A,2,");
    assert_eq!(run(&broken_rule, 4, 2), (Said::Duties(broken(0, 4, 129), 0), vec![u32::MAX; 4], vec![i32::MIN; 2]));
    assert_eq!(run(HEADER, 0, 0), (Said::Duties(Answer::Accepted, 0), vec![], vec![]));
}
