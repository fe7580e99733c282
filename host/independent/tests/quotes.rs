//! The readings 39 to 46, of quoted fields and CR LF (document 02, E1); a test's name starts with the reading's number.

mod common;

use common::*;
use independent::{row_at, Answer, Direction};

/// The text with every field in quotes and CR LF at every line, as a spreadsheet exports it.
fn exported(text: &[u8]) -> Vec<u8> {
    let plain = String::from_utf8(text.to_vec()).unwrap();
    plain.lines().map(|line| format!("\"{}\"\r\n", line.replace(',', "\",\""))).collect::<String>().into_bytes()
}

/// The answers where the row is the first of draft, solution and second solution.
fn of_row(row: &str) -> [Answer; 3] {
    let text = timetable(&[row, ROW_2]);
    let texts = example();
    [texts.with_draft(&text).answer(), texts.with_solution(&text).answer(), texts.with_second(&text).merged(Direction::Earlier).answer]
}

fn of_profile(row: &str) -> Answer {
    example().with_profiles(&profiles(&[row, "8,0.3 0.0 -0.2\n"])).answer()
}

fn of_header(header: &str) -> Answer {
    let text = [header.as_bytes(), ROW_1.as_bytes(), ROW_2.as_bytes()].concat();
    example().with_solution(&text).answer()
}

/// 4 in each of the three files.
const BAD_ROWS: [Answer; 3] = [
    Answer::Refused { number: 4, file: 1, place: 114 },
    Answer::Refused { number: 4, file: 4, place: 114 },
    Answer::Refused { number: 4, file: 5, place: 114 },
];

#[test]
fn r39_any_field_may_stand_in_a_pair() {
    let columns: Vec<&str> = ROW_1.trim_end().split(',').collect();
    for which in 0..1 << columns.len() {
        let quoted = |(column, field): (usize, &&str)| if which >> column & 1 == 1 { format!("\"{field}\"") } else { field.to_string() };
        let row: Vec<String> = columns.iter().enumerate().map(quoted).collect();
        let row = row.join(",");
        assert_eq!(of_row(&format!("{row}\n")), [Answer::Accepted; 3], "{row}");
        assert_eq!(of_row(&format!("{row}\r\n")), [Answer::Accepted; 3], "{row}");
    }
    for row in ["\"7\",0.5 1.0 0.25 -0.4\n", "7,\"0.5 1.0 0.25 -0.4\"\n", "\"7\",\"0.5 1.0 0.25 -0.4\"\r\n"] {
        assert_eq!(of_profile(row), Answer::Accepted, "{row}");
    }
}

#[test]
fn r39_the_whole_field_stands_in_one_pair() {
    for row in [
        "\"1,1,1,1,2,10_4_7,10_4_7\n",
        "1\",1,1,1,2,10_4_7,10_4_7\n",
        "\"\"1\"\",1,1,1,2,10_4_7,10_4_7\n",
        "\"1\"\"\",1,1,1,2,10_4_7,10_4_7\n",
        "1\"\",1,1,1,2,10_4_7,10_4_7\n",
        " \"1\",1,1,1,2,10_4_7,10_4_7\n",
        "\"1\" ,1,1,1,2,10_4_7,10_4_7\n",
        "\" 1\",1,1,1,2,10_4_7,10_4_7\n",
        "'1',1,1,1,2,10_4_7,10_4_7\n",
        "1,1,1,1,2,10_\"4\"_7,10_4_7\n",
        "1,1,1,1,2,\"10\"_4_7,10_4_7\n",
        "1,1,1,1,2,10_4_7,\"10_4_7\" \"15_4_7\"\n",
        "1,1,1,1,2,10_4_7,\"10_4_7\" 15_4_7\n",
        "1,1,1,1,2,10_4_7,10_4_7 \"15_4_7\"\n",
        "1,1,1,1,2,10_4_7,\"10_4_7\n",
        "1,1,1,1,2,10_4_7,10_4_7\"\n",
        "1,1,1,1,2,10_4_7,\"10_4_7\"\"\n",
        "\"1,1,1,1,2,10_4_7,10_4_7\"\n",
    ] {
        assert_eq!(of_row(row), BAD_ROWS, "{row}");
    }
    for row in
        ["7,0.5 \"1.0\" 0.25 -0.4\n", "7,\"0.5\" 1.0 0.25 -0.4\n", "\"7,0.5 1.0 0.25 -0.4\"\n", "7,\"0.5 1.0 0.25 -0.4\n", "7,-\"0.5\"\n"]
    {
        assert_eq!(of_profile(row), refused(4, 2, 30), "{row}");
    }
}

#[test]
fn r39_the_same_fault_in_the_header_is_3() {
    let header = TIMETABLE_HEADER.trim_end();
    for wrong in [
        format!("\"{header}\"\n"),
        format!("\"{header}\n"),
        format!("{header}\"\n"),
        header.replace("leg_id,", "\"leg\"_id,") + "\n",
        header.replace("leg_id,", "\"\"leg_id\"\",") + "\n",
        header.replace("leg_id,", "\"leg_id\" ,") + "\n",
        header.replace("train_id,", "\"train_id,") + "\n",
        header.replace("leg_id,train_id", "\"leg_id,train_id\"") + "\n",
        header.replace("train_id,", "\"\",") + "\n",
        header.replace("train_id,", "\"Train_id\",") + "\n",
    ] {
        assert_eq!(of_header(&wrong), refused(3, 4, 0), "{wrong}");
    }
    for wrong in ["\"profile_id,power_consumptions\"\n", "\"profile\"_id,power_consumptions\n", "\"profile_id\",\"power_consumptions\n"] {
        assert_eq!(example().with_profiles(wrong.as_bytes()).answer(), refused(3, 2, 0), "{wrong}");
    }
}

#[test]
fn r40_a_line_feed_ends_the_row_and_a_comma_the_field() {
    assert_eq!(of_row("1,1,1,1,2,10_4_7,\"10_4_7\n15_4_7\"\n"), BAD_ROWS);
    assert_eq!(of_row("1,1,1,1,2,10_4_7,\"10_4_7 15_4_7\n\"\n"), BAD_ROWS);
    assert_eq!(of_row("1,1,1,1,2,10_4_7,\"10_4_7\r\n15_4_7\"\n"), BAD_ROWS);
    assert_eq!(of_row("\"1,1\",1,1,2,10_4_7,10_4_7\n"), BAD_ROWS);
    assert_eq!(of_row("1,1,1,1,2,\"10_4_7,10_4_7\"\n"), BAD_ROWS);
    assert_eq!(of_profile("7,\"0.5 1.0\n0.25 -0.4\"\n"), refused(4, 2, 30));
    assert_eq!(of_profile("\"7,\"0.5\n"), refused(4, 2, 30));
    // The quote that opens in the second row.
    let text = timetable(&[ROW_1, "2,1,2,2,3,40_3_8,\"40_3_8\n45_3_8\"\n"]);
    assert_eq!(example().with_draft(&text).answer(), refused(4, 1, 145));
    let header = TIMETABLE_HEADER.replace("leg_id,", "\"leg\n_id\",");
    assert_eq!(of_header(&header), refused(3, 4, 0));
}

#[test]
fn r41_quotes_about_nothing_are_an_empty_content() {
    for column in 0..7 {
        let mut fields: Vec<&str> = ROW_1.trim_end().split(',').collect();
        fields[column] = "\"\"";
        assert_eq!(of_row(&format!("{}\n", fields.join(","))), BAD_ROWS, "{column}");
    }
    for row in ["\"\",0.5\n", "7,\"\"\n", "\"\"\n"] {
        assert_eq!(of_profile(row), refused(4, 2, 30), "{row}");
    }
}

#[test]
fn r42_one_return_goes_with_the_line_feed() {
    for row in ["1,1,1,1,2,10_4_7,10_4_7\r\n", "1,1,1,1,2,10_4_7,\"10_4_7\"\r\n"] {
        assert_eq!(of_row(row), [Answer::Accepted; 3], "{row:?}");
    }
    for row in [
        "1,1,1,1,2,10_4_7,10_4_7\r\r\n",
        "1,1,1,1,2,10_4_7,\"10_4_7\"\r\r\n",
        "1,1,1,1,2,10_4_7,\"10_4_7\r\"\n",
        "1,1,1,1,2,10_4_7,\"10_4_7\r\"\r\n",
        "1,1,1,1,2,10_4_7,10_4_7\r 15_4_7\n",
        "1\r,1,1,1,2,10_4_7,10_4_7\n",
        "\"1\"\r,1,1,1,2,10_4_7,10_4_7\n",
        "\r1,1,1,1,2,10_4_7,10_4_7\n",
        "1,1,1,1,2,10_4_7,\r\n",
        "\r\n",
        "\r\r\n",
    ] {
        assert_eq!(of_row(row), BAD_ROWS, "{row:?}");
    }
    let texts = example();
    for last in ["2,1,2,2,3,40_3_8,40_3_8 45_3_8\r", "\r"] {
        let text = timetable(&[ROW_1, last]);
        assert_eq!(texts.with_draft(&text).answer(), refused(4, 1, 145), "{last:?}");
        assert_eq!(texts.with_solution(&text).answer(), refused(4, 4, 145), "{last:?}");
    }
    let header = TIMETABLE_HEADER.trim_end();
    for wrong in
        [format!("{header}\r\r\n"), format!("{header}\r"), format!("\r{header}\n"), header.replace(',', "\r,") + "\n", String::from("\r\n")]
    {
        assert_eq!(texts.with_solution(wrong.as_bytes()).answer(), refused(3, 4, 0), "{wrong:?}");
    }
    for row in ["7,0.5 1.0 0.25 -0.4\r\r\n", "7\r,0.5\n", "7,0.5\r 1.0\n", "\r\n"] {
        assert_eq!(of_profile(row), refused(4, 2, 30), "{row:?}");
    }
    assert_eq!(texts.with_profiles(b"profile_id,power_consumptions\r\n\r").answer(), refused(4, 2, 31));
}

#[test]
fn r43_any_name_of_the_header_may_be_quoted() {
    let names: Vec<&str> = TIMETABLE_HEADER.trim_end().split(',').collect();
    for which in 0..1 << names.len() {
        let quoted = |(place, name): (usize, &&str)| if which >> place & 1 == 1 { format!("\"{name}\"") } else { name.to_string() };
        let header: Vec<String> = names.iter().enumerate().map(quoted).collect();
        for end in ["\n", "\r\n"] {
            assert_eq!(of_header(&format!("{}{end}", header.join(","))), Answer::Accepted, "{header:?}");
        }
    }
    for header in
        ["\"profile_id\",power_consumptions\r\n", "profile_id,\"power_consumptions\"\n", "\"profile_id\",\"power_consumptions\"\r\n"]
    {
        let text = [header, "7,0.5 1.0 0.25 -0.4\n", "8,0.3 0.0 -0.2\n"].concat();
        assert_eq!(example().with_profiles(text.as_bytes()).answer(), Answer::Accepted, "{header}");
    }
    let marked = [b"\xef\xbb\xbf", &exported(&example().timetable)[..]].concat();
    assert_eq!(example().with_draft(&marked).answer(), refused(3, 1, 0));
}

#[test]
fn r44_lines_of_one_file_may_end_differently() {
    for (first, second) in [("\r\n", "\n"), ("\n", "\r\n"), ("\r\n", "\r\n")] {
        let text = format!("{TIMETABLE_HEADER}{}{first}{}{second}", ROW_1.trim_end(), ROW_2.trim_end());
        assert_eq!(example().with_draft(text.as_bytes()).answer(), Answer::Accepted, "{text:?}");
    }
}

#[test]
fn r44_contents_are_compared() {
    let texts = example();
    // 7 and 8.
    assert_eq!(texts.with_draft(&timetable(&[ROW_1, &ROW_1.replacen('1', "\"1\"", 1)])).answer(), refused(7, 1, 145));
    assert_eq!(texts.with_profiles(&profiles(&["7,0.5\n", "\"7\",0.5\n"])).answer(), refused(7, 2, 36));
    assert_eq!(of_row("1,1,1,1,2,\"15_4_7\",10_4_7 15_4_7\n"), [Answer::Accepted; 3]);
    assert_eq!(of_row("1,1,1,1,2,\"11_4_7\",10_4_7 15_4_7\n"), [refused(8, 1, 114), refused(8, 4, 114), refused(8, 5, 114)]);
    // 14, and the verdict.
    assert_eq!(texts.with_solution(&timetable(&[ROW_1, &ROW_2.replacen('2', "\"3\"", 1)])).answer(), refused(14, 4, 145));
    assert_eq!(texts.with_solution(&timetable(&["1,1,1,1,2,\"11_4_7\",11_4_7\n", ROW_2])).answer(), violated(0, 0, 0, 0));
}

#[test]
fn r44_the_files_may_differ_in_their_quotes() {
    let plain = example();
    let all = Texts { timetable: exported(&plain.timetable), profiles: exported(&plain.profiles), ..plain.clone() };
    for (timetable, solution, second) in [(0, 1, 0), (1, 0, 0), (1, 1, 1), (0, 1, 1), (1, 0, 1)] {
        let spelled = |text: &[u8], which: usize| if which == 1 { exported(text) } else { text.to_vec() };
        let texts = Texts {
            timetable: spelled(&plain.timetable, timetable),
            solution: spelled(&departures(15, 40), solution),
            second: spelled(&departures(10, 45), second),
            ..all.clone()
        };
        assert_eq!(texts.checked().tables, plain.with_solution(&departures(15, 40)).checked().tables);
        assert_eq!(texts.report().figures, plain.with_solution(&departures(15, 40)).report().figures);
        assert_eq!(texts.merged(Direction::Later).text, Some(departures(15, 45)));
    }
}

#[test]
fn r45_a_displayed_row_keeps_its_quotes_and_loses_one_return() {
    let draft = exported(&example().timetable);
    let (start, length) = row_at(&draft, b"", 1, 129);
    assert_eq!(&draft[start..start + length], b"\"1\",\"1\",\"1\",\"1\",\"2\",\"10_4_7\",\"10_4_7 15_4_7\"");
    assert_eq!(row_at(&draft, b"", 1, 175), (175, 44));
    let text = b"h\r\n\"a\"\r\nb\r\r\n\r\n\r\r\nc\r";
    for (place, row) in [(3, &b"\"a\""[..]), (8, b"b\r"), (12, b""), (14, b"\r"), (17, b"c\r")] {
        let (start, length) = row_at(text, b"", 1, place);
        assert_eq!((start, &text[start..start + length]), (place, row), "{place}");
        assert_eq!(row_at(b"", text, 4, place), (start, length));
    }
    for place in [0, 1, 2, 4, 18] {
        assert_eq!(row_at(text, b"", 1, place), (0, 0), "{place}");
    }
}

#[test]
fn r46_places_count_every_byte() {
    let exported_draft = exported(&example().timetable);
    assert_eq!(exported_draft.len(), 129 + 2 * 46);
    let unlisted = lists(&[dwell(20), list("recuperation_subnets", "{\"subnet_id\":1,\"track_ids\":[1]}")]);
    assert_eq!(example().with_draft(&exported_draft).with_constraints(&unlisted).answer(), refused(15, 1, 175));
    let missing = exported(&timetable(&[ROW_1]));
    assert_eq!(example().with_solution(&missing).answer(), refused(14, 4, missing.len()));
}

#[test]
fn r46_what_is_written_has_no_quotes_and_constraints_are_untouched() {
    let plain = example();
    let mut texts = Texts {
        timetable: exported(&plain.timetable),
        profiles: exported(&plain.profiles),
        solution: exported(&departures(15, 40)),
        second: exported(&departures(10, 45)),
        ..plain.clone()
    };
    texts.rooms.text = plain.timetable.len();
    assert_eq!(texts.merged(Direction::Earlier).text, Some(plain.timetable.clone()));
    texts.rooms.text -= 1;
    assert_eq!(texts.merged(Direction::Earlier).answer, refused(16, 0, 0));
    // A number in quotes is of the wrong type there.
    let quoted = String::from_utf8(plain.constraints.clone()).unwrap().replace(":20}", ":\"20\"}");
    let place = place_of(quoted.as_bytes(), "\"20\"");
    assert_eq!(plain.with_constraints(quoted.as_bytes()).answer(), refused(9, 3, place));
    let returned = String::from_utf8(plain.constraints.clone()).unwrap().replace(',', ",\r\n");
    assert_eq!(plain.with_constraints(returned.as_bytes()).answer(), Answer::Accepted);
}
