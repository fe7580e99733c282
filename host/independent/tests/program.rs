//! The program on document 01's worked example: a line for each answer, whose status is 0, and no line where there is none.

use std::process::{Command, Output};

fn run(words: &[&str]) -> Output {
    let examples = concat!(env!("CARGO_MANIFEST_DIR"), "/../../examples");
    Command::new(env!("CARGO_BIN_EXE_independent")).args(words).current_dir(examples).output().unwrap()
}

fn check(h: &str, constraints: &str, solution: &str) -> Output {
    check_in(h, "2", constraints, solution)
}

fn check_in(h: &str, edition: &str, constraints: &str, solution: &str) -> Output {
    run(&["check", h, edition, "timetable.csv", "profiles.csv", constraints, solution])
}

#[test]
fn an_answer_is_a_line() {
    for (h, constraints, solution, line) in [
        ("100", "constraints.json", "solution-15-40.csv", "accepted # 3 2 0 0 1 0 0"),
        ("100", "dwell-22.json", "solution-15-40.csv", "violated 3 0 1 1 4 # 3 2 0 0 1 0 0"),
        ("100", "constraints.json", "half-edited.csv", "refused 4 4 145"),
        ("0", "constraints.json", "solution-15-40.csv", "refused 1 0 0"),
        ("4294967296", "constraints.json", "solution-15-40.csv", "refused 1 0 0"),
        ("99999999999999999999999", "constraints.json", "solution-15-40.csv", "refused 1 0 0"),
    ] {
        let output = check(h, constraints, solution);
        assert_eq!((output.status.code(), output.stdout), (Some(0), format!("{line}\n").into_bytes()), "{h} {constraints} {solution}");
    }
}

#[test]
fn an_edition_is_stated() {
    for (edition, constraints, line) in [
        ("1", "turnaround-edition-1.json", "accepted # 3 2 0 0 0 1 0"),
        ("2", "turnaround-edition-2.json", "accepted # 3 2 0 0 0 1 0"),
        ("2", "turnaround-edition-1.json", "refused 10 3 193"),
        ("1", "turnaround-edition-2.json", "refused 10 3 193"),
        ("3", "turnaround-edition-2.json", "refused 21 0 0"),
        ("4294967298", "turnaround-edition-2.json", "refused 21 0 0"),
    ] {
        let output = check_in("100", edition, constraints, "solution-nominal.csv");
        assert_eq!((output.status.code(), output.stdout), (Some(0), format!("{line}\n").into_bytes()), "{edition} {constraints}");
    }
}

#[test]
fn figures_and_texts_follow_the_answer() {
    let energy = run(&["energy", "100", "2", "timetable.csv", "profiles.csv", "constraints.json", "timetable.csv"]);
    let figures = "accepted # 3 2 0 0 1 0 0\nbefore 2050 drawn 2050 lost 600 fluctuation 1400 peak_before 2050 peak_drawn 2050\n";
    assert_eq!((energy.status.code(), energy.stdout), (Some(0), figures.as_bytes().to_vec()));
    let solutions = ["solution-15-40.csv", "solution-10-45.csv"];
    let merged = run(&["merge", "later", "100", "2", "timetable.csv", "profiles.csv", "constraints.json", solutions[0], solutions[1]]);
    let text = [&b"accepted\n"[..], include_bytes!("../../../examples/solution-15-45.csv")].concat();
    assert_eq!((merged.status.code(), merged.stdout), (Some(0), text));
}

/// The nodes follow with their balances.
#[test]
fn duties_follow_their_answer() {
    let header = "DUTY_ID,SEQ,START_TIME_SECONDS,START_TIME_HHMMSS,END_TIME_SECONDS,END_TIME_HHMMSS,START_NODE,END_NODE,EVENT_TYPE,TRAIN_COURSE_ID";
    let file = std::env::temp_dir().join(format!("independent-duties-{}.csv", std::process::id()));
    for (row, lines) in [
        ("D,1,87720,1d 00:22:00,87840,1d 00:24:00,MDNHEAD,MDNHDCS,TRAIN,5N92RV#1.A1\n", "accepted\nMDNHEAD -1\nMDNHDCS 1\n"),
        ("D,1,87720,00:22:00,87840,1d 00:24:00,MDNHEAD,MDNHDCS,TRAIN,5N92RV#1.A1\n", "broken 0 6 129\n"),
        ("D,1,87720,00:22:00,87840,1d 00:24:00,MDNHEAD,MDNHDCS,RESERVE,\n", "refused 10 6 129\n"),
    ] {
        std::fs::write(&file, format!("{header}\n{row}")).unwrap();
        let output = run(&["duties", &file.display().to_string()]);
        assert_eq!((output.status.code(), output.stdout), (Some(0), lines.as_bytes().to_vec()), "{row}");
    }
    std::fs::remove_file(&file).unwrap();
}

#[test]
fn what_cannot_be_asked_has_no_answer() {
    for h in ["", "0100", "+100", "-1", " 100", "100s"] {
        let output = check(h, "constraints.json", "solution-15-40.csv");
        assert_eq!((output.status.code(), &output.stdout[..]), (Some(1), &b""[..]), "{h}");
    }
    let no_edition = check_in("100", "02", "constraints.json", "solution-15-40.csv");
    for output in [no_edition, check("100", "missing.json", "solution-15-40.csv"), run(&["check", "100"]), run(&[])] {
        assert_eq!((output.status.code(), &output.stdout[..]), (Some(1), &b""[..]), "{output:?}");
        assert!(!output.stderr.is_empty());
    }
}
