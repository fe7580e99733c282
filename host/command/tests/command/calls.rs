//! The words of a call: options, help, standard input, and what is said of a wrong one.

use super::*;

/// What the error stream says of a call that could not run: one line.
fn said(folder: &Folder, words: &str) -> String {
    let output = folder.run(words);
    assert_eq!((output.status.code(), &output.stdout[..]), (Some(3), &b""[..]), "{words}: {output:?}");
    let said = String::from_utf8(output.stderr).unwrap();
    assert_eq!(said.matches('\n').count(), 1, "{words}: {said}");
    said
}

/// A call with a text as its standard input.
fn fed(folder: &Folder, words: &str, text: &str) -> Output {
    let mut call = folder.call(words).stdin(Stdio::piped()).stdout(Stdio::piped()).stderr(Stdio::piped()).spawn().unwrap();
    call.stdin.take().unwrap().write_all(text.as_bytes()).unwrap();
    call.wait_with_output().unwrap()
}

#[test]
fn a_value_may_stand_in_its_word() {
    let folder = Folder::new("equals");
    let accepted = format!("{LABEL}{ACCEPTED}{TESTED}answer: accepted\n");
    assert_eq!(folder.told("check --horizon=100 t p c a", 0), accepted);
    let said = folder.told("energy --horizon=100 t p c a --curves=x=y --room=legs=16", 0);
    assert!(said.contains("\ncurves: x=y, bytes 215\n"), "{said}");
    assert_eq!(folder.get("x=y").unwrap().lines().count(), 100);
}

#[test]
fn help_is_given_after_any_word() {
    let folder = Folder::new("help");
    let all = folder.told("--help", 0);
    assert!(all.contains("\nwagontulip row    --place P FILE\n") && all.contains("\nExit status: "), "{all}");
    assert_eq!(folder.told("-h", 0), all);
    for (verb, option) in [("check", "--horizon"), ("energy", "--curves"), ("merge", "--later"), ("duties", "--room"), ("row", "--file")] {
        let help = folder.told(&format!("{verb} --help"), 0);
        assert!(help.starts_with(&format!("wagontulip {verb} ")) && help.contains(&format!("\n  {option} ")), "{help}");
        let output = folder.run(&format!("{verb} missing --verbose {option} -h --json"));
        assert_eq!((output.status.code(), output.stdout, output.stderr), (Some(0), help.into_bytes(), Vec::new()));
    }
    assert_eq!(folder.told("-V", 0), folder.told("--version", 0));
}

#[test]
fn a_wrong_word_is_said_in_one_line() {
    let folder = Folder::new("wrong");
    for (words, why) in [
        ("judge", "no such command: judge"),
        ("check --horizon=100 t p c", "wanted 4 files, given 3, missing: SOLUTION"),
        ("check --horizon=100 t p c a b", "wanted 4 files, given 5, too many: b"),
        ("check --horizon=0100 t p c a", "--horizon wants a whole number, and this is none: 0100"),
        ("check --horizon=100 --verbose t p c a", "no such option: --verbose"),
        ("check --horizon=100 - p c -", "standard input is read once, and not for SOLUTION too: -"),
        ("duties", "wanted 1 file, given 0, missing: FILE"),
        ("duties --edition=2 t", "no option of duties: --edition"),
        ("energy --horizon=100 t p c a --curves -", "--curves wants a file, and standard output has the result: -"),
    ] {
        assert_eq!(said(&folder, words), format!("wagontulip: {why} (help: wagontulip --help)\n"));
    }
    assert_eq!(folder.names(), ["a", "b", "c", "p", "t"]);
}

#[test]
fn standard_input_is_any_one_of_the_files() {
    let folder = Folder::new("standard");
    let output = fed(&folder, "check --horizon 100 - p c a", &draft());
    assert_eq!(String::from_utf8(output.stdout).unwrap(), format!("{LABEL}{ACCEPTED}{TESTED}answer: accepted\n"));
    let output = fed(&folder, "check --horizon 100 t p c -", "abc");
    let refused = String::from_utf8(output.stdout).unwrap();
    assert!(output.status.code() == Some(2) && refused.contains("\nfile: solution (-), place: 0, line: 1\n"), "{refused}");
    let object = String::from_utf8(fed(&folder, "check --json --horizon 100 t p c -", "abc").stdout).unwrap();
    assert!(object.contains(r#""name": "-", "bytes": 3, "sha256": "ba7816bf"#), "{object}");
    folder.put("./-", "abc");
    assert_eq!(folder.told("check --horizon 100 t p c ./-", 2), refused.replace("(-)", "(./-)"));
}

/// What another program has read from it is no part of it.
#[test]
fn a_file_as_standard_input_goes_on_where_it_stands() {
    let folder = Folder::new("standing");
    folder.put("s", &format!("before{}", draft()));
    let mut file = fs::File::open(folder.0.join("s")).unwrap();
    std::io::Seek::seek(&mut file, std::io::SeekFrom::Start(6)).unwrap();
    let output = folder.call("check --horizon 100 t p c -").stdin(file).output().unwrap();
    assert_eq!(String::from_utf8(output.stdout).unwrap(), format!("{LABEL}{ACCEPTED}{TESTED}answer: accepted\n"));
}

/// Of profiles and of a second solution, too: a refusal's place is all that is wanted.
#[test]
fn a_row_of_any_file_is_shown() {
    let folder = Folder::new("any-row");
    folder.put("p", &PROFILES.replace("-0.2", "-0.2x"));
    let refused = folder.told("check --horizon 100 t p c a", 2);
    assert!(refused.contains("\nfile: profiles (p), place: 50, line: 3\nrow: 8,0.3 0.0 -0.2x\n"), "{refused}");
    assert_eq!(folder.told("row --place 50 p", 0), format!("{LABEL}row: 8,0.3 0.0 -0.2x\n"));
    assert_eq!(folder.told("row --place=145 b", 0), format!("{LABEL}row: 2,1,2,2,3,45_3_8,40_3_8 45_3_8\n"));
    assert_eq!(folder.told("row --place 49 p", 0), format!("{LABEL}no row starts there\n"));
    let output = fed(&folder, "row --place 50 -", PROFILES);
    assert_eq!(String::from_utf8(output.stdout).unwrap(), format!("{LABEL}row: 8,0.3 0.0 -0.2\n"));
    let object = folder.told("row --json --place 50 p", 0);
    assert!(object.contains(r#""place": 50, "row": "8,0.3 0.0 -0.2x", "length": 15, "#), "{object}");
    assert!(said(&folder, "row --place 50 missing").starts_with("wagontulip: CSV file missing: "));
}

/// It is handed to the library as the greatest of 32 bits, which is as far out of range.
#[test]
fn what_is_stated_is_shown_as_it_was_given() {
    let folder = Folder::new("given");
    for number in ["4294967396", "99999999999999999999999999"] {
        for stated in [format!("--horizon {number}"), format!("--horizon 100 --edition {number}")] {
            let object = folder.told(&format!("check --json {stated} t p c a"), 2);
            assert!(object.contains(number) && !object.contains(&u32::MAX.to_string()), "{object}");
        }
    }
}
