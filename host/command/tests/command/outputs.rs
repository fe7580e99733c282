//! What is written, and what is left where something cannot be: full disks, closed pipes, modes and links.

use super::*;
use std::os::unix::fs::{symlink, PermissionsExt};

const MERGE: &str = "merge --horizon 100 t p c a b --earlier earlier --later later";

/// The first name that the command tries for a temporary file.
const TEMPORARY: &str = ".wagontulip-0.part";

/// A folder with one output there, and a file of somebody else's under a temporary name.
fn with_old(test: &str) -> Folder {
    let folder = Folder::new(test);
    folder.put("later", "old");
    folder.put(TEMPORARY, "foreign");
    folder
}

fn is_as_before(folder: &Folder) {
    assert_eq!((folder.get("later"), folder.get(TEMPORARY)), (Some(String::from("old")), Some(String::from("foreign"))));
    assert_eq!(folder.names(), [TEMPORARY, "a", "b", "c", "later", "p", "t"]);
}

/// No verdict, and one line that says why.
fn not_printed(output: &Output) {
    let said = String::from_utf8_lossy(&output.stderr);
    assert_eq!(output.status.code(), Some(3), "{output:?}");
    assert!(said.starts_with("wagontulip: the result could not be printed: ") && said.matches('\n').count() == 1, "{said}");
}

#[test]
fn nothing_is_written_where_the_result_is_not_printed() {
    let folder = with_old("full");
    let full = || fs::OpenOptions::new().write(true).open("/dev/full").unwrap();
    for words in [MERGE, "energy --horizon 100 t p c a --curves later", "merge --json --horizon 100 t p c a b --earlier x --later later"] {
        not_printed(&folder.call(words).stdout(full()).stderr(Stdio::piped()).output().unwrap());
        is_as_before(&folder);
    }
}

/// The reader is gone before the command can print: it waits for its standard input.
#[test]
fn a_closed_pipe_is_no_panic() {
    let folder = with_old("closed");
    let words = MERGE.replace(" b ", " - ");
    let mut call = folder.call(&words).stdin(Stdio::piped()).stdout(Stdio::piped()).stderr(Stdio::piped()).spawn().unwrap();
    drop(call.stdout.take());
    call.stdin.take().unwrap().write_all(solution("10_4_7", "45_3_8").as_bytes()).unwrap();
    not_printed(&call.wait_with_output().unwrap());
    is_as_before(&folder);
}

#[test]
fn a_foreign_temporary_file_is_left_alone() {
    let folder = with_old("foreign");
    folder.told(MERGE, 0);
    assert_eq!(folder.get(TEMPORARY).unwrap(), "foreign");
    assert_eq!((folder.get("earlier"), folder.get("later")), (Some(draft()), Some(solution("15_4_7", "45_3_8"))));
    assert_eq!(folder.names(), [TEMPORARY, "a", "b", "c", "earlier", "later", "p", "t"]);
}

/// Whatever the user's mask would take, or leave.
#[test]
fn an_output_that_is_there_keeps_its_mode() {
    let folder = Folder::new("modes");
    let modes = [("earlier", 0o640), ("later", 0o666)];
    for (name, mode) in modes {
        folder.put(name, "old");
        fs::set_permissions(folder.0.join(name), fs::Permissions::from_mode(mode)).unwrap();
    }
    folder.told(MERGE, 0);
    for (name, mode) in modes {
        assert_eq!(fs::metadata(folder.0.join(name)).unwrap().permissions().mode() & 0o7777, mode, "{name}");
    }
    assert_eq!(folder.get("earlier"), Some(draft()));
}

/// Neither the link nor what it points to is written, whether that is there or not.
#[test]
fn a_link_is_no_output() {
    let folder = Folder::new("links");
    folder.put("file", "old");
    symlink("file", folder.0.join("earlier")).unwrap();
    symlink("nowhere", folder.0.join("out")).unwrap();
    folder.not_run(MERGE, "wagontulip: output earlier: is a symbolic link\n");
    folder.not_run("energy --horizon 100 t p c a --curves out", "wagontulip: output out: is a symbolic link\n");
    assert_eq!((folder.get("file"), folder.get("earlier")), (Some(String::from("old")), Some(String::from("old"))));
    assert_eq!(folder.names(), ["a", "b", "c", "earlier", "file", "out", "p", "t"]);
}

/// One that root may write all the same is no such folder: the system's own then is.
#[test]
fn nothing_is_told_where_nothing_can_be_written() {
    let folder = Folder::new("read-only");
    let closed = folder.0.join("closed");
    fs::create_dir(&closed).unwrap();
    fs::set_permissions(&closed, fs::Permissions::from_mode(0o555)).unwrap();
    let place = if fs::write(closed.join("probe"), "").is_ok() { "/proc/self" } else { "closed" };
    let out = format!("{place}/later");
    folder.not_run(&format!("merge --horizon 100 t p c a b --earlier earlier --later {out}"), &format!("wagontulip: output {out}: "));
    assert_eq!(folder.names(), ["a", "b", "c", "closed", "p", "t"]);
}

#[test]
fn the_name_of_a_folder_is_no_output() {
    let folder = Folder::new("folders");
    for out in ["o/", "o/.", "..", "./"] {
        folder.not_run(&format!("energy --horizon 100 t p c a --curves={out}"), &format!("wagontulip: output {out}: is no "));
    }
    folder.not_run("energy --horizon 100 t p c a --curves=", "wagontulip: output : is no name of a file\n");
}

/// As in `> later`: the merged text would take the result's place.
#[test]
fn the_result_and_an_output_are_two_files() {
    let folder = Folder::new("result");
    let out = fs::File::create(folder.0.join("later")).unwrap();
    let output = folder.call(MERGE).stdout(out).stderr(Stdio::piped()).output().unwrap();
    let said = &b"wagontulip: output later: is where the result is printed\n"[..];
    assert_eq!((output.status.code(), &output.stderr[..]), (Some(3), said), "{output:?}");
    assert_eq!(folder.names(), ["a", "b", "c", "later", "p", "t"]);
}

/// Standard input has no name, and may be a file that has one.
#[test]
fn standard_input_is_no_output() {
    let folder = Folder::new("standard-output");
    let file = fs::File::open(folder.0.join("a")).unwrap();
    let output = folder.call("energy --horizon 100 t p c - --curves a").stdin(file).output().unwrap();
    assert_eq!((output.status.code(), &output.stderr[..]), (Some(3), &b"wagontulip: output a: is an input\n"[..]), "{output:?}");
    assert_eq!(folder.get("a"), Some(solution("15_4_7", "40_3_8")));
}
