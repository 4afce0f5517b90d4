//! Where OUT leads: standard output, open files, devices, FIFOs, links. OUT is
//! never a file that the user did not name.

mod common;

use barfigol_tables::trials;
use common::{assert_done, assert_misused, ended, example, file, folder, names};
use common::{run, shell, started, text};
use std::fs;
use std::os::unix::fs::symlink;
use std::path::Path;

/// The bytes of P4's relational translation, as the library gives them.
fn translation() -> Vec<u8> {
    let table = trials::p4().bytes();
    barfigol::translate(barfigol::Reading::Relational, &table).expect("a translation")
}

/// A folder with P4's table, and a log that has a line.
fn with_log(name: &str) -> std::path::PathBuf {
    let folder = folder(name);
    file(&folder, "p4.table", &trials::p4().bytes());
    file(&folder, "log", b"a line\n");
    folder
}

fn read(folder: &Path, name: &str) -> Vec<u8> {
    fs::read(folder.join(name)).expect(name)
}

/// The line of the log with the translation behind it.
fn line_and_translation() -> Vec<u8> {
    [b"a line\n", translation().as_slice()].concat()
}

#[test]
fn a_dash_is_standard_output() {
    let child = started(&["translate", "relational", &example("p4.table"), "-"]);
    let output = ended(child, &[]);
    assert_eq!(output.status.code(), Some(0));
    assert_eq!(output.stdout, translation());
    let folder = with_log("dash");
    let line = "barfigol translate relational - - < p4.table | barfigol check -";
    assert_done(&shell(&folder, line), "sound\n");
    assert_eq!(names(&folder), ["log", "p4.table"]);
}

/// A refusal writes nothing to standard output either.
#[test]
fn a_refusal_leaves_standard_output_alone() {
    let faulty = &example("faulty.table");
    for out in ["-", "/dev/stdout"] {
        let ran = run(&["translate", "strict", faulty, out]);
        assert_eq!((ran.status, ran.out.as_str()), (Some(1), ""), "{out}");
    }
}

/// The log keeps its line, however standard output is named.
#[test]
fn an_appended_log_is_kept() {
    let others = [
        "/dev/stdout",
        "/dev/fd/1",
        "/proc/self/fd/1",
        "/proc/thread-self/fd/1",
    ];
    for out in ["-"].iter().chain(&others) {
        let folder = with_log("appended");
        let line = format!("barfigol translate relational p4.table {out} >> log");
        assert_done(&shell(&folder, &line), "");
        assert_eq!(read(&folder, "log"), line_and_translation(), "{out}");
        assert_eq!(names(&folder), ["log", "p4.table"]);
    }
}

/// What stood before in the same open file, and what comes behind, stays.
#[test]
fn standard_output_goes_on_where_it_is() {
    for out in ["-", "/dev/stdout"] {
        let folder = with_log("goes-on");
        let line =
            format!("(echo a line; barfigol translate relational p4.table {out}; echo end) > log");
        assert_done(&shell(&folder, &line), "");
        let expected = [line_and_translation().as_slice(), b"end\n"].concat();
        assert_eq!(read(&folder, "log"), expected, "{out}");
    }
}

#[test]
fn standard_error_is_written_to() {
    let folder = with_log("errors");
    let line = "barfigol translate relational p4.table /dev/stderr 2>> log";
    assert_done(&shell(&folder, line), "");
    assert_eq!(read(&folder, "log"), line_and_translation());
}

#[test]
fn other_open_files() {
    let folder = with_log("open");
    let translate = |out: &str, opened: &str| {
        let line = format!("barfigol translate relational p4.table {out} {opened}");
        shell(&folder, &line)
    };
    let ran = translate("/dev/fd/3", "3>> log");
    assert_misused(&ran, "/dev/fd/3: it is an open file: name the file itself");
    let ran = translate("/dev/fd/3", "3< log");
    assert_misused(&ran, "/dev/fd/3: it is open for reading only");
    let ran = translate("/dev/stdin", "< log");
    assert_misused(&ran, "/dev/stdin: it is open for reading only");
    let ran = translate("/dev/fd/77", "");
    assert_misused(&ran, "/dev/fd/77: No such file or directory");
    let ran = translate("/dev/fd/3", "3>&1 | barfigol check -");
    assert_done(&ran, "sound\n");
    assert_eq!(read(&folder, "log"), b"a line\n");
    assert_eq!(names(&folder), ["log", "p4.table"]);
}

/// A link to standard output is standard output, too.
#[test]
fn links_to_open_files() {
    let folder = with_log("link-to-open");
    symlink("/dev/stdout", folder.join("out")).expect("a link");
    let ran = shell(&folder, "barfigol translate relational p4.table out >> log");
    assert_done(&ran, "");
    assert_eq!(read(&folder, "log"), line_and_translation());
    assert_eq!(names(&folder), ["log", "out", "p4.table"]);
}

#[test]
fn devices_are_written_to_and_stay() {
    let p4 = &example("p4.table");
    assert_done(&run(&["translate", "strict", p4, "/dev/null"]), "");
    let full = run(&["translate", "strict", p4, "/dev/full"]);
    assert_misused(&full, "/dev/full: No space left on device");
    for device in ["/dev/null", "/dev/full"] {
        assert!(!fs::metadata(device).expect(device).is_file());
    }
    let folder = with_log("full");
    let ran = shell(&folder, "barfigol translate strict p4.table - > /dev/full");
    assert_misused(&ran, "standard output: No space left on device");
}

#[test]
fn a_fifo_is_written_to_and_stays() {
    let folder = with_log("fifo");
    let line = "mkfifo fifo && { timeout 60 cat fifo > got & } && \
                timeout 60 barfigol translate relational p4.table fifo && wait";
    assert_done(&shell(&folder, line), "");
    assert_eq!(read(&folder, "got"), translation());
    assert_eq!(names(&folder), ["fifo", "got", "log", "p4.table"]);
    let found = fs::metadata(folder.join("fifo")).expect("the fifo");
    assert!(!found.is_file());
}

#[test]
fn a_link_is_followed_and_stays() {
    let folder = with_log("followed");
    let far = folder.join("far");
    fs::create_dir(&far).expect("a folder");
    symlink("far/second", folder.join("first")).expect("a link");
    symlink("../log", far.join("second")).expect("a link");
    let ran = shell(&folder, "barfigol translate relational p4.table first");
    assert_done(&ran, "");
    assert_eq!(read(&folder, "log"), translation());
    assert_eq!(names(&folder), ["far", "first", "log", "p4.table"]);
    assert_eq!(names(&far), ["second"]);
}

/// The target of a link is made where the link says.
#[test]
fn a_dangling_link_is_followed_and_stays() {
    let folder = with_log("dangling");
    let far = folder.join("far");
    fs::create_dir(&far).expect("a folder");
    symlink("far/fresh.table", folder.join("link")).expect("a link");
    let ran = shell(&folder, "barfigol translate relational p4.table link");
    assert_done(&ran, "");
    assert_eq!(read(&far, "fresh.table"), translation());
    assert_eq!(names(&far), ["fresh.table"]);
    let link = fs::read_link(folder.join("link")).expect("a link");
    assert_eq!(link, Path::new("far/fresh.table"));
    symlink("nowhere/fresh.table", folder.join("lost")).expect("a link");
    let ran = shell(&folder, "barfigol translate relational p4.table lost");
    assert_misused(&ran, "lost: there is no such folder");
    symlink("loop", folder.join("loop")).expect("a link");
    let ran = shell(&folder, "barfigol translate relational p4.table loop");
    assert_misused(&ran, "loop: ");
    assert_eq!(
        names(&folder),
        ["far", "link", "log", "loop", "lost", "p4.table"]
    );
}

#[test]
fn folders_and_names_of_no_file() {
    let folder = with_log("no-file");
    for (out, why) in [
        (".", "it is a folder, and OUT is a file"),
        ("..", "it is a folder"),
        ("/", "it is a folder"),
        ("''", "it is no name of a file"),
        ("fresh/", "it is no name of a file"),
        ("log/", "Not a directory"),
        ("log/out", "Not a directory"),
        ("nowhere/out", "there is no such folder"),
    ] {
        let line = format!("barfigol translate relational p4.table {out}");
        assert_misused(&shell(&folder, &line), why);
        assert_eq!(read(&folder, "log"), b"a line\n");
        assert_eq!(names(&folder), ["log", "p4.table"]);
    }
}

/// A folder in which nobody can make a file: not even root, in /proc.
#[test]
fn folders_that_cannot_be_written() {
    let ran = run(&[
        "translate",
        "strict",
        &example("p4.table"),
        "/proc/out.table",
    ]);
    assert_misused(&ran, "/proc/out.table: no file can be made in /proc: ");
}

/// As another user, for whom permissions count also where the tests run as
/// root: a folder and a file that may not be written.
#[test]
fn permissions_count() {
    use std::os::unix::fs::PermissionsExt;
    let folder = with_log("permissions");
    let closed = folder.join("closed");
    fs::create_dir(&closed).expect("a folder");
    file(&closed, "old", b"as it was");
    let mode = |path: &Path, mode| {
        fs::set_permissions(path, fs::Permissions::from_mode(mode)).expect("permissions");
    };
    mode(&closed.join("old"), 0o666);
    mode(&folder.join("log"), 0o444);
    mode(&closed, 0o555);
    mode(&folder, 0o777);
    // Reading through all folders above may be forbidden to that user, so the
    // table comes by standard input and OUT by a relative path.
    let user = "if [ $(id -u) = 0 ]; then user='setpriv --reuid=65534 --clear-groups'; fi; \
                cp $(command -v barfigol) . && $user ./barfigol translate strict - ";
    let with = |out: &str| shell(&folder, &format!("{user} {out} < p4.table"));
    let ran = with("closed/old");
    assert_misused(
        &ran,
        "closed/old: no file can be made in closed: Permission denied",
    );
    let ran = with("closed/fresh");
    assert_misused(
        &ran,
        "closed/fresh: no file can be made in closed: Permission denied",
    );
    let ran = with("log");
    assert_misused(&ran, "log: Permission denied");
    assert_eq!(read(&closed, "old"), b"as it was");
    assert_eq!(read(&folder, "log"), b"a line\n");
    assert_eq!(names(&closed), ["old"]);
    mode(&closed, 0o755);
}

/// What a killed run left behind is in nobody's way, and is not touched.
#[test]
fn a_left_part_is_passed_over() {
    let folder = with_log("left");
    // The shell becomes the command, so its number is the command's.
    let line = "echo left > .barfigol.$$.0.part; echo $$ > number; \
                exec barfigol translate relational p4.table log";
    assert_done(&shell(&folder, line), "");
    assert_eq!(read(&folder, "log"), translation());
    let number = String::from_utf8(read(&folder, "number")).expect("a number");
    let left = format!(".barfigol.{}.0.part", number.trim_end());
    assert_eq!(read(&folder, &left), b"left\n");
    assert_eq!(names(&folder), [left.as_str(), "log", "number", "p4.table"]);
}

/// The other name of a file with two names keeps the old bytes.
#[test]
fn a_hard_link_parts_from_its_twin() {
    let folder = with_log("twin");
    fs::hard_link(folder.join("log"), folder.join("twin")).expect("a link");
    let ran = shell(&folder, "barfigol translate relational p4.table log");
    assert_done(&ran, "");
    assert_eq!(read(&folder, "log"), translation());
    assert_eq!(read(&folder, "twin"), b"a line\n");
}

/// At every moment the file has its old bytes or all new ones: a reader that
/// looks all the time sees nothing else.
#[test]
fn a_reader_sees_old_or_new() {
    let folder = with_log("moments");
    let path = folder.join("out");
    let (old, new) = (vec![b'x'; 100_000], translation());
    for _ in 0..20 {
        fs::write(&path, &old).expect("a file");
        let table = &example("p4.table");
        let mut child = started(&["translate", "relational", table, &text(&path)]);
        loop {
            let seen = fs::read(&path).expect("never missing");
            assert!(seen == old || seen == new, "{} bytes", seen.len());
            if let Some(status) = child.try_wait().expect("a status") {
                assert!(status.success());
                break;
            }
        }
        assert_eq!(fs::read(&path).expect("a file"), new);
    }
}
