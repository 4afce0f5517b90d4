//! The file OUT of a translation: replaced when it is done, else untouched.

mod common;

use barfigol_tables::examples::faulty;
use barfigol_tables::{limits, pretty, trials};
use common::{assert_done, assert_misused, assert_refused, example, file, folder};
use common::{names, run, run_with, text, INPUT};
use std::fs;

#[test]
fn a_translation_is_what_list_prints() {
    let folder = folder("translate");
    for reading in ["strict", "kleene", "relational"] {
        for name in ["p1.table", "p5.table", "placement.table"] {
            let out = text(&folder.join("out.table"));
            let ran = run(&["translate", reading, &example(name), &out]);
            assert_done(&ran, "");
            let listed = run(&["list", reading, &example(name)]);
            assert_eq!(pretty(&fs::read(&out).expect("a file")), listed.out);
            assert_done(&run(&["check", &out]), "sound\n");
        }
    }
    assert_eq!(names(&folder), ["out.table"]);
}

#[test]
fn a_refusal_leaves_out_as_it_was() {
    let folder = folder("refused");
    let out = file(&folder, "out.table", b"as it was");
    let eight = limits::constant(2_000_000_001).bytes();
    let nine = limits::records(5_000).bytes();
    let cases = [
        ("strict", faulty().bytes(), "refused 4 at record 4 (ND 9, node 2): y = 12 names no earlier node"),
        ("9", trials::p4().bytes(), "refused 7: 9 is no reading: 1 strict, 2 kleene, 3 relational"),
        ("strict", vec![0; 60_012], "refused 1: more than 60000 bytes of table"),
        (
            "kleene",
            eight,
            "refused 8 at record 1 (ND 1, node 0): its values lie in 2000000001..2000000001, beyond ±2000000000",
        ),
        ("kleene", nine, "refused 9: the translation is longer than 60000 bytes"),
    ];
    for (reading, table, explanation) in cases {
        let ran = run_with(&["translate", reading, "-", &out], &table);
        assert_refused(&ran, INPUT, "", explanation);
        assert_eq!(fs::read(&out).expect("a file"), b"as it was");
    }
    let fresh = folder.join("fresh.table");
    let ran = run_with(
        &["translate", "strict", "-", &text(&fresh)],
        &faulty().bytes(),
    );
    assert_eq!(ran.status, Some(1));
    assert_eq!(names(&folder), ["out.table"]);
}

#[test]
fn a_table_may_be_replaced_by_its_translation() {
    let folder = folder("itself");
    let path = file(&folder, "p4.table", &trials::p4().bytes());
    assert_done(&run(&["translate", "relational", &path, &path]), "");
    assert_eq!(fs::read(&path).expect("a file").len(), 240);
    assert_eq!(names(&folder), ["p4.table"]);
}

#[cfg(unix)]
#[test]
fn links_and_permissions_stay() {
    use std::os::unix::fs::{symlink, PermissionsExt};
    let folder = folder("links");
    let out = file(&folder, "out.table", b"as it was");
    fs::set_permissions(&out, fs::Permissions::from_mode(0o640)).expect("permissions");
    let link = folder.join("link.table");
    symlink("out.table", &link).expect("a link");
    let ran = run(&["translate", "strict", &example("p4.table"), &text(&link)]);
    assert_done(&ran, "");
    assert!(fs::symlink_metadata(&link)
        .expect("a link")
        .file_type()
        .is_symlink());
    let found = fs::metadata(&out).expect("a file");
    assert_eq!(
        (found.len() % 12, found.permissions().mode() & 0o777),
        (0, 0o640)
    );
}

#[test]
fn what_is_no_file_is_not_replaced() {
    let folder = folder("places");
    let inside = folder.join("inside");
    fs::create_dir(&inside).expect("a folder");
    let p4 = &example("p4.table");
    let ran = run(&["translate", "strict", p4, &text(&inside)]);
    assert_misused(&ran, "it is a folder, and OUT is a file");
    let nowhere = text(&folder.join("nowhere").join("out.table"));
    assert_misused(&run(&["translate", "strict", p4, &nowhere]), &nowhere);
    assert_eq!(names(&folder), ["inside"]);
    assert_eq!(names(&inside), [""; 0]);
}
