//! The files of the folder `examples/` are what the builder makes.

use barfigol_tables::{examples, pretty};
use std::path::{Path, PathBuf};

fn folder() -> PathBuf {
    Path::new(env!("CARGO_MANIFEST_DIR")).join("../../examples")
}

#[test]
fn each_file_is_what_the_builder_makes() {
    for (name, table) in examples::all() {
        let file = std::fs::read(folder().join(name)).expect(name);
        assert_eq!(pretty(&file), pretty(&table.bytes()), "{name}");
        assert_eq!(file, table.bytes(), "{name}");
    }
}

#[test]
fn every_table_file_has_a_builder() {
    let mut files: Vec<String> = std::fs::read_dir(folder())
        .expect("the folder is there")
        .map(|entry| entry.expect("an entry").file_name())
        .map(|name| name.to_string_lossy().into_owned())
        .filter(|name| name.ends_with(".table"))
        .collect();
    files.sort();
    let mut names: Vec<&str> = examples::all().iter().map(|&(name, _)| name).collect();
    names.sort_unstable();
    assert_eq!(files, names);
}
