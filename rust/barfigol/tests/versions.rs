//! All crates of the workspace have one version and one oldest compiler.

use std::fs;
use std::path::{Path, PathBuf};

fn workspace() -> PathBuf {
    Path::new(env!("CARGO_MANIFEST_DIR")).join("..")
}

fn text(path: &Path) -> String {
    fs::read_to_string(path).unwrap_or_else(|error| panic!("{}: {error}", path.display()))
}

/// The words in quotes after a key, on the line that begins with it.
fn quoted(manifest: &str, key: &str) -> Vec<String> {
    let start = format!("{key} = ");
    let line = manifest.lines().find_map(|line| line.strip_prefix(&start));
    let parts = line.unwrap_or("").split('"');
    parts.skip(1).step_by(2).map(String::from).collect()
}

#[test]
fn one_version() {
    let members = quoted(&text(&workspace().join("Cargo.toml")), "members");
    let mut folders: Vec<String> = fs::read_dir(workspace())
        .expect("the workspace")
        .map(|entry| entry.expect("an entry").path())
        .filter(|path| path.join("Cargo.toml").is_file())
        .filter_map(|path| Some(path.file_name()?.to_str()?.to_string()))
        .collect();
    folders.sort();
    assert_eq!(members, folders);
    for member in members {
        let manifest = text(&workspace().join(&member).join("Cargo.toml"));
        let version = quoted(&manifest, "version");
        assert_eq!(version, [env!("CARGO_PKG_VERSION")], "{member}");
        assert_eq!(quoted(&manifest, "rust-version"), ["1.63"], "{member}");
        assert_eq!(quoted(&manifest, "edition"), ["2021"], "{member}");
    }
}
