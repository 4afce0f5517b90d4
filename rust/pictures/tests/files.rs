//! The files of `docs/pictures` are what this crate draws, and the pages show
//! them with a text for those who do not see them.

use std::path::{Path, PathBuf};

fn root() -> PathBuf {
    Path::new(env!("CARGO_MANIFEST_DIR")).join("../..")
}

#[test]
fn each_file_is_what_is_drawn() {
    for (name, picture) in barfigol_pictures::all() {
        let file = std::fs::read_to_string(root().join("docs/pictures").join(name)).expect(name);
        assert!(
            file == picture,
            "{name} differs: cargo run -p barfigol_pictures -- ../docs/pictures"
        );
    }
}

#[test]
fn each_picture_stands_on_a_page() {
    let pages = [
        ("README.md", "docs/"),
        ("docs/PLACEMENT.md", ""),
        ("docs/TABLE.md", ""),
    ];
    let shown = |name: &str| {
        pages.iter().any(|(page, folder)| {
            let text = std::fs::read_to_string(root().join(page)).expect(page);
            let end = format!("]({folder}pictures/{name})");
            let images = text.lines().filter(|line| line.starts_with("!["));
            // At least a sentence.
            let mut images = images.filter_map(|line| line.strip_suffix(&end));
            images.any(|alternative| alternative.len() > 60 && alternative.ends_with('.'))
        })
    };
    for (name, _) in barfigol_pictures::all() {
        assert!(shown(name), "{name} stands on no page");
    }
}

#[test]
fn a_picture_is_plain_and_named() {
    for (name, picture) in barfigol_pictures::all() {
        assert!(picture.starts_with("<svg "), "{name}");
        assert!(picture.ends_with("</svg>\n"), "{name}");
        assert!(picture.contains("<title>"), "{name}");
        let opened = picture.matches("<text").count();
        assert_eq!(opened, picture.matches("</text>").count(), "{name}");
        assert!(!picture.contains("NaN"), "{name}");
    }
}
