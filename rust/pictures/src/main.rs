//! Writes the pictures into a folder: `barfigol_pictures FOLDER`.

use std::path::PathBuf;

fn main() -> std::io::Result<()> {
    let folder = match std::env::args_os().nth(1) {
        Some(folder) => PathBuf::from(folder),
        None => {
            eprintln!("usage: barfigol_pictures FOLDER");
            std::process::exit(2);
        }
    };
    std::fs::create_dir_all(&folder)?;
    for (name, picture) in barfigol_pictures::all() {
        std::fs::write(folder.join(name), picture)?;
    }
    Ok(())
}
