//! Writes the example tables into a folder: `write_examples FOLDER`.

use barfigol_tables::examples;
use std::path::PathBuf;

fn main() -> std::io::Result<()> {
    let folder = match std::env::args_os().nth(1) {
        Some(folder) => PathBuf::from(folder),
        None => {
            eprintln!("usage: write_examples FOLDER");
            std::process::exit(2);
        }
    };
    std::fs::create_dir_all(&folder)?;
    for (name, table) in examples::all() {
        std::fs::write(folder.join(name), table.bytes())?;
    }
    Ok(())
}
