//! Words of the user and names of files, made fit for a terminal.

use barfigol_format::printable;
use std::ffi::OsStr;
use std::os::unix::ffi::OsStrExt;
use std::path::Path;

/// The name of a file, made fit for a terminal. No name at all is seen, too.
pub fn path(path: &Path) -> String {
    match printable::printable(path.as_os_str().as_bytes()) {
        none if none.is_empty() => String::from("''"),
        name => name,
    }
}

/// A word in quotes, made fit for a terminal.
pub fn quoted(word: &OsStr) -> String {
    printable::quoted(word.as_bytes())
}
