//! What a path for OUT leads to.
//!
//! OUT is never a file that the user did not name. So a path that names an open
//! file of a process, such as `/dev/stdout`, is not followed to the file that
//! happens to be behind it: that file was named to someone else, perhaps with
//! `>>`, and replacing it would lose what it has.

use crate::input::reason;
use std::fs;
use std::io;
use std::os::unix::fs::FileTypeExt;
use std::path::{Component, Path, PathBuf};

/// So many links are followed, as the system does.
const MOST_LINKS: usize = 40;

/// Where bytes for OUT go.
#[derive(Debug, PartialEq, Eq)]
pub enum Place {
    /// Standard output.
    Output,
    /// Standard error.
    Errors,
    /// A FIFO, a pipe or a character device: written to, never replaced.
    Stream(PathBuf),
    /// A regular file, or a name where one can be made. The last part of the
    /// path is no link.
    Regular(PathBuf),
}

/// Follows a path, link by link. A link that leads to nothing is followed, too:
/// its target is made.
pub fn of(path: &Path) -> Result<Place, String> {
    let mut path = path.to_path_buf();
    for _ in 0..=MOST_LINKS {
        if let Some(process) = process_of_open_file(&path) {
            return open_file(&path, &process);
        }
        match fs::symlink_metadata(&path) {
            Ok(found) if found.file_type().is_symlink() => {
                let target = fs::read_link(&path).map_err(|error| reason(&error))?;
                path = folder_of(&path).join(target);
            }
            Ok(found) => return kind_of(path, found.file_type()),
            Err(error) if error.kind() == io::ErrorKind::NotFound => return unmade(path),
            Err(error) => return Err(reason(&error)),
        }
    }
    Err(String::from("too many links"))
}

/// What is at the end of the links.
fn kind_of(path: PathBuf, found: fs::FileType) -> Result<Place, String> {
    if found.is_file() {
        Ok(Place::Regular(path))
    } else if found.is_fifo() || found.is_char_device() {
        Ok(Place::Stream(path))
    } else {
        Err(format!("{}, and OUT is a file", what(found)))
    }
}

fn what(found: fs::FileType) -> &'static str {
    if found.is_dir() {
        "it is a folder"
    } else if found.is_block_device() {
        "it is a block device"
    } else {
        "it is a socket"
    }
}

/// A name where nothing is. It must be the name of a file in a folder.
fn unmade(path: PathBuf) -> Result<Place, String> {
    let ends_in_slash = path.as_os_str().to_string_lossy().ends_with('/');
    if path.file_name().is_none() || ends_in_slash {
        return Err(String::from("it is no name of a file"));
    }
    match fs::metadata(folder_of(&path)) {
        Ok(folder) if folder.is_dir() => Ok(Place::Regular(path)),
        Ok(_) => Err(String::from("it lies in no folder")),
        Err(_) => Err(String::from("there is no such folder")),
    }
}

/// The folder that a path lies in.
pub fn folder_of(path: &Path) -> &Path {
    match path.parent() {
        Some(folder) if folder != Path::new("") => folder,
        Some(_) => Path::new("."),
        None => path,
    }
}

/// The folder of the process that has this path as an open file, such as
/// `/proc/7` for `/proc/7/fd/1`.
fn process_of_open_file(path: &Path) -> Option<PathBuf> {
    let folder = fs::canonicalize(folder_of(path)).ok()?;
    let mut parts = folder.components();
    let of_processes = parts.next() == Some(Component::RootDir)
        && parts
            .next()
            .map_or(false, |part| part.as_os_str() == "proc");
    if !of_processes || !folder.ends_with("fd") {
        return None;
    }
    folder.parent().map(Path::to_path_buf)
}

/// A path that names an open file of a process.
fn open_file(path: &Path, process: &Path) -> Result<Place, String> {
    let number = path.file_name().map(|name| name.to_string_lossy());
    let number = number.as_deref().unwrap_or("");
    let found = fs::metadata(path).map_err(|error| reason(&error))?;
    if for_reading_only(process, number) {
        return Err(String::from("it is open for reading only"));
    }
    if is_own(process) {
        match number {
            "1" => return Ok(Place::Output),
            "2" => return Ok(Place::Errors),
            _ => {}
        }
    }
    match kind_of(path.to_path_buf(), found.file_type())? {
        Place::Regular(_) => Err(String::from(
            "it is an open file: name the file itself, or lead standard output there and take - as OUT",
        )),
        stream => Ok(stream),
    }
}

/// Whether a folder is that of this process, or of a thread of it.
fn is_own(process: &Path) -> bool {
    fs::canonicalize("/proc/self").map_or(false, |own| process.starts_with(own))
}

/// Whether an open file is for reading only. The system writes its flags in
/// octal, and the last two bits are 0 then.
fn for_reading_only(process: &Path, number: &str) -> bool {
    let about = fs::read_to_string(process.join("fdinfo").join(number)).unwrap_or_default();
    let flags = about.lines().find_map(|line| line.strip_prefix("flags:"));
    let flags = flags.and_then(|octal| u64::from_str_radix(octal.trim(), 8).ok());
    flags.map_or(false, |flags| flags & 3 == 0)
}
