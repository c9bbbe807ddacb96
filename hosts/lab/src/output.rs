//! Writing what a command answers: to standard output, or to a file that has its name only once it is whole.

use std::fs::{self, File, OpenOptions};
use std::io::{self, Write};
use std::path::{Path, PathBuf};

use crate::closed;
use crate::failure::Failure;
use crate::files::is_standard;

/// Writes all of a text, or says why that failed.
pub fn write(output: Option<&Path>, text: &[u8]) -> Result<(), Failure> {
    match output {
        Some(path) if !is_standard(path) => to_file(path, text)
            .map_err(|error| Failure::unusable(format!("{} cannot be written: {error}", path.display()))),
        _ => to_standard(text)
            .map_err(|error| Failure::unusable(format!("standard output cannot be written: {error}"))),
    }
}

fn to_standard(text: &[u8]) -> io::Result<()> {
    closed::open_output()?;
    let mut standard = io::stdout().lock();
    standard.write_all(text)?;
    standard.flush()
}

/// Writes a file beside the one named, syncs it and gives it the name.
fn to_file(path: &Path, text: &[u8]) -> io::Result<()> {
    // The file that a link leads to is the one to replace.
    let path = fs::canonicalize(path).unwrap_or_else(|_| path.to_path_buf());
    if path.exists() && !path.is_file() {
        return Err(io::Error::other("it is not a plain file"));
    }
    let beside = beside(&path)?;
    let file = OpenOptions::new().write(true).create_new(true).open(&beside)?;
    let written = fill(file, text).and_then(|()| fs::rename(&beside, &path));
    if written.is_err() {
        let _ = fs::remove_file(&beside);
        return written;
    }
    // The file is whole by now. That its new name lasts is for the folder to store, where it can.
    let folder = path.parent().filter(|folder| !folder.as_os_str().is_empty()).unwrap_or(Path::new("."));
    let _ = File::open(folder).and_then(|folder| folder.sync_all());
    Ok(())
}

fn fill(mut file: File, text: &[u8]) -> io::Result<()> {
    file.write_all(text)?;
    file.sync_all()
}

/// A name in the same folder that no other process uses.
fn beside(path: &Path) -> io::Result<PathBuf> {
    let own = path.file_name().ok_or_else(|| io::Error::other("it is not the name of a file"))?;
    let mut name = std::ffi::OsString::from(".");
    name.push(own);
    name.push(format!(".{}.part", std::process::id()));
    Ok(path.with_file_name(name))
}
