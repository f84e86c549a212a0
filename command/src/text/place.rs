//! Puts files in their places whole, or leaves what was there.

use std::fs::{self, File};
use std::io::{self, ErrorKind, Write};
use std::path::{Path, PathBuf};
use std::process;

/// A file that is written beside its place.
struct Part {
    beside: PathBuf,
    target: PathBuf,
}

/// Writes each file beside its target and then renames all, so that nobody ever reads a part of one there. What fails is
/// told with the target that it failed for.
pub fn put_in_place<'a>(files: &[(&[u8], &'a Path)]) -> Result<(), (&'a Path, io::Error)> {
    let mut parts: Vec<Part> = Vec::new();
    for &(bytes, target) in files {
        match write_beside(bytes, target, parts.len()) {
            Ok(part) => parts.push(part),
            Err(error) => {
                remove(&parts);
                return Err((target, error));
            }
        }
    }
    for (at, part) in parts.iter().enumerate() {
        if let Err(error) = fs::rename(&part.beside, &part.target) {
            remove(&parts[at..]);
            return Err((files[at].1, error));
        }
    }
    Ok(())
}

fn write_beside(bytes: &[u8], target: &Path, number: usize) -> io::Result<Part> {
    let target = follow(target)?;
    let folder = target.parent().unwrap_or(Path::new(""));
    let part = Part { beside: folder.join(format!(".headwords-{}-{number}.part", process::id())), target };
    // A file of this name that is there already is not ours to write or remove.
    let file = File::create_new(&part.beside)?;
    write_all(file, bytes).inspect_err(|_| remove(std::slice::from_ref(&part)))?;
    Ok(part)
}

/// The first failure is the one to tell.
fn remove(parts: &[Part]) {
    for part in parts {
        let _ = fs::remove_file(&part.beside);
    }
}

/// The file that a link leads to. A folder or a device is no place for a file.
fn follow(target: &Path) -> io::Result<PathBuf> {
    match fs::metadata(target) {
        Ok(found) if found.is_file() => fs::canonicalize(target),
        Ok(_) => Err(io::Error::new(ErrorKind::InvalidInput, "not a file")),
        Err(error) if error.kind() == ErrorKind::NotFound => Ok(target.to_path_buf()),
        Err(error) => Err(error),
    }
}

fn write_all(mut file: File, bytes: &[u8]) -> io::Result<()> {
    file.write_all(bytes)?;
    file.sync_all()
}
