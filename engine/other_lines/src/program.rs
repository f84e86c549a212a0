//! The line program is run in a folder of its own that holds the image, and all it prints is kept.

use crate::cases::Place;
use std::fs;
use std::io::{self, Write};
use std::os::unix::process::ExitStatusExt;
use std::path::{Path, PathBuf};
use std::process::{ChildStdin, Command, Stdio};
use std::thread;

/// What a run left.
pub struct Left {
    pub printed: Vec<u8>,
    /// The signal that ended the program, if one did.
    pub signal: Option<i32>,
}

/// A folder that is there as long as this is.
struct Folder(PathBuf);

impl Folder {
    /// The folder of this process, empty but for the image.
    fn with(place: &Place) -> io::Result<Folder> {
        let name = format!("other_lines-{}", std::process::id());
        let folder = Folder(std::env::temp_dir().join(name));
        fs::create_dir(&folder.0)?;
        let image = folder.0.join("grammar.img");
        match place {
            Place::File(bytes) => fs::write(image, bytes)?,
            Place::Nothing => {}
            Place::Folder => fs::create_dir(image)?,
        }
        Ok(folder)
    }
}

impl Drop for Folder {
    fn drop(&mut self) {
        // What can't be removed stands in the way of the next folder and is told there.
        let _ = fs::remove_dir_all(&self.0);
    }
}

/// Hands the input over piece by piece; a program that ends early is judged by what it printed.
fn hand_over(mut pipe: ChildStdin, input: &[u8], piece: usize) {
    for part in input.chunks(piece) {
        if pipe.write_all(part).is_err() {
            return;
        }
    }
}

/// Runs the program on an image and an input.
pub fn run(program: &Path, place: &Place, input: &[u8], piece: usize) -> io::Result<Left> {
    let folder = Folder::with(place)?;
    let mut child = Command::new(program)
        .current_dir(&folder.0)
        .stdin(Stdio::piped())
        .stdout(Stdio::piped())
        .spawn()?;
    let pipe = child.stdin.take();
    // The input goes in from a thread of its own, since both pipes can be full at once.
    let output = thread::scope(|scope| {
        if let Some(pipe) = pipe {
            scope.spawn(move || hand_over(pipe, input, piece));
        }
        child.wait_with_output()
    })?;
    Ok(Left {
        printed: output.stdout,
        signal: output.status.signal(),
    })
}
