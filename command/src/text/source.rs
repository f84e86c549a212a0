//! Reads the bytes of a grammar's text from its file.

use crate::text::fault::Fault;
use crate::text::limits;
use std::fs::File;
use std::io::{self, Read};
use std::path::Path;

pub fn read_source(path: &Path) -> Result<Vec<u8>, Fault> {
    let bytes =
        read_up_to(path, limits::TEXT + 1).map_err(|error| Fault::new(0, format!("cannot be read: {error}")))?;
    if bytes.len() as u64 > limits::TEXT {
        return Err(Fault::new(0, format!("over {} bytes, too long for a grammar", limits::TEXT)));
    }
    Ok(bytes)
}

fn read_up_to(path: &Path, most: u64) -> io::Result<Vec<u8>> {
    let mut bytes = Vec::new();
    File::open(path)?.take(most).read_to_end(&mut bytes)?;
    Ok(bytes)
}
