//! The words that a path can be written as, which the library alone says, as lines like those of readings.

use crate::layout::Plain;
use crate::lending::lend;
use crate::library::{self, Reply, ROW};
use crate::readings::Names;

pub struct Writer<'a> {
    image: &'a [u8],
    names: &'a Names,
    plain: Plain,
    /// Readings wanted of a path.
    most: usize,
    rows: Vec<u8>,
}

impl<'a> Writer<'a> {
    pub fn new(image: &'a [u8], names: &'a Names, with_numbers: bool, most: usize) -> Writer<'a> {
        Writer { image, names, plain: Plain::new(names, with_numbers), most, rows: Vec::new() }
    }

    /// Puts a line for each word that a path can be written as.
    pub fn put(&mut self, path: &[usize], out: &mut Vec<u8>) -> Reply {
        let bytes: Vec<u8> = path.iter().flat_map(|&entry| (entry as u16).to_le_bytes()).collect();
        let (reply, rows) = lend(self.most, &mut self.rows, |rows| library::generate(self.image, &bytes, rows));
        for row in rows.chunks_exact(ROW) {
            self.plain.put_reading(self.names.written(row).as_bytes(), row, out);
        }
        reply
    }
}
