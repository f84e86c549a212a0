//! Rows for a call that may have many readings: more and more are lent, until all are there or as many as are wanted.

use crate::library::{Reply, ROW};

/// Rows that are lent first.
const FIRST: usize = 64;

/// The reply, and a row a reading. `rows` may be used again and again.
pub fn lend(most: usize, rows: &mut Vec<u8>, call: impl Fn(&mut [u8]) -> Reply) -> (Reply, &[u8]) {
    let mut lent = FIRST.min(most);
    loop {
        if rows.len() < ROW * lent {
            rows.resize(ROW * lent, 0);
        }
        let reply = call(&mut rows[..ROW * lent]);
        if !matches!(reply, Reply::More(_)) || lent == most {
            return (reply, &rows[..ROW * reply.rows()]);
        }
        lent = (4 * lent).min(most);
    }
}
