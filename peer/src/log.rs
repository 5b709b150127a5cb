//! Outstanding writes, their choice points, and what a replay of them leaves.

use crate::{CHUNK, LOG_BYTES, LONGEST_IMAGE, MOST_WRITES, STATE_WORDS};
use std::collections::BTreeSet;
use std::ops::Range;

/// An outstanding write, with bytes of its own.
#[derive(Clone, Debug, PartialEq, Eq)]
pub struct Write {
    pub addr: usize,
    pub data: Vec<u8>,
}

/// One write's bytes in one chunk: they stand or fall together.
#[derive(Clone, Copy, Debug, PartialEq, Eq, PartialOrd, Ord)]
pub struct Point {
    pub write: usize,
    pub chunk: usize,
}

/// The points that a cut keeps.
pub type Kept = BTreeSet<Point>;

/// One write's row: a bit for each chunk of the image.
pub type Row = Vec<bool>;

impl Write {
    pub fn addresses(&self) -> Range<usize> {
        self.addr..self.addr + self.data.len()
    }

    /// The chunks that hold at least one byte of the write, lowest first.
    pub fn touched(&self) -> Vec<usize> {
        let mut chunks: Vec<usize> = self.addresses().map(|address| address / CHUNK).collect();
        chunks.dedup();
        chunks
    }
}

/// K, the number of chunks of an image of `length` bytes.
pub fn chunk_count(length: usize) -> usize {
    length.div_ceil(CHUNK)
}

/// Bytes that one row takes, its filling included.
pub fn row_bytes(length: usize) -> usize {
    chunk_count(length).div_ceil(8)
}

/// `addr + len` lies within `length`, in whole numbers.
pub fn within(addr: u64, len: u64, length: usize) -> bool {
    u128::from(addr) + u128::from(len) <= length as u128
}

/// The log that a state and a log buffer hold, or nothing where number 1 applies.
///
/// A record stores no offset: each write's bytes follow those of the write before.
pub fn outstanding(state: &[u64], image: &[u8], log: &[u8]) -> Option<Vec<Write>> {
    if state.len() != STATE_WORDS || image.len() > LONGEST_IMAGE || log.len() != LOG_BYTES {
        return None;
    }
    let count = state[0];
    if count > MOST_WRITES as u64 {
        return None;
    }
    let mut writes = Vec::new();
    let mut unread = log;
    for record in state[1..].chunks(2).take(count as usize) {
        let (addr, len) = (record[0], record[1]);
        if !within(addr, len, image.len()) {
            return None;
        }
        // The buffer has exactly the budget's size, so running out of it is
        // being over the budget.
        let (data, rest) = unread.split_at_checked(len as usize)?;
        writes.push(Write { addr: addr as usize, data: data.to_vec() });
        unread = rest;
    }
    Some(writes)
}

/// Data bytes of all the writes together.
pub fn data_bytes(writes: &[Write]) -> usize {
    writes.iter().map(|write| write.data.len()).sum()
}

/// Every choice point, in the order in which document 01 numbers them.
pub fn points(writes: &[Write]) -> Vec<Point> {
    let mut points = Vec::new();
    for (index, write) in writes.iter().enumerate() {
        for chunk in write.touched() {
            points.push(Point { write: index, chunk });
        }
    }
    points
}

/// The points that choice number `m` keeps.
pub fn kept_by_choice(points: &[Point], m: u64) -> Kept {
    let chosen = |i: &usize| (m >> i) & 1 == 1;
    (0..points.len()).filter(chosen).map(|i| points[i]).collect()
}

/// The points that a row table keeps. Bits of untouched chunks fall out here.
pub fn kept_by_rows(writes: &[Write], rows: &[Row]) -> Kept {
    points(writes).into_iter().filter(|point| rows[point.write][point.chunk]).collect()
}

/// The image after the kept points of all the writes, oldest first.
pub fn replay(image: &[u8], writes: &[Write], kept: &Kept) -> Vec<u8> {
    let mut result = image.to_vec();
    for (index, write) in writes.iter().enumerate() {
        for (address, byte) in write.addresses().zip(&write.data) {
            if kept.contains(&Point { write: index, chunk: address / CHUNK }) {
                result[address] = *byte;
            }
        }
    }
    result
}

/// The image after all the writes, oldest first.
pub fn read_image(image: &[u8], writes: &[Write]) -> Vec<u8> {
    let mut result = image.to_vec();
    for write in writes {
        result[write.addresses()].copy_from_slice(&write.data);
    }
    result
}

/// Takes a table of `count` rows apart, or nothing where number 9 applies.
pub fn rows(table: &[u8], count: usize, length: usize) -> Option<Vec<Row>> {
    let (bytes, chunks) = (row_bytes(length), chunk_count(length));
    if table.len() != count * bytes {
        return None;
    }
    let mut rows = Vec::new();
    for index in 0..count {
        let packed = &table[index * bytes..(index + 1) * bytes];
        let mut row: Row = Vec::new();
        for byte in packed {
            for weight in [0x80, 0x40, 0x20, 0x10, 0x08, 0x04, 0x02, 0x01] {
                row.push(byte & weight != 0);
            }
        }
        let filling = row.split_off(chunks);
        if filling.contains(&true) {
            return None;
        }
        rows.push(row);
    }
    Some(rows)
}
