//! Replay, cut, kept and the gate once more for tiny sizes, from the other end: each
//! byte of an image is looked up by itself in the newest write that decides it, and
//! the gate's answer is searched over all row tables instead of choice numbers.

use peer::desk::{Desk, Oracle};
use std::collections::BTreeSet;

const REPORT_BEFORE: u64 = u64::MAX;

type Logged = (u64, Vec<u8>);

/// The byte at `place` after a cut: the newest write that covers it with its chunk's
/// bit set decides, and the image if there is none.
fn byte_after(image: &[u8], writes: &[Logged], table: &[Vec<bool>], place: usize) -> u8 {
    for (write, row) in writes.iter().zip(table).rev() {
        let offset = place.wrapping_sub(write.0 as usize);
        if offset < write.1.len() && row[place >> 3] {
            return write.1[offset];
        }
    }
    image[place]
}

fn image_after(image: &[u8], writes: &[Logged], table: &[Vec<bool>]) -> Vec<u8> {
    (0..image.len()).map(|place| byte_after(image, writes, table, place)).collect()
}

/// Chunks that share a byte with the write, by asking each chunk.
fn touches(write: &Logged, chunk: usize) -> bool {
    let (low, high) = (write.0 as usize, write.0 as usize + write.1.len());
    (8 * chunk..8 * chunk + 8).any(|place| low <= place && place < high)
}

/// All tables of `count` rows of `chunks` bits.
fn tables(count: usize, chunks: usize) -> Vec<Vec<Vec<bool>>> {
    let bits = count * chunks;
    (0..1usize << bits)
        .map(|number| {
            let bit = |write: usize, chunk: usize| number >> (write * chunks + chunk) & 1 == 1;
            (0..count).map(|write| (0..chunks).map(|chunk| bit(write, chunk)).collect()).collect()
        })
        .collect()
}

fn packed(table: &[Vec<bool>]) -> Vec<u8> {
    let mut bytes = Vec::new();
    for row in table {
        for eight in row.chunks(8) {
            let mut byte = 0;
            for (place, bit) in eight.iter().enumerate() {
                byte |= u8::from(*bit) << (7 - place);
            }
            bytes.push(byte);
        }
    }
    bytes
}

fn lent(writes: &[Logged]) -> (Vec<u64>, Vec<u8>) {
    let mut state = vec![writes.len() as u64];
    let mut log = Vec::new();
    for (addr, data) in writes {
        state.extend([*addr, data.len() as u64]);
        log.extend(data);
    }
    state.resize(65, 0x77);
    log.resize(1024, 0x88);
    (state, log)
}

/// Every write that fits, with bytes told apart by `tag`.
fn all_writes(length: usize, tag: u8) -> Vec<Logged> {
    let mut all = Vec::new();
    for addr in 0..=length {
        for len in 0..=length - addr {
            let data = (0..len).map(|at| tag + at as u8).collect();
            all.push((addr as u64, data));
        }
    }
    all
}

fn pairs(length: usize) -> Vec<Vec<Logged>> {
    let mut logs = vec![Vec::new()];
    for first in all_writes(length, 0x20) {
        logs.push(vec![first.clone()]);
        for second in all_writes(length, 0x60) {
            logs.push(vec![first.clone(), second]);
        }
    }
    logs
}

#[test]
fn cuts_leave_what_the_newest_kept_write_says() {
    for length in [0usize, 1, 7, 8, 9, 10] {
        let image: Vec<u8> = (1..=length as u8).collect();
        let chunks = length.div_ceil(8);
        for writes in pairs(length) {
            for table in tables(writes.len(), chunks) {
                let (mut state, log) = lent(&writes);
                let mut left = image.clone();
                let mut kept = REPORT_BEFORE;
                let rows = packed(&table);
                assert_eq!(Oracle.cut(&mut state, &mut left, &log, &rows, &mut kept), 0);
                assert_eq!(left, image_after(&image, &writes, &table));
                let expected: usize = (0..writes.len())
                    .map(|write| {
                        let kept =
                            |chunk: &usize| touches(&writes[write], *chunk) && table[write][*chunk];
                        (0..chunks).filter(kept).count()
                    })
                    .sum();
                assert_eq!(kept, expected as u64);
                let mut emptied = lent(&writes).0;
                emptied[0] = 0;
                assert_eq!(state, emptied);
            }
        }
    }
}

#[test]
fn a_flush_is_the_cut_that_keeps_all_and_a_read_shows_it() {
    for length in [0usize, 1, 8, 9, 10] {
        let image: Vec<u8> = (1..=length as u8).collect();
        for writes in pairs(length) {
            let table = vec![vec![true; length.div_ceil(8)]; writes.len()];
            let expected = image_after(&image, &writes, &table);
            let (mut state, log) = lent(&writes);
            let mut work = vec![0xEE; length];
            assert_eq!(Oracle.read(&state, &image, &log, &mut work, 0, length as u64), 0);
            assert_eq!(work, expected);
            let mut flushed = image.clone();
            assert_eq!(Oracle.flush(&mut state, &mut flushed, &log), 0);
            assert_eq!(flushed, expected);
        }
    }
}

/// The least choice number among the tables whose image is bad: a table's number is
/// read off its bits in touched chunks, which come in order.
fn first_bad(
    image: &[u8],
    writes: &[Logged],
    good: &dyn Fn(&[u8]) -> bool,
) -> (u64, Option<(u64, Vec<u8>)>) {
    let chunks = image.len().div_ceil(8);
    let mut worst = None;
    let mut numbers = BTreeSet::new();
    for table in tables(writes.len(), chunks) {
        let mut number = 0;
        let mut weight = 1;
        for (write, row) in writes.iter().zip(&table) {
            for (chunk, bit) in row.iter().enumerate() {
                if touches(write, chunk) {
                    number += if *bit { weight } else { 0 };
                    weight *= 2;
                }
            }
        }
        numbers.insert(number);
        let left = image_after(image, writes, &table);
        let smaller = worst.as_ref().is_none_or(|(least, _)| number < *least);
        if !good(&left) && smaller {
            worst = Some((number, left));
        }
    }
    (numbers.len().ilog2().into(), worst)
}

#[test]
fn the_gate_names_the_least_bad_table() {
    // Byte 7 = byte 8; and: byte 0 is 1 to 22 (hex), or byte 8 is 9.
    type Good = fn(&[u8]) -> bool;
    let same: (&[u8], Good) = (&[0x14, 0x00, 0x1C, 0x00, 0x20], |image| image[7] == image[8]);
    let either: (&[u8], Good) =
        (&[0x1C, 0x20, 0x00, 0x00, 0x04, 0x88, 0x00, 0x08, 0x09, 0x09], |image| {
            (1..=0x22).contains(&image[0]) || image[8] == 9
        });
    let length = 9;
    for (sheet, good) in [same, either] {
        for image in [vec![1, 2, 3, 4, 5, 6, 7, 9, 9], vec![0; 9]] {
            for first in all_writes(length, 0x20) {
                for second in all_writes(length, 0x21) {
                    let before = vec![first.clone()];
                    let both = vec![first.clone(), second.clone()];
                    let (points, worst) = first_bad(&image, &both, &good);
                    let (mut state, mut log) = lent(&before);
                    let mut work = vec![0xEE; length];
                    let mut report = REPORT_BEFORE;
                    let number = Oracle.gate(
                        &mut state,
                        &image,
                        &mut log,
                        sheet,
                        &mut work,
                        second.0,
                        &second.1,
                        &mut report,
                    );
                    match worst {
                        None => {
                            assert_eq!((number, report), (0, points));
                            let all = vec![vec![true; 2]; 2];
                            assert_eq!(work, image_after(&image, &both, &all));
                            let (recorded, packed) = lent(&both);
                            assert_eq!((state, log), (recorded, packed));
                        }
                        Some((m, bad)) => {
                            assert_eq!((number, report), (8, m));
                            assert_eq!(work, bad);
                            assert_eq!((state, log), lent(&before));
                        }
                    }
                }
            }
        }
    }
}
