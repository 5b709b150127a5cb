//! Document 01's desk trials, run on the oracle.

use peer::case::{Field, UNREPORTED};
use peer::desk::Oracle;
use peer::log::{self, Write};
use peer::trials::trials;

#[test]
fn every_trial_comes_out_as_document_01_says() {
    for trial in trials() {
        let mut after = trial.case.clone();
        let number = after.put_to(&Oracle);
        assert_eq!(number, trial.number, "{}", trial.name);
        assert_eq!(after.report, trial.report.unwrap_or(UNREPORTED), "{}", trial.name);
        for (field, at, bytes) in &trial.holds {
            let found = after.bytes(*field).expect("only buffers are named");
            assert_eq!(found[*at..at + bytes.len()], bytes[..], "{}", trial.name);
        }
        if let Some(start) = trial.start {
            assert_eq!(after.start, start, "{}", trial.name);
        }
        let only_bad_image = trial.number == 8;
        if trial.number != 0 {
            let mut before = trial.case.clone();
            if only_bad_image {
                before.report = after.report;
                before.work = after.work.clone();
            }
            assert!(before == after, "{}: a refusal changed something", trial.name);
        }
    }
}

#[test]
fn a_line_of_every_trial_reads_back() {
    for trial in trials() {
        for brief in [true, false] {
            let read = peer::case::Case::parse(&trial.case.line(brief));
            assert!(read.as_ref() == Ok(&trial.case), "{}", trial.name);
        }
        assert!(trial.case.call.takes(Field::Image));
    }
}

#[test]
fn k_at_the_edges() {
    let counts = [(0, 0), (1, 1), (8, 1), (9, 2), (4096, 512)];
    for (length, chunks) in counts {
        assert_eq!(log::chunk_count(length), chunks);
    }
}

#[test]
fn the_row_tables_are_the_choice_numbers_that_document_01_names() {
    let writes = [
        Write { addr: 6, data: vec![0x11, 0x22, 0x33, 0x44] },
        Write { addr: 7, data: vec![0xAA, 0xBB] },
    ];
    let points = log::points(&writes);
    assert_eq!(points.len(), 4);
    for (table, m) in [([0x80, 0x40], 9), ([0x40, 0x80], 6), ([0xC0, 0x00], 3)] {
        let rows = log::rows(&table, 2, 16).expect("good rows");
        assert_eq!(log::kept_by_rows(&writes, &rows), log::kept_by_choice(&points, m));
    }
}
