//! Document 01's desk trials through the linked functions, and what a refusal leaves behind.
use skaldrift::{calls, Refusal, Region, Verdict, LOG_BYTES, STATE_WORDS};

/// The sheet that always holds.
const ALWAYS: [u8; 2] = [0x18, 0x00];
/// Byte 7 = byte 8, and byte 8 = byte 9.
const SEVEN_EIGHT: [u8; 5] = [0x14, 0x00, 0x1C, 0x00, 0x20];
const EIGHT_NINE: [u8; 5] = [0x14, 0x00, 0x20, 0x00, 0x24];

/// L = 16, zeros, with 11 22 33 44 at 6 and AA BB at 7 outstanding.
fn two_writes() -> Region<'static> {
    let mut table = Region::open(vec![0; 16], &ALWAYS).unwrap();
    table.write(6, &[0x11, 0x22, 0x33, 0x44]).unwrap();
    table.write(7, &[0xAA, 0xBB]).unwrap();
    table
}

#[test]
fn read_sees_every_write() {
    let mut table = two_writes();
    assert_eq!(table.read(6, 4), Ok(&[0x11, 0xAA, 0xBB, 0x44][..]));
    assert_eq!(table.records().collect::<Vec<_>>(), [(6, 4), (7, 2)]);
    assert_eq!(table.image(), [0; 16]);
}

#[test]
fn cuts_keep_what_the_rows_say() {
    let rows: [([u8; 2], [u8; 4], u64); 3] = [
        ([0x80, 0x40], [0x11, 0x22, 0xBB, 0x00], 2),
        ([0x40, 0x80], [0x00, 0xAA, 0x33, 0x44], 2),
        ([0xC0, 0x00], [0x11, 0x22, 0x33, 0x44], 2),
    ];
    for (rows, left, pieces) in rows {
        let mut table = two_writes();
        let kept = table.cut(|write, chunk| rows[write] & (0x80 >> chunk) != 0);
        assert_eq!(kept, Ok(pieces));
        assert_eq!(table.image()[6..10], left);
        assert_eq!(table.outstanding(), 0);
    }
}

#[test]
fn the_tape_predicts() {
    let mut table = Region::open(vec![0; 16], &ALWAYS).unwrap();
    let tape = [0x00, 0x80, 0x40];
    let mut by_tape = table.by_tape(&tape, 0);
    assert_eq!(
        by_tape.write(6, &[0x11, 0x22, 0x33, 0x44]).unwrap()[6..10],
        [0x11, 0x22, 0x00, 0x00]
    );
    assert_eq!(
        by_tape.write(7, &[0xAA, 0xBB]).unwrap()[6..10],
        [0x11, 0x22, 0xBB, 0x00]
    );
    assert_eq!(by_tape.flush(), Err(Refusal::NotPredicted));
    assert_eq!(by_tape.cut(), Ok(2));
    assert_eq!(by_tape.start(), 3);
    assert_eq!(by_tape.write(0, &[1]), Err(Refusal::BadTape));
    assert_eq!(
        by_tape.predicted().unwrap()[6..10],
        [0x11, 0x22, 0xBB, 0x00]
    );
    assert_eq!(table.image()[6..10], [0x11, 0x22, 0xBB, 0x00]);

    let mut table = Region::open(vec![0; 16], &ALWAYS).unwrap();
    let tape = [0x80, 0x80, 0x40];
    let mut by_tape = table.by_tape(&tape, 0);
    by_tape.write(6, &[0x11, 0x22, 0x33, 0x44]).unwrap();
    by_tape.write(7, &[0xAA, 0xBB]).unwrap();
    assert_eq!(
        by_tape.predicted().unwrap()[6..10],
        [0x11, 0xAA, 0xBB, 0x44]
    );
    assert_eq!(by_tape.cut(), Err(Refusal::NotPredicted));
    assert_eq!(by_tape.flush(), Ok(()));
    assert_eq!(by_tape.start(), 3);
}

/// Of writes that went past the tape nothing is predicted, until a call by tape has read their rows.
#[test]
fn writes_before_the_tape() {
    let mut table = Region::open(vec![0; 16], &ALWAYS).unwrap();
    table.write(0, &[0x11]).unwrap();
    let tape = [0x00, 0x80, 0x00];
    let mut by_tape = table.by_tape(&tape, 0);
    assert_eq!(by_tape.predicted(), None);
    assert_eq!(by_tape.flush(), Err(Refusal::NotPredicted));
    assert_eq!(by_tape.predicted(), None);
    by_tape.write(1, &[0x22]).unwrap();
    assert_eq!(by_tape.predicted().unwrap()[..2], [0x11, 0x00]);
}

/// A session by tape needs nothing that goes past the tape: it judges, writes, reads, ends the epoch, and opens again
/// once the log is empty.
#[test]
fn a_session_by_tape() {
    let mut table = Region::open(vec![0; 16], &EIGHT_NINE).unwrap();
    let tape = [0x80, 0x00, 0x00, 0x40];
    let mut by_tape = table.by_tape(&tape, 0);
    assert!(matches!(
        by_tape.judge(8, &[0xAA, 0xAA]),
        Verdict::Admitted { points: 1, .. }
    ));
    assert_eq!(by_tape.region().outstanding(), 0);
    by_tape.write(8, &[0xAA, 0xAA]).unwrap();
    assert_eq!(by_tape.read(8, 2), Ok(&[0xAA, 0xAA][..]));
    assert_eq!(by_tape.region().image(), [0; 16]);
    assert_eq!(by_tape.reopen(), Err(Refusal::NotPredicted));
    assert_eq!(by_tape.region().outstanding(), 1);
    assert_eq!(by_tape.flush(), Ok(()));
    assert_eq!(by_tape.reopen(), Ok(()));
    assert_eq!(by_tape.start(), 2);
    assert_eq!(by_tape.predicted(), Some(by_tape.region().image()));
    assert!(matches!(
        by_tape.judge(9, &[0xBB]),
        Verdict::Denied { choice: 1, .. }
    ));
    by_tape.write(9, &[0xBB]).unwrap();
    assert_eq!(by_tape.cut(), Ok(1));
    assert_eq!(by_tape.reopen(), Err(Refusal::BrokenImage));
    assert_eq!(by_tape.start(), 4);
    assert_eq!(table.image()[8..10], [0xAA, 0xBB]);
}

#[test]
fn the_gate_judges_every_cut() {
    let mut table = Region::open(vec![0; 16], &SEVEN_EIGHT).unwrap();
    assert!(matches!(
        table.gate(7, &[0xAA, 0xAA]),
        Verdict::Denied { choice: 1, .. }
    ));
    assert_eq!(table.outstanding(), 0);
    let mut table = Region::open(vec![0; 16], &EIGHT_NINE).unwrap();
    assert!(matches!(
        table.judge(8, &[0xAA, 0xAA]),
        Verdict::Admitted { points: 1, .. }
    ));
    assert_eq!(table.outstanding(), 0);
    assert!(matches!(
        table.gate(8, &[0xAA, 0xAA]),
        Verdict::Admitted { points: 1, .. }
    ));
    assert_eq!(table.outstanding(), 1);
    assert_eq!(table.flush(), Ok(()));
    assert_eq!(table.image()[8..10], [0xAA, 0xAA]);
}

#[test]
fn the_limits_refuse() {
    let mut table = Region::open(vec![0; 4096], &ALWAYS).unwrap();
    assert_eq!(table.read(4096, 0), Ok(&[][..]));
    assert_eq!(table.read(4096, 1), Err(Refusal::OutOfRange));
    assert_eq!(table.read(usize::MAX, 2), Err(Refusal::OutOfRange));
    assert!(matches!(
        table.gate(0, &[1; 128]),
        Verdict::Admitted { points: 16, .. }
    ));
    assert_eq!(table.reopen(), Ok(()));
    assert_eq!(
        table.gate(1, &[1; 128]),
        Verdict::Refused(Refusal::TooManyPoints)
    );
    assert_eq!(table.write(0, &[1; 1025]), Err(Refusal::TooManyBytes));
    for _ in 0..32 {
        assert_eq!(table.write(0, &[]), Ok(()));
    }
    assert_eq!(table.write(0, &[1; 1025]), Err(Refusal::TooManyWrites));
    let mut none = Region::open(vec![], &ALWAYS).unwrap();
    assert_eq!(none.write(0, &[]), Ok(()));
    assert_eq!(none.write(1, &[]), Err(Refusal::OutOfRange));
    assert_eq!(none.cut(|_, _| true), Ok(0));
}

/// An image that does not open comes back, and `?` hands on the reason.
#[test]
fn a_refused_opening_hands_the_image_back() {
    let refused: [(Vec<u8>, &[u8], Refusal); 3] = [
        (vec![7; 4097], &ALWAYS, Refusal::BadState),
        (vec![7; 16], &[], Refusal::BadSheet),
        (vec![7; 16], &[0x1C, 0x00], Refusal::BrokenImage),
    ];
    for (image, sheet, why) in refused {
        let (place, before) = (image.as_ptr(), image.clone());
        let unopened = Region::open(image, sheet).err().unwrap();
        assert_eq!(unopened.to_string(), why.to_string());
        assert_eq!(unopened.why, why);
        assert_eq!(unopened.image, before);
        assert_eq!(unopened.image.as_ptr(), place);
        let (mut log, mut state) = ([7; LOG_BYTES], [9; STATE_WORDS]);
        let mut image = unopened.image;
        let lent = Region::open_in(&mut image, &mut log, &mut state, sheet).err();
        assert_eq!(lent, Some(why));
        assert_eq!(
            (image, log, state),
            (before, [7; LOG_BYTES], [9; STATE_WORDS])
        );
    }
    fn longer(image: Vec<u8>) -> Result<usize, Refusal> {
        Ok(Region::open(image, &ALWAYS)?.image().len())
    }
    assert_eq!(longer(vec![0; 4096]), Ok(4096));
    assert_eq!(longer(vec![0; 4097]), Err(Refusal::BadState));
    let told = format!("{:?}", Region::open(vec![0; 4097], &ALWAYS).err().unwrap());
    assert_eq!(told, "Unopened { why: BadState, image: 4097 bytes }");
}

/// Only a write that the gate did not admit can keep a table from opening again.
#[test]
fn a_table_opens_again_unless_broken() {
    let mut table = Region::open(vec![0; 16], &SEVEN_EIGHT).unwrap();
    table.write(7, &[0xAA]).unwrap();
    assert_eq!(table.reopen(), Ok(()));
    assert_eq!(table.outstanding(), 0);
    table.write(7, &[0xAA]).unwrap();
    table.flush().unwrap();
    table.write(7, &[0]).unwrap();
    assert_eq!(table.reopen(), Err(Refusal::BrokenImage));
    assert_eq!(table.outstanding(), 1);
    table.flush().unwrap();
    assert_eq!(table.reopen(), Ok(()));
}

/// The questions of a cut are the choice points in their order, so a choice number answers them; what it keeps is
/// what the gate had in view.
#[test]
fn a_cut_asks_for_each_choice_point() {
    let mut table = Region::open(vec![0; 20], &ALWAYS).unwrap();
    for (addr, len) in [(0, 0), (7, 2), (8, 8), (20, 0), (15, 5), (3, 17), (19, 1)] {
        table.write(addr, &vec![0xAA; len]).unwrap();
    }
    let mut asked = Vec::new();
    let kept = table.cut(|write, chunk| {
        asked.push((write, chunk));
        chunk != 1
    });
    assert_eq!(
        asked,
        [
            (1, 0),
            (1, 1),
            (2, 1),
            (4, 1),
            (4, 2),
            (5, 0),
            (5, 1),
            (5, 2),
            (6, 2)
        ]
    );
    assert_eq!(kept, Ok(5));

    let mut table = Region::open(vec![0; 16], &SEVEN_EIGHT).unwrap();
    assert!(matches!(table.gate(3, &[0xAA]), Verdict::Admitted { .. }));
    let (choice, bad) = match table.judge(7, &[0xBB, 0xBB]) {
        Verdict::Denied { choice, image } => (choice, image.to_vec()),
        other => panic!("{other:?}"),
    };
    table.write(7, &[0xBB, 0xBB]).unwrap();
    let mut point = 0;
    let kept = table.cut(|_, _| {
        point += 1;
        choice >> (point - 1) & 1 == 1
    });
    assert_eq!(point, 3);
    assert_eq!(kept, Ok(u64::from(choice.count_ones())));
    assert_eq!(table.image(), bad);
}

#[test]
fn lent_memory_serves_as_well() {
    let (mut image, mut log, mut state) = ([0u8; 16], [7u8; LOG_BYTES], [9u64; STATE_WORDS]);
    let mut table = Region::open_in(&mut image, &mut log, &mut state, &EIGHT_NINE).unwrap();
    assert!(matches!(
        table.gate(8, &[0xAA, 0xAA]),
        Verdict::Admitted { .. }
    ));
    assert_eq!(table.flush(), Ok(()));
    drop(table);
    assert_eq!(image[8..10], [0xAA, 0xAA]);
    assert_eq!(state[..3], [0, 8, 2]);
    assert_eq!(log[..3], [0xAA, 0xAA, 7]);
}

/// A state of another length is 1 at every call, and then nothing is touched: words, buffers, start and report.
#[test]
fn a_state_of_another_length_is_refused() {
    for words in [0, 1, 64, 66, 130] {
        let mut state: Vec<u64> = (0..words).map(|i| i % 2).collect();
        let before = state.clone();
        let (mut image, mut log, mut work) = ([1u8; 16], [2u8; LOG_BYTES], [3u8; 16]);
        let (mut report, mut start) = (77, 0);
        let tape = [0x80, 0, 0];
        let answers = [
            calls::open(&mut state, &image, &log, &ALWAYS),
            calls::write(&mut state, &image, &mut log, 0, &[5]),
            calls::read(&state, &image, &log, &mut work, 0, 1),
            calls::flush(&mut state, &mut image, &log),
            calls::cut(&mut state, &mut image, &log, &[], &mut report),
            calls::judge(
                &state,
                &image,
                &log,
                &ALWAYS,
                &mut work,
                0,
                &[5],
                &mut report,
            ),
            calls::gate(
                &mut state,
                &image,
                &mut log,
                &ALWAYS,
                &mut work,
                0,
                &[5],
                &mut report,
            ),
            calls::tape_write(&mut state, &image, &mut log, &tape, 0, &mut work, 0, &[5]),
            calls::tape_flush(&mut state, &mut image, &log, &tape, &mut start, &mut work),
            calls::tape_cut(
                &mut state,
                &mut image,
                &log,
                &tape,
                &mut start,
                &mut work,
                &mut report,
            ),
        ];
        assert_eq!(answers, [1; 10]);
        assert_eq!(state, before);
        assert_eq!((image, log, work), ([1; 16], [2; LOG_BYTES], [3; 16]));
        assert_eq!((report, start), (77, 0));
    }
    assert_eq!(calls::state_words(), STATE_WORDS as u64);
}

/// A refused call leaves words and report as they were, old records past the count included.
#[test]
fn a_refusal_leaves_the_words() {
    let mut state: Vec<u64> = (0..STATE_WORDS as u64)
        .map(|i| i * 0x0101_0101_0101_0101)
        .collect();
    state[0] = 33;
    let before = state.clone();
    let (mut image, log, mut report) = ([0u8; 16], [0u8; LOG_BYTES], 77);
    assert_eq!(calls::flush(&mut state, &mut image, &log), 1);
    assert_eq!(
        calls::cut(&mut state, &mut image, &log, &[], &mut report),
        1
    );
    state[0] = 0;
    assert_eq!(
        calls::cut(&mut state, &mut image, &log, &[0], &mut report),
        9
    );
    assert_eq!(report, 77);
    assert_eq!(state[1..], before[1..]);
    assert_eq!(
        calls::cut(&mut state, &mut image, &log, &[], &mut report),
        0
    );
    assert_eq!(report, 0);
    assert_eq!(state[1..], before[1..]);
}

#[test]
fn the_example_runs() {
    let (mut log, mut work) = ([9u8; LOG_BYTES], [5u8; 16]);
    let mut image = [7u8; 16];
    assert_eq!(
        calls::run(&mut image, &mut log, &mut work, 3, 1, 2, 1001),
        12
    );
    assert_eq!(
        calls::run(&mut image, &mut log, &mut work, 3, 1, 2, 1000),
        6
    );
    assert_eq!(calls::run(&mut image, &mut log, &mut work, 16, 1, 2, 0), 2);
    assert_eq!(
        calls::run(&mut image, &mut log[1..], &mut work, 3, 1, 2, 0),
        1
    );
    assert_eq!(calls::setup(&mut image, 16, 1), 2);
    assert_eq!(calls::setup(&mut [0; 4097], 0, 1), 1);
    assert_eq!((image, log, work), ([7; 16], [9; LOG_BYTES], [5; 16]));
    assert_eq!(calls::setup(&mut image, 3, 2), 0);
    let mut set_up = [7; 16];
    set_up[3] = 2;
    assert_eq!(image, set_up);
    assert_eq!(calls::run(&mut image, &mut log, &mut work, 3, 1, 2, 0), 0);
    assert_eq!((image, log, work), (set_up, [9; LOG_BYTES], [5; 16]));
    assert_eq!(
        calls::run(&mut image, &mut log, &mut work, 3, 1, 2, 1000),
        0
    );
    let mut ran = [7; 16];
    ran[3] = 1;
    assert_eq!((image, work), (ran, ran));
    assert_eq!(log[..3], [2, 1, 9]);
}

#[test]
fn each_refusal_has_one_number() {
    for why in Refusal::ALL {
        assert_eq!(Refusal::of(why.number()), Some(why));
    }
    for none in [0, 8, 13, u64::MAX] {
        assert_eq!(Refusal::of(none), None);
    }
}
