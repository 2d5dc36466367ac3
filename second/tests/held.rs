//! 02, M-101, in the stores and the record: the held text's store, the mark's number, and the session test. All is worked out by hand.

mod bench;

use bench::Bench;
use second::bytes::{Record, Stores, NO_MARK};
use second::core::{numbers_of, Answer, Core, Reply, Second, LONG, SESSION, SIZE};
use second::plain::{Action::*, Direction::*, Key::*, Place::*};

/// `ab|cd^`, cut: `ab|`, and (empty, cd) is held.
fn cut() -> Bench {
    let mut bench = Bench::open_marked("ab|cd^", 6, 1, 1);
    assert_eq!(bench.press(Cut), (0, 2, 0));
    bench
}

/// A move on this session gives this code; refused it hands back what it got.
fn moves(record: Record, stores: &Stores, code: usize) {
    let mut after = stores.clone();
    let reply = Second.key(record, numbers_of(Function(Move, Left, Character)), &mut after);
    assert_eq!(reply.answer.code, code, "{record:?}");
    if code != 0 {
        assert_eq!((reply, &after), (Reply { answer: Answer { code, ..Answer::default() }, record }, stores));
    }
}

#[test]
fn the_held_pair_in_its_store() {
    let mut bench = cut();
    assert_eq!((&bench.stores.text[..], &bench.stores.held[..]), (&b"ab\0\0\0\0"[..], &b"cd\0\0\0\0"[..]));
    assert_eq!(bench.stores.recall, [0; 6]);
    let record = bench.reply.record;
    assert_eq!((record.held_left, record.held_right, record.mark), (0, 2, NO_MARK));
    // A shorter cut leaves none of the old bytes.
    bench.press(Mark);
    bench.press(Function(Move, Left, Character));
    assert_eq!(bench.reply.record.mark, 2);
    assert_eq!(bench.press(Cut), (0, 1, 0));
    assert_eq!((&bench.stores.text[..], &bench.stores.held[..]), (&b"a\0\0\0\0\0"[..], &b"b\0\0\0\0\0"[..]));
    assert_eq!((bench.reply.record.held_left, bench.reply.record.held_right, bench.reply.record.mark), (0, 1, NO_MARK));
}

#[test]
fn opening_gives_no_mark_and_an_empty_held_pair() {
    let mut stores = Stores::zeros(3, 1, 1);
    stores.text.copy_from_slice(b"abc");
    stores.held.copy_from_slice(b"xyz");
    let reply = Second.open(3, 1, 1, &mut stores);
    assert_eq!((reply.answer.code, &stores.held[..]), (0, &[0; 3][..]));
    assert_eq!(reply.record, Record { r: 3, rows: 1, columns: 1, held_left: 0, held_right: 0, mark: NO_MARK, ..Record::default() });
}

#[test]
fn c15_a_refused_opening() {
    let mut stores = Stores::zeros(3, 1, 1);
    stores.held.copy_from_slice(b"xyz");
    let before = stores.clone();
    let reply = Second.open(4, 1, 1, &mut stores);
    assert_eq!((reply.answer, &stores), (Answer { code: LONG, ..Answer::default() }, &before));
    let mut record = reply.record;
    let [zeros @ .., mark] = record.fields();
    assert!(zeros.iter().all(|number| **number == 0));
    assert_eq!((zeros.len(), *mark), (18, usize::MAX));
}

#[test]
fn size_covers_the_fifth_store() {
    let bench = cut();
    for length in [0, 5, 7] {
        let mut stores = bench.stores.clone();
        stores.held.resize(length, 0);
        moves(bench.reply.record, &stores, SIZE);
        let reply = Second.open(0, 1, 1, &mut stores);
        assert_eq!((reply.answer.code, reply.record), (SIZE, Record::default()));
    }
    // SIZE is before SESSION.
    let mut stores = bench.stores.clone();
    stores.held.resize(7, 0);
    moves(Record { mark: 3, ..bench.reply.record }, &stores, SIZE);
}

#[test]
fn c18_the_mark_within_the_document() {
    let bench = cut();
    for (mark, code) in [(0, 0), (1, 0), (2, 0), (3, SESSION), (6, SESSION), (usize::MAX - 1, SESSION), (NO_MARK, 0)] {
        moves(Record { mark, ..bench.reply.record }, &bench.stores, code);
    }
    // In QUOTED too.
    let mut bench = bench;
    bench.press(Quote);
    bench.type_text("x");
    for (mark, code) in [(2, 0), (3, SESSION)] {
        moves(Record { mark, ..bench.reply.record }, &bench.stores, code);
    }
}

#[test]
fn the_held_pair_under_the_recall_pairs_rule() {
    let bench = cut();
    let record = bench.reply.record;
    // Two halves, a free byte that isn't 0, and lengths that don't fit.
    for (held_left, held_right, code) in [
        (2, 0, 0),
        (1, 1, SESSION),
        (0, 1, SESSION),
        (0, 0, SESSION),
        (0, 3, SESSION),
        (0, 7, SESSION),
        (7, 0, SESSION),
        (usize::MAX, 3, SESSION),
        (0, usize::MAX, SESSION),
    ] {
        moves(Record { held_left, held_right, ..record }, &bench.stores, code);
    }
    // A byte that isn't allowed.
    for (byte, code) in [(10, 0), (32, 0), (126, 0), (0, SESSION), (9, SESSION), (127, SESSION)] {
        let mut stores = bench.stores.clone();
        stores.held[1] = byte;
        moves(record, &stores, code);
    }
    // The last free byte; and a store that the held text fills.
    let mut stores = bench.stores.clone();
    stores.held[5] = b'x';
    moves(record, &stores, SESSION);
    stores.held.copy_from_slice(b"abcdef");
    moves(Record { held_right: 6, ..record }, &stores, 0);
}
