//! 02, M-109, with the reading C36: quarters of 1,024 bytes, and the conversion of old sessions. All is worked out by hand.

mod bench;

use bench::{shown, Bench};
use second::bytes::{session, Record, Stores, NO_MARK, SIDE};
use second::convert::{convert, Conversion, OLD_QUARTER, OLD_SIDE};
use second::core::{numbers_of, Answer, Core, Reply, Second, FULL, SESSION, SIZE};
use second::plain::{Action::*, Direction::*, Key::*, Mode, Place::*, QUARTER};

const T: usize = 4_096;

/// A session in QUOTED, the cursor in front of a small document.
fn quoting() -> Bench {
    let mut bench = Bench::open("|ab", T, 4, 16);
    assert_eq!(bench.press(Quote), (0, 0, 0));
    bench
}

fn letters(count: usize) -> String {
    "abcdefgh".repeat(count / 8) + &"abcdefgh"[..count % 8]
}

#[test]
fn the_numbers() {
    assert_eq!((QUARTER, SIDE, OLD_QUARTER, OLD_SIDE), (1_024, 4_096, 256, 1_024));
    assert_eq!(Stores::zeros(1, 1, 1).side.len(), 4_096);
}

#[test]
fn the_quarters_begin_at_multiples_of_1024() {
    let mut bench = quoting();
    bench.type_text("F");
    assert_eq!(bench.press(Find(Right)), (0, 0, 1));
    bench.press(Quote);
    bench.type_text("xyz");
    bench.press(Function(Move, Left, Character));
    assert_eq!(bench.press(Replace), (0, 0, 1));
    bench.press(Quote);
    bench.type_text("pqrs");
    bench.press(Function(Delete, Left, Character));
    bench.press(Function(Move, Left, Character));
    let mut side = [0; 4_096];
    // The quotation `pq|r` with its gap, its recall text `s`, the pattern, the replacement (xy, z).
    side[..2].copy_from_slice(b"pq");
    side[1_023] = b'r';
    side[1_024] = b's';
    side[2_048] = b'F';
    side[3_072..3_075].copy_from_slice(b"xyz");
    assert_eq!(bench.stores.side, side);
    let Record { ql, qr, qrl, qrr, pl, xl, xr, .. } = bench.reply.record;
    assert_eq!((ql, qr, qrl, qrr, pl, xl, xr), (2, 1, 1, 0, 1, 2, 1));
}

#[test]
fn size_for_old_lengths() {
    let bench = quoting();
    for length in [0, 256, 1_023, 1_024, 1_025, 4_095, 4_097] {
        let mut stores = bench.stores.clone();
        stores.side = vec![0; length];
        let before = stores.clone();
        let record = bench.reply.record;
        let refused = Answer { code: SIZE, ..Answer::default() };
        assert_eq!(Second.key(record, numbers_of(Quote), &mut stores), Reply { answer: refused, record });
        assert_eq!(Second.open(0, 4, 16, &mut stores), Reply { answer: refused, record: Record::default() });
        assert_eq!(stores, before);
    }
}

#[test]
fn full_in_quoted_above_1024() {
    let mut bench = quoting();
    bench.type_text(&letters(1_023));
    // NEWLINE inserts one byte here, for no line is indented; TAB goes from column 1,023 to 1,024.
    assert_eq!(bench.press(Newline), (0, 1, 0));
    assert_eq!(bench.reply.record.ql, 1_024);
    let (record, before) = (bench.reply.record, bench.stores.clone());
    for key in [Insert(b'x'), Insert(10), Newline, Tab] {
        assert_eq!(bench.press(key), (FULL, 0, 0), "{key:?}");
        assert_eq!((bench.reply.record, &bench.stores), (record, &before));
    }
    assert_eq!(bench.press(Function(Delete, Left, Character)), (0, 1, 0));
    assert_eq!(bench.press(Tab), (0, 1, 0));
    assert_eq!(bench.press(Tab), (FULL, 0, 0));
    // Its recall text holds 1,024 bytes too. It fits once, and no byte beside it.
    assert_eq!(bench.press(Function(Delete, Left, Document)), (0, 1_024, 0));
    assert_eq!(bench.reply.record.qrl, 1_024);
    assert_eq!(bench.press(Recall), (0, 0, 0));
    assert_eq!(bench.press(Recall), (FULL, 0, 0));
    // A document that is full is nothing to it.
    let mut bench = Bench::open("|a", 1, 1, 1);
    bench.press(Quote);
    bench.type_text(&letters(1_024));
    assert_eq!(bench.press(Insert(b'x')), (FULL, 0, 0));
}

#[test]
fn a_pattern_and_a_replacement_of_1024_bytes() {
    let header = letters(1_024);
    let mut bench = Bench::open(&format!("|x\n{header}\n"), T, 4, 16);
    bench.press(Quote);
    bench.type_text(&header);
    assert_eq!(bench.press(Find(Right)), (0, 2, 0));
    assert_eq!(bench.reply.record.pl, 1_024);
    assert_eq!(&bench.stores.side[2_048..3_072], header.as_bytes());
    bench.press(Quote);
    bench.type_text(&"z".repeat(1_024));
    assert_eq!(bench.press(Replace), (0, 0, 0));
    assert_eq!((bench.reply.record.xl, bench.text()), (1_024, format!("x\n{}|\n", "z".repeat(1_024))));
    assert_eq!(&bench.stores.side[3_072..], &[b'z'; 1_024]);
    assert_eq!(shown(&bench.editor().main.recall), format!("|{header}"));
}

#[test]
fn a_session_by_the_new_rule() {
    let mut bench = quoting();
    bench.type_text(&letters(700));
    bench.press(Function(Move, Left, Document));
    assert_eq!((bench.reply.record.ql, bench.reply.record.qr), (0, 700));
    // 1,024 bytes are taken and 1,025 are not, whichever half has them.
    for (ql, qr, code) in [(324, 700, 0), (325, 700, SESSION), (0, 1_025, SESSION), (usize::MAX, 700, SESSION)] {
        let mut stores = bench.stores.clone();
        stores.side[..ql.min(325)].fill(b'x');
        let record = Record { ql, left: 1 + ql.min(325), ..bench.reply.record };
        let reply = Second.key(Record { qr, ..record }, numbers_of(Mark), &mut stores);
        // MARK gets KEY in QUOTED, after SESSION.
        assert_eq!(reply.answer.code, if code == 0 { 5 } else { code }, "{ql} {qr}");
    }
}

// The conversion.

/// An old quarter: a left text at its front and a right text at its back, or directly after the left one.
fn old_gap(l: &str, r: &str) -> Vec<u8> {
    [l.as_bytes(), &vec![0; 256 - l.len() - r.len()], r.as_bytes()].concat()
}

fn old_pair(l: &str, r: &str) -> Vec<u8> {
    [l.as_bytes(), r.as_bytes(), &vec![0; 256 - l.len() - r.len()]].concat()
}

/// An old session in QUOTED with something everywhere: document `ab|c`, its recall text (`r1`, empty), held text (empty, `h`), mark 1,
/// quotation `qu|o`, its recall text (empty, `re`), pattern `pat`, replacement (`x`, `yz`). T is 6, and the screen 2 times 4: it shows
/// `ab`, then `>quo`.
fn old() -> (Record, Stores) {
    let record = Record {
        l: 2,
        r: 1,
        ql: 2,
        qr: 1,
        rl: 2,
        rr: 0,
        qrl: 0,
        qrr: 2,
        xl: 1,
        xr: 2,
        pl: 3,
        mode: 1,
        top: 0,
        left: 0,
        rows: 2,
        columns: 4,
        held_left: 0,
        held_right: 1,
        mark: 1,
    };
    let side = [old_gap("qu", "o"), old_pair("", "re"), old_pair("pat", ""), old_pair("x", "yz")].concat();
    let [text, recall, held] = [b"ab\0\0\0c", b"r1\0\0\0\0", b"h\0\0\0\0\0"].map(|bytes| bytes.to_vec());
    (record, Stores { text, recall, held, side, screen: Vec::new() })
}

/// The new side store of that session.
fn new_side() -> Vec<u8> {
    let mut side = vec![0; 4_096];
    side[..2].copy_from_slice(b"qu");
    side[1_023] = b'o';
    side[1_024..1_026].copy_from_slice(b"re");
    side[2_048..2_051].copy_from_slice(b"pat");
    side[3_072..3_075].copy_from_slice(b"xyz");
    side
}

/// The code of a conversion into a side store that was full of `#`. Refused no byte of it changes, and the record always comes back.
fn converted(record: Record, old: &Stores) -> (usize, Vec<u8>) {
    let mut side = vec![b'#'; 4_096];
    let Conversion { code, record: back } = convert(record, old, &mut side);
    assert_eq!(back, record);
    if code != 0 {
        assert_eq!(side, [b'#'; 4_096]);
    }
    (code, side)
}

/// The code of a conversion of the old session with one change.
fn changed(change: impl FnOnce(&mut Record, &mut Stores)) -> usize {
    let (mut record, mut stores) = old();
    change(&mut record, &mut stores);
    converted(record, &stores).0
}

#[test]
fn the_same_plain_state_in_the_new_side_store() {
    let (record, mut stores) = old();
    let (code, side) = converted(record, &stores);
    assert_eq!((code, &side), (0, &new_side()));
    // With the same record and the other stores as they are it is a session, and nothing of it has changed.
    stores.side = side;
    let editor = session(&record, &stores).expect("a session");
    let texts = [&editor.main.text, &editor.main.recall, &editor.held].map(shown);
    assert_eq!(texts, ["ab|c", "r1|", "|h"]);
    let texts = [&editor.quoted.text, &editor.quoted.recall, &editor.replacement].map(shown);
    assert_eq!(texts, ["qu|o", "|re", "x|yz"]);
    assert_eq!((&editor.pattern[..], editor.mode, editor.mark), (&b"pat"[..], Mode::Quoted, Some(1)));
    // Whatever the side store held before, it is overwritten.
    let mut other: Vec<u8> = (0..4_096).map(|i| i as u8).collect();
    let (record, stores) = old();
    assert_eq!(convert(record, &stores, &mut other).code, 0);
    assert_eq!(other, new_side());
}

#[test]
fn every_key_continues_it() {
    let (record, mut stores) = old();
    stores.side = converted(record, &stores).1;
    stores.screen = vec![b' '; 8];
    let mut bench = Bench { reply: Reply { answer: Answer::default(), record }, stores };
    assert_eq!((bench.press(Recall), bench.quotation().as_str()), ((0, 0, 0), "qu|reo"));
    bench.type_text(&letters(1_019));
    assert_eq!(bench.press(Insert(b'x')), (FULL, 0, 0));
    assert_eq!(bench.press(Quote), (0, 0, 0));
    assert_eq!((bench.press(Paste), bench.text().as_str()), ((0, 0, 0), "ab|hc"));
    assert_eq!((bench.press(Cut), bench.text().as_str()), ((0, 1, 0), "a|hc"));
    // The pattern is still `pat`, and is not there.
    assert_eq!((bench.press(Replace), bench.text().as_str()), ((0, 0, 1), "a|hc"));
}

#[test]
fn an_old_session_in_main() {
    let change = |record: &mut Record, stores: &mut Stores| {
        *record = Record { ql: 0, qr: 0, qrl: 0, qrr: 0, mode: 0, mark: NO_MARK, ..*record };
        stores.side[..512].fill(0);
    };
    assert_eq!(changed(change), 0);
    let (mut record, mut stores) = old();
    change(&mut record, &mut stores);
    let mut side = new_side();
    side[..2_048].fill(0);
    assert_eq!(converted(record, &stores), (0, side));
}

#[test]
fn quarters_that_were_full() {
    let full = letters(256);
    let (record, mut stores) = old();
    let record = Record { ql: 100, qr: 156, qrl: 256, qrr: 0, pl: 256, xl: 1, xr: 255, left: 97, ..record };
    let [quotation, replacement] = [100, 1].map(|at| (full[..at].to_string(), full[at..].to_string()));
    stores.side = full.repeat(4).into_bytes();
    let (code, side) = converted(record, &stores);
    assert_eq!(code, 0);
    let mut expected = vec![0; 4_096];
    expected[..100].copy_from_slice(quotation.0.as_bytes());
    expected[1_024 - 156..1_024].copy_from_slice(quotation.1.as_bytes());
    for from in [1_024, 2_048, 3_072] {
        expected[from..from + 256].copy_from_slice(full.as_bytes());
    }
    assert_eq!(side, expected);
    stores.side = side;
    let editor = session(&record, &stores).expect("a session");
    assert_eq!(shown(&editor.quoted.text), format!("{}|{}", quotation.0, quotation.1));
    assert_eq!(shown(&editor.replacement), format!("{}|{}", replacement.0, replacement.1));
}

#[test]
fn size_by_the_old_table() {
    for length in [0, 255, 256, 1_023, 1_025, 4_096] {
        assert_eq!(changed(|_, stores| stores.side.resize(length, 0)), SIZE, "{length}");
    }
    for length in [0, 5, 7] {
        assert_eq!(changed(|_, stores| stores.text.resize(length, 0)), SIZE);
        assert_eq!(changed(|_, stores| stores.recall.resize(length, 0)), SIZE);
        assert_eq!(changed(|_, stores| stores.held.resize(length, 0)), SIZE);
    }
    for (rows, columns) in [(0, 4), (65, 4), (2, 0), (2, 257), (usize::MAX, 4), (2, usize::MAX)] {
        assert_eq!(changed(|record, _| *record = Record { rows, columns, ..*record }), SIZE);
    }
    for (rows, columns) in [(64, 4), (2, 256), (64, 256), (2, 1)] {
        let left = if columns == 1 { 3 } else { 0 };
        assert_eq!(changed(|record, _| *record = Record { rows, columns, left, ..*record }), 0);
    }
    // No screen is lent.
    assert_eq!(changed(|_, stores| stores.screen = vec![0; 7]), 0);
    // T is 1 to 65,536.
    for (t, code) in [(0, SIZE), (65_536, 0), (65_537, SIZE)] {
        let record = Record { rows: 1, columns: 1, ..Record::default() };
        let stores = Stores { side: vec![0; 1_024], ..Stores::zeros(t, 0, 0) };
        let (given, side) = converted(record, &stores);
        assert_eq!(given, code);
        assert!(code != 0 || side == [0; 4_096]);
    }
}

#[test]
fn size_for_the_new_side_store() {
    let (record, stores) = old();
    for length in [0, 1_024, 4_095, 4_097] {
        let mut side = vec![b'#'; length];
        assert_eq!(convert(record, &stores, &mut side), Conversion { code: SIZE, record });
        assert_eq!(side, vec![b'#'; length]);
        // SIZE is before SESSION.
        let damaged = Record { mark: 4, ..record };
        assert_eq!(convert(damaged, &stores, &mut side), Conversion { code: SIZE, record: damaged });
    }
    assert_eq!(
        changed(|record, stores| {
            record.mode = 2;
            stores.side.push(0);
        }),
        SIZE
    );
}

#[test]
fn session_by_the_old_length_of_a_quarter() {
    // 257 bytes would fit a new quarter. The bytes are allowed wherever they are read.
    for fields in [[0, 257], [257, 0], [1, 256], [256, 1], [usize::MAX, 2], [2, usize::MAX], [300, 0], [1_024, 0]] {
        let [l, r] = fields;
        let full = |stores: &mut Stores| stores.side.fill(b'a');
        let record = Record { ql: 256, qr: 0, qrl: 256, qrr: 0, xl: 256, xr: 0, pl: 256, left: 253, ..old().0 };
        let code = |record: Record| {
            changed(|given, stores| {
                *given = record;
                full(stores);
            })
        };
        assert_eq!(code(record), 0);
        // Wherever the cursor would be, no window is to blame.
        let seen = 1 + l.min(1_024);
        assert_eq!(code(Record { ql: l, qr: r, left: seen.saturating_sub(4), ..record }), SESSION);
        assert_eq!(code(Record { qrl: l, qrr: r, ..record }), SESSION);
        assert_eq!(code(Record { xl: l, xr: r, ..record }), SESSION);
        assert_eq!(code(Record { pl: l.max(r), ..record }), if l.max(r) == 256 { 0 } else { SESSION });
    }
}

#[test]
fn session_by_all_other_rules() {
    // Lengths of the document, its recall text and the held text.
    assert_eq!(changed(|record, _| record.l = 6), SESSION);
    assert_eq!(changed(|record, _| record.r = usize::MAX), SESSION);
    assert_eq!(changed(|record, _| record.rl = 7), SESSION);
    assert_eq!(changed(|record, _| record.held_right = 7), SESSION);
    // A free byte that isn't 0: in each store and in each old quarter, the first and the last one.
    for at in [2, 254, 258, 511, 515, 767, 771, 1_023] {
        assert_eq!(changed(|_, stores| stores.side[at] = b'a'), SESSION, "{at}");
    }
    assert_eq!(changed(|_, stores| stores.text[2] = b'a'), SESSION);
    assert_eq!(changed(|_, stores| stores.text[4] = b'a'), SESSION);
    assert_eq!(changed(|_, stores| stores.recall[5] = b'a'), SESSION);
    assert_eq!(changed(|_, stores| stores.held[1] = b'a'), SESSION);
    // A byte of a text that isn't allowed.
    for byte in [0, 9, 11, 31, 127, 128, 255] {
        for at in [0, 1, 255, 256, 257, 512, 514, 768, 770] {
            assert_eq!(changed(|_, stores| stores.side[at] = byte), SESSION, "{at}");
        }
        assert_eq!(changed(|_, stores| stores.text[5] = byte), SESSION);
        assert_eq!(changed(|_, stores| stores.recall[1] = byte), SESSION);
        assert_eq!(changed(|_, stores| stores.held[0] = byte), SESSION);
    }
    // Two halves of a recall pair or of the held pair; the replacement has two.
    assert_eq!(changed(|record, _| (record.rl, record.rr) = (1, 1)), SESSION);
    assert_eq!(changed(|record, _| (record.rl, record.rr) = (0, 2)), 0);
    assert_eq!(changed(|record, _| (record.qrl, record.qrr) = (1, 1)), SESSION);
    assert_eq!(changed(|record, _| (record.qrl, record.qrr) = (2, 0)), 0);
    assert_eq!(changed(|record, stores| (record.held_left, stores.held[1]) = (1, b'a')), SESSION);
    // The mark within the document, or none.
    for (mark, code) in [(0, 0), (3, 0), (4, SESSION), (NO_MARK - 1, SESSION), (NO_MARK, 0)] {
        assert_eq!(changed(|record, _| record.mark = mark), code);
    }
    // The mode; in MAIN neither a quotation nor its recall text is left.
    for mode in [0, 2, 256, usize::MAX] {
        assert_eq!(changed(|record, _| record.mode = mode), SESSION);
    }
    for (ql, qr, qrr) in [(2, 1, 0), (0, 0, 2)] {
        let code = changed(|record, stores| {
            *record = Record { mode: 0, ql, qr, qrr, ..*record };
            let gone = if qrr == 0 { 256..512 } else { 0..256 };
            stores.side[gone].fill(0);
        });
        assert_eq!(code, SESSION);
    }
    // The cursor, in row 2 and column 3, is visible.
    for (top, left, code) in
        [(0, 0, 0), (1, 0, 0), (0, 3, 0), (2, 0, SESSION), (0, 4, SESSION), (usize::MAX, 0, SESSION), (0, usize::MAX, SESSION)]
    {
        assert_eq!(changed(|record, _| *record = Record { top, left, ..*record }), code, "{top} {left}");
    }
    assert_eq!(changed(|record, _| (record.rows, record.columns) = (1, 3)), SESSION);
    assert_eq!(changed(|record, _| (record.rows, record.columns) = (2, 3)), 0);
    assert_eq!(changed(|record, _| (record.rows, record.columns) = (2, 2)), SESSION);
}

#[test]
fn session_by_the_longest_line() {
    for (length, code) in [(1_024, 0), (1_025, SESSION)] {
        let record = Record { r: length, rows: 1, columns: 1, ..Record::default() };
        let stores = Stores { text: vec![b'a'; length], side: vec![0; 1_024], ..Stores::zeros(length, 0, 0) };
        assert_eq!(converted(record, &stores).0, code);
    }
}
