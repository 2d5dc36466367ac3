//! 02, M-103, with the reading C20: a deletion with the bell leaves recall text unchanged. All is worked out by hand.

mod bench;

use bench::Bench;
use second::plain::{Action::*, Direction::*, Key::*, Place::*};

#[test]
fn the_operator_at_the_top_of_the_deck() {
    let mut bench = Bench::open("time=1\nvalue=2\n|time=2", 32, 16, 16);
    // 7 + 8 bytes.
    assert_eq!((bench.press(Function(Delete, Left, Document)), bench.text().as_str()), ((0, 15, 0), "|time=2"));
    assert_eq!((bench.press(Function(Delete, Left, Word)), bench.text().as_str()), ((0, 0, 1), "|time=2"));
    assert_eq!((bench.press(Recall), bench.text().as_str()), ((0, 0, 0), "time=1\nvalue=2\n|time=2"));
}

#[test]
fn at_the_end_of_the_text() {
    let mut bench = Bench::open("ab |cd", 16, 16, 16);
    assert_eq!((bench.press(Function(Delete, Right, Document)), bench.text().as_str()), ((0, 2, 0), "ab |"));
    for place in [Character, Word, LineEnding, Document] {
        assert_eq!((bench.press(Function(Delete, Right, place)), bench.text().as_str()), ((0, 0, 1), "ab |"));
    }
    assert_eq!((bench.press(Recall), bench.text().as_str()), ((0, 0, 0), "ab |cd"));
}

#[test]
fn where_there_is_text_but_no_place() {
    let mut bench = Bench::open("her hand |is", 16, 16, 16);
    assert_eq!((bench.press(Function(Delete, Left, Character)), bench.text().as_str()), ((0, 1, 0), "her hand|is"));
    assert_eq!((bench.press(Function(Delete, Right, Word)), bench.text().as_str()), ((0, 0, 1), "her hand|is"));
    assert_eq!((bench.press(Recall), bench.text().as_str()), ((0, 0, 0), "her hand |is"));
}

#[test]
fn a_quotation_keeps_its_own() {
    let mut bench = Bench::open("x|yz", 16, 16, 16);
    assert_eq!((bench.press(Function(Delete, Left, Character)), bench.text().as_str()), ((0, 1, 0), "|yz"));
    bench.press(Quote);
    // Nothing was deleted in the quotation yet.
    assert_eq!(bench.press(Function(Delete, Left, Word)), (0, 0, 1));
    assert_eq!((bench.press(Recall), bench.quotation().as_str()), ((0, 0, 0), "|"));
    bench.type_text("a b");
    assert_eq!((bench.press(Function(Delete, Left, Word)), bench.quotation().as_str()), ((0, 1, 0), "a |"));
    assert_eq!((bench.press(Function(Delete, Right, Document)), bench.quotation().as_str()), ((0, 0, 1), "a |"));
    assert_eq!((bench.press(Recall), bench.quotation().as_str()), ((0, 0, 0), "a b|"));
    // The document's stayed all the while.
    bench.press(Quote);
    assert_eq!((bench.press(Recall), bench.text().as_str()), ((0, 0, 0), "x|yz"));
}

#[test]
fn the_older_recall_text_may_not_fit() {
    let mut bench = Bench::open("ab cd|", 5, 16, 16);
    assert_eq!((bench.press(Function(Delete, Left, Word)), bench.text().as_str()), ((0, 2, 0), "ab |"));
    bench.type_text("x");
    assert_eq!((bench.press(Function(Delete, Right, Character)), bench.text().as_str()), ((0, 0, 1), "ab x|"));
    assert_eq!((bench.press(Recall), bench.text().as_str()), ((6, 0, 0), "ab x|"));
    // A deletion that removes something sets it as ever.
    assert_eq!((bench.press(Function(Delete, Left, Character)), bench.text().as_str()), ((0, 1, 0), "ab |"));
    assert_eq!((bench.press(Recall), bench.text().as_str()), ((0, 0, 0), "ab x|"));
}

#[test]
fn nothing_to_keep() {
    let mut bench = Bench::open("|ab", 16, 16, 16);
    assert_eq!(bench.press(Function(Delete, Left, Document)), (0, 0, 1));
    assert_eq!((bench.press(Recall), bench.text().as_str()), ((0, 0, 0), "|ab"));
}

#[test]
fn a_refused_deletion_keeps_it_too() {
    let mut bench = Bench::open("ab|", 16, 16, 16);
    assert_eq!((bench.press(Function(Delete, Left, Character)), bench.text().as_str()), ((0, 1, 0), "a|"));
    assert_eq!(bench.press(Function(Delete, Left, LineEnding)), (5, 0, 0));
    assert_eq!((bench.press(Recall), bench.text().as_str()), ((0, 0, 0), "ab|"));
}

#[test]
fn bytes_and_lengths_stay() {
    let mut bench = Bench::open("ab|", 4, 1, 1);
    assert_eq!(bench.press(Function(Delete, Left, Character)), (0, 1, 0));
    for _ in 0..2 {
        assert_eq!((&bench.stores.text[..], &bench.stores.recall[..]), (&b"a\0\0\0"[..], &b"b\0\0\0"[..]));
        assert_eq!((bench.reply.record.rl, bench.reply.record.rr), (1, 0));
        assert_eq!(bench.press(Function(Delete, Right, Character)), (0, 0, 1));
    }
}
