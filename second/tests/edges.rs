//! Document 01, "Edges, both sides": P1 to P12, through opening and key calls.

mod bench;

use bench::Bench;
use second::plain::{Action::*, Direction::*, Key::*, Place::*};

#[test]
fn p1_to_p3_words_to_the_right() {
    let mut bench = Bench::open("her| hand is", 16, 16, 16);
    let key = Function(Move, Right, Word);
    assert_eq!((bench.press(key), bench.text().as_str()), ((0, 1, 0), "her |hand is"));
    assert_eq!((bench.press(key), bench.text().as_str()), ((0, 5, 0), "her hand |is"));
    assert_eq!((bench.press(key), bench.text().as_str()), ((0, 0, 1), "her hand |is"));
}

#[test]
fn p4_nowhere_to_go_in_an_empty_document() {
    for direction in [Left, Right] {
        for place in [Character, Word, LineBeginning, LineEnding, Document] {
            assert_eq!(Bench::open("|", 16, 16, 16).press(Function(Move, direction, place)), (0, 0, 1));
        }
    }
}

#[test]
fn p5_and_p6_the_last_byte_of_a_store() {
    let mut bench = Bench::open("abc|", 4, 16, 16);
    assert_eq!((bench.press(Insert(b'x')), bench.text().as_str()), ((0, 0, 0), "abcx|"));
    let mut bench = Bench::open("abcd|", 4, 16, 16);
    assert_eq!((bench.press(Insert(b'x')), bench.text().as_str()), ((6, 0, 0), "abcd|"));
}

#[test]
fn p7_a_recall_that_is_full() {
    let mut bench = Bench::open("ab cd|", 5, 16, 16);
    assert_eq!((bench.press(Function(Delete, Left, Word)), bench.text().as_str()), ((0, 2, 0), "ab |"));
    bench.type_text("x");
    assert_eq!((bench.press(Recall), bench.text().as_str()), ((6, 0, 0), "ab x|"));
}

#[test]
fn p8_to_p10_find_replace_recall() {
    let mut bench = Bench::open("|FOO FOO", 16, 16, 16);
    bench.press(Quote);
    bench.type_text("FOO");
    assert_eq!((bench.press(Find(Right)), bench.text().as_str()), ((0, 4, 0), "FOO |FOO"));
    bench.press(Quote);
    bench.type_text("BAZ");
    assert_eq!((bench.press(Replace), bench.text().as_str()), ((0, 0, 0), "FOO BAZ|"));
    assert_eq!((bench.press(Recall), bench.text().as_str()), ((0, 0, 0), "FOO BAZ|FOO"));
}

#[test]
fn p11_the_column_behind_the_last_cell() {
    let mut bench = Bench::open("|", 16, 16, 4);
    bench.type_text("abcd");
    assert_eq!((bench.reply.record.left, bench.reply.answer.column), (0, 4));
    bench.type_text("e");
    assert_eq!((bench.reply.record.left, bench.reply.answer.column), (1, 4));
}

#[test]
fn p12_a_quotation_on_a_small_screen() {
    let mut bench = Bench::open("a|b", 16, 2, 4);
    assert_eq!(bench.press(Quote), (0, 0, 0));
    let answer = bench.reply.answer;
    assert_eq!(bench.stores.screen, b"a   >   ");
    assert_eq!((answer.row, answer.column, answer.first, answer.last), (2, 1, 1, 2));
}
