//! 02, M-104, with the readings C21 and C22: the newlines passed, beside the steps. All is counted by hand.

mod bench;

use bench::Bench;
use second::core::{Answer, Second, KEY};
use second::plain::{Action::*, Direction::*, Key, Key::*, Place::*};
use second::script::run;

/// The steps, the lines and the bell of a key that is accepted.
fn went(bench: &mut Bench, key: Key) -> (usize, usize, usize) {
    let (code, steps, bell) = bench.press(key);
    assert_eq!(code, 0);
    (steps, bench.reply.answer.lines, bell)
}

#[test]
fn moves_both_ways() {
    let mut bench = Bench::open("|a\nbb\n\nc", 16, 16, 16);
    assert_eq!(bench.reply.answer.lines, 0);
    assert_eq!(went(&mut bench, Function(Move, Right, Document)), (7, 3, 0));
    assert_eq!(went(&mut bench, Function(Move, Right, Document)), (0, 0, 1));
    assert_eq!(went(&mut bench, Function(Move, Left, Document)), (7, 3, 0));
    for expected in [(2, 1, 0), (3, 1, 0), (1, 1, 0), (0, 0, 1)] {
        assert_eq!(went(&mut bench, Function(Move, Right, LineBeginning)), expected);
    }
    for expected in [(1, 1, 0), (3, 1, 0), (2, 1, 0), (0, 0, 1)] {
        assert_eq!(went(&mut bench, Function(Move, Left, LineBeginning)), expected);
    }
}

#[test]
fn the_newline_under_the_cursor_is_not_passed() {
    let mut bench = Bench::open("|a\nbb\n\nc", 16, 16, 16);
    for expected in [(1, 0, 0), (3, 1, 0), (1, 1, 0), (2, 1, 0), (0, 0, 1)] {
        assert_eq!(went(&mut bench, Function(Move, Right, LineEnding)), expected);
    }
    for expected in [(2, 1, 0), (1, 1, 0), (3, 1, 0), (0, 0, 1)] {
        assert_eq!(went(&mut bench, Function(Move, Left, LineEnding)), expected);
    }
}

#[test]
fn words() {
    let mut bench = Bench::open("a|\n\n  b", 16, 16, 16);
    for expected in [(1, 1, 0), (1, 1, 0), (2, 0, 0), (0, 0, 1)] {
        assert_eq!(went(&mut bench, Function(Move, Right, Word)), expected);
    }
}

#[test]
fn deletions_count_what_they_remove() {
    let mut bench = Bench::open("a\nbb\n\nc|", 16, 16, 16);
    assert_eq!(went(&mut bench, Function(Delete, Left, Document)), (7, 3, 0));
    assert_eq!(went(&mut bench, Function(Delete, Left, Document)), (0, 0, 1));
    assert_eq!((went(&mut bench, Recall), bench.text().as_str()), ((0, 0, 0), "a\nbb\n\nc|"));
    let mut bench = Bench::open("a\n|\nb\n", 16, 16, 16);
    assert_eq!((went(&mut bench, Function(Delete, Right, Character)), bench.text().as_str()), ((1, 1, 0), "a\n|b\n"));
    assert_eq!((went(&mut bench, Function(Delete, Right, LineEnding)), bench.text().as_str()), ((1, 0, 0), "a\n|\n"));
    assert_eq!((went(&mut bench, Function(Delete, Left, Character)), bench.text().as_str()), ((1, 1, 0), "a|\n"));
}

#[test]
fn searches_count_in_the_document() {
    let mut bench = Bench::open("|x\ny\nx\n", 16, 16, 16);
    bench.press(Quote);
    bench.type_text("x");
    assert_eq!((went(&mut bench, Find(Right)), bench.text().as_str()), ((4, 2, 0), "x\ny\n|x\n"));
    assert_eq!(went(&mut bench, Find(Right)), (0, 0, 1));
    assert_eq!((went(&mut bench, Find(Left)), bench.text().as_str()), ((4, 2, 0), "|x\ny\nx\n"));
    assert_eq!(went(&mut bench, Find(Left)), (0, 0, 1));
    // The newline of a pattern is found, not passed.
    bench.press(Quote);
    bench.type_text("\n");
    assert_eq!((went(&mut bench, Find(Right)), bench.text().as_str()), ((1, 0, 0), "x|\ny\nx\n"));
    assert_eq!((went(&mut bench, Find(Right)), bench.text().as_str()), ((2, 1, 0), "x\ny|\nx\n"));
}

#[test]
fn a_quotation_counts_its_own() {
    let mut bench = Bench::open("a\n|\nb", 16, 16, 16);
    bench.press(Quote);
    bench.type_text("c\nd");
    assert_eq!((went(&mut bench, Function(Move, Left, Document)), bench.quotation().as_str()), ((3, 1, 0), "|c\nd"));
    assert_eq!((went(&mut bench, Function(Move, Left, Document)), bench.quotation().as_str()), ((0, 0, 1), "|c\nd"));
    assert_eq!((went(&mut bench, Function(Delete, Right, LineEnding)), bench.quotation().as_str()), ((1, 0, 0), "|\nd"));
    assert_eq!((went(&mut bench, Function(Delete, Right, Document)), bench.quotation().as_str()), ((2, 1, 0), "|"));
}

#[test]
fn other_keys_cross_none() {
    let mut bench = Bench::open("|\n", 16, 16, 16);
    assert_eq!((went(&mut bench, Insert(10)), bench.text().as_str()), ((0, 0, 0), "\n|\n"));
    assert_eq!(went(&mut bench, Quote), (0, 0, 0));
    assert_eq!(went(&mut bench, Insert(10)), (0, 0, 0));
    assert_eq!((went(&mut bench, Find(Left)), bench.text().as_str()), ((1, 1, 0), "|\n\n"));
    assert_eq!((went(&mut bench, Replace), bench.text().as_str()), ((0, 0, 0), "|\n"));
    assert_eq!((went(&mut bench, Recall), bench.text().as_str()), ((0, 0, 0), "|\n\n"));
    bench.press(Function(Delete, Left, LineEnding));
    assert_eq!(bench.reply.answer, Answer { code: KEY, ..Answer::default() });
}

#[test]
fn c21_every_accepted_block_of_the_bench_program() {
    let input =
        "rows=2\ncols=2\nstore=8\ntext=4\na\nb\n\nkey=move-right-document\nkey=delete-left-line-begin\nkey=delete-left-line-end\n";
    let blocks = [
        "code=0\nsteps=0\nlines=0\nbell=0\nfirst=1\nlast=2\nrow=1\ncol=0\nline=a \nline=b \n",
        "code=0\nsteps=4\nlines=2\nbell=0\nfirst=1\nlast=2\nrow=2\ncol=0\nline=b \nline=  \n",
        "code=0\nsteps=2\nlines=1\nbell=0\nfirst=1\nlast=1\nrow=1\ncol=0\nline=  \nline=  \n",
        "code=5\nplace=0\n",
    ];
    assert_eq!(String::from_utf8_lossy(&run(&Second, input.as_bytes())), blocks.concat());
}
