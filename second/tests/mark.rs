//! 02, M-101, with the readings C6 to C18: MARK, CUT and PASTE. All is worked out by hand; `^` is the mark.

mod bench;

use bench::Bench;
use second::core::{key_of, numbers_of, Numbers, Second};
use second::plain::{Action::*, Direction::*, Key, Key::*, Place::*};
use second::script::run;

fn open(text: &str) -> Bench {
    Bench::open_marked(text, 16, 16, 16)
}

/// A key that is accepted without the bell makes one text into another.
fn makes(before: &str, key: Key, after: &str) {
    let mut bench = open(before);
    let (code, _, bell) = bench.press(key);
    assert_eq!((code, bell, bench.marked().as_str()), (0, 0, after), "{before}, {key:?}");
}

#[test]
fn insertion() {
    makes("ab^c|d", Insert(b'x'), "ab^cx|d");
    makes("ab^|cd", Insert(b'x'), "ab^x|cd");
    makes("a|b^cd", Insert(b'x'), "ax|b^cd");
    makes("^|", Insert(b'x'), "^x|");
}

#[test]
fn deletion_of_one_byte() {
    let left = Function(Delete, Left, Character);
    makes("a^bc|d", left, "a^b|d");
    makes("ab^c|d", left, "ab^|d");
    makes("abc^|d", left, "ab^|d");
    makes("abc|d^e", left, "ab|d^e");
    let right = Function(Delete, Right, Character);
    makes("a^b|cd", right, "a^b|d");
    makes("ab^|cd", right, "ab^|d");
    makes("ab|c^d", right, "ab^|d");
    makes("ab|cd^", right, "ab|d^");
}

#[test]
fn c7_deletion_of_a_stretch() {
    let left = Function(Delete, Left, Word);
    makes("ab^ cd|ef", left, "ab^ |ef");
    makes("ab ^cd|ef", left, "ab ^|ef");
    makes("ab c^d|ef", left, "ab |ef");
    makes("ab cd^|ef", left, "ab ^|ef");
    makes("ab cd|e^f", left, "ab |e^f");
    let right = Function(Delete, Right, Word);
    makes("a^b|cd e", right, "a^b|e");
    makes("ab^|cd e", right, "ab^|e");
    makes("ab|c^d e", right, "ab|e");
    makes("ab|cd^ e", right, "ab|e");
    makes("ab|cd ^e", right, "ab^|e");
    makes("ab|cd e^", right, "ab|e^");
    makes("a^b\nc|", Function(Delete, Left, Document), "|");
}

#[test]
fn moves_and_bells_leave_it() {
    makes("a^b c|d", Function(Move, Left, Document), "|a^b cd");
    makes("a^b c|d", Function(Move, Right, Character), "a^b cd|");
    let mut bench = open("^|ab");
    assert_eq!((bench.press(Function(Delete, Left, Word)), bench.marked().as_str()), ((0, 0, 1), "^|ab"));
    assert_eq!((bench.press(Function(Move, Left, Word)), bench.marked().as_str()), ((0, 0, 1), "^|ab"));
}

#[test]
fn c10_recall_at_the_mark() {
    let mut bench = open("^ab cd|");
    assert_eq!((bench.press(Function(Delete, Left, Word)), bench.marked().as_str()), ((0, 2, 0), "^ab |"));
    assert_eq!((bench.press(Mark), bench.marked().as_str()), ((0, 0, 0), "ab ^|"));
    assert_eq!((bench.press(Recall), bench.marked().as_str()), ((0, 0, 0), "ab ^cd|"));
    // And the right half.
    let mut bench = open("^ab |cd");
    assert_eq!((bench.press(Function(Delete, Right, Document)), bench.marked().as_str()), ((0, 2, 0), "^ab |"));
    bench.press(Mark);
    assert_eq!((bench.press(Recall), bench.marked().as_str()), ((0, 0, 0), "ab ^|cd"));
    // Wholly to its left.
    let mut bench = open("x|yz^");
    assert_eq!((bench.press(Function(Delete, Left, Character)), bench.marked().as_str()), ((0, 1, 0), "|yz^"));
    bench.press(Function(Move, Right, Character));
    assert_eq!((bench.press(Recall), bench.marked().as_str()), ((0, 0, 0), "yx|z^"));
}

/// FOO is found in the document and replaced by the pair (X, Y).
fn replaces(before: &str, after: &str) {
    let mut bench = open(before);
    bench.press(Quote);
    bench.type_text("FOO");
    assert_eq!(bench.press(Find(Right)), (0, 2, 0));
    bench.press(Quote);
    bench.type_text("XY");
    bench.press(Function(Move, Left, Character));
    assert_eq!((bench.press(Replace), bench.marked().as_str()), ((0, 0, 0), after), "{before}");
}

#[test]
fn c9_replace_deletes_then_inserts() {
    replaces("^|a FOO b", "^a X|Y b");
    replaces("|a^ FOO b", "a^ X|Y b");
    replaces("|a ^FOO b", "a ^X|Y b");
    replaces("|a F^OO b", "a X|Y b");
    replaces("|a FO^O b", "a X|Y b");
    replaces("|a FOO^ b", "a ^X|Y b");
    replaces("|a FOO ^b", "a X|Y ^b");
    replaces("|a FOO b^", "a X|Y b^");
}

#[test]
fn c9_an_empty_pattern_is_an_insertion_only() {
    for (before, after) in [("a^b|c", "a^bZ|c"), ("ab^|c", "ab^Z|c"), ("ab|c^", "abZ|c^")] {
        let mut bench = open(before);
        bench.press(Quote);
        bench.type_text("Z");
        assert_eq!((bench.press(Replace), bench.marked().as_str()), ((0, 0, 0), after));
    }
    // With the bell there is neither.
    let mut bench = open("ab^|c");
    bench.press(Quote);
    bench.type_text("c");
    assert_eq!((bench.press(Find(Right)), bench.marked().as_str()), ((0, 0, 1), "ab^|c"));
    bench.press(Function(Move, Left, Character));
    assert_eq!((bench.press(Replace), bench.marked().as_str()), ((0, 0, 1), "a|b^c"));
}

#[test]
fn c12_cut_holds_a_deletions_pair() {
    let mut bench = open("ab^c\n|ef");
    assert_eq!((bench.press(Cut), bench.marked().as_str(), bench.held().as_str()), ((0, 2, 0), "ab|ef", "c\n|"));
    // It is not among the keys that report lines (C16).
    assert_eq!(bench.reply.answer.lines, 0);
    assert_eq!((bench.press(Paste), bench.marked().as_str(), bench.held().as_str()), ((0, 0, 0), "abc\n|ef", "c\n|"));
    let mut bench = open("ab|c\n^ef");
    assert_eq!((bench.press(Cut), bench.marked().as_str(), bench.held().as_str()), ((0, 2, 0), "ab|ef", "|c\n"));
    assert_eq!((bench.press(Paste), bench.marked().as_str(), bench.held().as_str()), ((0, 0, 0), "ab|c\nef", "|c\n"));
    let mut bench = open("|abcd^");
    assert_eq!((bench.press(Cut), bench.marked().as_str(), bench.held().as_str()), ((0, 4, 0), "|", "|abcd"));
}

#[test]
fn c11_c13_cut_of_nothing_and_cut_without_a_mark() {
    let mut bench = open("ab^cd|ef");
    assert_eq!(bench.press(Cut), (0, 2, 0));
    // The mark went with the cut: bell, and the held pair stays.
    assert_eq!((bench.press(Cut), bench.marked().as_str(), bench.held().as_str()), ((0, 0, 1), "ab|ef", "cd|"));
    // The mark at the cursor: no bell, and the held pair is empty.
    bench.press(Mark);
    assert_eq!((bench.press(Cut), bench.marked().as_str(), bench.held().as_str()), ((0, 0, 0), "ab|ef", "|"));
    assert_eq!((bench.press(Cut), bench.marked().as_str(), bench.held().as_str()), ((0, 0, 1), "ab|ef", "|"));
    // Pasting nothing.
    assert_eq!((bench.press(Paste), bench.marked().as_str()), ((0, 0, 0), "ab|ef"));
}

#[test]
fn recall_text_and_held_text_are_two() {
    let mut bench = open("^abc|");
    assert_eq!((bench.press(Function(Delete, Left, Character)), bench.marked().as_str()), ((0, 1, 0), "^ab|"));
    assert_eq!((bench.press(Cut), bench.marked().as_str()), ((0, 2, 0), "|"));
    assert_eq!((bench.press(Recall), bench.marked().as_str()), ((0, 0, 0), "c|"));
    assert_eq!((bench.press(Paste), bench.marked().as_str()), ((0, 0, 0), "cab|"));
    assert_eq!((bench.press(Recall), bench.marked().as_str()), ((0, 0, 0), "cabc|"));
}

#[test]
fn mark_again_and_paste_around_a_mark() {
    let mut bench = open("^abc|d");
    assert_eq!((bench.press(Mark), bench.marked().as_str()), ((0, 0, 0), "abc^|d"));
    bench.press(Function(Move, Left, Character));
    assert_eq!((bench.press(Cut), bench.marked().as_str(), bench.held().as_str()), ((0, 1, 0), "ab|d", "|c"));
    bench.press(Mark);
    assert_eq!((bench.press(Paste), bench.marked().as_str()), ((0, 0, 0), "ab^|cd"));
    bench.press(Function(Move, Left, Character));
    assert_eq!((bench.press(Paste), bench.marked().as_str()), ((0, 0, 0), "a|cb^cd"));
    bench.press(Function(Move, Right, Document));
    assert_eq!((bench.press(Paste), bench.marked().as_str()), ((0, 0, 0), "acb^cd|c"));
}

#[test]
fn full_for_paste() {
    let mut bench = Bench::open_marked("ab^cd|", 5, 16, 16);
    assert_eq!((bench.press(Cut), bench.marked().as_str()), ((0, 2, 0), "ab|"));
    assert_eq!((bench.press(Paste), bench.marked().as_str()), ((0, 0, 0), "abcd|"));
    bench.press(Mark);
    assert_eq!((bench.press(Paste), bench.marked().as_str(), bench.held().as_str()), ((6, 0, 0), "abcd^|", "cd|"));
    // Into the last free byte, and into none.
    bench.press(Function(Move, Left, Character));
    assert_eq!((bench.press(Cut), bench.marked().as_str(), bench.held().as_str()), ((0, 1, 0), "abc|", "|d"));
    assert_eq!((bench.press(Paste), bench.marked().as_str()), ((0, 0, 0), "abc|d"));
    assert_eq!((bench.press(Paste), bench.marked().as_str()), ((0, 0, 0), "abc|dd"));
    assert_eq!((bench.press(Paste), bench.marked().as_str()), ((6, 0, 0), "abc|dd"));
    // A full store can be cut, and nothing can be pasted into it.
    bench.press(Mark);
    assert_eq!((bench.press(Cut), bench.held().as_str()), ((0, 0, 0), "|"));
    assert_eq!((bench.press(Paste), bench.marked().as_str()), ((0, 0, 0), "abc|dd"));
}

#[test]
fn c14_a_quotation() {
    let mut bench = Bench::open("ab|c", 3, 16, 16);
    bench.press(Quote);
    // Before the bell of a missing mark.
    for key in [Mark, Cut, Paste] {
        let given = bench.reply.record;
        assert_eq!(bench.press(key), (5, 0, 0));
        assert_eq!(bench.reply.record, given);
    }
    // The mark stays, whatever is done in a quotation.
    let mut bench = open("a^b|c");
    bench.press(Quote);
    bench.type_text("xyz");
    bench.press(Function(Delete, Left, Document));
    bench.press(Recall);
    bench.press(Recall);
    assert_eq!((bench.press(Cut), bench.quotation().as_str(), bench.marked().as_str()), ((5, 0, 0), "xyzxyz|", "a^b|c"));
    bench.press(Quote);
    assert_eq!(bench.marked(), "a^b|c");
    bench.press(Quote);
    bench.type_text("a");
    assert_eq!((bench.press(Find(Left)), bench.marked().as_str()), ((0, 2, 0), "|a^bc"));
    bench.press(Quote);
    assert_eq!((bench.press(Replace), bench.marked().as_str()), ((0, 0, 0), "^|bc"));
}

#[test]
fn c6_names_of_the_bench_program() {
    let keys = ["mark", "move-right-document", "cut", "cut", "paste", "paste", "paste", "quote", "mark"];
    let lines: String = keys.iter().map(|name| format!("key={name}\n")).collect();
    let input = format!("rows=1\ncols=4\nstore=4\ntext=2\nab\n{lines}");
    let blocks = [
        "code=0\nsteps=0\nlines=0\nbell=0\nfirst=1\nlast=1\nrow=1\ncol=0\nline=ab  \n",
        "code=0\nsteps=0\nlines=0\nbell=0\nfirst=0\nlast=0\nrow=1\ncol=0\nline=ab  \n",
        "code=0\nsteps=2\nlines=0\nbell=0\nfirst=0\nlast=0\nrow=1\ncol=2\nline=ab  \n",
        "code=0\nsteps=2\nlines=0\nbell=0\nfirst=1\nlast=1\nrow=1\ncol=0\nline=    \n",
        "code=0\nsteps=0\nlines=0\nbell=1\nfirst=0\nlast=0\nrow=1\ncol=0\nline=    \n",
        "code=0\nsteps=0\nlines=0\nbell=0\nfirst=1\nlast=1\nrow=1\ncol=2\nline=ab  \n",
        "code=0\nsteps=0\nlines=0\nbell=0\nfirst=1\nlast=1\nrow=1\ncol=4\nline=abab\n",
        "code=6\nplace=0\n",
        "code=0\nsteps=0\nlines=0\nbell=0\nfirst=1\nlast=1\nrow=1\ncol=1\nline=>   \n",
        "code=5\nplace=0\n",
    ];
    assert_eq!(String::from_utf8_lossy(&run(&Second, input.as_bytes())), blocks.concat());
}

#[test]
fn kinds_at_the_boundary() {
    for (kind, key) in [(6, Mark), (7, Cut), (8, Paste)] {
        assert_eq!(numbers_of(key), Numbers { kind, a: 0, b: 0, c: 0 });
        assert_eq!(key_of(Numbers { kind, a: 256, b: 9, c: 9 }), Some(key));
    }
}
