//! 02, M-105, with the readings C23 to C26: NEWLINE and TAB. All is worked out by hand; `^` is the mark.

mod bench;

use bench::Bench;
use second::core::{key_of, numbers_of, Numbers, Second};
use second::plain::{Action::*, Direction::*, Key, Key::*, Place::*};
use second::script::run;

/// A key that is accepted makes one text into another, reports this many steps, and neither rings nor crosses lines.
fn makes(before: &str, key: Key, steps: usize, after: &str) {
    let mut bench = Bench::open(before, 64, 16, 16);
    assert_eq!((bench.press(key), bench.text().as_str()), ((0, steps, 0), after), "{before:?}, {key:?}");
    assert_eq!(bench.reply.answer.lines, 0);
}

#[test]
fn c23_leading_spaces_left_of_the_cursor() {
    makes("|", Newline, 1, "\n|");
    // 001's formula gives 3 here, against its own prose.
    makes("foo|", Newline, 1, "foo\n|");
    makes("  foo|", Newline, 3, "  foo\n  |");
    makes("  fo|o", Newline, 3, "  fo\n  |o");
    makes("|  foo", Newline, 1, "\n|  foo");
    makes(" |  foo", Newline, 2, " \n |  foo");
    makes("   |", Newline, 4, "   \n   |");
    // Spaces behind another byte lead nothing.
    makes("a  |", Newline, 1, "a  \n|");
    makes("  a  b|", Newline, 3, "  a  b\n  |");
}

#[test]
fn the_current_line_alone() {
    makes("    a\nb|", Newline, 1, "    a\nb\n|");
    makes("a\n  b|", Newline, 3, "a\n  b\n  |");
    makes("  a\n|", Newline, 1, "  a\n\n|");
    makes("a|\n   b", Newline, 1, "a\n|\n   b");
    // An insert of a newline stays a plain one (C26).
    makes("  foo|", Insert(10), 0, "  foo\n|");
}

#[test]
fn tab_to_a_multiple_of_eight() {
    for column in 0..=17 {
        let before = "x".repeat(column);
        let count = [8, 7, 6, 5, 4, 3, 2, 1, 8, 7, 6, 5, 4, 3, 2, 1, 8, 7][column];
        makes(&format!("{before}|"), Tab, count, &format!("{before}{}|", " ".repeat(count)));
    }
    makes("abc\nd|e", Tab, 7, "abc\nd       |e");
    makes("abcdefgh\n|", Tab, 8, "abcdefgh\n        |");
    makes("  |x", Tab, 6, "        |x");
}

#[test]
fn in_a_quotation() {
    let mut bench = Bench::open("    ab|c", 32, 16, 16);
    bench.press(Quote);
    // Neither the document's spaces nor the `>` count.
    assert_eq!((bench.press(Newline), bench.quotation().as_str()), ((0, 1, 0), "\n|"));
    bench.press(Function(Delete, Left, Character));
    assert_eq!((bench.press(Tab), bench.quotation().as_str()), ((0, 8, 0), "        |"));
    assert_eq!((bench.press(Newline), bench.quotation().as_str()), ((0, 9, 0), "        \n        |"));
    bench.press(Function(Delete, Left, Document));
    bench.type_text(" ab");
    assert_eq!((bench.press(Tab), bench.quotation().as_str()), ((0, 5, 0), " ab     |"));
    assert_eq!((bench.press(Newline), bench.quotation().as_str()), ((0, 2, 0), " ab     \n |"));
    assert_eq!((bench.press(Tab), bench.quotation().as_str()), ((0, 7, 0), " ab     \n        |"));
    assert_eq!(bench.text(), "    ab|c");
    // The document's room is nothing to a quotation.
    let mut bench = Bench::open("|ab", 2, 16, 16);
    bench.press(Quote);
    assert_eq!((bench.press(Tab), bench.quotation().as_str()), ((0, 8, 0), "        |"));
}

#[test]
fn recall_text_stays() {
    let mut bench = Bench::open("  ab|", 32, 16, 16);
    bench.press(Function(Delete, Left, Character));
    assert_eq!((bench.press(Newline), bench.text().as_str()), ((0, 3, 0), "  a\n  |"));
    assert_eq!((bench.press(Tab), bench.text().as_str()), ((0, 6, 0), "  a\n        |"));
    assert_eq!((bench.press(Recall), bench.text().as_str()), ((0, 0, 0), "  a\n        b|"));
}

#[test]
fn full_for_the_whole_insertion() {
    // NEWLINE needs 3 bytes, TAB 5.
    for (t, newline, tab) in [(5, 6, 6), (6, 6, 6), (7, 6, 6), (8, 0, 6), (9, 0, 6), (10, 0, 0)] {
        let mut bench = Bench::open("  a|bc", t, 16, 16);
        let text = if newline == 0 { "  a\n  |bc" } else { "  a|bc" };
        assert_eq!((bench.press(Newline).0, bench.text().as_str()), (newline, text), "{t}");
        let mut bench = Bench::open("  a|bc", t, 16, 16);
        let text = if tab == 0 { "  a     |bc" } else { "  a|bc" };
        assert_eq!((bench.press(Tab).0, bench.text().as_str()), (tab, text), "{t}");
    }
    // A quotation has room for 1,024 bytes: 127 TABs fill 1,016, then 7 bytes leave 1.
    let mut bench = Bench::open("|", 16, 16, 16);
    bench.press(Quote);
    for _ in 0..127 {
        assert_eq!(bench.press(Tab), (0, 8, 0));
    }
    bench.type_text("abcdefg");
    assert_eq!(bench.press(Newline), (6, 0, 0));
    assert_eq!(bench.press(Tab), (0, 1, 0));
    assert_eq!(bench.press(Tab), (6, 0, 0));
    bench.press(Function(Move, Left, Document));
    assert_eq!(bench.press(Newline), (6, 0, 0));
    bench.press(Function(Delete, Right, Character));
    assert_eq!(bench.press(Newline), (0, 1, 0));
}

#[test]
fn the_mark_follows() {
    for (before, key, after) in [
        (" a^b|c", Newline, " a^b\n |c"),
        (" ab^|c", Newline, " ab^\n |c"),
        (" ab|c^", Newline, " ab\n |c^"),
        (" ab|c^", Tab, " ab     |c^"),
        (" ab^|c", Tab, " ab^     |c"),
    ] {
        let mut bench = Bench::open_marked(before, 16, 16, 16);
        bench.press(key);
        assert_eq!(bench.marked(), after);
    }
}

#[test]
fn c6_names_of_the_bench_program() {
    let input = "rows=2\ncols=8\nstore=12\ntext=2\n a\nkey=move-right-document\nkey=newline\nkey=tab\nkey=newline\n";
    let blocks = [
        "code=0\nsteps=0\nlines=0\nbell=0\nfirst=1\nlast=2\nrow=1\ncol=0\nline= a      \nline=        \n",
        "code=0\nsteps=2\nlines=0\nbell=0\nfirst=0\nlast=0\nrow=1\ncol=2\nline= a      \nline=        \n",
        "code=0\nsteps=2\nlines=0\nbell=0\nfirst=0\nlast=0\nrow=2\ncol=1\nline= a      \nline=        \n",
        "code=0\nsteps=7\nlines=0\nbell=0\nfirst=0\nlast=0\nrow=2\ncol=8\nline= a      \nline=        \n",
        "code=6\nplace=0\n",
    ];
    assert_eq!(String::from_utf8_lossy(&run(&Second, input.as_bytes())), blocks.concat());
}

#[test]
fn kinds_at_the_boundary() {
    for (kind, key) in [(9, Newline), (10, Tab)] {
        assert_eq!(numbers_of(key), Numbers { kind, a: 0, b: 0, c: 0 });
        assert_eq!(key_of(Numbers { kind, a: 256, b: 9, c: 9 }), Some(key));
    }
    assert_eq!(key_of(Numbers { kind: 11, a: 0, b: 0, c: 0 }), None);
}
