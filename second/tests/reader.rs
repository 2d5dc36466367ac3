//! 02, M-106, with the readings C27 to C29: no line longer than the reader takes. All is counted by hand.

mod bench;

use bench::Bench;
use second::bytes::{Record, Stores};
use second::core::{numbers_of, Answer, Core, Second, FULL, LINE, LONG, SESSION, TEXT};
use second::plain::{Action::*, Direction::*, Key::*, Mode, Place::*};
use second::reader::LONGEST_LINE;
use second::script::run;

const T: usize = 4_096;

fn run_of(byte: &str, count: usize) -> String {
    byte.repeat(count)
}

/// A session on a left and a right text.
fn between(l: &str, r: &str) -> Bench {
    Bench::open(&format!("{l}|{r}"), T, 4, 16)
}

#[test]
fn the_number() {
    assert_eq!((LONGEST_LINE, LINE), (1_024, 8));
}

#[test]
fn opening() {
    let (good, bad) = (run_of("a", 1_024), run_of("b", 1_025));
    for (text, code, place) in [
        (good.clone(), 0, 0),
        (format!("{good}\n"), 0, 0),
        (format!("{good}\n{good}\n{good}"), 0, 0),
        (format!("\n{good}"), 0, 0),
        (bad.clone(), LINE, 0),
        (format!("{bad}\n"), LINE, 0),
        (format!("{good}b"), LINE, 0),
        (format!("c\n{bad}"), LINE, 2),
        (format!("\n\n{bad}\n"), LINE, 2),
        (format!("{good}\n{bad}\n{bad}"), LINE, 1_025),
        (format!("{good}\n{good}\n{bad}"), LINE, 2_050),
        // TEXT is before LINE, wherever the byte stands.
        (format!("{bad}\n\t"), TEXT, 1_026),
    ] {
        let mut stores = Stores::zeros(T, 1, 1);
        stores.text[..text.len()].copy_from_slice(text.as_bytes());
        let before = stores.clone();
        let reply = Second.open(text.len(), 1, 1, &mut stores);
        assert_eq!((reply.answer.code, reply.answer.place), (code, place));
        if code != 0 {
            assert_eq!((reply.answer, reply.record), (Answer { code, place, ..Answer::default() }, Record::default()));
            assert_eq!(stores, before);
        }
    }
    // LONG is before LINE too.
    let mut stores = Stores::zeros(1_025, 1, 1);
    stores.text.fill(b'a');
    assert_eq!(Second.open(1_026, 1, 1, &mut stores).answer.code, LONG);
    // Bytes behind the n first are no text.
    assert_eq!(Second.open(1_024, 1, 1, &mut stores).answer.code, 0);
}

#[test]
fn inserts() {
    let mut bench = between("", &run_of("a", 1_023));
    assert_eq!(bench.press(Insert(b'x')), (0, 0, 0));
    let (given, before) = (bench.reply.record, bench.stores.clone());
    assert_eq!(bench.press(Insert(b'x')), (LINE, 0, 0));
    assert_eq!(bench.reply.answer, Answer { code: LINE, ..Answer::default() });
    assert_eq!((bench.reply.record, &bench.stores), (given, &before));
    // A newline makes two lines of it; then there is room in both.
    assert_eq!(bench.press(Insert(10)), (0, 0, 0));
    assert_eq!(bench.press(Insert(b'x')), (0, 0, 0));
    assert_eq!(bench.press(Insert(b'x')), (LINE, 0, 0));
    // A byte that isn't allowed is KEY.
    assert_eq!(bench.press(Insert(9)), (5, 0, 0));
}

#[test]
fn full_is_before_line() {
    let text = run_of("a", 1_024);
    assert_eq!(Bench::open(&format!("|{text}"), 1_024, 1, 1).press(Insert(b'x')), (FULL, 0, 0));
    assert_eq!(Bench::open(&format!("|{text}"), 1_025, 1, 1).press(Insert(b'x')), (LINE, 0, 0));
}

#[test]
fn joins_by_deletion() {
    let (a, b) = (run_of("a", 512), run_of("b", 512));
    for (key, l, r) in [
        (Function(Delete, Left, Character), format!("{a}\n"), b.clone()),
        (Function(Delete, Right, Character), a.clone(), format!("\n{b}")),
        (Function(Delete, Right, Character), format!("c\n{a}"), format!("\n{b}\nc")),
        (Function(Delete, Right, Word), a.clone(), format!("\n{b}")),
    ] {
        assert_eq!(between(&l, &r).press(key), (0, 1, 0));
    }
    for (key, l, r) in [
        (Function(Delete, Left, Character), format!("{a}\n"), format!("{b}b")),
        (Function(Delete, Right, Character), format!("a{a}"), format!("\n{b}")),
        (Function(Delete, Right, Character), format!("c\n{a}"), format!("\n{b}b\nc")),
        (Function(Delete, Right, Word), a.clone(), format!("\n{b}b")),
    ] {
        let mut bench = between(&l, &r);
        // Something to recall first: it stays (C27).
        bench.type_text("x");
        bench.press(Function(Delete, Left, Character));
        let (given, before) = (bench.reply.record, bench.stores.clone());
        assert_eq!(bench.press(key), (LINE, 0, 0));
        assert_eq!((bench.reply.record, &bench.stores), (given, &before));
        assert_eq!((bench.press(Recall), bench.text()), ((0, 0, 0), format!("{l}x|{r}")));
    }
}

#[test]
fn recall() {
    let text = run_of("a", 513);
    let mut bench = between(&text, "");
    assert_eq!(bench.press(Function(Delete, Left, Document)), (0, 513, 0));
    assert_eq!(bench.press(Recall), (0, 0, 0));
    assert_eq!((bench.press(Recall), bench.text()), ((LINE, 0, 0), format!("{text}|")));
    bench.press(Function(Delete, Left, Character));
    bench.press(Function(Delete, Left, Document));
    // 512 bytes, twice.
    assert_eq!((bench.press(Recall), bench.press(Recall)), ((0, 0, 0), (0, 0, 0)));
    assert_eq!(bench.press(Recall), (LINE, 0, 0));
}

#[test]
fn cut_and_paste() {
    let (a, b) = (run_of("a", 600), run_of("b", 424));
    let mut bench = Bench::open_marked(&format!("{a}^\n\n|{b}"), T, 4, 16);
    assert_eq!((bench.press(Cut), bench.text()), ((0, 2, 0), format!("{a}|{b}")));
    let mut bench = Bench::open_marked(&format!("{a}^\n\n|{b}b"), T, 4, 16);
    let (given, before) = (bench.reply.record, bench.stores.clone());
    assert_eq!(bench.press(Cut), (LINE, 0, 0));
    assert_eq!((bench.reply.record, &bench.stores), (given, &before));
    // 600 bytes are held and pasted once.
    let mut bench = Bench::open_marked(&format!("^{a}|"), T, 4, 16);
    assert_eq!(bench.press(Cut), (0, 600, 0));
    assert_eq!(bench.press(Paste), (0, 0, 0));
    bench.press(Mark);
    assert_eq!((bench.press(Paste), bench.marked()), ((LINE, 0, 0), format!("{a}^|")));
    assert_eq!(bench.press(Insert(10)), (0, 0, 0));
    assert_eq!((bench.press(Paste), bench.marked()), ((0, 0, 0), format!("{a}^\n{a}|")));
}

#[test]
fn c27_a_quoted_replace_stays_in_quoted() {
    let text = run_of("a", 1_023);
    let mut bench = between(&text, "b");
    bench.press(Quote);
    // The quotation has no such limit, and the virtual text has none.
    bench.type_text("xyz");
    assert_eq!(bench.press(Replace), (LINE, 0, 0));
    let editor = bench.editor();
    assert_eq!((editor.mode, bench.quotation().as_str()), (Mode::Quoted, "xyz|"));
    assert_eq!((editor.replacement.length(), bench.text()), (0, format!("{text}|b")));
    // The quotation becomes the pattern `b`; two bytes for one are too many, one for one is not.
    bench.press(Function(Delete, Left, Document));
    bench.type_text("b");
    assert_eq!(bench.press(Find(Right)), (0, 0, 1));
    bench.press(Quote);
    bench.type_text("xy");
    assert_eq!(bench.press(Replace), (LINE, 0, 0));
    bench.press(Function(Delete, Left, Character));
    assert_eq!((bench.press(Replace), bench.text()), ((0, 0, 0), format!("{text}x|")));
}

#[test]
fn replace_joins_lines() {
    for (count, code) in [(512, 0), (513, LINE)] {
        let (a, b) = (run_of("a", 512), run_of("b", count));
        let mut bench = between("", &format!("{a}\n{b}"));
        bench.press(Quote);
        bench.type_text("\n");
        assert_eq!(bench.press(Find(Right)), (0, 512, 0));
        assert_eq!(bench.press(Replace), (code, 0, 0));
    }
}

#[test]
fn newline_and_tab() {
    // Column 1,016 leaves just the eight that a TAB inserts; column 1,017 leaves seven, and so many go in.
    for (l, r, code, steps) in [(1_016, 0, 0, 8), (1_017, 0, 0, 7), (1_024, 0, LINE, 0), (1_016, 1, LINE, 0), (1_017, 1, LINE, 0)] {
        assert_eq!(between(&run_of("a", l), &run_of("b", r)).press(Tab), (code, steps, 0));
    }
    // The spaces of the new line take no more room than those of the old one.
    let mut bench = between(&run_of(" ", 10), &run_of("b", 1_014));
    assert_eq!(bench.press(Newline), (0, 11, 0));
    assert_eq!(bench.press(Insert(b'x')), (LINE, 0, 0));
}

#[test]
fn keys_that_leave_the_document_alone() {
    let text = run_of("a", 1_024);
    let mut bench = between(&text, "");
    assert_eq!(bench.press(Function(Move, Left, Document)), (0, 1_024, 0));
    assert_eq!(bench.press(Mark), (0, 0, 0));
    assert_eq!(bench.press(Quote), (0, 0, 0));
    bench.type_text(&run_of("q", 1_024));
    assert_eq!(bench.press(Quote), (0, 0, 0));
    assert_eq!(bench.press(Function(Delete, Right, Character)), (0, 1, 0));
    assert_eq!(bench.press(Recall), (0, 0, 0));
    assert_eq!(bench.press(Recall), (LINE, 0, 0));
}

#[test]
fn c29_a_session_needs_it_too() {
    // At the cursor: 600 bytes left of it, and as many right of it as make 1,024 or 1,025.
    for (r, code) in [(424, 0), (425, SESSION)] {
        let mut stores = Stores::zeros(2_000, 1, 1);
        stores.text[..600].fill(b'a');
        stores.text[2_000 - r..].fill(b'b');
        let record = Record { l: 600, r, left: 600, rows: 1, columns: 1, ..Record::default() };
        assert_eq!(Second.key(record, numbers_of(Mark), &mut stores).answer.code, code);
    }
    // Away from it, in QUOTED, and before KEY.
    for (count, code) in [(1_024, 5), (1_025, SESSION)] {
        let mut stores = Stores::zeros(2_000, 1, 1);
        stores.text[2_000 - count - 1..].fill(b'b');
        stores.text[2_000 - count - 1] = 10;
        let record = Record { r: count + 1, mode: 1, top: 1, rows: 1, columns: 1, ..Record::default() };
        assert_eq!(Second.key(record, numbers_of(Mark), &mut stores).answer.code, code);
    }
}

#[test]
fn the_bench_program() {
    let header = |count: usize| format!("rows=1\ncols=1\nstore=4096\ntext={}\nc\n{}\n", count + 2, run_of("a", count));
    assert_eq!(String::from_utf8_lossy(&run(&Second, header(1_025).as_bytes())), "code=8\nplace=2\n");
    let input = header(1_024) + "key=move-right-character\nkey=delete-right-character\nkey=delete-left-character\n";
    let blocks = [
        "code=0\nsteps=0\nlines=0\nbell=0\nfirst=1\nlast=1\nrow=1\ncol=0\nline=c\n",
        "code=0\nsteps=1\nlines=0\nbell=0\nfirst=0\nlast=0\nrow=1\ncol=1\nline=c\n",
        "code=8\nplace=0\n",
        "code=0\nsteps=1\nlines=0\nbell=0\nfirst=1\nlast=1\nrow=1\ncol=0\nline= \n",
    ];
    assert_eq!(String::from_utf8_lossy(&run(&Second, input.as_bytes())), blocks.concat());
}
