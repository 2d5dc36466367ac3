//! 02, M-100, with the readings C1 to C4: the bytes for real terminals and a terminal that is fed them. All is counted by hand.

use second::core::{SIZE, TEXT};
use second::paint::{paint, Ask, Painting, ROOM};
use second::terminal::Terminal;

/// Two rows of three columns, both named, the cursor behind the first cell of row 2.
const ASK: Ask = Ask { h: 2, w: 3, first: 1, last: 2, row: 2, column: 1 };
const SCREEN: &[u8] = b"ab cd~";
/// 6 + 3 bytes for each row and 6 for the cursor.
const BYTES: &[u8] = b"\x1b[1;1Hab \x1b[2;1Hcd~\x1b[2;2H";

/// The answer with a buffer of this length, and the buffer, which was full of `#`.
fn painted(ask: Ask, screen: &[u8], length: usize) -> (Painting, Vec<u8>) {
    let mut buffer = vec![b'#'; length];
    (paint(ask, screen, &mut buffer), buffer)
}

fn assert_bytes(ask: Ask, screen: &[u8], bytes: &[u8]) {
    let expected = Painting { code: 0, place: 0, count: bytes.len() };
    assert_eq!(painted(ask, screen, bytes.len()), (expected, bytes.to_vec()), "{ask:?}");
}

/// It is refused, and no byte of the buffer is written.
fn assert_refused(ask: Ask, screen: &[u8], length: usize, code: usize, place: usize) {
    assert_eq!(painted(ask, screen, length), (Painting { code, place, count: 0 }, vec![b'#'; length]), "{ask:?}");
}

#[test]
fn the_bytes_of_a_small_screen() {
    assert_eq!((SIZE, TEXT, ROOM, BYTES.len()), (1, 3, 7, 24));
    assert_bytes(ASK, SCREEN, BYTES);
    assert_bytes(Ask { first: 2, ..ASK }, SCREEN, b"\x1b[2;1Hcd~\x1b[2;2H");
    assert_bytes(Ask { last: 1, row: 1, column: 0, ..ASK }, SCREEN, b"\x1b[1;1Hab \x1b[1;1H");
    assert_bytes(Ask { first: 0, last: 0, ..ASK }, SCREEN, b"\x1b[2;2H");
}

#[test]
fn numbers_of_two_and_three_digits() {
    let ask = Ask { h: 64, w: 256, first: 0, last: 0, row: 64, column: 99 };
    let screen = [b' '; 64 * 256];
    assert_bytes(ask, &screen, b"\x1b[64;100H");
    assert_bytes(Ask { row: 10, column: 8, ..ask }, &screen, b"\x1b[10;9H");
    let row = [&b"\x1b[10;1H"[..], &[b' '; 256], b"\x1b[1;256H"].concat();
    assert_bytes(Ask { first: 10, last: 10, row: 1, column: 255, ..ask }, &screen, &row);
}

#[test]
fn c3_the_column_behind_the_last_cell() {
    let ask = Ask { first: 0, last: 0, ..ASK };
    assert_bytes(Ask { column: 2, ..ask }, SCREEN, b"\x1b[2;3H");
    assert_bytes(Ask { column: 3, ..ask }, SCREEN, b"\x1b[2;3H");
    assert_refused(Ask { column: 4, ..ask }, SCREEN, 24, SIZE, 0);
    assert_bytes(Ask { h: 1, w: 1, first: 1, last: 1, row: 1, column: 1 }, b"x", b"\x1b[1;1Hx\x1b[1;1H");
}

#[test]
fn size_for_the_screen_and_the_cursor() {
    let none = Ask { first: 0, last: 0, row: 1, column: 0, ..ASK };
    for (h, w, length) in [(0, 3, 0), (2, 0, 0), (65, 1, 65), (1, 257, 257), (2, 3, 5), (2, 3, 7), (usize::MAX, usize::MAX, 1)] {
        assert_refused(Ask { h, w, ..none }, &vec![b' '; length], 24, SIZE, 0);
    }
    assert_bytes(Ask { h: 64, w: 1, ..none }, &[b' '; 64], b"\x1b[1;1H");
    assert_bytes(Ask { h: 1, w: 256, ..none }, &[b' '; 256], b"\x1b[1;1H");
    for (row, column) in [(0, 1), (3, 1), (usize::MAX, 1), (1, usize::MAX)] {
        assert_refused(Ask { row, column, ..ASK }, SCREEN, 24, SIZE, 0);
    }
}

#[test]
fn c2_rows_off_the_screen_or_out_of_order() {
    for (first, last) in [(0, 1), (0, 2), (1, 0), (2, 0), (2, 1), (1, 3), (3, 3), (1, usize::MAX), (usize::MAX, usize::MAX)] {
        assert_refused(Ask { first, last, ..ASK }, SCREEN, 24, SIZE, 0);
    }
}

#[test]
fn c1_a_byte_that_no_cell_shows() {
    for byte in [0, 10, 27, 31, 127, 128, 255] {
        assert_refused(ASK, &[b'a', b'b', b' ', byte, b'd', byte], 24, TEXT, 3);
        // Row 1 is not named, or none is.
        assert_refused(Ask { first: 2, ..ASK }, &[byte, b'b', b' ', b'c', b'd', b'~'], 24, TEXT, 0);
        assert_refused(Ask { first: 0, last: 0, ..ASK }, &[b'a', b'b', b' ', b'c', b'd', byte], 24, TEXT, 5);
    }
}

#[test]
fn c4_a_buffer_that_just_fits() {
    let accepted = Painting { code: 0, place: 0, count: 24 };
    assert_eq!(painted(ASK, SCREEN, 24), (accepted, BYTES.to_vec()));
    for length in [23, 1, 0] {
        assert_refused(ASK, SCREEN, length, ROOM, 0);
    }
    // The bytes behind the count stay.
    assert_eq!(painted(ASK, SCREEN, 25), (accepted, [BYTES, b"#"].concat()));
    assert_eq!(painted(ASK, SCREEN, 30), (accepted, [BYTES, b"######"].concat()));
}

#[test]
fn refusals_in_their_order() {
    let bad = b"ab\ncd~";
    assert_refused(Ask { row: 3, ..ASK }, bad, 0, SIZE, 0);
    assert_refused(Ask { row: 3, ..ASK }, SCREEN, 0, SIZE, 0);
    assert_refused(ASK, bad, 0, TEXT, 2);
    assert_refused(ASK, SCREEN, 0, ROOM, 0);
}

#[test]
fn a_terminal_shows_the_screen() {
    let mut terminal = Terminal::showing(b'E', 2, 3);
    assert!(terminal.feed(BYTES));
    assert_eq!((&terminal.cells[..], terminal.cursor), (SCREEN, (2, 2)));
    // Row 2 alone has changed, and only it is sent.
    assert!(terminal.feed(b"\x1b[2;1Hxyz\x1b[1;3H"));
    assert_eq!((&terminal.cells[..], terminal.cursor), (&b"ab xyz"[..], (1, 3)));
    assert!(terminal.feed(b""));
}

#[test]
fn a_terminal_at_its_last_column() {
    let mut terminal = Terminal::showing(b'.', 2, 3);
    // Neither wraps...
    assert!(terminal.feed(b"\x1b[1;1Habc"));
    assert_eq!((&terminal.cells[..], terminal.cursor), (&b"abc..."[..], (1, 3)));
    assert!(terminal.feed(b"d"));
    assert_eq!((&terminal.cells[..], terminal.cursor), (&b"abd..."[..], (1, 3)));
    // ... nor scrolls.
    assert!(terminal.feed(b"\x1b[2;3Hxy"));
    assert_eq!((&terminal.cells[..], terminal.cursor), (&b"abd..y"[..], (2, 3)));
}

#[test]
fn a_terminal_is_strict() {
    let bytes_no_cell_shows: [&[u8]; 6] = [b"\0", b"a\n", b"\r", b"\x7f", b"\x80", b"\x9b1;1H"];
    let places_off_the_screen: [&[u8]; 5] =
        [b"\x1b[0;1H", b"\x1b[1;0H", b"\x1b[3;1H", b"\x1b[1;4H", b"\x1b[18446744073709551617;1H"];
    let leading_zeros: [&[u8]; 3] = [b"\x1b[01;1H", b"\x1b[1;01H", b"\x1b[00;1H"];
    let other_sequences: [&[u8]; 9] =
        [b"\x1b[H", b"\x1b[1H", b"\x1b[;H", b"\x1b[1;H", b"\x1b[;1H", b"\x1b[1;1f", b"\x1b[+1;1H", b"\x1b[1;1;1H", b"\x1b]1;1H"];
    let ends_in_the_middle: [&[u8]; 5] = [b"ab\x1b", b"\x1b[", b"\x1b[1", b"\x1b[1;", b"\x1b[1;1"];
    for bytes in [&bytes_no_cell_shows[..], &places_off_the_screen, &leading_zeros, &other_sequences, &ends_in_the_middle].concat()
    {
        assert!(!Terminal::showing(b' ', 2, 3).feed(bytes), "{:?}", String::from_utf8_lossy(bytes));
    }
    assert!(Terminal::showing(b' ', 2, 3).feed(b" ~[;H\x1b[2;3H"));
}
