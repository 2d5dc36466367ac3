//! 02, M-107, with the readings C30 to C32 and the letters of docs/KEYBOARD.md: keys as terminals send them.

use second::core::{key_of, numbers_of};
use second::keyboard::{keys, read, receive, Received, LETTERS, SEQUENCE};
use second::plain::{Action::*, Direction::*, Key, Key::*, Place::*};

fn is(bytes: &[u8], key: Key, used: usize) {
    assert_eq!(receive(bytes), Received::Key(key, used), "{:?}", bytes.escape_ascii().to_string());
}

fn refused(bytes: &[u8], used: usize) {
    assert_eq!(receive(bytes), Received::Sequence(used), "{:?}", bytes.escape_ascii().to_string());
}

/// Every key that the editor has, with an insert of each byte that a terminal sends.
fn all_keys() -> Vec<Key> {
    let mut keys: Vec<Key> = (32..=126).map(Insert).collect();
    keys.push(Insert(10));
    for action in [Move, Delete] {
        for direction in [Left, Right] {
            keys.extend([Character, Word, LineBeginning, LineEnding, Document].map(|place| Function(action, direction, place)));
        }
    }
    keys.extend([Recall, Quote, Find(Left), Find(Right), Replace, Mark, Cut, Paste, Newline, Tab]);
    keys
}

#[test]
fn inserts() {
    for byte in 32..=126 {
        is(&[byte], Insert(byte), 1);
        is(&[byte, 0], Insert(byte), 1);
    }
    // 13 inserts 10; it is not NEWLINE, which has a letter.
    is(b"\r", Insert(10), 1);
    is(b"\r\n", Insert(10), 1);
}

#[test]
fn delete_and_the_arrows() {
    is(b"\x7f", Function(Delete, Left, Character), 1);
    is(b"\x1b[C", Function(Move, Right, Character), 3);
    is(b"\x1b[D", Function(Move, Left, Character), 3);
    is(b"\x1b[H", Function(Move, Left, Document), 3);
    is(b"\x1b[F", Function(Move, Right, Document), 3);
    is(b"\x1b[C\x1b[D", Function(Move, Right, Character), 3);
}

#[test]
fn c30_the_letters() {
    // As docs/KEYBOARD.md lists them.
    for (letter, key) in [
        ('r', Recall),
        ('q', Quote),
        ('f', Find(Right)),
        ('u', Find(Left)),
        ('x', Replace),
        ('m', Mark),
        ('c', Cut),
        ('p', Paste),
        ('n', Newline),
        ('t', Tab),
        ('b', Function(Move, Left, Word)),
        ('w', Function(Move, Right, Word)),
        ('a', Function(Move, Left, LineBeginning)),
        ('e', Function(Move, Right, LineEnding)),
        ('k', Function(Move, Left, LineEnding)),
        ('j', Function(Move, Right, LineBeginning)),
        ('d', Function(Delete, Right, Character)),
        ('g', Function(Delete, Left, Word)),
        ('h', Function(Delete, Right, Word)),
        ('s', Function(Delete, Left, LineBeginning)),
        ('l', Function(Delete, Right, LineEnding)),
        ('i', Function(Delete, Left, Document)),
        ('o', Function(Delete, Right, Document)),
        ('y', Function(Delete, Right, LineBeginning)),
        ('z', Function(Delete, Left, LineEnding)),
    ] {
        is(&[27, letter as u8], key, 2);
        is(&[27, letter as u8, b'['], key, 2);
    }
    assert!(LETTERS.iter().all(|(letter, _)| letter.is_ascii_lowercase()));
    // 25 of 26 letters (C31): `v` is no key.
    assert_eq!(LETTERS.len(), 25);
    refused(b"\x1bv", 2);
}

#[test]
fn every_key_has_its_bytes_once() {
    let keys = keys();
    for key in all_keys() {
        assert_eq!(keys.iter().filter(|(_, other)| *other == key).count(), 1, "{key:?}");
    }
    assert_eq!(keys.len(), all_keys().len());
    for (bytes, key) in &keys {
        is(bytes, *key, bytes.len());
        // A host passes the numbers on.
        assert_eq!(key_of(numbers_of(*key)), Some(*key));
    }
}

#[test]
fn no_keys_bytes_begin_anothers() {
    let keys = keys();
    for (i, (bytes, _)) in keys.iter().enumerate() {
        for (j, (other, _)) in keys.iter().enumerate() {
            assert!(i == j || !other.starts_with(bytes));
        }
    }
}

#[test]
fn more_needed() {
    for bytes in [b"" as &[u8], b"\x1b", b"\x1b["] {
        assert_eq!(receive(bytes), Received::More);
    }
    // For nothing else: every byte by itself, behind ESC and behind ESC `[`.
    for byte in 0..=255 {
        for before in [b"" as &[u8], b"\x1b", b"\x1b["] {
            let bytes = [before, &[byte]].concat();
            let waits = bytes == b"\x1b" || bytes == b"\x1b[";
            assert_eq!(receive(&bytes) == Received::More, waits, "{bytes:?}");
        }
    }
}

#[test]
fn c32_sequence() {
    assert_eq!(SEQUENCE, 9);
    // No key begins so: 1 used.
    for byte in (0..=31).filter(|byte| ![13, 27].contains(byte)).chain(128..=255) {
        refused(&[byte], 1);
        refused(&[byte, b'a'], 1);
    }
    // No key goes on so behind ESC: 2 used. ESC again, and capitals.
    for byte in (0..=255_u8).filter(|byte| *byte != b'[' && !byte.is_ascii_lowercase()) {
        refused(&[27, byte], 2);
        refused(&[27, byte, b'C'], 2);
    }
    refused(b"\x1b\x1b", 2);
    refused(b"\x1b\x1b[C", 2);
    // Nor behind ESC `[`: 3 used.
    for byte in (0..=255).filter(|byte| !b"CDHF".contains(byte)) {
        refused(&[27, b'[', byte], 3);
        refused(&[27, b'[', byte, b'~'], 3);
    }
}

#[test]
fn an_answer_stays_when_more_bytes_come() {
    let firsts = [b"" as &[u8], b"\x1b", b"\x1b["];
    for first in firsts {
        for byte in 0..=255 {
            let bytes = [first, &[byte]].concat();
            let received = receive(&bytes);
            if received != Received::More {
                for more in [b"a" as &[u8], b"\x1b[C", b"\0", b"[", b"C"] {
                    assert_eq!(receive(&[&bytes, more].concat()), received);
                }
            }
        }
    }
}

const STREAM: &[u8] = b"a\x1b[C\r\x1bq~\x1b\x1b[D\n\x1b[3~\x1b[\x1bf\x7f\x1bv\xff\x1b[";

/// What the stream above reads as.
fn reading() -> Vec<Received> {
    use Received::Sequence;
    vec![
        Received::Key(Insert(b'a'), 1),
        Received::Key(Function(Move, Right, Character), 3),
        Received::Key(Insert(10), 1),
        Received::Key(Quote, 2),
        Received::Key(Insert(b'~'), 1),
        // ESC ESC are used, so `[D` is two inserts.
        Sequence(2),
        Received::Key(Insert(b'['), 1),
        Received::Key(Insert(b'D'), 1),
        Sequence(1),
        // The `3` of a Delete key is used, its `~` is not.
        Sequence(3),
        Received::Key(Insert(b'~'), 1),
        Sequence(3),
        Received::Key(Insert(b'f'), 1),
        Received::Key(Function(Delete, Left, Character), 1),
        Sequence(2),
        Sequence(1),
    ]
}

#[test]
fn a_stream_has_one_reading() {
    let expected = (reading(), b"\x1b[".to_vec());
    assert_eq!(read(&[STREAM]), expected);
    // Cut at every place, and at every two.
    for i in 0..=STREAM.len() {
        for j in i..=STREAM.len() {
            assert_eq!(read(&[&STREAM[..i], &STREAM[i..j], &STREAM[j..]]), expected);
        }
    }
    // Byte by byte, with empty pieces between.
    let pieces: Vec<&[u8]> = STREAM.chunks(1).flat_map(|byte| [byte, b""]).collect();
    assert_eq!(read(&pieces), expected);
    assert_eq!(read(&[]), (Vec::new(), Vec::new()));
    // What is used and what is left is the whole stream.
    let used = |received: &Received| match received {
        Received::Key(_, used) | Received::Sequence(used) => *used,
        Received::More => 0,
    };
    assert_eq!(expected.0.iter().map(used).sum::<usize>() + expected.1.len(), STREAM.len());
}

#[test]
fn the_bytes_of_keys_read_as_these_keys() {
    let keys = keys();
    for (first, key) in &keys {
        for (second, other) in &keys {
            let expected = vec![Received::Key(*key, first.len()), Received::Key(*other, second.len())];
            assert_eq!(read(&[&[&first[..], second].concat()]), (expected, Vec::new()));
        }
    }
}
