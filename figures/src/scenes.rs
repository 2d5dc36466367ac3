//! What is measured: each scene is a session and a list of keys to press on it.

use crate::chidukwore::{insert, Key, Record, CUT, FIND, MARK, NEWLINE, PASTE, QUOTE, RECALL, TAB, UPFIND};
use crate::proved;
use crate::random::Random;
use crate::stores::Stores;

const DOCUMENT_LEFT: Key = Key(1, 0, 0, 4);
const DOCUMENT_RIGHT: Key = Key(1, 0, 1, 4);
const DELETE_TO_END: Key = Key(1, 1, 1, 4);
const NEXT_LINE: Key = Key(1, 0, 1, 2);
const NEXT_CHARACTER: Key = Key(1, 0, 1, 0);
const LAST_CHARACTER: Key = Key(1, 0, 0, 0);
const NEXT_WORD: Key = Key(1, 0, 1, 1);
const LAST_WORD: Key = Key(1, 0, 0, 1);

/// The longest line of a document that its reader takes.
const LONGEST_LINE: usize = 1_024;

pub struct Scene {
    pub name: &'static str,
    pub record: Record,
    pub stores: Stores,
    pub keys: Vec<Key>,
}

/// All scenes with T bytes of text store, H rows and W columns.
pub fn all(t: usize, h: usize, w: usize) -> Vec<Scene> {
    let scene = |name, document: &[u8], before: &[Key], keys: &[Key]| {
        let (mut record, mut stores) = proved::open(document, t, h, w);
        for &key in before {
            record = proved::key(record, key, &mut stores).record;
        }
        Scene { name, record, stores, keys: keys.to_vec() }
    };
    // A share of the store stays free, as room for what is typed.
    let n = t - t / 64;
    let text = ordinary(n);
    let letters = lines_of(b'a', LONGEST_LINE, n);
    let halves = lines_of(b'a', LONGEST_LINE / 2, n);
    let short = lines_of(b'a', 8, n);
    let typed = typing(b"the quick brown fox jumps over\nthe lazy dog");
    let middle = to_middle(&text);
    // Each line is indented by eight spaces, as the one before. The free bytes of the smaller store are enough for two.
    let nested = [vec![NEWLINE], typing(b"time=10"), vec![TAB], typing(b"value=2.5")].concat().repeat(2);
    // Whole lines, but for the last newline, so that the last line is as long as one may be.
    let spaces = lines_of(b' ', LONGEST_LINE, t / 2 / (LONGEST_LINE + 1) * (LONGEST_LINE + 1) - 1);
    let rest = [DELETE_TO_END, RECALL];
    let steps = [NEXT_CHARACTER, LAST_CHARACTER];
    let pattern = with_pattern(b"operates");
    // Last, the odd letter is what a comparison comes to after 255 others. Within, first and last byte do not tell either.
    let last = [vec![b'a'; 255], vec![b'b']].concat();
    let within = [vec![b'a'; 127], vec![b'b'], vec![b'a'; 128]].concat();
    vec![
        scene("typing in the middle", &text, &middle, &typed),
        scene("typing indented lines", &text, &[&middle[..], &[NEWLINE, TAB]].concat(), &nested),
        scene("NEWLINE behind spaces", &spaces, &[DOCUMENT_RIGHT], &[NEWLINE]),
        scene("to the end and back", &text, &[], &[DOCUMENT_RIGHT, DOCUMENT_LEFT]),
        scene("word by word", &text, &middle, &[NEXT_WORD, NEXT_WORD, LAST_WORD, LAST_WORD]),
        scene("words as long as lines", &letters, &to_middle(&letters), &[NEXT_WORD, LAST_WORD]),
        scene("delete half and RECALL", &text, &[&middle[..], &rest].concat(), &rest),
        scene("CUT half and PASTE", &text, &[&middle[..], &[MARK, DOCUMENT_RIGHT]].concat(), &[CUT, PASTE]),
        scene("FIND, ordinary text", &text, &pattern, &[FIND]),
        scene("UPFIND, ordinary text", &text, &[&pattern[..], &[DOCUMENT_RIGHT]].concat(), &[UPFIND]),
        scene("FIND, odd letter last", &letters, &with_pattern(&last), &[FIND]),
        scene("FIND, odd letter within", &letters, &with_pattern(&within), &[FIND]),
        scene("QUOTE in and out", &text, &middle, &[QUOTE, QUOTE]),
        scene("steps, longest lines", &letters, &within_middle(&letters), &steps),
        scene("steps, lines of 512", &halves, &within_middle(&halves), &steps),
        scene("steps, short lines", &short, &within_middle(&short), &steps),
        scene("typing in a quotation", &text, &[&middle[..], &[QUOTE]].concat(), &typed),
        scene("FIND of a quotation", &text, &[&middle[..], &[QUOTE], &typing(b"operates")].concat(), &[FIND]),
    ]
}

fn typing(text: &[u8]) -> Vec<Key> {
    text.iter().map(|&b| insert(b)).collect()
}

/// Lines of words, at most 72 columns wide.
fn ordinary(n: usize) -> Vec<u8> {
    let words =
        ["the", "operator", "of", "a", "bench", "opens", "deck", "and", "reads", "cards", "in", "order", "one", "by", "punched"];
    let mut random = Random::new(1);
    let mut text = Vec::new();
    let mut column = 0;
    while text.len() < n {
        let word = random.one(&words);
        if column + word.len() > 71 || random.once_in(40) {
            text.push(b'\n');
            column = 0;
        }
        text.extend_from_slice(word.as_bytes());
        text.push(b' ');
        column += word.len() + 1;
    }
    text.truncate(n);
    text
}

/// n bytes: lines of the same length, of one byte only.
fn lines_of(b: u8, length: usize, n: usize) -> Vec<u8> {
    [vec![b; length], vec![b'\n']].concat().into_iter().cycle().take(n).collect()
}

/// Keys that bring the cursor from the beginning to the middle, into a line.
fn to_middle(text: &[u8]) -> Vec<Key> {
    let lines = text[..text.len() / 2].iter().filter(|&&b| b == b'\n').count();
    [vec![NEXT_LINE; lines], vec![NEXT_WORD; 2]].concat()
}

/// The same for a text without spaces.
fn within_middle(text: &[u8]) -> Vec<Key> {
    [to_middle(text), vec![NEXT_CHARACTER; 4]].concat()
}

/// Keys that store a pattern which occurs nowhere: the cursor stays.
fn with_pattern(pattern: &[u8]) -> Vec<Key> {
    [vec![QUOTE], typing(pattern), vec![FIND]].concat()
}
