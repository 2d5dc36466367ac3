//! A session for the tests: texts with their cursors are written as document 01 writes them, and the mark as `^`; where both are at one
//! position the mark is written first. No test file uses all of it.
#![allow(dead_code)]

use second::bytes::{session, Stores};
use second::core::{numbers_of, Core, Reply, Second};
use second::plain::{Action::*, Direction::*, Doc, Editor, Key, Key::*, Place::*};

pub struct Bench {
    pub reply: Reply,
    pub stores: Stores,
}

impl Bench {
    /// A session on a text, its cursor brought there character by character.
    pub fn open(text: &str, t: usize, h: usize, w: usize) -> Bench {
        let (l, r) = text.split_once('|').expect("a cursor");
        let mut stores = Stores::zeros(t, h, w);
        stores.text[..l.len() + r.len()].copy_from_slice([l, r].concat().as_bytes());
        let reply = Second.open(l.len() + r.len(), h, w, &mut stores);
        let mut bench = Bench { reply, stores };
        for _ in l.bytes() {
            bench.press(Function(Move, Right, Character));
        }
        bench
    }

    /// A session on a text with a cursor and a mark.
    pub fn open_marked(text: &str, t: usize, h: usize, w: usize) -> Bench {
        let mut bench = Bench::open(&text.replace('|', "").replace('^', "|"), t, h, w);
        assert_eq!(bench.press(Mark), (0, 0, 0));
        bench.press(Function(Move, Left, Document));
        for _ in 0..text.replace('^', "").find('|').expect("a cursor") {
            bench.press(Function(Move, Right, Character));
        }
        assert_eq!(bench.marked(), text);
        bench
    }

    /// The code, the steps and the bell of a key.
    pub fn press(&mut self, key: Key) -> (usize, usize, usize) {
        self.reply = Second.key(self.reply.record, numbers_of(key), &mut self.stores);
        let answer = self.reply.answer;
        (answer.code, answer.steps, answer.bell)
    }

    pub fn type_text(&mut self, text: &str) {
        text.bytes().for_each(|byte| assert_eq!(self.press(Insert(byte)), (0, 0, 0)));
    }

    pub fn editor(&self) -> Editor {
        session(&self.reply.record, &self.stores).expect("a session")
    }

    pub fn text(&self) -> String {
        shown(&self.editor().main.text)
    }

    /// The text with its cursor and its mark, if it has one.
    pub fn marked(&self) -> String {
        let mut text = self.text();
        let cursor = self.editor().main.text.l.len();
        if let Some(mark) = self.editor().mark {
            text.insert(if mark <= cursor { mark } else { mark + 1 }, '^');
        }
        text
    }

    /// The held pair.
    pub fn held(&self) -> String {
        shown(&self.editor().held)
    }

    pub fn quotation(&self) -> String {
        shown(&self.editor().quoted.text)
    }
}

/// A pair with `|` between its halves.
pub fn shown(pair: &Doc) -> String {
    let halves = [&pair.l[..], b"|", &pair.r.iter().copied().collect::<Vec<u8>>()];
    String::from_utf8(halves.concat()).unwrap()
}
