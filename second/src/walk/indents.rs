//! Phrases with NEWLINE and TAB (02, M-105): indented lines, TAB at every column from 0 to 17, and 0 to 9 free bytes.

use super::Writer;
use crate::generate::text;
use crate::plain::{Action, Direction, Key, Mode, Place, NEWLINE, SPACE};

const BOTH: [Key; 2] = [Key::Newline, Key::Tab];

impl Writer {
    /// A line of spaces, then of letters, up to some column; and both keys there, or further left in it.
    pub(super) fn indent(&mut self) {
        if self.random.percent(35) {
            self.begin_quotation();
        }
        let start = Key::Function(Action::Move, Direction::Left, Place::LineBeginning);
        let key = self.random.pick(&[Key::Insert(NEWLINE), Key::Insert(NEWLINE), Key::Newline, start]);
        self.press(key);
        let column = self.random.within(0, 17);
        let spaces = self.random.within(0, column);
        self.type_text(&vec![SPACE; spaces]);
        self.type_text(&vec![b'a'; column - spaces]);
        let left = self.random.pick(&[0, 0, 0, 1, 2, column - spaces, column - spaces + 1]);
        self.step(Direction::Left, left);
        for _ in 0..self.random.pick(&[1, 2, 3]) {
            let key = self.random.pick(&BOTH);
            self.press(key);
            if self.random.percent(20) {
                self.press(Key::Recall);
            }
        }
    }

    /// 0 to 9 bytes are made free or left free, and both keys want some of them.
    pub(super) fn indent_in_little_room(&mut self) {
        let free = self.random.within(0, 9);
        // A quotation is filled for it now and then; a large store never.
        if self.editor.mode == Mode::Quoted && self.random.percent(20) {
            self.fill_quotation();
        }
        let room = self.room();
        if room > free + 40 {
            return self.indent();
        }
        for _ in room..free {
            let direction = if self.editor.current().text.l.is_empty() { Direction::Right } else { Direction::Left };
            self.press(Key::Function(Action::Delete, direction, Place::Character));
        }
        let text = text(&mut self.random, self.letters, room.saturating_sub(free));
        self.type_text(&text);
        for _ in 0..self.random.pick(&[1, 2, 3]) {
            let key = self.random.pick(&BOTH);
            self.press(key);
        }
    }
}
