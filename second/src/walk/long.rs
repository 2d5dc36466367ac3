//! Phrases for lines as long as the reader takes (02, M-106): two lines become one of 1,024 bytes, or of one byte too many, and a line
//! grows to that.

use super::Writer;
use crate::generate::{text, DIRECTIONS};
use crate::plain::{Action, Direction, Key, Place, NEWLINE};
use crate::reader::LONGEST_LINE;

/// How many of them there are, at the end of the list.
pub(super) const PHRASES: usize = 5;

impl Writer {
    /// Letters on the reader's side of a newline, whatever is typed otherwise.
    fn type_letters(&mut self, n: usize) {
        let text = text(&mut self.random, b"ab", n);
        self.type_text(&text);
    }

    /// To an end of the line, or of the next one.
    fn to_line_end(&mut self) -> Direction {
        let direction = self.random.pick(&DIRECTIONS);
        let place = if direction == Direction::Left { Place::LineBeginning } else { Place::LineEnding };
        self.press(Key::Function(Action::Move, direction, place));
        direction
    }

    /// How many bytes the cursor's line still takes.
    fn missing(&self) -> usize {
        let text = &self.editor.main.text;
        let left = text.l.iter().rev().take_while(|byte| **byte != NEWLINE).count();
        let right = text.r.iter().take_while(|byte| **byte != NEWLINE).count();
        LONGEST_LINE.saturating_sub(left + right)
    }

    /// The newline goes, alone or with a word, or stays where the line would be too long; now and then it comes back.
    pub(super) fn join_by_deletion(&mut self) {
        self.to_main();
        let direction = self.to_line_end();
        let place = self.random.pick(&[Place::Character, Place::Character, Place::Word]);
        self.press(Key::Function(Action::Delete, direction, place));
        if self.random.percent(40) {
            self.press(Key::Recall);
        }
    }

    /// The newline goes with none, some or many bytes on either side of it.
    pub(super) fn join_by_cut(&mut self) {
        self.to_main();
        let direction = self.to_line_end();
        self.press(Key::Mark);
        let over = self.random.pick(&[1, 1, 1, 2, 3, 9]);
        self.step(direction, over);
        if self.random.percent(30) {
            self.to_line_end();
        }
        self.press(Key::Cut);
        if self.random.percent(50) {
            self.press(Key::Paste);
        }
    }

    /// A newline, alone or with the byte after it, is replaced by a few letters or by none, or by another newline somewhere in them.
    pub(super) fn join_by_replace(&mut self) {
        self.to_main();
        let after = self.editor.main.text.r.iter().skip_while(|byte| **byte != NEWLINE).nth(1).copied();
        let more = after.filter(|_| self.random.percent(30));
        self.begin_quotation();
        self.type_text(&[NEWLINE]);
        more.into_iter().for_each(|byte| self.press(Key::Insert(byte)));
        let key = Key::Find(self.random.pick(&DIRECTIONS));
        self.press(key);
        self.press(Key::Quote);
        let n = self.random.pick(&[0, 0, 1, 1, 2, 3]);
        self.type_letters(n);
        if self.random.percent(15) {
            self.type_text(&[NEWLINE]);
        }
        let left = self.random.below(3);
        self.step(Direction::Left, left);
        self.press(Key::Replace);
        if self.random.percent(30) {
            self.press(Key::Recall);
        }
    }

    /// Bytes of one line, or of several, are cut or deleted and brought to another that has just room for them, or one byte less.
    pub(super) fn carry_to_line(&mut self) {
        self.to_main();
        let over = self.random.pick(&[1, 2, 3, 5, 8]);
        let direction = self.random.pick(&DIRECTIONS);
        let cut = self.random.percent(60);
        if cut {
            self.press(Key::Mark);
            self.step(direction, over);
            if self.random.percent(25) {
                self.to_line_end();
            }
            self.press(Key::Cut);
        } else {
            let place = self.random.pick(&[Place::Character, Place::Word, Place::Word]);
            self.press(Key::Function(Action::Delete, direction, place));
        }
        for _ in 0..self.random.below(3) {
            self.to_line_end();
        }
        let pair = if cut { &self.editor.held } else { &self.editor.main.recall };
        let free = self.missing().saturating_sub(pair.length());
        if free <= 12 {
            let n = free + self.random.pick(&[0, 1]);
            self.type_letters(n);
        }
        self.press(if cut { Key::Paste } else { Key::Recall });
    }

    /// A line that is nearly as long as may be grows to that, and once too often, by any key that lengthens it.
    pub(super) fn lengthen_line(&mut self) {
        self.to_main();
        for _ in 0..self.random.below(3) {
            self.to_line_end();
        }
        let missing = self.missing();
        if missing <= 12 {
            let n = missing.saturating_sub(self.random.pick(&[0, 0, 1, 8]));
            self.type_letters(n);
        }
        for _ in 0..self.random.pick(&[1, 2]) {
            let letter = self.letter();
            let key = self.random.pick(&[letter, Key::Tab, Key::Newline, Key::Recall, Key::Paste, Key::Replace]);
            self.press(key);
        }
        if self.random.percent(30) {
            // No line of a quotation is too long.
            self.press(Key::Quote);
            self.type_letters(2);
        }
    }
}
