//! Phrases with the mark and the held text (02, M-101): the mark on every side of every change, and stretches that are cut and pasted.

use super::Writer;
use crate::generate::{text, DIRECTIONS, PLACES};
use crate::plain::{Action, Direction, Key, Place};

fn back(direction: Direction) -> Direction {
    match direction {
        Direction::Left => Direction::Right,
        Direction::Right => Direction::Left,
    }
}

impl Writer {
    /// The mark, then changes at it and a few bytes from it, and deletions that end at it or go on over it.
    pub(super) fn change_at_mark(&mut self) {
        self.to_main();
        self.press(Key::Mark);
        for _ in 0..self.random.pick(&[1, 1, 2, 3]) {
            let direction = self.random.pick(&DIRECTIONS);
            let place = self.random.pick(&PLACES);
            let away = self.random.pick(&[0, 0, 1, 2, 3]);
            match self.random.below(4) {
                0 => {
                    self.step(direction, away);
                    let letter = self.letter();
                    let change = self.random.pick(&[letter, letter, Key::Recall, Key::Replace, Key::Paste]);
                    self.press(change);
                }
                1 => {
                    self.step(direction, away);
                    let direction = self.random.pick(&DIRECTIONS);
                    self.press(Key::Function(Action::Delete, direction, place));
                }
                // There and back: as far as the mark, where the place is one from either side.
                2 => {
                    self.press(Key::Function(Action::Move, direction, place));
                    self.press(Key::Function(Action::Delete, back(direction), place));
                }
                _ => {
                    self.step(direction, away + 1);
                    self.press(Key::Function(Action::Delete, back(direction), place));
                    self.press(Key::Recall);
                }
            }
        }
        for key in [Key::Cut, Key::Paste] {
            if self.random.percent(50) {
                self.press(key);
            }
        }
    }

    /// The mark before, in, at the end of and behind a pattern that is then replaced.
    pub(super) fn replace_at_mark(&mut self) {
        self.find();
        let n = self.editor.pattern.len().min(10);
        let any = self.random.within(0, n + 1);
        let over = self.random.pick(&[any, n]).min(self.editor.main.text.r.len());
        self.step(Direction::Right, over);
        self.press(Key::Mark);
        self.step(Direction::Left, over);
        if self.random.percent(50) {
            self.replace();
        } else {
            self.press(Key::Replace);
        }
        if self.random.percent(50) {
            self.press(Key::Cut);
        }
    }

    /// A stretch or the whole document is cut, and comes back once or twice, here or elsewhere; in a store that is nearly full, into just
    /// as many free bytes as it has, or into one less.
    pub(super) fn cut_and_paste(&mut self) {
        self.to_main();
        if self.random.percent(25) {
            let direction = self.random.pick(&DIRECTIONS);
            self.press(Key::Function(Action::Move, direction, Place::Document));
            self.press(Key::Mark);
            self.press(Key::Function(Action::Move, back(direction), Place::Document));
        } else {
            self.press(Key::Mark);
            for _ in 0..self.random.pick(&[0, 1, 1, 2]) {
                let key = Key::Function(Action::Move, self.random.pick(&DIRECTIONS), self.random.pick(&PLACES));
                self.press(key);
            }
        }
        for _ in 0..self.random.pick(&[1, 1, 1, 2]) {
            self.press(Key::Cut);
        }
        let free = self.room().saturating_sub(self.editor.held.length());
        if free <= 20 && self.random.percent(60) {
            let n = free + self.random.pick(&[0, 0, 1]);
            let text = text(&mut self.random, self.letters, n);
            self.type_text(&text);
        } else if self.random.percent(50) {
            let key = Key::Function(Action::Move, self.random.pick(&DIRECTIONS), self.random.pick(&PLACES));
            self.press(key);
        }
        // Often there is a mark again, at the cursor or a few bytes from it: CUT has dropped the one before.
        if self.random.percent(60) {
            self.press(Key::Mark);
            let (direction, away) = (self.random.pick(&DIRECTIONS), self.random.pick(&[0, 1, 3]));
            self.step(direction, away);
        }
        for _ in 0..self.random.pick(&[1, 1, 2]) {
            self.press(Key::Paste);
        }
    }
}
