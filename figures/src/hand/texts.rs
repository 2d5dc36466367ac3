//! A text in a gap store with its recall text in a pair store: the document's side or the quotation's, or the document with the held text.

use super::bytes::{current_line, first_line, runs_fit};

pub struct Side<'a> {
    pub text: &'a mut [u8],
    pub recall: &'a mut [u8],
    pub l: usize,
    pub r: usize,
    pub rl: usize,
    pub rr: usize,
    /// No line of the text is longer. A quotation has no limit; none of its lines is longer than its store.
    pub longest: usize,
}

impl Side<'_> {
    /// Where the text right of the cursor starts.
    fn back(&self) -> usize {
        self.text.len() - self.r
    }

    pub fn left(&self) -> &[u8] {
        &self.text[..self.l]
    }

    pub fn right(&self) -> &[u8] {
        &self.text[self.back()..]
    }

    pub fn room(&self) -> usize {
        self.text.len() - self.l - self.r
    }

    /// The line at the cursor would fit with so many bytes more.
    pub fn line_fits(&self, more: usize) -> bool {
        current_line(self.left()).len() + more + first_line(self.right()) <= self.longest
    }

    /// No line would be too long without the a bytes left of the cursor and the b bytes right of it, and with x and y in their place.
    pub fn fits_with(&self, a: usize, b: usize, x: &[u8], y: &[u8]) -> bool {
        runs_fit(self.longest, &self.left()[..self.l - a], x, y, &self.right()[b..])
    }

    /// The d bytes left of the cursor cross the gap. Only what they leave and do not cover again is cleared.
    pub fn move_left(&mut self, d: usize) {
        let (from, to) = (self.l - d, self.back() - d);
        self.text.copy_within(from..self.l, to);
        self.text[from..to.min(self.l)].fill(0);
        self.l -= d;
        self.r += d;
    }

    pub fn move_right(&mut self, d: usize) {
        let (from, to) = (self.back(), self.l);
        self.text.copy_within(from..from + d, to);
        self.text[from.max(to + d)..from + d].fill(0);
        self.l += d;
        self.r -= d;
    }

    pub fn insert(&mut self, b: u8) {
        self.text[self.l] = b;
        self.l += 1;
    }

    /// A byte with k spaces behind it.
    pub fn insert_spaced(&mut self, b: u8, k: usize) {
        self.insert(b);
        self.text[self.l..self.l + k].fill(b' ');
        self.l += k;
    }

    pub fn delete_left(&mut self, d: usize) {
        let from = self.l - d;
        self.take_out(from, d);
        self.l = from;
        self.rl = d;
    }

    pub fn delete_right(&mut self, d: usize) {
        self.take_out(self.back(), d);
        self.r -= d;
        self.rr = d;
    }

    /// The d bytes from `from` on become what the recall store holds; its lengths are for the caller to set.
    fn take_out(&mut self, from: usize, d: usize) {
        let run = &mut self.text[from..from + d];
        self.recall[..d].copy_from_slice(run);
        run.fill(0);
        self.forget(d);
    }

    /// The recall store is cleared from place d on, as far as it held anything.
    pub fn forget(&mut self, d: usize) {
        let held = self.rl + self.rr;
        self.recall[d..held.max(d)].fill(0);
        self.rl = 0;
        self.rr = 0;
    }

    /// The recall text goes in around the cursor.
    pub fn place_recall(&mut self) {
        let (x, y) = (self.rl, self.rr);
        let back = self.back();
        self.text[self.l..self.l + x].copy_from_slice(&self.recall[..x]);
        self.text[back - y..back].copy_from_slice(&self.recall[x..x + y]);
        self.l += x;
        self.r += y;
    }

    /// The pattern right of the cursor is exchanged for the replacement (x, y) and becomes the recall text.
    pub fn exchange(&mut self, pattern: &[u8], x: &[u8], y: &[u8]) {
        let back = self.back();
        let m = pattern.len();
        self.text[back..back + m].fill(0);
        self.r -= m;
        let back = self.back();
        self.text[self.l..self.l + x.len()].copy_from_slice(x);
        self.text[back - y.len()..back].copy_from_slice(y);
        self.l += x.len();
        self.r += y.len();
        self.recall[..m].copy_from_slice(pattern);
        self.forget(m);
        self.rr = m;
    }
}
