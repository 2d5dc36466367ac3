//! Keys on the document and the quotation, without a screen.

use super::bytes::{allowed, current_line, leading_spaces, newlines, runs_fit};
use super::places::{distance_left, distance_right, find_left, find_right, Direction, Place};
use super::texts::Side;
use crate::chidukwore::{self, Record, NO_MARK};

pub const QUARTER: usize = 1024;

/// The longest line of a document that its reader takes.
pub const LONGEST_LINE: usize = 1_024;

#[derive(Clone, Copy)]
pub enum Action {
    Move,
    Delete,
}

/// The keys that act on one side, the document's or the quotation's.
pub enum Edit {
    Insert(u8),
    Function(Action, Direction, Place),
    Recall,
    Newline,
    Tab,
}

pub enum Key {
    Edit(Edit),
    Quote,
    Find(Direction),
    Replace,
    Mark,
    Cut,
    Paste,
}

/// What an accepted key reports.
#[derive(Default)]
pub struct Went {
    pub steps: usize,
    pub lines: usize,
    pub bell: bool,
}

/// What a key reports that found no place or match.
const RANG: Went = Went { steps: 0, lines: 0, bell: true };

/// Why a key that is one is not carried out.
pub enum Refusal {
    /// The finished text would not fit its store.
    Full,
    /// The finished document would have a line that its reader does not take.
    Line,
}

fn direction(number: usize) -> Option<Direction> {
    [Direction::Left, Direction::Right].get(number).copied()
}

/// The key that the numbers name, unless it is refused with KEY.
pub fn sound_key(chidukwore::Key(kind, a, b, c): chidukwore::Key, mode: usize) -> Option<Key> {
    use Place::{Character, Document, LineBeginning, LineEnding, Word};
    match kind {
        0 => u8::try_from(a).ok().filter(|&b| allowed(b)).map(|b| Key::Edit(Edit::Insert(b))),
        1 => {
            let action = *[Action::Move, Action::Delete].get(a)?;
            let place = *[Character, Word, LineBeginning, LineEnding, Document].get(c)?;
            match (action, direction(b)?, place) {
                (Action::Delete, Direction::Left, LineEnding) | (Action::Delete, Direction::Right, LineBeginning) => None,
                (action, way, place) => Some(Key::Edit(Edit::Function(action, way, place))),
            }
        }
        2 => Some(Key::Edit(Edit::Recall)),
        3 => Some(Key::Quote),
        4 => direction(a).map(Key::Find),
        5 => Some(Key::Replace),
        6 if mode == 0 => Some(Key::Mark),
        7 if mode == 0 => Some(Key::Cut),
        8 if mode == 0 => Some(Key::Paste),
        9 => Some(Key::Edit(Edit::Newline)),
        10 => Some(Key::Edit(Edit::Tab)),
        _ => None,
    }
}

/// Presses a key on a session. Refused, nothing has changed.
pub fn press(
    record: &mut Record,
    key: Key,
    text: &mut [u8],
    recall: &mut [u8],
    held: &mut [u8],
    side: &mut [u8],
) -> Result<Went, Refusal> {
    match key {
        Key::Quote => {
            side[..2 * QUARTER].fill(0);
            (record.ql, record.qr, record.qrl, record.qrr) = (0, 0, 0, 0);
            record.mode = 1 - record.mode;
            Ok(Went::default())
        }
        Key::Find(way) => {
            if record.mode == 1 {
                record.pl = record.ql + record.qr;
                hand_over(record, 2 * QUARTER, side);
            }
            let pattern = &side[2 * QUARTER..][..record.pl];
            Ok(on_document(record, text, recall, |document| search(document, way, pattern)))
        }
        Key::Replace => replace(record, text, recall, side),
        Key::Edit(edit) if record.mode == 1 => {
            let (text, recall) = side[..2 * QUARTER].split_at_mut(QUARTER);
            let Record { ql: l, qr: r, qrl: rl, qrr: rr, .. } = *record;
            let mut quotation = Side { text, recall, l, r, rl, rr, longest: QUARTER };
            let went = on_side(&mut quotation, edit)?;
            (record.ql, record.qr, record.qrl, record.qrr) = (quotation.l, quotation.r, quotation.rl, quotation.rr);
            Ok(went)
        }
        Key::Edit(edit) => followed(record, |record| on_document(record, text, recall, |document| on_side(document, edit))),
        Key::Mark => {
            record.mark = record.l;
            Ok(Went::default())
        }
        Key::Cut => cut(record, text, held),
        Key::Paste => followed(record, |record| holding(record, text, held, |document| on_side(document, Edit::Recall))),
    }
}

/// Does something to the document and keeps its lengths.
fn on_document<R>(record: &mut Record, text: &mut [u8], recall: &mut [u8], change: impl FnOnce(&mut Side) -> R) -> R {
    let Record { l, r, rl, rr, .. } = *record;
    let mut document = Side { text, recall, l, r, rl, rr, longest: LONGEST_LINE };
    let result = change(&mut document);
    (record.l, record.r, record.rl, record.rr) = (document.l, document.r, document.rl, document.rr);
    result
}

/// The same with the held text in the place of the recall text.
fn holding<R>(record: &mut Record, text: &mut [u8], held: &mut [u8], change: impl FnOnce(&mut Side) -> R) -> R {
    let Record { l, r, held_left, held_right, .. } = *record;
    let mut document = Side { text, recall: held, l, r, rl: held_left, rr: held_right, longest: LONGEST_LINE };
    let result = change(&mut document);
    (record.l, record.r, record.held_left, record.held_right) = (document.l, document.r, document.rl, document.rr);
    result
}

/// The mark, after so many bytes from a position on went and so many came there: in what went it is gone, at the right end of that it is
/// where it began.
fn mark_after(mark: usize, from: usize, gone: usize, come: usize) -> usize {
    let to = from + gone;
    match mark {
        NO_MARK => NO_MARK,
        mark if mark <= from => mark,
        mark if mark < to => NO_MARK,
        mark if mark == to => from,
        mark => mark - gone + come,
    }
}

/// The mark follows a change of the document that only takes bytes away or only brings some: the lengths tell which.
fn followed<R>(record: &mut Record, change: impl FnOnce(&mut Record) -> R) -> R {
    let (l, n) = (record.l, record.l + record.r);
    let result = change(record);
    let now = record.l + record.r;
    record.mark = mark_after(record.mark, l.min(record.l), n.saturating_sub(now), now.saturating_sub(n));
    result
}

/// CUT is a deletion as far as the mark, into the held text.
fn cut(record: &mut Record, text: &mut [u8], held: &mut [u8]) -> Result<Went, Refusal> {
    let Record { l, mark, .. } = *record;
    if mark == NO_MARK {
        return Ok(RANG);
    }
    let steps = l.abs_diff(mark);
    let way = if mark < l { Direction::Left } else { Direction::Right };
    holding(record, text, held, |document| delete(document, way, steps))?;
    record.mark = NO_MARK;
    Ok(Went { steps, lines: 0, bell: false })
}

fn on_side(side: &mut Side, edit: Edit) -> Result<Went, Refusal> {
    match edit {
        Edit::Insert(b) => {
            if side.room() == 0 {
                return Err(Refusal::Full);
            }
            if b != b'\n' && !side.line_fits(1) {
                return Err(Refusal::Line);
            }
            side.insert(b);
            Ok(Went::default())
        }
        Edit::Function(action, way, place) => function(side, action, way, place),
        Edit::Recall => {
            let (x, y) = (side.rl, side.rr);
            if side.room() < x + y {
                return Err(Refusal::Full);
            }
            if !side.fits_with(0, 0, &side.recall[..x], &side.recall[x..x + y]) {
                return Err(Refusal::Line);
            }
            side.place_recall();
            Ok(Went::default())
        }
        Edit::Newline => {
            let indent = leading_spaces(current_line(side.left()));
            spaced(side, b'\n', indent)
        }
        Edit::Tab => {
            let column = current_line(side.left()).len();
            spaced(side, b' ', 7 - column % 8)
        }
    }
}

/// A byte with k spaces behind it goes in, all of it or nothing. Behind a newline no more spaces come than its line had before the cursor,
/// so that no line becomes longer.
fn spaced(side: &mut Side, b: u8, k: usize) -> Result<Went, Refusal> {
    if side.room() <= k {
        return Err(Refusal::Full);
    }
    if b != b'\n' && !side.line_fits(1 + k) {
        return Err(Refusal::Line);
    }
    side.insert_spaced(b, k);
    Ok(Went { steps: 1 + k, ..Went::default() })
}

fn function(side: &mut Side, action: Action, way: Direction, place: Place) -> Result<Went, Refusal> {
    let distance = match way {
        Direction::Left => distance_left(place, side.left()),
        Direction::Right => distance_right(place, side.right()),
    };
    let Some(d) = distance else {
        return Ok(RANG);
    };
    let lines = lines_passed(side, way, d);
    match (action, way) {
        (Action::Move, Direction::Left) => side.move_left(d),
        (Action::Move, Direction::Right) => side.move_right(d),
        (Action::Delete, way) => delete(side, way, d)?,
    }
    Ok(Went { steps: d, lines, bell: false })
}

/// The d bytes that a move would cross go over into the recall text, if the line where the others meet is not too long.
fn delete(side: &mut Side, way: Direction, d: usize) -> Result<(), Refusal> {
    let (a, b) = match way {
        Direction::Left => (d, 0),
        Direction::Right => (0, d),
    };
    if !side.fits_with(a, b, &[], &[]) {
        return Err(Refusal::Line);
    }
    match way {
        Direction::Left => side.delete_left(d),
        Direction::Right => side.delete_right(d),
    }
    Ok(())
}

/// The newlines among the d bytes that a move would cross.
fn lines_passed(side: &Side, way: Direction, d: usize) -> usize {
    let passed = match way {
        Direction::Left => &side.left()[side.left().len() - d..],
        Direction::Right => &side.right()[..d],
    };
    newlines(passed)
}

fn search(document: &mut Side, way: Direction, pattern: &[u8]) -> Went {
    let distance = match way {
        Direction::Left => find_left(document.left(), document.right(), pattern),
        Direction::Right => find_right(document.right(), pattern),
    };
    let Some(d) = distance else {
        return RANG;
    };
    let lines = lines_passed(document, way, d);
    match way {
        Direction::Left => document.move_left(d),
        Direction::Right => document.move_right(d),
    }
    Went { steps: d, lines, bell: false }
}

/// The quotation becomes all that the quarter at `at` holds, and is cleared with its recall text; the mode becomes MAIN.
fn hand_over(record: &mut Record, at: usize, side: &mut [u8]) {
    let Record { ql, qr, .. } = *record;
    let (own, others) = side.split_at_mut(2 * QUARTER);
    let quarter = &mut others[at - 2 * QUARTER..][..QUARTER];
    quarter[..ql].copy_from_slice(&own[..ql]);
    quarter[ql..ql + qr].copy_from_slice(&own[QUARTER - qr..QUARTER]);
    quarter[ql + qr..].fill(0);
    own.fill(0);
    (record.ql, record.qr, record.qrl, record.qrr, record.mode) = (0, 0, 0, 0, 0);
}

fn replace(record: &mut Record, text: &mut [u8], recall: &mut [u8], side: &mut [u8]) -> Result<Went, Refusal> {
    let Record { l, r, pl, .. } = *record;
    let (x, y) = if record.mode == 1 { (record.ql, record.qr) } else { (record.xl, record.xr) };
    let right = &text[text.len() - r..];
    let here = right.starts_with(&side[2 * QUARTER..][..pl]);
    if here && text.len() < l + r - pl + x + y {
        return Err(Refusal::Full);
    }
    let halves =
        if record.mode == 1 { (&side[..x], &side[QUARTER - y..QUARTER]) } else { side[3 * QUARTER..][..x + y].split_at(x) };
    if here && !runs_fit(LONGEST_LINE, &text[..l], halves.0, halves.1, &right[pl..]) {
        return Err(Refusal::Line);
    }
    if record.mode == 1 {
        hand_over(record, 3 * QUARTER, side);
        (record.xl, record.xr) = (x, y);
    }
    if !here {
        return Ok(RANG);
    }
    let pattern = &side[2 * QUARTER..][..pl];
    let (left, right) = side[3 * QUARTER..][..x + y].split_at(x);
    on_document(record, text, recall, |document| document.exchange(pattern, left, right));
    record.mark = mark_after(record.mark, l, pl, x + y);
    Ok(Went::default())
}
