//! The plain editor (01, "The plain editor"; 02, M-101, M-103 to M-106, M-109; readings, B and C; 001, sections 1.1 to 1.5): two
//! sequences, places, distances by trying each d, keys. Nothing here knows of stores or screens. A key works on texts without bound;
//! only the finished text is held against its room and the reader.

use crate::indent;
use crate::mark::{after_deletion, after_insertion, Mark};
use crate::reader::too_long;
use std::collections::VecDeque;

pub const NEWLINE: u8 = 10;
pub const SPACE: u8 = 32;
/// The room of a quotation, of its recall text, of the pattern and of the replacement: "raise each quarter [...] to 1,024" (02, M-109).
pub const QUARTER: usize = 1_024;

pub fn allowed(byte: u8) -> bool {
    byte == NEWLINE || (32..=126).contains(&byte)
}

#[derive(Clone, Copy, Debug, PartialEq, Eq)]
pub enum Action {
    Move,
    Delete,
}

#[derive(Clone, Copy, Debug, PartialEq, Eq)]
pub enum Direction {
    Left,
    Right,
}

#[derive(Clone, Copy, Debug, PartialEq, Eq)]
pub enum Place {
    Character,
    Word,
    LineBeginning,
    LineEnding,
    Document,
}

#[derive(Clone, Copy, Debug, PartialEq, Eq)]
pub enum Key {
    Insert(u8),
    Function(Action, Direction, Place),
    Recall,
    Quote,
    Find(Direction),
    Replace,
    Mark,
    Cut,
    Paste,
    Newline,
    Tab,
}

/// The refusals that a key itself can get; the others are about sizes and bytes.
#[derive(Clone, Copy, Debug, PartialEq, Eq)]
pub enum Refusal {
    Key,
    Full,
    Line,
}

/// A pair (l, r): the text left and right of the cursor. Recall text, replacement and held text are such pairs too.
#[derive(Clone, Debug, Default, PartialEq, Eq)]
pub struct Doc {
    pub l: Vec<u8>,
    pub r: VecDeque<u8>,
}

impl Doc {
    pub fn new(l: &[u8], r: &[u8]) -> Doc {
        Doc { l: l.to_vec(), r: r.iter().copied().collect() }
    }

    pub fn length(&self) -> usize {
        self.l.len() + self.r.len()
    }

    pub fn content(&self) -> Vec<u8> {
        self.l.iter().chain(&self.r).copied().collect()
    }

    /// One single step, and the byte it went over or dropped; none at the end of the text.
    fn step(&mut self, action: Action, direction: Direction) -> Option<u8> {
        let byte = match direction {
            Direction::Left => self.l.pop()?,
            Direction::Right => self.r.pop_front()?,
        };
        match (action, direction) {
            (Action::Move, Direction::Left) => self.r.push_front(byte),
            (Action::Move, Direction::Right) => self.l.push(byte),
            (Action::Delete, _) => {}
        }
        Some(byte)
    }

    /// (l, r) becomes (l then x, y then r).
    fn join(&mut self, pair: &Doc) {
        self.l.extend(&pair.l);
        pair.r.iter().rev().for_each(|byte| self.r.push_front(*byte));
    }

    pub fn begins_with(&self, pattern: &[u8]) -> bool {
        self.r.len() >= pattern.len() && self.r.iter().zip(pattern).all(|(a, b)| a == b)
    }
}

fn blank(byte: &u8) -> bool {
    *byte == SPACE || *byte == NEWLINE
}

fn line_beginning(doc: &Doc) -> bool {
    doc.l.last().is_none_or(|byte| *byte == NEWLINE)
}

fn line_ending(doc: &Doc) -> bool {
    doc.r.front().is_none_or(|byte| *byte == NEWLINE)
}

fn word(doc: &Doc) -> bool {
    (doc.l.last().is_none_or(blank) && doc.r.front().is_none_or(|byte| !blank(byte))) || line_beginning(doc)
}

/// Is the pair such a place? Only the document's place depends on where one goes.
pub fn is_place(doc: &Doc, direction: Direction, place: Place) -> bool {
    match (place, direction) {
        (Place::Character, _) => true,
        (Place::Word, _) => word(doc),
        (Place::LineBeginning, _) => line_beginning(doc),
        (Place::LineEnding, _) => line_ending(doc),
        (Place::Document, Direction::Left) => doc.l.is_empty(),
        (Place::Document, Direction::Right) => doc.r.is_empty(),
    }
}

/// How far a key went: the steps it reports, and the lines crossed beside them (02, M-104).
#[derive(Clone, Copy, Debug, Default, PartialEq, Eq)]
pub struct Went {
    pub steps: usize,
    pub lines: usize,
}

/// The least d > 0 such that d moves reach what is wanted, and "the number of newlines it passes, defined over the same d steps"
/// (02, M-104); none where no d does.
fn distance(doc: &Doc, direction: Direction, reached: impl Fn(&Doc) -> bool) -> Option<Went> {
    let mut there = doc.clone();
    let mut went = Went::default();
    while let Some(byte) = there.step(Action::Move, direction) {
        went.steps += 1;
        if byte == NEWLINE {
            went.lines += 1;
        }
        if reached(&there) {
            return Some(went);
        }
    }
    None
}

/// A text with its own recall text: the document's, or the quotation's (001's ED).
#[derive(Clone, Debug, Default, PartialEq, Eq)]
pub struct Edited {
    pub text: Doc,
    pub recall: Doc,
}

#[derive(Clone, Copy, Debug, Default, PartialEq, Eq)]
pub enum Mode {
    #[default]
    Main,
    Quoted,
}

#[derive(Clone, Debug, Default, PartialEq, Eq)]
pub struct Editor {
    pub main: Edited,
    pub quoted: Edited,
    pub pattern: Vec<u8>,
    pub replacement: Doc,
    pub mode: Mode,
    /// What CUT removed last, for PASTE.
    pub held: Doc,
    /// In the document, never in a quotation.
    pub mark: Mark,
}

impl Editor {
    /// The text that insert, move, delete and RECALL act on.
    pub fn current(&mut self) -> &mut Edited {
        match self.mode {
            Mode::Main => &mut self.main,
            Mode::Quoted => &mut self.quoted,
        }
    }

    /// Clearing or abandoning a quotation empties its own recall text too.
    fn leave_quotation(&mut self) {
        self.quoted = Edited::default();
        self.mode = Mode::Main;
    }

    /// Inserts a pair around the cursor of the current text. Both halves go in at one position (C10); the document's mark follows.
    fn insert(&mut self, pair: &Doc) {
        if self.mode == Mode::Main {
            self.mark = after_insertion(self.mark, self.main.text.l.len(), pair.length());
        }
        self.current().text.join(pair);
    }

    /// Removes d bytes of the current text, from the cursor on, and gives them as a deletion's pair: (x, empty) leftward, (empty, x)
    /// rightward. The document's mark follows.
    fn remove(&mut self, d: usize, direction: Direction) -> Doc {
        if self.mode == Mode::Main {
            let cursor = self.main.text.l.len();
            let (from, to) = match direction {
                Direction::Left => (cursor - d, cursor),
                Direction::Right => (cursor, cursor + d),
            };
            self.mark = after_deletion(self.mark, from, to);
        }
        let mut gone = Vec::new();
        for _ in 0..d {
            gone.extend(self.current().text.step(Action::Delete, direction));
        }
        match direction {
            // Leftward the bytes go last one first.
            Direction::Left => Doc { l: gone.into_iter().rev().collect(), r: VecDeque::new() },
            Direction::Right => Doc { l: Vec::new(), r: gone.into() },
        }
    }
}

#[derive(Clone, Debug, PartialEq, Eq)]
pub struct Pressed {
    pub editor: Editor,
    pub steps: usize,
    pub lines: usize,
    pub bell: bool,
}

/// What a key makes of an editor whose document has room for T bytes.
pub fn press(before: &Editor, key: Key, t: usize) -> Result<Pressed, Refusal> {
    if refused(key, before.mode) {
        return Err(Refusal::Key);
    }
    let mut editor = before.clone();
    let mut went = Some(Went::default());
    match key {
        Key::Insert(byte) => editor.insert(&Doc::new(&[byte], &[])),
        Key::Function(action, direction, place) => went = function(&mut editor, action, direction, place),
        Key::Recall => {
            let pair = editor.current().recall.clone();
            editor.insert(&pair);
        }
        Key::Quote => match editor.mode {
            Mode::Main => editor.mode = Mode::Quoted,
            Mode::Quoted => editor.leave_quotation(),
        },
        Key::Find(direction) => went = find(&mut editor, direction),
        Key::Replace => went = replace(&mut editor),
        Key::Mark => editor.mark = Some(editor.main.text.l.len()),
        Key::Cut => went = cut(&mut editor),
        // "PASTE inserts the held pair", and keeps it (C13).
        Key::Paste => {
            let pair = editor.held.clone();
            editor.insert(&pair);
        }
        Key::Newline => {
            let bytes = indent::newline(&editor.current().text);
            went = insert_run(&mut editor, &bytes);
        }
        Key::Tab => {
            let bytes = indent::tab(&editor.current().text);
            went = insert_run(&mut editor, &bytes);
        }
    }
    if editor.main.text.length() > t || editor.quoted.text.length() > QUARTER {
        return Err(Refusal::Full);
    }
    // "Any key whose finished document would have one, joins by deletion included. The quotation has no such limit" (02, M-106).
    if too_long(&editor.main.text.content()).is_some() {
        return Err(Refusal::Line);
    }
    // Steps and lines are 0 with the bell.
    let Went { steps, lines } = went.unwrap_or_default();
    Ok(Pressed { editor, steps, lines, bell: went.is_none() })
}

/// A byte that isn't allowed, the two of the 20 function keys that are left out, and "KEY for these three in QUOTED" (02, M-101).
fn refused(key: Key, mode: Mode) -> bool {
    match key {
        Key::Insert(byte) => !allowed(byte),
        Key::Function(Action::Delete, Direction::Left, Place::LineEnding) => true,
        Key::Function(Action::Delete, Direction::Right, Place::LineBeginning) => true,
        Key::Mark | Key::Cut | Key::Paste => mode == Mode::Quoted,
        _ => false,
    }
}

/// How far it went; none is the bell, and "a deletion with the bell now leaves recall text unchanged, in QUOTED too" (02, M-103).
fn function(editor: &mut Editor, action: Action, direction: Direction, place: Place) -> Option<Went> {
    let went = distance(&editor.current().text, direction, |doc| is_place(doc, direction, place))?;
    match action {
        Action::Move => {
            for _ in 0..went.steps {
                editor.current().text.step(Action::Move, direction);
            }
        }
        Action::Delete => {
            let gone = editor.remove(went.steps, direction);
            editor.current().recall = gone;
        }
    }
    Some(went)
}

fn find(editor: &mut Editor, direction: Direction) -> Option<Went> {
    if editor.mode == Mode::Quoted {
        editor.pattern = editor.quoted.text.content();
        editor.leave_quotation();
    }
    let went = distance(&editor.main.text, direction, |doc| doc.begins_with(&editor.pattern))?;
    for _ in 0..went.steps {
        editor.main.text.step(Action::Move, direction);
    }
    Some(went)
}

/// REPLACE reports 0. It "deletes, then inserts" (02, M-101), which is for the mark to know (C9).
fn replace(editor: &mut Editor) -> Option<Went> {
    if editor.mode == Mode::Quoted {
        editor.replacement = editor.quoted.text.clone();
        editor.leave_quotation();
    }
    if !editor.main.text.begins_with(&editor.pattern) {
        return None;
    }
    editor.remove(editor.pattern.len(), Direction::Right);
    let pair = editor.replacement.clone();
    editor.insert(&pair);
    editor.main.recall = Doc::new(&[], &editor.pattern);
    Some(Went::default())
}

/// NEWLINE and TAB "report the bytes inserted as steps and keep the recall text" (02, M-105). They are none of the keys that report lines
/// (C25).
fn insert_run(editor: &mut Editor, bytes: &[u8]) -> Option<Went> {
    editor.insert(&Doc::new(bytes, &[]));
    Some(Went { steps: bytes.len(), lines: 0 })
}

/// "CUT removes the text between cursor and mark, holds it as a deletion's pair, reports its length as steps and drops the mark; recall
/// text stays. [...] Without a mark CUT sets the bell and does nothing else." It is none of the keys that report lines (C16).
fn cut(editor: &mut Editor) -> Option<Went> {
    let mark = editor.mark?;
    let cursor = editor.main.text.l.len();
    let (length, direction) = if mark <= cursor { (cursor - mark, Direction::Left) } else { (mark - cursor, Direction::Right) };
    editor.held = editor.remove(length, direction);
    editor.mark = None;
    Some(Went { steps: length, lines: 0 })
}
