//! Walks: sessions of many keys. The writer of a walk keeps the plain state, so that it knows how much room is left, what can be
//! found and where the lines end, and steers for the hard corners instead of waiting for them.

use crate::generate::{columns, deck, function, length, letters, rows, text, DIRECTIONS, NOT_ALLOWED, PLACES};
use crate::long_lines;
use crate::plain::{press, Action, Direction, Doc, Edited, Editor, Key, Mode, Place, QUARTER};
use crate::random::Random;

mod indents;
mod long;
mod marks;

/// A session to be walked through: an opening and the keys after it.
#[derive(Clone, Debug)]
pub struct Walk {
    pub h: usize,
    pub w: usize,
    pub t: usize,
    pub text: Vec<u8>,
    pub keys: Vec<Key>,
}

/// A walk of 50 to 800 keys.
pub fn walk(random: &mut Random, t: usize) -> Walk {
    let letters = letters(random);
    let n = length(random, t);
    let text = deck(random, letters, n);
    let keys = if random.percent(70) { random.within(50, 400) } else { random.within(50, 800) };
    let mut flavour = PHRASES.map(|(weight, _)| weight * random.pick(&[0, 1, 1, 4]) + 1);
    // Now and then hardly anything but keys with short names, so that 800 of them go into one script.
    if random.percent(5) {
        flavour[0] = 20_000;
    }
    write(random, letters, t, text, flavour, keys)
}

/// A walk of 50 to 200 keys along lines of 1,024 bytes or nearly, or that would be as long if they were one.
pub fn along_long_lines(random: &mut Random) -> Walk {
    let letters = random.pick(&[b"a" as &[u8], b"ab", b"ab ", b"ab \n"]);
    let text = long_lines::deck(random);
    let t = text.len() + random.pick(&[0, 1, 5, 30, 300]);
    let keys = random.within(50, 200);
    let long = PHRASES.len() - long::PHRASES;
    let flavour = std::array::from_fn(|i| if i < long { PHRASES[i].0 / 4 } else { 20 * random.pick(&[1, 2, 4]) });
    write(random, letters, t, text, flavour, keys)
}

fn write(random: &mut Random, letters: &'static [u8], t: usize, text: Vec<u8>, flavour: Flavour, keys: usize) -> Walk {
    let (h, w) = (rows(random), columns(random));
    let main = Edited { text: Doc::new(&[], &text), recall: Doc::default() };
    let editor = Editor { main, ..Editor::default() };
    let mut writer = Writer { random: Random::new(random.draw(), 0), letters, t, w, editor, flavour, keys: Vec::new() };
    while writer.keys.len() < keys {
        let phrase = writer.random.weighted(&writer.flavour);
        PHRASES[phrase].1(&mut writer);
    }
    writer.keys.truncate(keys);
    Walk { h, w, t, keys: writer.keys, text }
}

struct Writer {
    random: Random,
    letters: &'static [u8],
    t: usize,
    w: usize,
    editor: Editor,
    flavour: Flavour,
    keys: Vec<Key>,
}

/// What a hand at the keyboard does next.
type Phrase = fn(&mut Writer);

/// How often each phrase comes in one walk.
type Flavour = [usize; PHRASES.len()];

/// The phrases, each with how often it comes. The last five are for long lines, and rare where there are none.
const PHRASES: [(usize, Phrase); 22] = [
    (3, Writer::command),
    (30, Writer::any),
    (20, Writer::type_some),
    (20, |writer| {
        let key = function(&mut writer.random);
        writer.press(key)
    }),
    (12, Writer::move_on),
    (14, Writer::delete_and_recall),
    (14, Writer::ring_and_recall),
    (12, Writer::find),
    (12, Writer::replace),
    (16, Writer::change_at_mark),
    (8, Writer::replace_at_mark),
    (14, Writer::cut_and_paste),
    (8, Writer::indent),
    (10, Writer::indent_in_little_room),
    (8, Writer::quotation),
    (8, Writer::fill),
    (3, Writer::be_refused),
    (0, Writer::join_by_deletion),
    (0, Writer::join_by_cut),
    (0, Writer::join_by_replace),
    (0, Writer::carry_to_line),
    (0, Writer::lengthen_line),
];

impl Writer {
    fn press(&mut self, key: Key) {
        self.keys.push(key);
        if let Ok(pressed) = press(&self.editor, key, self.t) {
            self.editor = pressed.editor;
        }
    }

    /// Bytes that still go into the text at hand.
    fn room(&mut self) -> usize {
        let room = if self.editor.mode == Mode::Main { self.t } else { QUARTER };
        room - self.editor.current().text.length()
    }

    fn step(&mut self, direction: Direction, count: usize) {
        (0..count).for_each(|_| self.press(Key::Function(Action::Move, direction, Place::Character)));
    }

    fn letter(&mut self) -> Key {
        Key::Insert(self.random.pick(self.letters))
    }

    fn any(&mut self) {
        let key = match self.random.weighted(&[30, 30, 10, 6, 6, 6, 10, 4, 5, 5, 4, 4]) {
            0 => self.letter(),
            1 => function(&mut self.random),
            2 => Key::Recall,
            3 => Key::Quote,
            4 => Key::Find(Direction::Right),
            5 => Key::Find(Direction::Left),
            6 => Key::Replace,
            7 => Key::Mark,
            8 => Key::Cut,
            9 => Key::Paste,
            10 => Key::Newline,
            _ => Key::Tab,
        };
        self.press(key);
    }

    fn command(&mut self) {
        let key = match self.random.weighted(&[20, 50, 12, 12, 3, 3, 2, 2, 2, 2]) {
            0 => Key::Quote,
            1 => Key::Find(Direction::Right),
            2 => Key::Find(Direction::Left),
            3 => Key::Recall,
            4 => Key::Replace,
            5 => Key::Mark,
            6 => Key::Cut,
            7 => Key::Paste,
            8 => Key::Tab,
            _ => self.letter(),
        };
        self.press(key);
    }

    fn type_some(&mut self) {
        for _ in 0..self.random.pick(&[1, 1, 2, 3, 8]) {
            let key = self.letter();
            self.press(key);
        }
    }

    /// The same move again and again: along the left edge, and up to and over column c + W.
    fn move_on(&mut self) {
        let place = self.random.pick(&[Place::Character, Place::Character, Place::Word, Place::LineBeginning, Place::LineEnding]);
        let key = Key::Function(Action::Move, self.random.pick(&DIRECTIONS), place);
        for _ in 0..self.random.pick(&[2, 3, 5, self.w.min(40), self.w.min(40) + 1]) {
            self.press(key);
        }
    }

    /// A deletion, some edits in between, and its text back once or twice.
    fn delete_and_recall(&mut self) {
        for _ in 0..self.random.pick(&[1, 1, 1, 2, 3]) {
            let key = Key::Function(Action::Delete, self.random.pick(&DIRECTIONS), self.random.pick(&PLACES));
            self.press(key);
        }
        for _ in 0..self.random.below(4) {
            let key = if self.random.percent(60) { self.letter() } else { function(&mut self.random) };
            self.press(key);
        }
        for _ in 0..self.random.pick(&[1, 1, 2]) {
            self.press(Key::Recall);
        }
    }

    /// Something goes, often all of the line or text; deletions on from where there is nothing more, so that most of them ring; and
    /// RECALL straight after, once too often for a small store.
    fn ring_and_recall(&mut self) {
        if self.random.percent(40) {
            self.begin_quotation();
            self.type_some();
        }
        let direction = self.random.pick(&DIRECTIONS);
        let any = self.random.pick(&PLACES);
        let all = self.random.pick(&[any, any, Place::Document]);
        self.press(Key::Function(Action::Delete, direction, all));
        // On to the end of the text, or only of the line, from where a deletion still has somewhere to go.
        let line = if direction == Direction::Left { Place::LineBeginning } else { Place::LineEnding };
        let end = self.random.pick(&[line, Place::Document, Place::Document]);
        self.press(Key::Function(Action::Move, direction, end));
        for _ in 0..self.random.pick(&[1, 1, 2, 3]) {
            let place = self.random.pick(&PLACES);
            self.press(Key::Function(Action::Delete, direction, place));
            if self.random.percent(40) {
                self.press(Key::Recall);
            }
        }
        for _ in 0..self.random.pick(&[1, 1, 2]) {
            self.press(Key::Recall);
        }
    }

    /// Out of a quotation, where keys about the document are refused or go elsewhere; not always.
    fn to_main(&mut self) {
        if self.editor.mode == Mode::Quoted && self.random.percent(85) {
            self.press(Key::Quote);
        }
    }

    fn begin_quotation(&mut self) {
        if self.editor.mode == Mode::Quoted && self.random.percent(50) {
            self.press(Key::Quote);
        }
        if self.editor.mode == Mode::Main {
            self.press(Key::Quote);
        }
    }

    fn type_text(&mut self, text: &[u8]) {
        text.iter().for_each(|byte| self.press(Key::Insert(*byte)));
    }

    /// A part of the document or a few letters becomes the pattern, and is looked for both ways.
    fn find(&mut self) {
        self.begin_quotation();
        let content = self.editor.main.text.content();
        let n = self.random.pick(&[0, 1, 1, 2, 2, 3, 5, 9]).min(content.len());
        let pattern = if self.random.percent(75) {
            let from = self.random.within(0, content.len() - n);
            content[from..from + n].to_vec()
        } else {
            text(&mut self.random, self.letters, n)
        };
        self.type_text(&pattern);
        for _ in 0..self.random.pick(&[1, 1, 2, 4]) {
            let key = Key::Find(self.random.pick(&DIRECTIONS));
            self.press(key);
        }
    }

    /// A replacement as long as the room that the pattern gives back, one byte more or less, or any; the cursor somewhere in it.
    fn replace(&mut self) {
        let room = self.t - self.editor.main.text.length() + self.editor.pattern.len();
        self.begin_quotation();
        let n = match self.random.below(5) {
            0 => room,
            1 => room + 1,
            2 => room.saturating_sub(1),
            _ => self.random.below(4),
        };
        let replacement = text(&mut self.random, self.letters, n.min(12));
        self.type_text(&replacement);
        for _ in 0..self.random.below(3) {
            self.press(Key::Function(Action::Move, Direction::Left, Place::Character));
        }
        for _ in 0..self.random.pick(&[1, 1, 1, 2, 3]) {
            self.press(Key::Replace);
            if self.random.percent(30) {
                self.press(Key::Recall);
            }
            if self.random.percent(30) {
                let key = Key::Find(self.random.pick(&DIRECTIONS));
                self.press(key);
            }
        }
    }

    /// A quotation edited like a document, and often abandoned; now and then one that is full.
    fn quotation(&mut self) {
        self.begin_quotation();
        if self.random.percent(6) {
            self.fill_quotation();
        }
        self.type_some();
        self.delete_and_recall();
        if self.random.percent(50) {
            self.press(Key::Quote);
        }
    }

    /// A quotation that is full, in few keys: what was typed is deleted and comes back twice, again and again.
    fn fill_quotation(&mut self) {
        self.press(Key::Function(Action::Delete, Direction::Right, Place::Document));
        self.press(Key::Function(Action::Delete, Direction::Left, Place::Document));
        let mut length = 8;
        let text = text(&mut self.random, self.letters, length);
        self.type_text(&text);
        while 2 * length <= QUARTER {
            self.press(Key::Function(Action::Delete, Direction::Left, Place::Document));
            self.press(Key::Recall);
            self.press(Key::Recall);
            length *= 2;
        }
    }

    /// Types until the text is full, or one byte short of it, or once too often.
    fn fill(&mut self) {
        let room = self.room();
        if room > 60 {
            return self.type_some();
        }
        let n = self.random.pick(&[room, room.saturating_sub(1), room + 1]);
        let text = text(&mut self.random, self.letters, n);
        self.type_text(&text);
        let key = self.random.pick(&[Key::Recall, Key::Replace, Key::Quote, Key::Paste]);
        self.press(key);
    }

    fn be_refused(&mut self) {
        let key = match self.random.below(3) {
            0 => Key::Function(Action::Delete, Direction::Left, Place::LineEnding),
            1 => Key::Function(Action::Delete, Direction::Right, Place::LineBeginning),
            _ => Key::Insert(self.random.pick(&NOT_ALLOWED)),
        };
        self.press(key);
    }
}
