//! Calls at the host's boundary: keys on sessions that are made directly (not only such as keys lead to) and then often damaged,
//! openings of anything, and small arbitrary numbers and bytes.

use crate::bytes::{encode, record, Record, Stores, LARGEST_T, NO_MARK, SIDE};
use crate::core::{numbers_of, Core, Numbers, Reply};
use crate::damage;
use crate::generate::{columns, deck, function, length, letters, rows, store, text, DIRECTIONS, NOT_ALLOWED};
use crate::long_lines;
use crate::plain::{press, Action, Direction, Doc, Edited, Editor, Key, Mode, QUARTER};
use crate::random::Random;
use crate::window::{cursor, virtual_text, window, Offsets};

#[derive(Clone, Debug, PartialEq, Eq)]
pub struct Call {
    pub kind: Kind,
    pub stores: Stores,
}

#[derive(Clone, Copy, Debug, PartialEq, Eq)]
pub enum Kind {
    Open { n: usize, h: usize, w: usize },
    Key { record: Record, numbers: Numbers },
}

impl Call {
    /// What a core makes of it: the reply, and all five stores afterwards.
    pub fn outcome(&self, core: &dyn Core) -> (Reply, Stores) {
        let mut stores = self.stores.clone();
        let reply = match self.kind {
            Kind::Open { n, h, w } => core.open(n, h, w, &mut stores),
            Kind::Key { record, numbers } => core.key(record, numbers, &mut stores),
        };
        (reply, stores)
    }
}

/// A call, and whether it is a damaged one.
pub fn call(random: &mut Random) -> (Call, bool) {
    match random.weighted(&[85, 10, 5]) {
        0 => {
            let times = random.pick(&[0, 0, 1, 1, 1, 2]);
            (on_session(random, times), times > 0)
        }
        1 => (opening(random), false),
        _ => (arbitrary(random), true),
    }
}

/// T; one time in a hundred as large as it may be, or nearly.
pub fn any_store(random: &mut Random) -> usize {
    match random.below(100) {
        0 => random.pick(&[LARGEST_T, LARGEST_T, LARGEST_T - 1, 4_097, 30_000]),
        _ => store(random),
    }
}

/// A text with its cursor at either end or anywhere.
pub fn doc(random: &mut Random, text: Vec<u8>) -> Doc {
    let at = match random.below(5) {
        0 => 0,
        1 => text.len(),
        _ => random.within(0, text.len()),
    };
    Doc::new(&text[..at], &text[at..])
}

/// A recall pair or held pair: one half is empty. Its length is the room that is left, one byte more or less, or any up to the area's.
fn recall(random: &mut Random, letters: &[u8], room: usize, area: usize) -> Doc {
    let n = match random.below(6) {
        0 => 0,
        1 => room,
        2 => room + 1,
        3 => 1,
        4 => random.within(0, area.min(8)),
        _ => random.within(0, area),
    };
    let text = text(random, letters, n.min(area));
    if random.percent(50) {
        Doc::new(&text, &[])
    } else {
        Doc::new(&[], &text)
    }
}

/// A pattern: most often one that r begins with, or that stands somewhere in the document.
fn pattern(random: &mut Random, letters: &[u8], document: &Doc, area: usize) -> Vec<u8> {
    let content = document.content();
    let kind = random.weighted(&[45, 20, 12, 20, 3]);
    let from = if kind == 0 { document.l.len() } else { random.within(0, content.len()) };
    let most = (content.len() - from).min(area);
    match kind {
        0 | 1 => {
            let n = if random.percent(80) { random.within(0, most.min(6)) } else { random.within(0, most) };
            content[from..from + n].to_vec()
        }
        2 => Vec::new(),
        3 => {
            let n = random.within(1, 4);
            text(random, letters, n)
        }
        _ => {
            let n = random.within(area - 6, area);
            text(random, letters, n)
        }
    }
}

/// Any state that a session with such quarters can hold. `room` is what REPLACE may fill: what is free, and the pattern's own room.
pub fn editor(random: &mut Random, t: usize, area: usize) -> Editor {
    let letters = letters(random);
    let n = length(random, t);
    let content = deck(random, letters, n);
    let document = doc(random, content);
    let recall_text = recall(random, letters, t - n, t);
    let held = recall(random, letters, t - n, t);
    let pattern = pattern(random, letters, &document, area);
    let room = t - n + pattern.len();
    let quarter = |random: &mut Random| {
        let n = match random.below(8) {
            0 => 0,
            1 => room,
            2 => room + 1,
            3 => room.saturating_sub(1),
            4 => random.within(area - 9, area),
            5 => random.within(0, area),
            _ => random.within(0, 6),
        };
        let text = deck(random, letters, n.min(area));
        doc(random, text)
    };
    let replacement = quarter(random);
    let main = Edited { text: document, recall: recall_text };
    let mut editor = Editor { main, held, pattern, replacement, ..Editor::default() };
    if random.percent(45) {
        editor.quoted.text = if random.percent(35) {
            // One that FIND meets.
            let pattern = self::pattern(random, letters, &editor.main.text, area);
            doc(random, pattern)
        } else {
            quarter(random)
        };
        editor.quoted.recall = recall(random, letters, area - editor.quoted.text.length(), area);
        editor.mode = Mode::Quoted;
    }
    editor
}

/// A mark at, before or behind the stretch that a key works on, at an end of the document, anywhere, or none.
fn mark(random: &mut Random, editor: &Editor, key: Key, t: usize) -> Option<usize> {
    let (cursor, end) = (editor.main.text.l.len(), editor.main.text.length());
    // Where the stretch ends that a deletion or REPLACE takes away, and that an insertion brings.
    let other = match key {
        Key::Function(Action::Delete, direction, _) => {
            let steps = press(editor, key, t).map_or(0, |pressed| pressed.steps);
            match direction {
                Direction::Left => cursor.saturating_sub(steps),
                Direction::Right => cursor + steps,
            }
        }
        Key::Replace => cursor + editor.pattern.len(),
        _ => cursor,
    };
    let any = random.within(0, end);
    let (low, high) = (cursor.min(other), cursor.max(other));
    let inside = random.within(low, high);
    let at = random.pick(&[cursor, other, other, low.saturating_sub(1), high + 1, inside, 0, end, any]);
    random.percent(80).then_some(at.min(end))
}

/// Offsets that show the cursor, most often just so.
pub fn offsets(random: &mut Random, text: &Doc, h: usize, w: usize) -> Offsets {
    let (row, column) = cursor(text);
    let mut between = |low: usize, high: usize| match random.below(3) {
        0 => low,
        1 => high,
        _ => random.within(low, high),
    };
    Offsets { r: between(row.saturating_sub(h), row - 1), c: between(column.saturating_sub(w), column) }
}

pub fn key(random: &mut Random, letters: &[u8]) -> Key {
    match random.weighted(&[15, 4, 35, 12, 8, 10, 16, 4, 12, 10, 10, 10]) {
        0 => Key::Insert(random.pick(letters)),
        1 => Key::Insert(random.pick(&NOT_ALLOWED)),
        2 => function(random),
        3 => Key::Recall,
        4 => Key::Quote,
        5 => Key::Find(random.pick(&DIRECTIONS)),
        6 => Key::Replace,
        7 => Key::Mark,
        8 => Key::Cut,
        9 => Key::Paste,
        10 => Key::Newline,
        _ => Key::Tab,
    }
}

/// A key on a session that is then damaged so many times.
fn on_session(random: &mut Random, times: usize) -> Call {
    let (h, w) = (rows(random), columns(random));
    // One time in ten a small session whose lines are then lengthened.
    let long = random.percent(10);
    let mut t = if long { random.within(1, 64) } else { any_store(random) };
    let mut editor = editor(random, t, QUARTER);
    let letters = letters(random);
    let key = if long && random.percent(85) { long_lines::key(random) } else { key(random, letters) };
    editor.mark = mark(random, &editor, key, t);
    if long {
        editor = long_lines::lengthen(random, &editor, key);
        let least = [&editor.main.text, &editor.main.recall, &editor.held].map(Doc::length).into_iter().fold(1, usize::max);
        t = least + random.pick(&[0, 1, 2, 9, 70, 300, 300]);
    }
    if times > 0 && random.percent(6) {
        // Back in MAIN, with something of the quotation left.
        editor.mode = Mode::Main;
        if random.percent(50) {
            editor.quoted.text = Doc::default();
        } else {
            editor.quoted.recall = Doc::default();
        }
    }
    let seen = virtual_text(&editor);
    let at = offsets(random, &seen, h, w);
    let (text, recall, held, side) = encode(&editor, t);
    let mut stores = Stores { text, recall, held, side, screen: window(&seen, at, h, w) };
    // The lent screen may show anything; only the named rows depend on it.
    for _ in 0..random.pick(&[0, 0, 0, 0, 1, 3]) {
        let cell = random.below(h * w);
        stores.screen[cell] = random.draw() as u8;
    }
    if random.percent(5) {
        stores.screen.fill(random.pick(&[0, 32, b'a']));
    }
    let mut numbers = numbers_of(key);
    let mut record = record(&editor, at, h, w);
    for _ in 0..times {
        match random.weighted(&[45, 25, 20, 10]) {
            0 => damage::record(random, &mut record, &mut stores, &seen),
            1 => damage::byte(random, &record, &mut stores, QUARTER),
            2 => damage::length(random, &mut stores),
            _ => damage::key(random, &mut numbers),
        }
    }
    Call { kind: Kind::Key { record, numbers }, stores }
}

/// An opening over whatever the stores held before.
fn opening(random: &mut Random) -> Call {
    let (mut h, mut w) = (rows(random), columns(random));
    let letters = letters(random);
    let long = random.percent(25).then(|| long_lines::to_open(random));
    let t = match &long {
        Some(text) => text.len().max(1) + random.pick(&[0, 0, 1, 20]),
        None => any_store(random),
    };
    let mut stores = Stores::zeros(t, h, w);
    let [old_recall, old_held, old_screen] = [(); 3].map(|()| random.draw() as u8);
    stores.text = deck(random, letters, t);
    stores.recall.fill(old_recall);
    stores.held.fill(old_held);
    stores.side.iter_mut().for_each(|byte| *byte = random.draw() as u8);
    stores.screen.fill(old_screen);
    let n = match random.below(10) {
        0 => t + 1,
        1 => random.pick(&damage::HUGE),
        _ => long.as_ref().map_or_else(|| length(random, t), Vec::len),
    };
    if let Some(text) = long {
        stores.text[..text.len()].copy_from_slice(&text);
    }
    // Before n, at its edge, or behind it.
    for _ in 0..random.pick(&[0, 0, 0, 1, 2]) {
        let at = if random.percent(50) { n.wrapping_sub(random.below(2)) } else { random.below(t) };
        if at < t {
            stores.text[at] = random.pick(&NOT_ALLOWED);
        }
    }
    if random.percent(12) {
        damage::length(random, &mut stores);
    }
    if random.percent(8) {
        let size = random.pick(&[0, 1, 64, 65, 256, 257, usize::MAX, 1 << 32]);
        if random.percent(50) {
            h = size
        } else {
            w = size
        }
        if h <= 65 && w <= 257 && random.percent(60) {
            stores.screen = vec![0; h * w];
        }
    }
    Call { kind: Kind::Open { n, h, w }, stores }
}

/// Small numbers and any bytes.
fn arbitrary(random: &mut Random) -> Call {
    let (t, h, w) = (random.within(1, 4), random.within(1, 2), random.within(1, 3));
    let mut stores = Stores::zeros(t, h, w);
    let mut record = Record { rows: h, columns: w, ..Record::default() };
    for (i, field) in record.fields().into_iter().enumerate().filter(|(i, _)| !(14..16).contains(i)) {
        *field = random.pick(&[0, 0, 0, 1, 2]);
        // The mark comes last.
        if i == 18 && random.percent(60) {
            *field = NO_MARK;
        }
    }
    for _ in 0..random.below(6) {
        let at = random.below(t);
        stores.text[at] = random.pick(&[0, 10, 32, b'a', 127]);
        stores.recall[random.below(t)] = random.pick(&[0, 10, 32, b'a', 127]);
        stores.held[random.below(t)] = random.pick(&[0, 0, 10, 32, b'a', 127]);
        stores.side[random.below(4) * QUARTER] = random.pick(&[0, 10, 32, b'a', 127]);
        stores.side[random.below(SIDE)] = random.pick(&[0, 0, 0, b'a']);
    }
    let numbers = Numbers { kind: random.below(12), a: random.below(4), b: random.below(3), c: random.below(6) };
    Call { kind: Kind::Key { record, numbers }, stores }
}
