//! Lines as long as the reader takes (02, M-106), one byte less, one and two more: decks for walks, texts for openings, and sessions in
//! which a key makes such a line.

use crate::generate::{text, DIRECTIONS, PLACES};
use crate::plain::{press, Action, Direction, Doc, Edited, Editor, Key, Mode, NEWLINE, QUARTER};
use crate::random::Random;
use crate::reader::LONGEST_LINE;

const AROUND: [usize; 4] = [LONGEST_LINE - 1, LONGEST_LINE, LONGEST_LINE + 1, LONGEST_LINE + 2];

fn line(random: &mut Random, n: usize) -> Vec<u8> {
    text(random, b"aab ", n)
}

fn short(random: &mut Random) -> Vec<u8> {
    let n = random.within(0, 20);
    line(random, n)
}

/// A deck that the reader takes, of lines that would have 1,023 to 1,026 bytes if two of them were one.
pub fn deck(random: &mut Random) -> Vec<u8> {
    let mut lines = Vec::new();
    for _ in 0..random.pick(&[1, 1, 2, 3]) {
        if random.percent(40) {
            lines.push(short(random));
        }
        let sum = random.pick(&AROUND);
        let any = random.within(0, sum);
        let first = random.pick(&[any, any, any, 0, 1, 2, sum]).clamp(sum.saturating_sub(LONGEST_LINE), LONGEST_LINE);
        lines.push(line(random, first));
        lines.push(line(random, sum - first));
    }
    lines.join(&NEWLINE)
}

/// One to four lines; one or two of them, in whatever place, are as long as the reader takes, or too long.
pub fn to_open(random: &mut Random) -> Vec<u8> {
    let mut lines: Vec<Vec<u8>> = (0..random.within(1, 4)).map(|_| short(random)).collect();
    for _ in 0..random.pick(&[1, 1, 2]) {
        let (i, far) = (random.below(lines.len()), random.within(LONGEST_LINE, 2 * LONGEST_LINE + 2));
        let [a, b, c, d] = AROUND;
        let n = random.pick(&[a, b, b, c, c, d, far]);
        lines[i] = line(random, n);
    }
    lines.join(&NEWLINE)
}

/// Where a line is lengthened: so many bytes from the front of the left half, or from the back of the right half. The text that a key brings
/// has only one.
#[derive(Clone, Copy)]
enum Spot {
    Left(usize),
    Right(usize),
}

fn put(doc: &Doc, spot: Spot, bytes: &[u8]) -> Doc {
    let r = Vec::from(doc.r.clone());
    match spot {
        Spot::Left(at) => Doc::new(&[&doc.l[..at], bytes, &doc.l[at..]].concat(), &r),
        Spot::Right(at) => Doc::new(&doc.l, &[&r[..r.len() - at], bytes, &r[r.len() - at..]].concat()),
    }
}

/// The same state with more bytes in the document, or in the text that RECALL or PASTE brings.
fn lengthened(editor: &Editor, brought: Option<Key>, spot: Spot, bytes: &[u8]) -> Editor {
    let mut longer = editor.clone();
    match brought {
        Some(Key::Recall) => longer.main.recall = put(&editor.main.recall, spot, bytes),
        Some(_) => longer.held = put(&editor.held, spot, bytes),
        None => {
            longer.main.text = put(&editor.main.text, spot, bytes);
            let at = match spot {
                Spot::Left(at) => at,
                Spot::Right(at) => editor.main.text.length() - at,
            };
            longer.mark = editor.mark.map(|mark| if at < mark { mark + bytes.len() } else { mark });
        }
    }
    longer
}

fn any_spot(random: &mut Random, doc: &Doc) -> Spot {
    if random.percent(50) && !doc.l.is_empty() || doc.r.is_empty() {
        Spot::Left(random.within(0, doc.l.len()))
    } else {
        Spot::Right(random.within(0, doc.r.len()))
    }
}

/// The beginning or the end of the line that the cursor is in once the key has been pressed, or any line.
fn spot(random: &mut Random, before: &Doc, after: &Doc) -> Spot {
    let start = after.l.iter().rposition(|byte| *byte == NEWLINE).map_or(0, |i| i + 1);
    let end = after.r.iter().position(|byte| *byte == NEWLINE).map_or(0, |i| after.r.len() - i);
    match random.below(5) {
        0 | 1 => Spot::Left(start.min(before.l.len())),
        2 | 3 => Spot::Right(end.min(before.r.len())),
        _ => any_spot(random, before),
    }
}

/// A newline next to the cursor, in the stretch that the key takes away, so that two lines become one.
fn with_a_join(editor: &Editor, key: Key) -> Editor {
    let mut editor = editor.clone();
    let cursor = editor.main.text.l.len();
    let left = match key {
        Key::Function(Action::Delete, direction, _) => direction == Direction::Left,
        Key::Cut => editor.mark.is_some_and(|mark| mark < cursor),
        Key::Replace => false,
        _ => return editor,
    };
    // A mark at the cursor stays there.
    editor.mark = editor.mark.map(|mark| mark + (if left { mark >= cursor } else { mark > cursor }) as usize);
    if left {
        editor.main.text.l.push(NEWLINE);
    } else {
        editor.main.text.r.push_front(NEWLINE);
    }
    if key == Key::Replace {
        editor.pattern.insert(0, NEWLINE);
        editor.pattern.truncate(QUARTER);
    }
    editor
}

/// Lengthens a line of a state so that it has so many bytes when the key has been pressed.
fn lengthened_to(random: &mut Random, editor: &Editor, key: Key, target: usize) -> Editor {
    let texts = [&editor.main.text, &editor.main.recall, &editor.held, &editor.quoted.text, &editor.replacement];
    let used = [texts.map(Doc::content).concat(), editor.pattern.clone()].concat();
    let Some(byte) = (33..=126).find(|byte| !used.contains(byte)) else {
        return editor.clone();
    };
    let after = |editor: &Editor| press(editor, key, usize::MAX).map_or(editor.clone(), |pressed| pressed.editor).main.text;
    let pair = match key {
        Key::Recall => &editor.main.recall,
        _ => &editor.held,
    };
    let brings = matches!(key, Key::Recall | Key::Paste) && editor.mode == Mode::Main && pair.length() > 0;
    let brought = (brings && random.percent(40)).then_some(key);
    let spot = match brought {
        Some(_) => any_spot(random, pair),
        None => spot(random, &editor.main.text, &after(editor)),
    };
    // One byte that stands nowhere else shows which line grows there, and how long that is with the key.
    let probe = after(&lengthened(editor, brought, spot, &[byte])).content();
    let now = probe.split(|byte| *byte == NEWLINE).find(|line| line.contains(&byte)).map_or(1, <[u8]>::len);
    lengthened(editor, brought, spot, &vec![byte; target.saturating_sub(now) + 1])
}

/// A session made of a small one, in which the key leaves a line of 1,023 to 1,026 bytes, mostly. Where that line was there before, it may
/// be no session.
pub fn lengthen(random: &mut Random, editor: &Editor, key: Key) -> Editor {
    let mut editor = editor.clone();
    if random.percent(70) {
        editor.mode = Mode::Main;
        editor.quoted = Edited::default();
    }
    if random.percent(60) {
        editor = with_a_join(&editor, key);
    }
    // Most of it, or only a part here and the rest elsewhere.
    if random.percent(50) {
        let part = random.within(1, 900);
        editor = lengthened_to(random, &editor, key, part);
    }
    let target = random.pick(&AROUND);
    lengthened_to(random, &editor, key, target)
}

/// A key that can make a line longer, mostly.
pub fn key(random: &mut Random) -> Key {
    match random.weighted(&[12, 30, 12, 14, 16, 12, 6]) {
        0 => Key::Insert(b'a'),
        1 => Key::Function(Action::Delete, random.pick(&DIRECTIONS), random.pick(&PLACES)),
        2 => Key::Recall,
        3 => Key::Replace,
        4 => Key::Cut,
        5 => Key::Paste,
        _ => Key::Tab,
    }
}
