//! The bench program (01, "The bench program"; 02, M-101, M-104, M-105; readings, A1 to A17, C6, C21): its input read line by line, its
//! output byte for byte.

use crate::bytes::{Stores, LARGEST_H, LARGEST_W};
use crate::core::{numbers_of, Core, Reply};
use crate::plain::{Action, Direction, Key, Place, NEWLINE};

pub const LARGEST_INPUT: usize = 8_192;
pub const LARGEST_STORE: usize = 4_096;

/// Why the program stops before its input ends.
enum Stop {
    /// `script=` and this number.
    Script(usize),
    /// A refused opening ends the program, and its block has been printed.
    Opening,
}

/// What the bench program writes for this input, run on this core.
pub fn run(core: &dyn Core, input: &[u8]) -> Vec<u8> {
    let mut output = Vec::new();
    if let Err(Stop::Script(number)) = read(core, input, &mut output) {
        print(&mut output, "script", number);
    }
    output
}

/// Reading and running go together: what was run before a line that can't be read stays printed (A1).
fn read(core: &dyn Core, input: &[u8], output: &mut Vec<u8>) -> Result<(), Stop> {
    if input.len() > LARGEST_INPUT {
        return Err(Stop::Script(0));
    }
    let mut rest = input;
    let mut header = [0; 4];
    for (i, name) in ["rows=", "cols=", "store=", "text="].iter().enumerate() {
        let unreadable = Stop::Script(i + 1);
        let Some(end) = rest.iter().position(|byte| *byte == NEWLINE) else {
            return Err(unreadable);
        };
        let Some(value) = rest[..end].strip_prefix(name.as_bytes()).and_then(number) else {
            return Err(unreadable);
        };
        header[i] = value;
        rest = &rest[end + 1..];
    }
    let [h, w, t, n] = header;

    if rest.len() <= n || rest[n] != NEWLINE {
        return Err(Stop::Script(4));
    }
    let text = &rest[..n];
    rest = &rest[n + 1..];
    if t > LARGEST_STORE {
        return Err(Stop::Script(0));
    }

    // A screen is lent only where H and W are as tabled; the opening refuses the others whatever is lent (A17).
    let tabled = h <= LARGEST_H && w <= LARGEST_W;
    let mut stores = if tabled { Stores::zeros(t, h, w) } else { Stores::zeros(t, 0, 0) };
    let lent = n.min(t);
    stores.text[..lent].copy_from_slice(&text[..lent]);
    let mut reply = core.open(n, h, w, &mut stores);
    print_block(output, &reply, &stores, w);
    if reply.answer.code != 0 {
        return Err(Stop::Opening);
    }

    let mut line_number = 6 + text.iter().filter(|byte| **byte == NEWLINE).count();
    while !rest.is_empty() {
        let end = rest.iter().position(|byte| *byte == NEWLINE).unwrap_or(rest.len());
        let Some(key) = key_line(&rest[..end]) else {
            return Err(Stop::Script(line_number));
        };
        reply = core.key(reply.record, numbers_of(key), &mut stores);
        print_block(output, &reply, &stores, w);
        rest = rest.get(end + 1..).unwrap_or(&[]);
        line_number += 1;
    }
    Ok(())
}

/// 1 to 5 digits and no leading zero but 0 itself.
fn number(digits: &[u8]) -> Option<usize> {
    let shaped = (1..=5).contains(&digits.len()) && digits.iter().all(u8::is_ascii_digit);
    let leading = digits.len() > 1 && digits[0] == b'0';
    (shaped && !leading).then(|| digits.iter().fold(0, |value, digit| value * 10 + (digit - b'0') as usize))
}

fn key_line(line: &[u8]) -> Option<Key> {
    let name = line.strip_prefix(b"key=")?;
    if let Some(digits) = name.strip_prefix(b"insert-") {
        return u8::try_from(number(digits)?).ok().map(Key::Insert);
    }
    match name {
        b"recall" => return Some(Key::Recall),
        b"quote" => return Some(Key::Quote),
        b"find" => return Some(Key::Find(Direction::Right)),
        b"upfind" => return Some(Key::Find(Direction::Left)),
        b"replace" => return Some(Key::Replace),
        b"mark" => return Some(Key::Mark),
        b"cut" => return Some(Key::Cut),
        b"paste" => return Some(Key::Paste),
        b"newline" => return Some(Key::Newline),
        b"tab" => return Some(Key::Tab),
        _ => {}
    }
    // Only a place's own name has a hyphen in it, so the first two part action, direction and place.
    let mut parts = name.splitn(3, |byte| *byte == b'-');
    let action = match parts.next()? {
        b"move" => Action::Move,
        b"delete" => Action::Delete,
        _ => return None,
    };
    let direction = match parts.next()? {
        b"left" => Direction::Left,
        b"right" => Direction::Right,
        _ => return None,
    };
    let place = match parts.next()? {
        b"character" => Place::Character,
        b"word" => Place::Word,
        b"line-begin" => Place::LineBeginning,
        b"line-end" => Place::LineEnding,
        b"document" => Place::Document,
        _ => return None,
    };
    Some(Key::Function(action, direction, place))
}

/// The line that names a key, without `key=`.
pub fn key_name(key: Key) -> String {
    let (action, direction, place) = match key {
        Key::Insert(byte) => return format!("insert-{byte}"),
        Key::Recall => return "recall".into(),
        Key::Quote => return "quote".into(),
        Key::Find(Direction::Right) => return "find".into(),
        Key::Find(Direction::Left) => return "upfind".into(),
        Key::Replace => return "replace".into(),
        Key::Mark => return "mark".into(),
        Key::Cut => return "cut".into(),
        Key::Paste => return "paste".into(),
        Key::Newline => return "newline".into(),
        Key::Tab => return "tab".into(),
        Key::Function(action, direction, place) => (action, direction, place),
    };
    let action = ["move", "delete"][action as usize];
    let direction = ["left", "right"][direction as usize];
    let place = ["character", "word", "line-begin", "line-end", "document"][place as usize];
    format!("{action}-{direction}-{place}")
}

fn print(output: &mut Vec<u8>, name: &str, value: usize) {
    output.extend(format!("{name}={value}\n").into_bytes());
}

fn print_block(output: &mut Vec<u8>, reply: &Reply, stores: &Stores, w: usize) {
    let answer = &reply.answer;
    print(output, "code", answer.code);
    if answer.code != 0 {
        return print(output, "place", answer.place);
    }
    print(output, "steps", answer.steps);
    print(output, "lines", answer.lines);
    print(output, "bell", answer.bell);
    print(output, "first", answer.first);
    print(output, "last", answer.last);
    print(output, "row", answer.row);
    print(output, "col", answer.column);
    for row in stores.screen.chunks(w) {
        output.extend(b"line=");
        output.extend(row);
        output.push(NEWLINE);
    }
}
