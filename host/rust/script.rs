//! Scripts of the bench program for other hosts: docs/RULES.md, section 9, says how one is written. Here it is read as a whole before
//! anything is run, and the bench program's two limits are not applied: at most 8,192 bytes of input, and a store of at most 4,096.

use crate::chidukwore::{insert, Key, CUT, FIND, MARK, NEWLINE, PASTE, QUOTE, RECALL, REPLACE, TAB, UPFIND};

pub struct Script {
    pub rows: usize,
    pub columns: usize,
    pub store: usize,
    pub text: Vec<u8>,
    pub keys: Vec<Key>,
}

/// The script, or the number of the first line that cannot be read.
pub fn read(bytes: &[u8]) -> Result<Script, usize> {
    let mut rest = bytes;
    let mut header = [0; 4];
    for (i, name) in ["rows=", "cols=", "store=", "text="].into_iter().enumerate() {
        let (line, behind) = rest.split_at(rest.iter().position(|b| *b == b'\n').ok_or(i + 1)?);
        header[i] = words(line).and_then(|line| number(line.strip_prefix(name)?)).ok_or(i + 1)?;
        rest = &behind[1..];
    }
    let [rows, columns, store, n] = header;
    if rest.get(n) != Some(&b'\n') {
        return Err(4);
    }
    let (text, lines) = (rest[..n].to_vec(), &rest[n + 1..]);
    let first = 6 + text.iter().filter(|b| **b == b'\n').count();
    let mut keys = Vec::new();
    for (i, line) in lines.split_inclusive(|b| *b == b'\n').enumerate() {
        let line = line.strip_suffix(b"\n").unwrap_or(line);
        keys.push(words(line).and_then(|line| key(line.strip_prefix("key=")?)).ok_or(first + i)?);
    }
    Ok(Script { rows, columns, store, text, keys })
}

fn words(line: &[u8]) -> Option<&str> {
    std::str::from_utf8(line).ok()
}

/// 1 to 5 digits, and none is a zero in front.
fn number(digits: &str) -> Option<usize> {
    let plain = digits.len() <= 5 && digits.bytes().all(|b| b.is_ascii_digit()) && (digits == "0" || !digits.starts_with('0'));
    digits.parse().ok().filter(|_| plain)
}

/// A function key's name gives its numbers at the boundary: the places of its words among these.
fn key(name: &str) -> Option<Key> {
    if let Some(byte) = name.strip_prefix("insert-") {
        return Some(insert(number(byte)?.try_into().ok()?));
    }
    let mut words = name.splitn(3, '-');
    let mut next = |of: &[&str]| {
        let word = words.next()?;
        of.iter().position(|name| *name == word)
    };
    Some(match name {
        "recall" => RECALL,
        "quote" => QUOTE,
        "find" => FIND,
        "upfind" => UPFIND,
        "replace" => REPLACE,
        "mark" => MARK,
        "cut" => CUT,
        "paste" => PASTE,
        "newline" => NEWLINE,
        "tab" => TAB,
        _ => {
            let (action, direction) = (next(&["move", "delete"])?, next(&["left", "right"])?);
            Key(1, action, direction, next(&["character", "word", "line-begin", "line-end", "document"])?)
        }
    })
}
