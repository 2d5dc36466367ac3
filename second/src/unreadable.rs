//! Scripts for the bench program: a walk written out, and in many of them one thing that can't be read, or can only just be.

use crate::generate::NOT_ALLOWED;
use crate::random::Random;
use crate::script::{key_name, LARGEST_INPUT, LARGEST_STORE};
use crate::walk::Walk;

/// A script in parts. What separates them is a part too, so that it can be missing.
#[derive(Clone)]
pub struct Script {
    header: [Vec<u8>; 4],
    text: Vec<u8>,
    after_text: Vec<u8>,
    keys: Vec<Vec<u8>>,
    end: Vec<u8>,
}

impl Script {
    /// As many of the walk's keys as the bench program takes, and room for one odd line.
    pub fn of(walk: &Walk) -> Script {
        let mut script = Script {
            header: [
                format!("rows={}", walk.h).into(),
                format!("cols={}", walk.w).into(),
                format!("store={}", walk.t).into(),
                Vec::new(),
            ],
            text: walk.text.clone(),
            after_text: b"\n".to_vec(),
            keys: Vec::new(),
            end: b"\n".to_vec(),
        };
        script.state_length(script.text.len());
        let mut length = script.bytes().len();
        for key in &walk.keys {
            let line = format!("key={}", key_name(*key)).into_bytes();
            length += line.len() + 1;
            if length > LARGEST_INPUT - 40 {
                break;
            }
            script.keys.push(line);
        }
        script
    }

    pub fn bytes(&self) -> Vec<u8> {
        let mut bytes = Vec::new();
        for line in &self.header {
            bytes.extend(line);
            bytes.push(b'\n');
        }
        bytes.extend(&self.text);
        bytes.extend(&self.after_text);
        bytes.extend(self.keys.join(&b'\n'));
        if !self.keys.is_empty() {
            bytes.extend(&self.end);
        }
        bytes
    }

    fn state_length(&mut self, n: usize) {
        self.header[3] = format!("text={n}").into();
    }

    /// Makes the script this long: with keys as far as they go, then with text.
    fn reach(&mut self, length: usize) {
        let find = b"key=find".to_vec();
        while !self.keys.is_empty() && self.bytes().len() + 30 > length {
            self.keys.truncate(self.keys.len() * 7 / 8);
        }
        let missing = length.saturating_sub(self.bytes().len() + 30);
        self.keys.resize(self.keys.len() + missing / (find.len() + 1), find);
        while self.bytes().len() < length {
            self.text.push(b'a');
            self.state_length(self.text.len());
        }
    }
}

#[rustfmt::skip]
const NUMBERS: [&str; 22] = [
    "0", "1", "00", "01", "007", "000001", "64", "65", "256", "257", "4096", "4097", "5000", "65536", "65537", "99999", "100000",
    "999999", "", "+1", "-1", "18446744073709551617",
];
const LINES: [&str; 8] = ["", "rows", "Rows=1", " rows=1", "cols =1", "row=1", "text=", "key=quote"];
const TAILS: [&str; 8] = [" ", "\r", "\t", "0", "a", "=", "\0", ","];
#[rustfmt::skip]
const LENGTHS: [usize; 7] = [
    LARGEST_INPUT - 1, LARGEST_INPUT, LARGEST_INPUT, LARGEST_INPUT + 1, LARGEST_INPUT + 1, 10_000, 70_000,
];
#[rustfmt::skip]
const KEYS: [&str; 50] = [
    "", "key", "key=", "=quote", " key=quote", "Key=quote", "key=Quote", "key= quote", "key=quote ", "key=quote\r", "key=quotee",
    "key=recal", "key=insert", "key=insert-", "key=insert-256", "key=insert-999", "key=insert-00", "key=insert-007",
    "key=insert-097", "key=insert-00097", "key=insert-99999", "key=insert-100000", "key=insert-+97", "key=insert--1",
    "key=insert-97 ", "key=insert-a", "key=insert97", "key=move", "key=move-left", "key=move-up-word", "key=move-left-",
    "key=move-left-line", "key=move-left-line-ending", "key=delete-right-line-begin-", "key=left-move-word",
    "key=move-left-Word", "key=find-left", "key=upfind-", "key=replace=", "rows=1",
    "key=Mark", "key=mark ", "key=marks", "key=mark-0", "key=cut-left", "key=past", "key=new-line",
    "key=newline-2", "key=Tab", "key=tab-8",
];
/// Readable, though they look like the ones above.
#[rustfmt::skip]
const ODD_KEYS: [&str; 12] = [
    "key=insert-0", "key=insert-9", "key=insert-127", "key=insert-255", "key=insert-10", "key=delete-left-line-end",
    "key=delete-right-line-begin", "key=mark", "key=cut", "key=paste", "key=newline", "key=tab",
];

/// A script made of a walk, in half of the cases with one thing that the bench program must notice.
pub fn script(random: &mut Random, walk: &Walk) -> Vec<u8> {
    let mut script = Script::of(walk);
    if random.percent(33) {
        script.end.clear();
    }
    if random.percent(45) {
        spoil(random, &mut script);
    }
    let mut bytes = script.bytes();
    if random.percent(5) {
        bytes.truncate(random.within(0, bytes.len()));
    }
    bytes
}

/// A short script with something in it that the bench program must notice; more of these go into the same time.
pub fn short(random: &mut Random, walk: &Walk) -> Vec<u8> {
    let mut script = Script::of(walk);
    script.keys.truncate(random.below(6));
    for _ in 0..random.pick(&[1, 1, 1, 2]) {
        spoil(random, &mut script);
    }
    let mut bytes = script.bytes();
    match random.below(10) {
        0 => bytes.truncate(random.within(0, bytes.len().min(60))),
        1 if !bytes.is_empty() => {
            let at = random.below(bytes.len().min(60));
            bytes[at] = random.draw() as u8;
        }
        _ => {}
    }
    bytes
}

fn spoil(random: &mut Random, script: &mut Script) {
    let n = script.text.len();
    match random.below(16) {
        0 | 1 => {
            let (i, number) = (random.below(4), random.pick(&NUMBERS));
            script.header[i] = format!("{}{number}", ["rows=", "cols=", "store=", "text="][i]).into();
        }
        2 => {
            let (i, tail) = (random.below(4), random.pick(&TAILS));
            script.header[i].extend(tail.as_bytes());
        }
        3 => {
            let (i, j) = (random.below(4), random.below(4));
            script.header.swap(i, j);
        }
        4 => {
            let (i, line) = (random.below(4), random.pick(&LINES));
            script.header[i] = line.into();
        }
        // The stated length against the bytes there are.
        5 => script.state_length(random.pick(&[n + 1, n.saturating_sub(1), n + 5_000, 0])),
        6 => script.after_text = random.pick(&["", " ", "\r\n", "\n\n", "x\n"]).into(),
        // A byte that is not allowed, in a text that may be too long as well.
        7 | 8 if n > 0 => {
            script.text[random.below(n)] = random.pick(&NOT_ALLOWED);
            if random.percent(30) {
                script.header[2] = format!("store={}", random.below(n + 1)).into();
            }
        }
        9 => script.header[2] = format!("store={}", n.saturating_sub(random.below(3))).into(),
        10 => script.header[2] = format!("store={}", random.pick(&[LARGEST_STORE, LARGEST_STORE + 1])).into(),
        11 => {
            let length = random.pick(&LENGTHS);
            script.header[2] = format!("store={LARGEST_STORE}").into();
            script.reach(length);
        }
        12 => script.end = random.pick(&["\n\n", "\n\n\n", "\n ", "\r\n"]).into(),
        _ => {
            let from = if random.percent(50) { KEYS.as_slice() } else { ODD_KEYS.as_slice() };
            let (at, line) = (random.within(0, script.keys.len()), random.pick(from));
            script.keys.insert(at, line.into());
        }
    }
}
