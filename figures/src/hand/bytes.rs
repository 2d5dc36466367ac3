//! Passes over runs of bytes. Those over whole stores have neither branch nor exit within a block, so that they are vectorised.

/// How many bytes a search looks at before it may stop: two vectors.
const BLOCK: usize = 32;

/// So few bytes that their newlines are counted in a byte, and whole blocks, so that no byte is counted by itself.
const COUNTED: usize = 192;

pub fn allowed(b: u8) -> bool {
    (b == b'\n') | (32..=126).contains(&b)
}

pub fn all_allowed(s: &[u8]) -> bool {
    s.iter().fold(true, |ok, &b| ok & allowed(b))
}

pub fn all_free(s: &[u8]) -> bool {
    s.iter().fold(0, |or, &b| or | b) == 0
}

pub fn newlines(s: &[u8]) -> usize {
    s.chunks(COUNTED).map(|block| usize::from(block.iter().map(|&b| u8::from(b == b'\n')).sum::<u8>())).sum()
}

fn has_newline(block: &[u8; BLOCK]) -> bool {
    block.iter().fold(false, |any, &b| any | (b == b'\n'))
}

pub fn first_newline(s: &[u8]) -> Option<usize> {
    let blocks = s.as_chunks().0;
    let start = blocks.iter().position(has_newline).unwrap_or(blocks.len()) * BLOCK;
    Some(start + s[start..].iter().position(|&b| b == b'\n')?)
}

pub fn last_newline(s: &[u8]) -> Option<usize> {
    let blocks = s.as_rchunks().1;
    let behind = blocks.iter().rev().position(has_newline).unwrap_or(blocks.len()) * BLOCK;
    s[..s.len() - behind].iter().rposition(|&b| b == b'\n')
}

/// What a text has of its last line.
pub fn current_line(s: &[u8]) -> &[u8] {
    &s[last_newline(s).map_or(0, |i| i + 1)..]
}

/// How long the first line of a text is.
pub fn first_line(s: &[u8]) -> usize {
    first_newline(s).unwrap_or(s.len())
}

/// No line of a text is longer than the limit, the first counted with the bytes of it that stand before the text. Lines are not walked one
/// by one: among as many bytes as the line may still have, and one more, the last newline is looked for from the back.
pub fn lines_fit(limit: usize, before: usize, s: &[u8]) -> bool {
    let Some(mut room) = limit.checked_sub(before) else {
        return false;
    };
    let mut rest = s;
    while rest.len() > room {
        let Some(i) = last_newline(&rest[..=room]) else {
            return false;
        };
        rest = &rest[i + 1..];
        room = limit;
    }
    true
}

/// The same of x and y put between two texts that have no longer line: these are not read further than the lines that are joined.
pub fn runs_fit(limit: usize, left: &[u8], x: &[u8], y: &[u8], right: &[u8]) -> bool {
    let mut before = current_line(left).len();
    for run in [x, y] {
        if !lines_fit(limit, before, run) {
            return false;
        }
        let line = current_line(run).len();
        before = if line < run.len() { line } else { before + line };
    }
    before + first_line(right) <= limit
}

/// How many spaces a text begins with: few as a rule, so they are looked at one by one.
pub fn leading_spaces(s: &[u8]) -> usize {
    s.iter().position(|&b| b != b' ').unwrap_or(s.len())
}

/// The places where the pattern stands. A block without a place that has both its first and its last byte is ruled out as a whole.
pub fn matches<'a>(s: &'a [u8], pattern: &'a [u8]) -> impl DoubleEndedIterator<Item = usize> + 'a {
    let m = pattern.len();
    let places = (s.len() + 1).saturating_sub(m);
    let (head, tail) = (pattern[0], pattern[m - 1]);
    let heads = s[..places].as_chunks::<BLOCK>().0;
    let tails = s[s.len() - places..].as_chunks::<BLOCK>().0;
    let likely = move |heads: &[u8; BLOCK], tails: &[u8; BLOCK]| {
        heads.iter().zip(tails).fold(false, |any, (&h, &t)| any | ((h == head) & (t == tail)))
    };
    let blocks = heads.iter().zip(tails).enumerate().filter(move |&(_, (heads, tails))| likely(heads, tails));
    blocks
        .flat_map(|(i, _)| i * BLOCK..(i + 1) * BLOCK)
        .chain(heads.len() * BLOCK..places)
        .filter(move |&at| s[at] == head && s[at..at + m] == *pattern)
}
