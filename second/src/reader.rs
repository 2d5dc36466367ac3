//! The optimiser's reader (02, M-106; readings, C27 to C29): it "stops at 1,024 bytes a line".

use crate::plain::NEWLINE;

pub const LONGEST_LINE: usize = 1_024;

/// The first byte of the first line that the reader doesn't take, "newline not counted"; none where it takes them all.
pub fn too_long(text: &[u8]) -> Option<usize> {
    let mut start = 0;
    for line in text.split(|byte| *byte == NEWLINE) {
        if line.len() > LONGEST_LINE {
            return Some(start);
        }
        start += line.len() + 1;
    }
    None
}
