//! The mark (02, M-101; readings, C7 to C10): what a change of the document makes of it. "Here the mark is a position between bytes, no
//! byte of the text": it is the number of bytes to its left, or there is none.

pub type Mark = Option<usize>;

/// So many bytes are inserted at a position.
pub fn after_insertion(mark: Mark, at: usize, count: usize) -> Mark {
    let mark = mark?;
    if at < mark {
        // "What is inserted or removed wholly to its left moves it by as many bytes."
        Some(mark + count)
    } else {
        // "Insertion at the mark goes after it"; and what is inserted to its right is nothing to it.
        Some(mark)
    }
}

/// The bytes between two positions are removed: one stretch, however many steps the key reports (C7).
pub fn after_deletion(mark: Mark, from: usize, to: usize) -> Mark {
    let mark = mark?;
    if to <= mark {
        // Removed wholly to its left. Standing at the right end it stays, and is then where the stretch was (C8).
        Some(mark - (to - from))
    } else if mark <= from {
        // "At an end of the deleted stretch it stays", here at the left one; or the stretch is to its right.
        Some(mark)
    } else {
        // "A deletion around it, with text removed on both sides of it, takes it away."
        None
    }
}
