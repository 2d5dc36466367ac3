//! Longer quotations (02, M-109; readings, C36): "a conversion that takes an old session's stores and record to the new side store, same
//! plain state".

use crate::bytes::{encode, session_by, sizes_fit_unseen, Record, Stores, SIDE};
use crate::core::{SESSION, SIZE};

/// What a quarter of the side store had before.
pub const OLD_QUARTER: usize = 256;
pub const OLD_SIDE: usize = 4 * OLD_QUARTER;

/// The code, and the record as it was given: its fields don't change, and refused it comes back too.
#[repr(C)]
#[derive(Clone, Copy, Debug, PartialEq, Eq)]
pub struct Conversion {
    pub code: usize,
    pub record: Record,
}

/// SIZE, SESSION, or the new side store written from the old stores, whatever it held before. No screen is lent: the one in `old` is not
/// looked at.
pub fn convert(record: Record, old: &Stores, side: &mut [u8]) -> Conversion {
    // The old stores by the old table, H and W by theirs, and the new side store by the new one.
    if !sizes_fit_unseen(old, record.rows, record.columns, OLD_SIDE) || side.len() != SIDE {
        return Conversion { code: SIZE, record };
    }
    // "SESSION by the old rule": the lengths of the old quarters, and all other rules as they are now.
    let Some(editor) = session_by(&record, old, OLD_QUARTER) else {
        return Conversion { code: SESSION, record };
    };
    let (_, _, _, new) = encode(&editor, old.text.len());
    side.copy_from_slice(&new);
    Conversion { code: 0, record }
}
