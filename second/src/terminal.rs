//! A simple terminal (02, M-100): it obeys ESC `[` row `;` column `H` and shows cells, and "neither wraps nor scrolls at its last
//! column". It is strict where real ones are kind: it takes nothing else.

const ESC: u8 = 27;

pub struct Terminal {
    pub h: usize,
    pub w: usize,
    /// What it shows, row after row.
    pub cells: Vec<u8>,
    /// Where it goes on; both count from 1.
    pub cursor: (usize, usize),
}

impl Terminal {
    /// One that shows this byte everywhere.
    pub fn showing(byte: u8, h: usize, w: usize) -> Terminal {
        Terminal { h, w, cells: vec![byte; h * w], cursor: (1, 1) }
    }

    /// Whether it could obey all these bytes, and is not left in the middle of a sequence. It stops where it could not.
    pub fn feed(&mut self, bytes: &[u8]) -> bool {
        let mut rest = bytes;
        while !rest.is_empty() {
            match self.obey(rest) {
                Some(behind) => rest = behind,
                None => return false,
            }
        }
        true
    }

    /// Obeys what stands in front, a cell or a whole sequence, and gives the bytes behind it.
    fn obey<'a>(&mut self, bytes: &'a [u8]) -> Option<&'a [u8]> {
        match bytes {
            [cell @ 32..=126, behind @ ..] => {
                self.show(*cell);
                Some(behind)
            }
            [ESC, b'[', behind @ ..] => {
                let (row, behind) = number(behind, b';', self.h)?;
                let (column, behind) = number(behind, b'H', self.w)?;
                self.cursor = (row, column);
                Some(behind)
            }
            _ => None,
        }
    }

    /// Shows a cell and goes one column on; at the last column it stays, and the next cell is shown there again.
    fn show(&mut self, cell: u8) {
        let (row, column) = self.cursor;
        self.cells[(row - 1) * self.w + column - 1] = cell;
        self.cursor = (row, (column + 1).min(self.w));
    }
}

/// A number from 1 to the largest, just as it is written, with the byte that ends it; and the bytes behind that one.
fn number(bytes: &[u8], end: u8, largest: usize) -> Option<(usize, &[u8])> {
    let length = bytes.iter().position(|byte| *byte == end)?;
    let number = (1..=largest).find(|number| number.to_string().as_bytes() == &bytes[..length])?;
    Some((number, &bytes[length + 1..]))
}
