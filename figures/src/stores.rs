//! The stores that the scenes keep, lent to either core.

use crate::chidukwore;

/// The five stores.
#[derive(Clone, PartialEq)]
pub struct Stores {
    pub text: Vec<u8>,
    pub recall: Vec<u8>,
    pub held: Vec<u8>,
    pub side: Vec<u8>,
    pub screen: Vec<u8>,
}

impl Stores {
    pub fn lent(&mut self) -> chidukwore::Stores<'_> {
        let Stores { text, recall, held, side, screen } = self;
        chidukwore::Stores { text, recall, held, side, screen }
    }
}
