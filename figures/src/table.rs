//! The table: a row for each scene, with the targets that it misses.

use crate::clock::Figures;
use std::fmt::{Display, Formatter, Result};

/// The two lengths of the text store.
pub const SMALL: usize = 4_096;
pub const LARGE: usize = 65_536;

/// The targets: at most so many times the hand-written core, and, with the large store, so many times the limit.
const BY_HAND: f64 = 1.5;
const LIMIT: f64 = 6.0;

/// From the small store to the large one a key may take as many times longer. A tenth more is noise, and the pattern: it has fewer places
/// in a small text than that text's share.
const GROWTH: f64 = 1.1 * (LARGE / SMALL) as f64;

pub const HEAD: &str = "ns a key                     T  screen     proved    by hand   ratio    limit  of limit  growth  misses";

pub struct Row {
    pub name: &'static str,
    pub t: usize,
    pub screen: String,
    pub figures: Figures,
    /// The proved core's time with the small store, in the row of the large one.
    pub small: Option<f64>,
}

impl Row {
    fn ratio(&self) -> f64 {
        self.figures.proved / self.figures.hand
    }

    fn of_limit(&self) -> f64 {
        self.figures.proved / self.figures.limit
    }

    fn growth(&self) -> Option<f64> {
        self.small.map(|small| self.figures.proved / small)
    }

    pub fn misses(&self) -> Vec<&'static str> {
        let by_hand = (self.ratio() > BY_HAND).then_some("by hand");
        let limit = (self.t == LARGE && self.of_limit() > LIMIT).then_some("limit");
        let growth = self.growth().filter(|&growth| growth > GROWTH).map(|_| "growth");
        [by_hand, limit, growth].into_iter().flatten().collect()
    }
}

impl Display for Row {
    fn fmt(&self, f: &mut Formatter) -> Result {
        let Figures { proved, hand, limit } = self.figures;
        let growth = self.growth().map_or(String::new(), |growth| format!("{growth:.1}"));
        write!(f, "{:23} {:6} {:>7} {proved:10.0} {hand:10.0}", self.name, self.t, self.screen)?;
        write!(f, " {:7.2} {limit:8.0} {:9.2} {growth:>7}  {}", self.ratio(), self.of_limit(), self.misses().join(", "))
    }
}
