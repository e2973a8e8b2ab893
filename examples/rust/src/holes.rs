//! Which start a grant of core units takes.

use std::fmt;

/// The rule by which a grant of core units finds its start: the number `holes` of the tables. `as u64` gives the number, and it prints as its words.
///
/// The load says it, and no call changes it. A hole is a whole free run, between used units or the pool's ends. The rule for who waits is the same by both:
/// behind others, or where no free run is long enough.
///
/// ```
/// use khilzurgee::Holes;
///
/// assert_eq!(Holes::of(1), Some(Holes::SmallestHole));
/// assert_eq!(Holes::LowestStart as u64, 0);
/// assert_eq!(Holes::of(2), None);
/// ```
#[repr(u64)]
#[derive(Clone, Copy, Debug, PartialEq, Eq, Hash)]
pub enum Holes {
    /// The lowest start at which enough are free: document 01's rule, of [`Station::load_lowest`](crate::Station::load_lowest).
    LowestStart = 0,
    /// The start of the shortest hole that is long enough, the lowest of equals: document 02's rule, of [`Station::load`](crate::Station::load).
    SmallestHole = 1,
}

impl Holes {
    /// The rule of that number; `None` for a number that is none.
    pub fn of(number: u64) -> Option<Holes> {
        [Holes::LowestStart, Holes::SmallestHole].into_iter().find(|holes| *holes as u64 == number)
    }
}

impl fmt::Display for Holes {
    fn fmt(&self, f: &mut fmt::Formatter<'_>) -> fmt::Result {
        f.write_str(match self {
            Holes::LowestStart => "lowest start",
            Holes::SmallestHole => "smallest hole",
        })
    }
}
