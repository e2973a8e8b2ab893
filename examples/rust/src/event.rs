//! What TEST EVENT answers.

use std::fmt;

/// What is known of a defined event: the result of an accepted TEST EVENT, 1, 2 or 3. `as u8` gives the number, and it prints as its words.
///
/// An event that was never signalled is not off: nothing was said of it yet, so there may be a fault or none. Who waits for it waits as for one that is off.
#[repr(u8)]
#[derive(Clone, Copy, Debug, PartialEq, Eq, Hash)]
pub enum Event {
    /// Its last accepted SIGNAL was off.
    Off = 1,
    /// Its last accepted SIGNAL was on.
    On = 2,
    /// No SIGNAL of it, on or off, was accepted since the load.
    NeverSignalled = 3,
}

impl Event {
    /// The result of an accepted TEST EVENT as what it means: 1 is [`Off`](Event::Off), 2 [`On`](Event::On), 3 [`NeverSignalled`](Event::NeverSignalled).
    /// `None` for any other number, which is no such result; 0 is that of a refused call.
    pub fn of(result: u8) -> Option<Event> {
        [Event::Off, Event::On, Event::NeverSignalled].into_iter().find(|event| *event as u8 == result)
    }
}

impl fmt::Display for Event {
    fn fmt(&self, f: &mut fmt::Formatter<'_>) -> fmt::Result {
        f.write_str(match self {
            Event::Off => "off",
            Event::On => "on",
            Event::NeverSignalled => "never signalled",
        })
    }
}
