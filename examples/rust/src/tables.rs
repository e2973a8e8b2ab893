//! The tables and the answer, with the layout that the library has: `include/khilzurgee.h` says what each field means.
//!
//! Every byte of the tables is a field's: none lies between two fields or behind the last. So equal tables are equal bytes.

use crate::event::Event;
use crate::holes::Holes;
use crate::place::Place;
use crate::refusal::Refusal;
use std::fmt;
use std::mem::{align_of, offset_of, size_of, transmute};

/// The form of stored tables: it changes with the layout. Keep it beside them, and read back none of another version. Tables of version 3, which have 1,136
/// bytes, do not say by which rule their grants go. The length does not tell versions apart: tables of version 2 have 1,136 bytes too.
pub const TABLES_VERSION: u32 = 4;

/// How many bytes the tables are.
pub const TABLES_LENGTH: usize = 1144;

/// A module, as in the image.
#[repr(C)]
#[derive(Clone, Copy, Debug, PartialEq, Eq)]
pub struct Entry {
    pub level: u8,
    pub units: u8,
    pub flags: u16,
    pub point: u32,
}

/// What a loaded image says: the defined events, the modules, M of them, and N cycles between looks at the time queue.
#[repr(C)]
#[derive(Clone, Copy, Debug, PartialEq, Eq)]
pub struct Directory {
    pub defined: u64,
    pub entries: [Entry; 32],
    pub modules: u32,
    pub every: u32,
}

/// A task block.
#[repr(C)]
#[derive(Clone, Copy, Debug, PartialEq, Eq)]
pub struct Task {
    pub events: u64,
    pub time: u32,
    /// The clock reading at which the task entered the place in which it waits, never past the clock; 0 where it does not wait, and also where the wait began
    /// at clock 0. [`Tables::waits_since`] tells the two apart.
    pub since: u32,
    pub count: u16,
    pub program: u8,
    pub request: u8,
    /// The number of a [`Place`]; [`Tables::place`] reads it.
    pub place: u8,
    pub parent: u8,
    pub core: u8,
    pub start: u8,
}

/// A request block.
#[repr(C)]
#[derive(Clone, Copy, Debug, PartialEq, Eq)]
pub struct Request {
    pub place: u8,
    pub owner: u8,
    pub device: u8,
    pub command: u8,
    pub bytes: u16,
}

/// The nine queues.
#[repr(C)]
#[derive(Clone, Copy, Debug, PartialEq, Eq)]
pub struct Threads {
    pub fwd: [u8; 41],
    pub back: [u8; 41],
    pub first: [u8; 9],
    pub last: [u8; 9],
}

/// The whole state of an executive. It may hold anything: tables that break the table rules are answered by 9.
///
/// They are aligned to 8, as Rust aligns every value of this type, and the library takes that for granted. Stored bytes may lie anywhere:
/// [`Tables::from_bytes`] makes tables of them.
#[repr(C)]
#[derive(Clone, Copy, Debug, PartialEq, Eq)]
pub struct Tables {
    pub directory: Directory,
    /// The events that are on, bit e for event e; each was signalled.
    pub on: u64,
    /// The events of which a SIGNAL, on or off, was accepted since the load; each is defined. [`Tables::event`] reads both.
    pub signalled: u64,
    pub pools: [u64; 4],
    pub tasks: [Task; 25],
    pub clock: u32,
    pub free_tasks: u32,
    pub free_requests: u32,
    pub requests: [Request; 17],
    pub running: u8,
    pub channel: u8,
    pub threads: Threads,
    /// The number of a [`Holes`], which start a grant takes; [`Tables::grants_by`] reads it.
    pub holes: u64,
}

impl Tables {
    /// What is known of an event: what TEST EVENT answers of it. `None` where that is refused by 19, the event being undefined or above 63.
    pub fn event(&self, number: u8) -> Option<Event> {
        let bit = 1u64.checked_shl(number.into())?;
        if self.directory.defined & bit == 0 {
            None
        } else if self.signalled & bit == 0 {
            Some(Event::NeverSignalled)
        } else if self.on & bit == 0 {
            Some(Event::Off)
        } else {
            Some(Event::On)
        }
    }

    /// Where a task block is. `None` where there is no such block, since they are 1 to 24, or where it names no place, as it never does by the table rules.
    pub fn place(&self, block: u8) -> Option<Place> {
        Place::of(self.task(block)?.place)
    }

    /// The clock reading at which the task of a block entered the place in which it waits. `None` where it does not wait, and where [`Tables::place`] is
    /// `None`. Going from one such place to another sets it anew; being passed over in a queue changes nothing.
    pub fn waits_since(&self, block: u8) -> Option<u32> {
        let task = self.task(block)?;
        Place::of(task.place)?.waits().then_some(task.since)
    }

    /// For how many cycles of the clock the task of a block has waited in that place. `None` where [`Tables::waits_since`] is, and where the reading is past
    /// the clock, as it never is by the table rules.
    pub fn waited(&self, block: u8) -> Option<u32> {
        self.clock.checked_sub(self.waits_since(block)?)
    }

    /// By which rule grants of core units go. `None` where `holes` names none, as it never does by the table rules.
    pub fn grants_by(&self) -> Option<Holes> {
        Holes::of(self.holes)
    }

    /// A task block by its number, 1 to 24.
    fn task(&self, block: u8) -> Option<&Task> {
        self.tasks.get(usize::from(block)).filter(|_| block != 0)
    }

    /// The stored form: the bytes of the tables, on a little-endian machine. The version goes beside them, [`TABLES_VERSION`].
    pub fn to_bytes(&self) -> [u8; TABLES_LENGTH] {
        // SAFETY: the two are of one size, and every byte of the tables is a field's, so that each is set.
        unsafe { transmute(*self) }
    }

    /// The tables that were stored as these bytes, or whatever else the bytes say.
    pub fn from_bytes(bytes: [u8; TABLES_LENGTH]) -> Tables {
        // SAFETY: the two are of one size, and the fields are whole numbers and arrays of them, so that any bytes are a value of theirs.
        unsafe { transmute(bytes) }
    }
}

/// The three numbers of an answer. They print as the desk's line.
#[repr(C)]
#[derive(Clone, Copy, Debug, PartialEq, Eq)]
pub struct Answer {
    /// 0 if accepted; [`Answer::refused`] has the reason.
    pub refusal: u8,
    /// 0 if refused; of a TEST EVENT [`Answer::event`] has what it means.
    pub result: u8,
    /// The running task afterwards, 0 if idle.
    pub running: u8,
}

impl Answer {
    /// Why the call was refused, `None` where it was accepted. An image is refused by the numbers of [`image_check`](crate::image_check), which are none of these.
    pub fn refused(&self) -> Option<Refusal> {
        Refusal::of(self.refusal)
    }

    /// What an accepted TEST EVENT says of its event, `None` where it was refused. An answer does not tell which call it answers: of any other call this
    /// means nothing.
    pub fn event(&self) -> Option<Event> {
        match self.refusal {
            0 => Event::of(self.result),
            _ => None,
        }
    }
}

impl fmt::Display for Answer {
    fn fmt(&self, f: &mut fmt::Formatter<'_>) -> fmt::Result {
        write!(f, "{} {} {}", self.refusal, self.result, self.running)
    }
}

/// How many bytes the field takes that the function gives.
const fn taken<S, F>(_: fn(&S) -> &F) -> usize {
    size_of::<F>()
}

/// Asserts a struct's size and the offset of each of its fields, and that the fields take every byte of it, while the crate is compiled.
macro_rules! layout {
    ($name:ident, $size:expr, $($field:ident $at:literal),+) => {
        const _: () = {
            assert!(size_of::<$name>() == $size);
            $(assert!(offset_of!($name, $field) == $at);)+
            assert!(0 $(+ taken(|s: &$name| &s.$field))+ == $size);
        };
    };
}

layout!(Entry, 8, level 0, units 1, flags 2, point 4);
layout!(Directory, 272, defined 0, entries 8, modules 264, every 268);
layout!(Task, 24, events 0, time 8, since 12, count 16, program 18, request 19, place 20, parent 21, core 22, start 23);
layout!(Request, 6, place 0, owner 1, device 2, command 3, bytes 4);
layout!(Threads, 100, fwd 0, back 41, first 82, last 91);
layout!(
    Tables, TABLES_LENGTH, directory 0, on 272, signalled 280, pools 288, tasks 320, clock 920, free_tasks 924, free_requests 928, requests 932, running 1034,
    channel 1035, threads 1036, holes 1136
);
layout!(Answer, 3, refusal 0, result 1, running 2);

const _: () = assert!(align_of::<Tables>() == 8);
