//! The executive of a report station, for Rust: a safe type over the proved library.
//!
//! The library has no state of its own: a [`Station`] owns the tables, and every function gives a definite answer to any bytes.

#![deny(unsafe_op_in_unsafe_fn)]

mod event;
mod holes;
mod place;
mod refusal;
mod tables;

pub use event::Event;
pub use holes::Holes;
pub use place::Place;
pub use refusal::Refusal;
pub use tables::{Answer, Directory, Entry, Request, Tables, Task, Threads, TABLES_LENGTH, TABLES_VERSION};

extern "C" {
    fn khilzurgee_image_check(bytes: *const u8, length: usize) -> u8;
    fn khilzurgee_block_check(block: *const u8, length: usize) -> u16;
    fn khilzurgee_load(tables: *mut Tables, image: *const u8, length: usize) -> Answer;
    fn khilzurgee_load_lowest(tables: *mut Tables, image: *const u8, length: usize) -> Answer;
    fn khilzurgee_advance(tables: *mut Tables, call: *const u8, length: usize) -> Answer;
}

/// The number by which loading would refuse the image, 0 for none.
pub fn image_check(image: &[u8]) -> u8 {
    // SAFETY: the pointer and the length are one slice's, and a slice's pointer is never null. The function reads these bytes alone.
    unsafe { khilzurgee_image_check(image.as_ptr(), image.len()) }
}

/// The check that a block of 512 bytes has to end with, 1 to 65,521: its low byte in byte 510, its high byte in byte 511, whatever stands there now.
/// `None` for any other length.
pub fn block_check(block: &[u8]) -> Option<u16> {
    // SAFETY: as in `image_check`.
    match unsafe { khilzurgee_block_check(block.as_ptr(), block.len()) } {
        0 => None, // which is no block's check
        check => Some(check),
    }
}

/// An executive with its tables.
#[derive(Clone, Debug, PartialEq, Eq)]
pub struct Station {
    tables: Tables,
}

impl Station {
    /// Loads an image, from any bytes. A refused one gives the number of its refusal, 1 to 7. Grants go by the smallest hole.
    pub fn load(image: &[u8]) -> Result<Station, u8> {
        Station::load_by(Holes::SmallestHole, image)
    }

    /// The old program, for recordings that were made before document 02's E8: the same load, but grants go by the lowest start. All else is the same.
    ///
    /// ```
    /// use khilzurgee::{block_check, Holes, Station};
    ///
    /// let mut image = [0; 512];
    /// image[..3].copy_from_slice(&[1, 1, 1]); // form 1, one module, N 1
    /// image[16..18].copy_from_slice(&[2, 8]); // its level and its units
    /// let check = block_check(&image).expect("512 bytes");
    /// image[510..].copy_from_slice(&check.to_le_bytes());
    ///
    /// let (new, old) = (Station::load(&image)?, Station::load_lowest(&image)?);
    /// assert_eq!(new.tables().grants_by(), Some(Holes::SmallestHole));
    /// assert_eq!(old.tables().grants_by(), Some(Holes::LowestStart));
    /// # Ok::<(), u8>(())
    /// ```
    pub fn load_lowest(image: &[u8]) -> Result<Station, u8> {
        Station::load_by(Holes::LowestStart, image)
    }

    fn load_by(holes: Holes, image: &[u8]) -> Result<Station, u8> {
        // SAFETY: the tables are whole numbers and arrays of them, so all bits zero is a value of theirs.
        let mut tables: Tables = unsafe { std::mem::zeroed() };
        let load = match holes {
            Holes::LowestStart => khilzurgee_load_lowest,
            Holes::SmallestHole => khilzurgee_load,
        };
        // SAFETY: the tables are a local that nothing else refers to, and the slice lies outside them. Each of the two functions reads the slice, writes the
        // tables, and keeps neither pointer.
        let answer = unsafe { load(&mut tables, image.as_ptr(), image.len()) };
        match answer.refusal {
            0 => Ok(Station { tables }),
            refusal => Err(refusal),
        }
    }

    /// Answers one call, of any bytes. A refused call leaves the station as it was.
    pub fn call(&mut self, call: &[u8]) -> Answer {
        // SAFETY: `&mut self` makes the tables this call's alone, so the slice lies outside them. The function reads the slice, reads and writes the
        // tables, and keeps neither pointer.
        unsafe { khilzurgee_advance(&mut self.tables, call.as_ptr(), call.len()) }
    }

    /// The tables, to look into or to store.
    pub fn tables(&self) -> &Tables {
        &self.tables
    }
}

/// Tables that were stored, whatever they hold now: where they break the table rules, every call is refused by 9.
impl From<Tables> for Station {
    fn from(tables: Tables) -> Station {
        Station { tables }
    }
}
