//! The refusal numbers of document 01, by name.

use crate::answer::Refusal;

/// Why a service refuses; its number is the table's.
#[derive(Clone, Copy, Debug, PartialEq, Eq)]
pub enum Reason {
    PageLength = 1,
    Check = 2,
    Mark = 3,
    Counts = 4,
    Room = 5,
    ReadKeys = 6,
    ReadVersion = 7,
    WriteKeys = 8,
    Kind = 9,
    Spare = 10,
    BatchLength = 11,
    StateLists = 12,
    StateEntry = 13,
    LentTooShort = 14,
    TicketTwice = 15,
    KeyBeyondState = 16,
    PageIndex = 17,
    TextForm = 18,
    FigureRange = 19,
    TextRoom = 20,
}

impl Reason {
    /// The refusal at an offset, a page or a key.
    pub fn at(self, place: usize) -> Refusal {
        Refusal {
            number: self as u32,
            place: place as u32,
        }
    }
}
