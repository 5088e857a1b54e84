//! The ledger state: three lists of one length, and the versions in them.

use super::reason::Reason;
use crate::answer::Refusal;

/// The most keys that a state has.
pub const MOST_KEYS: usize = 1024;
/// How many places a block has, from 0 on.
const PLACES: u16 = 64;
/// What a delete adds to its page's place, so that its version is that of no put.
const DELETED: u16 = 32768;

/// Which transaction wrote an entry: a block number and a place in the block.
#[derive(Clone, Copy, Debug, PartialEq, Eq, Default)]
pub struct Version {
    pub block: u32,
    pub place: u16,
}

impl Version {
    /// The version of a key never written.
    pub const ABSENT: Version = Version {
        block: 0,
        place: 65535,
    };

    /// The version of a key that was deleted last, by the page at a place of 0 to 63 of a block.
    pub fn deleted(block: u32, place: u16) -> Self {
        Version {
            block,
            place: place + DELETED,
        }
    }

    /// Whether its key was put last: a place of 0 to 63.
    pub fn is_present(self) -> bool {
        self.place < PLACES
    }

    /// Whether its key was deleted last: a place of 32768 to 32831.
    pub fn is_deleted(self) -> bool {
        (DELETED..DELETED + PLACES).contains(&self.place)
    }

    /// Whether its key was never written.
    pub fn is_absent(self) -> bool {
        self == Version::ABSENT
    }

    /// Present, deleted or absent.
    pub fn has_form(self) -> bool {
        self.is_present() || self.is_deleted() || self.is_absent()
    }
}

/// A state that is only looked at.
#[derive(Clone, Copy)]
pub struct State<'a> {
    pub blocks: &'a [u32],
    pub places: &'a [u16],
    pub values: &'a [i64],
}

/// A state that commit changes.
pub struct StateMut<'a> {
    pub blocks: &'a mut [u32],
    pub places: &'a mut [u16],
    pub values: &'a mut [i64],
}

impl State<'_> {
    /// The number of keys.
    pub fn keys(&self) -> usize {
        self.values.len()
    }

    /// The version that a key has.
    pub fn version(&self, key: u16) -> Version {
        Version {
            block: self.blocks[usize::from(key)],
            place: self.places[usize::from(key)],
        }
    }

    /// Refuses with 12 what is no state, and with 13 the lowest entry that cannot stand under n.
    pub fn check(&self, n: u32) -> Result<(), Refusal> {
        let keys = self.keys();
        let equal = self.blocks.len() == keys && self.places.len() == keys;
        if !equal || keys == 0 || keys > MOST_KEYS {
            return Err(Reason::StateLists.at(0));
        }
        let versions = self.blocks.iter().zip(self.places);
        let mut entries = versions.zip(self.values);
        let wrong = |((&block, &place), &value)| {
            let version = Version { block, place };
            !entry_has_form(version, value, n)
        };
        match entries.position(wrong) {
            Some(key) => Err(Reason::StateEntry.at(key)),
            None => Ok(()),
        }
    }
}

/// Present or deleted with a block below n, or absent; and value 0 unless present.
fn entry_has_form(version: Version, value: i64, n: u32) -> bool {
    if version.is_present() {
        version.block < n
    } else if version.is_deleted() {
        version.block < n && value == 0
    } else {
        version.is_absent() && value == 0
    }
}

impl StateMut<'_> {
    /// The same state, to be looked at.
    pub fn view(&self) -> State<'_> {
        State {
            blocks: self.blocks,
            places: self.places,
            values: self.values,
        }
    }

    /// Sets a key's version and value.
    pub fn set(&mut self, key: u16, version: Version, value: i64) {
        let key = usize::from(key);
        self.blocks[key] = version.block;
        self.places[key] = version.place;
        self.values[key] = value;
    }
}
