//! Lent buffers with canaries on both sides.

/// Canaries on each side of a buffer.
const GUARD: usize = 24;

/// An entry of a lent list.
pub trait Entry: Copy + PartialEq {
    const CANARY: Self;
    /// The bytes of a list of them.
    fn bytes(list: &[Self]) -> Vec<u8>;
}

impl Entry for u8 {
    const CANARY: u8 = 0xA7;
    fn bytes(list: &[u8]) -> Vec<u8> {
        list.to_vec()
    }
}

macro_rules! entries {
    ($($kind:ty: $canary:expr),*) => {$(
        impl Entry for $kind {
            const CANARY: Self = $canary;
            fn bytes(list: &[Self]) -> Vec<u8> {
                list.iter().flat_map(|entry| entry.to_le_bytes()).collect()
            }
        }
    )*};
}
entries!(u16: 0xA75C, u32: 0xA75C_31E9, i64: 0x275C_31E9_84D6_0B42);

/// A lent list between two rows of canaries.
#[derive(Clone)]
pub struct Guarded<T> {
    cells: Vec<T>,
}

impl<T: Entry> Guarded<T> {
    /// A list with this content.
    pub fn around(content: &[T]) -> Self {
        let guard = [T::CANARY; GUARD];
        Guarded {
            cells: [&guard[..], content, &guard[..]].concat(),
        }
    }

    /// The list, to be looked at.
    pub fn lent(&self) -> &[T] {
        &self.cells[GUARD..self.cells.len() - GUARD]
    }

    /// The list, to be filled.
    pub fn lent_mut(&mut self) -> &mut [T] {
        let end = self.cells.len() - GUARD;
        &mut self.cells[GUARD..end]
    }

    /// Whether every canary is as it was.
    pub fn stands(&self) -> bool {
        let end = self.cells.len() - GUARD;
        let guards = self.cells[..GUARD].iter().chain(&self.cells[end..]);
        guards.into_iter().all(|&cell| cell == T::CANARY)
    }

    /// Every cell, canaries included.
    pub fn cells_mut(&mut self) -> &mut [T] {
        &mut self.cells
    }
}

/// The bytes of a list.
pub fn bytes_of<T: Entry>(list: &[T]) -> Vec<u8> {
    T::bytes(list)
}
