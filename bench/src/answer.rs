//! What a service answers: a count, or a refusal with its number and place.

/// A refusal number of document 01 with its place, for 2 to 10 the fault's offset.
#[derive(Clone, Copy, Debug, PartialEq, Eq)]
pub struct Refusal {
    pub number: u32,
    pub place: u32,
}

/// The count or length that a service gives (0 where there is none), or its refusal.
pub type Answer = Result<u32, Refusal>;
