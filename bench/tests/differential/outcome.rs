//! What a call leaves behind, and the comparison of two opinions on it.

use crate::cases::Lists;
use crate::guarded::{bytes_of, Entry, Guarded};
use nevolisca_bench::answer::Answer;

/// A service of documents 01 and 02.
#[derive(Clone, Copy, Debug, PartialEq, Eq)]
pub enum Service {
    ReadPage,
    WritePage,
    Plan,
    Commit,
    PlanAndCommit,
    ReadTonnage,
    WriteTonnage,
}

/// The bytes of every lent list, by name.
pub type Lent = Vec<(&'static str, Vec<u8>)>;

/// The answer, everything lent as it is afterwards, and whether the canaries stand.
#[derive(Clone, Debug)]
pub struct Outcome {
    pub answer: Answer,
    pub lent: Lent,
    pub guards_stand: bool,
}

impl Outcome {
    /// A lent list by its name, as it is afterwards.
    pub fn list(&self, name: &str) -> &[u8] {
        let mut lists = self.lent.iter();
        &lists.find(|(other, _)| *other == name).expect("a list").1
    }

    /// The same list, to be changed.
    pub fn list_mut(&mut self, name: &str) -> &mut Vec<u8> {
        let mut lists = self.lent.iter_mut();
        &mut lists.find(|(other, _)| *other == name).expect("a list").1
    }
}

/// One call that both opinions are asked for.
pub trait Case: std::fmt::Debug {
    const SERVICE: Service;
    /// Everything lent, before the call.
    fn lent(&self) -> Lent;
    fn by_node(&self) -> Outcome;
    fn by_second(&self) -> Outcome;
    /// The batch and the state that are lent, where the service takes them.
    fn on_state(&self) -> Option<(&[u8], &Lists)> {
        None
    }
    /// What other proved calls leave that this one is to equal, where there are such.
    fn by_two_calls(&self) -> Option<Outcome> {
        None
    }
}

/// Adds a guarded list to what a call left.
pub fn take<T: Entry>(outcome: &mut Outcome, name: &'static str, list: &Guarded<T>) {
    outcome.lent.push((name, bytes_of(list.lent())));
    outcome.guards_stand &= list.stands();
}

/// Says how the proved services' outcome differs from another, or from the rule on refusals.
pub fn compare(before: &Lent, node: &Outcome, other: &Outcome) -> Result<(), String> {
    if !node.guards_stand {
        return Err("a canary was written".to_string());
    }
    if node.answer != other.answer {
        let (ours, theirs) = (node.answer, other.answer);
        return Err(format!("answers differ: {ours:?}, not {theirs:?}"));
    }
    same_lists(&node.lent, &other.lent)?;
    if node.answer.is_err() {
        same_lists(&node.lent, before).map_err(|text| format!("changed on a refusal: {text}"))?;
    }
    Ok(())
}

/// Names the first byte in which two sets of lists differ.
fn same_lists(some: &Lent, others: &Lent) -> Result<(), String> {
    if some.len() != others.len() {
        return Err("another number of lists".to_string());
    }
    for ((name, one), (other_name, other)) in some.iter().zip(others) {
        if name != other_name || one.len() != other.len() {
            return Err(format!("{name} and {other_name} are no pair"));
        }
        if one != other {
            let at = one.iter().zip(other).position(|(a, b)| a != b);
            return Err(format!("{name} differs at byte {at:?}"));
        }
    }
    Ok(())
}
