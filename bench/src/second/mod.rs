//! The second opinion: all seven services in plain safe Rust, written from documents 01 and 02 alone.
#![forbid(unsafe_code)]

mod commit;
mod gate;
mod joined;
mod offset;
mod page;
mod plan;
mod reason;
mod state;
mod tonnage;

pub use commit::commit;
pub use gate::gate;
pub use joined::plan_and_commit;
pub use page::{read_page, write_page, Page, Read, Transaction, Write, ENTRIES, PAGE};
pub use plan::{current, plan, KEPT};
pub use state::{State, StateMut, Version};
pub use tonnage::{read_tonnage, write_tonnage, LONGEST};
