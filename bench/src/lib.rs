//! A second opinion on the seven proved services, a peer from the literature, and what is needed to compare them.
#![deny(unsafe_code)]

pub mod answer;
pub mod goals;
pub mod joined;
pub mod machine;
pub mod measure;
#[allow(unsafe_code)]
pub mod node;
pub mod peer;
pub mod picture;
pub mod planning;
pub mod random;
pub mod second;
pub mod services;
pub mod table;
pub mod workloads;
