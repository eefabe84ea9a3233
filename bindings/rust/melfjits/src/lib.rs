//! Melfjits in Rust: one DOCSIS upstream channel in this process, over the library for C.
//!
//! [`Channel`] opens the channel of a plant file, performs its steps, returns their outputs, and saves it.

mod channel;
mod error;
mod output;

pub use channel::{Address, Channel, Slice};
pub use error::Error;
pub use output::{Cause, Output, Span};
