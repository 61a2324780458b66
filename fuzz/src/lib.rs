//! What the fuzz harness needs of the model: each input read as a call, and a twin of every engine call.

#![warn(missing_docs)]

mod case;
mod edit;
mod tape;
mod twin;
