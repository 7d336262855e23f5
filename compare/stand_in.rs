//! The root of the crate around the original's files, which are unchanged. It is ours: the original's own root is not among them.

#[path = "original/src/de/mod.rs"]
pub mod de;
#[path = "original/src/errors.rs"]
pub mod errors;
#[path = "original/src/header.rs"]
mod header;
