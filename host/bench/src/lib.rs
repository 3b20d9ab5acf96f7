//! What the proved code is measured against besides `compare::tree`: shortening by a walk over bytes, and reading alone; and the
//! cards for it.
pub mod classes;
pub mod reader;
#[cfg(test)]
mod tests;
pub mod walk;
mod ways;

pub use ways::WAYS;
