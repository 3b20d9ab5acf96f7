//! Cue cards as text, and what shortening makes of them, side by side.
#![forbid(unsafe_code)]

pub mod command;
pub mod html;
pub mod kinds;
pub mod make;
pub mod pair;
pub mod records;
pub mod show;
pub mod spell;
pub mod view;
