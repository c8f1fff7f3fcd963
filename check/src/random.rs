//! Random circuits, texts and calls, all by seed.

pub mod calls;
pub mod circuits;
pub mod damage;
pub mod texts;
