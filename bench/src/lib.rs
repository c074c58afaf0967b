//! What the programs share.
#[macro_use]
#[path = "../../wrapper/src/declarations.rs"]
pub mod declarations;
pub mod kinds;
pub mod library;
pub mod point;
pub mod random;
pub mod reference;
pub mod tables;
