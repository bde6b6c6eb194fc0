//! Messages: a chosen one with every row, made ones in every style, and their damage.

pub mod chosen;
mod damage;
mod draft;
mod made;

pub use damage::damage;
pub use draft::{Draft, Part, Path, Style};
pub use made::{valid, Size};
