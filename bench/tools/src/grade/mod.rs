//! Grading files for the technician: what the unit says of each, with the line and a mark below the place; images shown, and written
//! as files; files tidied, and two told apart by their contents; statements made for tests.

mod diff;
mod divide;
mod files;
mod html;
mod json;
mod judge;
mod kept;
mod make;
mod names;
mod progress;
mod report;
mod show;
mod spot;
mod tidy;
mod write;

pub use diff::say_difference;
pub use files::{find_files, Found};
pub use html::Page;
pub use json::object;
pub use judge::judge;
pub use kept::keep;
pub use make::{make_files, Order};
pub use report::{Acceptance, Outcome, Refusal, Report, Tally};
pub use show::{item_line, show};
pub use spot::Spot;
pub use tidy::tidy_file;
pub use write::write_files;
