//! Files for the checker: chosen ones, for every code and for the order of the codes.

mod chosen;

pub use chosen::fixed_set;
