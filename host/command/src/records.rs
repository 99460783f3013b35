//! Records in words: one table, from which lines are read and written and the list of records is made.

pub mod line;
pub mod list;
pub mod table;
