//! The command `ravundesk`: a book read, answered, shown and written, in words. What it says of money comes from the proved source, as rustc
//! compiles it (`native`).

pub mod account;
pub mod arguments;
pub mod book;
pub mod decimal;
pub mod desk;
pub mod expiry;
pub mod feed;
pub mod input;
pub mod output;
pub mod proved;
pub mod reasons;
pub mod records;
pub mod refusals;
pub mod run;
pub mod text;
pub mod trouble;
pub mod verbs;
pub mod version;
