//! The versions of the desk beside each other: the books and lists that they run over, what is timed, the tables and the picture.

#[cfg(archive)]
mod archive;
pub mod books;
pub mod growth;
pub mod picture;
pub mod report;
pub mod tables;
pub mod timing;
pub mod versions;
