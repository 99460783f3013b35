//! Documents 01 and 02 written for speed, as one would without any proof in mind: an account changed where it stands, with no heap behind
//! it, and for every check a number that is kept as the account moves, so that no entry but a day end goes through positions or orders.

mod bytes;
mod day_end;
mod desk;
mod fills;
mod limits;
mod orders;
mod resting;
mod rows;
mod run;
mod set_up;
mod transfers;

pub use run::{Book, Run};
