//! Document 01, with document 02's paying out in two steps, its shorter refusal list and its expiry day, written once more in ordinary
//! Rust, from the documents alone: clear rather than quick, every sum made anew.

pub mod account;
pub mod book;
pub mod entry;
pub mod expiry;
pub mod expiry_lines;
pub mod program;
pub mod record;
pub mod rules;
pub mod step;
pub mod terms;
pub mod worked;

/// Passes on, or gives the paper's refusal number.
pub fn require(met: bool, refusal: u8) -> Result<(), u8> {
    if met {
        Ok(())
    } else {
        Err(refusal)
    }
}
