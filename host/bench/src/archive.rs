//! The archive that `tests/archive.sh` writes: the crates' code as the toolchain compiles it.

use crate::versions::{Answers, InHand, Version};

extern "C" {
    /// Each slice is passed as where it begins and how many it has.
    fn ravundesk_run_book(
        bytes: *const u8,
        byte_count: usize,
        numbers: *mut u8,
        number_count: usize,
        sums: *mut i64,
        sum_count: usize,
    ) -> usize;
}

fn run_book(bytes: &[u8], numbers: &mut [u8], sums: &mut [i64]) -> usize {
    // Its contract asks nothing, and proves that it stays within the slices.
    unsafe {
        ravundesk_run_book(
            bytes.as_ptr(),
            bytes.len(),
            numbers.as_mut_ptr(),
            numbers.len(),
            sums.as_mut_ptr(),
            sums.len(),
        )
    }
}

/// Runs every book from its first byte: the archive hands none out to go on with.
struct FromTheFirst;

impl InHand for FromTheFirst {
    fn answer(&self, bytes: &[u8], answers: &mut Answers) -> usize {
        run_book(bytes, &mut answers.numbers, &mut answers.sums)
    }
}

fn after(before: &[u8]) -> Box<dyn InHand> {
    assert!(before.is_empty(), "the archive has no book in hand");
    Box::new(FromTheFirst)
}

pub const VERSION: Version = Version {
    name: "archive",
    manner: "the proved program's own code, from `rt lib`",
    colour: "#7a4fa3",
    after,
};
