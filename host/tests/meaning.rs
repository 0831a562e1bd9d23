//! The proved library's compiler and reader against what runs mean by derivations.

use host::answers::*;
use host::ffi::compile::compile;
use host::ffi::read::read;
use host::meaning::{all_runs, Check};

/// The answers that a run can get under a compiled plan in ample slots and room.
const READ_AS: [u32; 4] = [DONE, UNKNOWN, UNEXPECTED, END];

/// The answers that a book can get in ample room.
const COMPILED: [u32; 4] = [DONE, BARREN, CONFLICT, UNUSED];

/// All books of up to three nodes, on all runs of up to four events, with a kind that they do not have.
#[test]
fn every_small_book() {
    let mut check = Check::of(compile, read);
    for (count, kinds) in [(1, 1), (2, 1), (3, 1), (1, 2), (2, 2), (3, 2)] {
        check.small_books(count, kinds, &all_runs(kinds as u8 + 1, 4));
    }
    check.compiled.expect(&COMPILED, 150);
    check.read_as.expect(&READ_AS, 200);
}

/// All books of four nodes, where recursion begins, on all short runs.
#[test]
fn every_book_of_four_nodes() {
    let mut check = Check::of(compile, read);
    check.small_books(4, 1, &all_runs(2, 3));
    check.small_books(4, 2, &all_runs(2, 4));
    check.compiled.expect(&COMPILED, 4_000);
    check.read_as.expect(&READ_AS, 4_500);
}

/// Random books that pass, on all short runs and some longer ones.
#[test]
fn random_books() {
    let mut check = Check::of(compile, read);
    check.random_books(2, 20_000);
    check.compiled.expect(&COMPILED, 2_000);
    check.read_as.expect(&READ_AS, 20_000);
}
