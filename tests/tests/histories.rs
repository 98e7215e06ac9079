//! Random histories against the flat list, in memory that ends the run when a byte outside of what was lent is touched. `SEED`
//! and `HISTORIES` can be set; history i has the seed SEED + i.

use std::sync::OnceLock;
use yuzkamide_tests::history::run;
use yuzkamide_tests::memory::{on_fault_tell, Side};
use yuzkamide_tests::pbm::Loan;
use yuzkamide_tests::random::Random;
use yuzkamide_tests::tally::Tally;

const HISTORIES: u64 = 2000;

/// From so many histories on, everything must have occurred.
const MANY: u64 = 1000;

/// One for both tests, which run the same histories.
fn seed() -> u64 {
    static SEED: OnceLock<u64> = OnceLock::new();
    *SEED.get_or_init(|| Random::seed("histories"))
}

fn histories(side: Side) {
    let first = seed();
    let count = std::env::var("HISTORIES").map_or(HISTORIES, |text| {
        text.parse().expect("HISTORIES is a number")
    });
    let mut tally = Tally::default();
    for seed in (0..count).map(|i| first.wrapping_add(i)) {
        on_fault_tell(seed);
        run(seed, Loan::guarded(side), &mut tally);
    }
    println!("{count} histories, SEED={first}\n{tally}");
    if count >= MANY {
        tally.assert_complete();
    }
}

#[test]
fn against_the_page_before() {
    histories(Side::Start);
}

#[test]
fn against_the_page_behind() {
    histories(Side::End);
}
