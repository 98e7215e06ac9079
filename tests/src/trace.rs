//! The loads and stores of a program, as valgrind's lackey tells them.

use std::ops::Range;

/// What one instruction loads, or stores, or loads and then stores.
#[derive(Clone, Copy, Debug, PartialEq, Eq)]
pub struct Access {
    pub loads: bool,
    pub stores: bool,
    at: u64,
    len: u64,
}

impl Access {
    /// ` L 1fff000778,8`. Another line is an instruction, or what valgrind says itself.
    fn of(line: &str) -> Option<Access> {
        let (loads, stores) = match line.get(..3)? {
            " L " => (true, false),
            " S " => (false, true),
            " M " => (true, true),
            _ => return None,
        };
        let (at, len) = line[3..].split_once(',').expect("address and length");
        Some(Access {
            loads,
            stores,
            at: u64::from_str_radix(at, 16).expect("an address"),
            len: len.parse().expect("a length"),
        })
    }

    /// The addresses of its bytes.
    pub fn bytes(&self) -> Range<u64> {
        self.at..self.at + self.len
    }
}

/// The accesses of each call, in order: those between a store to `begin` and the next one to `end`.
pub fn calls(trace: &str, begin: u64, end: u64) -> Vec<Vec<Access>> {
    let mut all = Vec::new();
    let mut call: Option<Vec<Access>> = None;
    for access in trace.lines().filter_map(Access::of) {
        let marks = |mark: u64| access.stores && access.bytes().contains(&mark);
        if marks(begin) {
            assert!(call.replace(Vec::new()).is_none(), "no call in a call");
        } else if marks(end) {
            all.push(call.take().expect("a call that has begun"));
        } else if let Some(call) = &mut call {
            call.push(access);
        }
    }
    assert!(call.is_none(), "each call has an end");
    all
}
