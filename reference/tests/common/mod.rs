//! Helpers of the tests.
#![allow(dead_code)]

use reference::coverage::seen::{rest, Observed};
use reference::coverage::{Coverage, TripEvents};
use reference::meter::{Account, Answer};
use reference::plan::{Plan, BUNDLE, PREPAID, UNLIMITED};
use reference::sides::{Kept, Step};
use reference::terms::{Call, Kind, Place};
use reference::tripfile;

/// unit-1: the kB of a GB.
pub const GB: u64 = 1_048_576;

pub fn prepaid(start: u32, data: u32, minute: u32, sms: u32) -> Plan {
    Plan::from_words([PREPAID, start, data, minute, sms, 0, 0])
}

pub fn bundle(start: u32, data: u32, fee: u32, volume: u32) -> Plan {
    Plan::from_words([BUNDLE, start, data, 60, 10, fee, volume])
}

pub fn unlimited(start: u32, fee: u32) -> Plan {
    Plan::from_words([UNLIMITED, start, 0, 60, 10, fee, 0])
}

pub fn open(plan: Plan) -> Account {
    Account::open(plan).unwrap()
}

pub fn run(account: &mut Account, calls: &[Call]) -> Vec<Result<Answer, u32>> {
    calls.iter().map(|call| account.apply(*call)).collect()
}

/// The events of some calls on an account.
pub fn events_of(account: &Account, calls: &[Call]) -> Coverage {
    let mut kept = Kept::new(account.clone());
    let mut events = TripEvents::default();
    for call in calls {
        let (step, before) = (Step::from(*call), *rest(&kept.numbers));
        let mut answer = [0; 5];
        let returned = kept.make(step, &mut answer);
        let seen = Observed::new(step, returned, &answer, &before, &kept.numbers);
        events.call(&seen).expect("a known return");
    }
    let mut coverage = Coverage::new();
    coverage.add(&events);
    coverage
}

/// Register, use of data and so on, in short.
pub fn zone() -> Call {
    Call::Register(Place::Zone)
}

pub fn home() -> Call {
    Call::Register(Place::Home)
}

pub fn elsewhere() -> Call {
    Call::Register(Place::Elsewhere)
}

pub fn data(n: u64) -> Call {
    Call::Use(Kind::Data, n)
}

pub fn outgoing(n: u64) -> Call {
    Call::Use(Kind::Outgoing, n)
}

/// The answer of a use: points and surcharged units (use-14), units charged
/// (half-7), notice (use-15).
pub fn used(
    home: u64,
    extra: u64,
    surcharged: u64,
    charged: u64,
    notice: bool,
) -> Result<Answer, u32> {
    Ok(Answer::Used {
        home,
        extra,
        surcharged,
        charged,
        notice,
    })
}

pub fn file(plan: &Plan, calls: &[(u32, u32)]) -> Vec<u8> {
    let (codes, numbers): (Vec<u32>, Vec<u32>) = calls.iter().copied().unzip();
    let mut buffer = vec![0; 65_536];
    let length = tripfile::write(plan, &codes, &numbers, &mut buffer).unwrap();
    buffer.truncate(length);
    buffer
}

/// plan-1 to plan-6: plans that keep every range, and the least and largest of
/// each field.
pub const GOOD_PLANS: [[u32; 7]; 5] = [
    [0, 181, 1_000_000, 1_000_000, 1_000_000, 0, 0],
    [
        1,
        3833,
        1_000_000,
        1_000_000,
        1_000_000,
        10_000_000,
        1_073_741_824,
    ],
    [1, 181, 0, 0, 0, 0, 1],
    [2, 3833, 0, 1_000_000, 1_000_000, 10_000_000, 0],
    [2, 181, 0, 0, 0, 0, 0],
];

/// fault-1 to fault-4: plans with one fault.
pub const ONE_FAULT: [(u32, [u32; 7]); 30] = [
    (1, [3, 1461, 5, 5, 5, 0, 0]),
    (1, [3, 1461, 5, 5, 5, 5, 5]),
    (1, [u32::MAX, 1461, 0, 0, 0, 0, 0]),
    (1, [0, 1461, 5, 5, 5, 1, 0]),
    (1, [0, 1461, 5, 5, 5, 0, 1]),
    (1, [2, 1461, 1, 5, 5, 5, 0]),
    (1, [2, 1461, 0, 5, 5, 5, 1]),
    // fault-1: not used, and too large for any form.
    (1, [0, 1461, 5, 5, 5, 10_000_001, 0]),
    (1, [0, 1461, 5, 5, 5, 0, 1_073_741_825]),
    (1, [2, 1461, 1_000_001, 5, 5, 5, 0]),
    (1, [2, 1461, 0, 5, 5, 5, u32::MAX]),
    (17, [0, 1461, 1_000_001, 5, 5, 0, 0]),
    (17, [0, 1461, 5, 1_000_001, 5, 0, 0]),
    (17, [0, 1461, 5, 5, 1_000_001, 0, 0]),
    (17, [1, 1461, 1_000_001, 5, 5, 5, 5]),
    (17, [1, 1461, 5, 1_000_001, 5, 5, 5]),
    (17, [1, 1461, 5, 5, u32::MAX, 5, 5]),
    (17, [2, 1461, 0, 1_000_001, 5, 5, 0]),
    (17, [2, 1461, 0, 5, 1_000_001, 5, 0]),
    (18, [1, 1461, 5, 5, 5, 10_000_001, 5]),
    (18, [1, 1461, 5, 5, 5, u32::MAX, 5]),
    (18, [1, 1461, 5, 5, 5, 5, 0]),
    (18, [1, 1461, 5, 5, 5, 5, 1_073_741_825]),
    (18, [1, 1461, 5, 5, 5, 5, u32::MAX]),
    (18, [2, 1461, 0, 5, 5, 10_000_001, 0]),
    (18, [2, 1461, 0, 5, 5, u32::MAX, 0]),
    (2, [0, 180, 5, 5, 5, 0, 0]),
    (2, [1, 3834, 5, 5, 5, 5, 5]),
    (2, [2, 0, 0, 5, 5, 5, 0]),
    (2, [0, u32::MAX, 5, 5, 5, 0, 0]),
];

/// order-4: plans with two faults or more, the first number of 1, 17, 18, 2.
pub const MORE_FAULTS: [(u32, [u32; 7]); 20] = [
    (1, [3, 1461, 1_000_001, 5, 5, 0, 0]),
    (1, [3, 1461, 5, 5, 5, 10_000_001, 5]),
    (1, [3, 1461, 5, 5, 5, 5, 1_073_741_825]),
    (1, [3, 180, 5, 5, 5, 0, 0]),
    (1, [0, 1461, 1_000_001, 5, 5, 1, 0]),
    (1, [0, 1461, 5, 1_000_001, 5, 0, 1]),
    (1, [2, 1461, 1, 5, 1_000_001, 5, 0]),
    (1, [2, 1461, 0, 5, 5, 10_000_001, 1]),
    (1, [0, 180, 5, 5, 5, 1, 0]),
    (1, [2, 3834, 1, 5, 5, 5, 0]),
    (1, [2, 180, 1_000_001, 1_000_001, 5, 10_000_001, 1]),
    (17, [1, 1461, 1_000_001, 5, 5, 10_000_001, 5]),
    (17, [2, 1461, 0, 1_000_001, 5, 10_000_001, 0]),
    (17, [1, 1461, 5, 1_000_001, 5, 5, 0]),
    (17, [1, 1461, 5, 5, 1_000_001, 5, 1_073_741_825]),
    (17, [0, 180, 5, 5, 1_000_001, 0, 0]),
    (17, [1, 3834, 5, 1_000_001, 5, 10_000_001, 0]),
    (18, [1, 180, 5, 5, 5, 10_000_001, 5]),
    (18, [1, 180, 5, 5, 5, 5, 0]),
    (18, [2, 3834, 0, 5, 5, 10_000_001, 0]),
];

/// All of them.
pub fn bad_plans() -> Vec<(u32, [u32; 7])> {
    [&ONE_FAULT[..], &MORE_FAULTS[..]].concat()
}
