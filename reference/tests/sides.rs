//! The functions of include/meter.h, as this crate's meter gives them. Values
//! are those of 01's printed example (statement-1) or were worked out by hand.
//! Rules library-3 to library-10, library-14.

mod common;
use common::*;
use reference::generate::case;
use reference::meter::Account;
use reference::numbers::{at, numbers, Numbers, ACCOUNT_NUMBERS};
use reference::sides::{Kept, Step, ACCEPTED, BAD_ARGUMENT, END, REFERENCE};

/// Numbers that no account has, for Open to write over.
const ANY: Numbers = [u64::MAX; ACCOUNT_NUMBERS];
/// 01's printed example (statement-1): prepaid from day 1461.
const PLAN: [u64; 7] = [0, 1461, 10_000, 600, 500, 0, 0];
/// file-8: its calls, as code and number of a trip file.
const CALLS: [(u32, u32); 6] = [
    (6, 22_000),
    (1, 1),
    (2, 2_097_152),
    (2, 1),
    (2, 104_857),
    (5, 1),
];

fn opened() -> Numbers {
    let mut account = ANY;
    assert_eq!((REFERENCE.open)(&mut account, &PLAN), ACCEPTED);
    account
}

/// The example as a file.
fn example() -> Vec<u8> {
    file(&prepaid(1461, 10_000, 600, 500), &CALLS)
}

fn used_units(account: &mut Numbers, kind: u64, n: u64) -> (u64, [u64; 5]) {
    let mut answer = [9; 5];
    let returned = (REFERENCE.use_units)(account, kind, n, &mut answer);
    (returned, answer)
}

/// library-6, library-7: numbers, answers and refusals; use-14, use-15.
#[test]
fn the_example_call_by_call() {
    let mut account = opened();
    assert_eq!((REFERENCE.top_up)(&mut account, 22_000), ACCEPTED);
    assert_eq!((REFERENCE.register)(&mut account, 1), ACCEPTED);
    assert_eq!(account[at::LIMIT], 2_097_153);
    let first = used_units(&mut account, 0, 2_097_152);
    assert_eq!(first, (ACCEPTED, [20_000, 0, 0, 2_097_152, 1]));
    assert_eq!(used_units(&mut account, 0, 1), (ACCEPTED, [0, 0, 1, 1, 0]));
    let before = account;
    assert_eq!(used_units(&mut account, 0, 104_857), (6, [9; 5]));
    assert_eq!(account, before);
    assert_eq!(
        used_units(&mut account, 3, 1),
        (ACCEPTED, [500, 0, 0, 1, 0])
    );
    assert_eq!(
        account[at::DAY..at::LIFETIME],
        [1461, 2, 1500, 22_000, 20_500, 0]
    );
    assert_eq!(account[at::LIFETIME..at::PRICED], [2_097_153, 0, 0, 1, 0]);
    assert_eq!(account[at::ROAMED], 2_097_153);
    assert_eq!(account[at::MARKS], 2);
    let mut most = [0];
    assert_eq!((REFERENCE.afford)(&account, 3, &mut most), ACCEPTED);
    assert_eq!(most, [3]);
    assert_eq!((REFERENCE.next_day)(&mut account), ACCEPTED);
    assert_eq!(account[..2], [2, 0]);
    assert_eq!(account[5], 2_097_153);
    assert_eq!((account[at::DAY], account[at::LOGGED]), (1462, 1));
}

/// library-8: statement and reading; library-9: a run.
#[test]
fn the_example_as_a_file() {
    let file = example();
    let mut answer = [9; 10];
    assert_eq!((REFERENCE.statement)(&file, &mut answer), ACCEPTED);
    let figures = [1461, 22_000, 1500, 20_500, 0, 2_097_153, 2_097_153, 1, 1, 9];
    assert_eq!(answer, figures);
    assert_eq!((REFERENCE.read)(&file, &mut answer), ACCEPTED);
    assert_eq!(answer[..9], [0, 1461, 10_000, 600, 500, 0, 0, 6, 1]);
    let mut account = opened();
    let mut refused = [9; 2];
    assert_eq!((REFERENCE.run)(&mut account, &file, &mut refused), ACCEPTED);
    assert_eq!(refused, [1, 9]);
    assert_eq!(account[at::CREDIT], 1500);
    // Again: the credit of 1,500 and another 22,000 pay for 2,097,152 kB and
    // 1 kB more, and for the last SMS; 104,857 kB are then affordable.
    assert_eq!((REFERENCE.run)(&mut account, &file, &mut refused), ACCEPTED);
    assert_eq!(account[at::PAID], 44_000);
}

/// find-1, refusal-13, reader-1, reader-2.
#[test]
fn sections_and_calls() {
    let file = example();
    let mut answer = [9; 3];
    assert_eq!((REFERENCE.find)(&file, 1, &mut answer), ACCEPTED);
    assert_eq!(answer, [36, 28, 9]);
    assert_eq!((REFERENCE.find)(&file, 2, &mut answer), ACCEPTED);
    assert_eq!(answer, [64, 48, 9]);
    assert_eq!((REFERENCE.find)(&file, 3, &mut answer), 13);
    assert_eq!(answer, [64, 48, 9]);
    let section = &file[64..];
    assert_eq!((REFERENCE.call)(section, 40, &mut answer), ACCEPTED);
    assert_eq!(answer, [5, 1, 48]);
    for position in [41, 48, 49, usize::MAX] {
        assert_eq!((REFERENCE.call)(section, position, &mut answer), END);
    }
    assert_eq!((REFERENCE.call)(section, 4, &mut answer), ACCEPTED);
    assert_eq!(answer, [22_000, 1, 12]);
}

/// trip-2: the same bytes; write-2: those behind stay; refusal-16, fault-1.
#[test]
fn what_is_written_is_the_file() {
    let (codes, numbers): (Vec<u32>, Vec<u32>) = CALLS.into_iter().unzip();
    let (mut buffer, mut answer) = ([7; 120], [9]);
    let written = (REFERENCE.write)(&PLAN, &codes, &numbers, &mut buffer, &mut answer);
    assert_eq!((written, answer), (ACCEPTED, [112]));
    assert_eq!(buffer[..112], example());
    assert_eq!(buffer[112..], [7; 8]);
    let mut short = [7; 111];
    let written = (REFERENCE.write)(&PLAN, &codes, &numbers, &mut short, &mut answer);
    assert_eq!((written, short), (16, [7; 111]));
    let wide = [1 << 32, 1461, 0, 0, 0, 0, 0];
    let written = (REFERENCE.write)(&wide, &codes, &numbers, &mut short, &mut answer);
    assert_eq!(written, 1);
}

/// library-14: the example's calls as text; lines-5, lines-6: what is behind
/// them stays.
#[test]
fn the_example_as_text() {
    let text = b"topup,22000\nregister,1\ndata,2097152\ndata,1\ndata,104857\nsms,1\n";
    let (codes, numbers): (Vec<u32>, Vec<u32>) = CALLS.into_iter().unzip();
    let (mut buffer, mut answer) = ([7; 64], [9; 2]);
    let written = (REFERENCE.text_write)(&codes, &numbers, &mut buffer, &mut answer);
    assert_eq!((written, answer), (ACCEPTED, [61, 9]));
    assert_eq!((&buffer[..61], &buffer[61..]), (&text[..], &[7; 3][..]));
    let (mut read_codes, mut read_numbers) = ([8; 7], [8; 6]);
    let read = (REFERENCE.text_read)(text, &mut read_codes, &mut read_numbers, &mut answer);
    assert_eq!((read, answer), (ACCEPTED, [6, 9]));
    assert_eq!((&read_codes[..6], read_codes[6]), (&codes[..], 8));
    assert_eq!(read_numbers[..], numbers);
}

/// library-14: 22 answers its line; no other refusal answers, and none changes
/// lists or buffer.
#[test]
fn refusals_of_texts() {
    let (mut codes, mut numbers, mut answer) = ([8; 2], [8; 2], [9; 2]);
    let mut read = |text: &[u8]| {
        let returned = (REFERENCE.text_read)(text, &mut codes, &mut numbers, &mut answer);
        assert_eq!((codes, numbers), ([8; 2], [8; 2]));
        (returned, std::mem::replace(&mut answer, [9; 2]))
    };
    assert_eq!(read(b""), (21, [9, 9]));
    assert_eq!(read(b"in,1\nin,01\n"), (22, [2, 9]));
    assert_eq!(read(b"in,1\nin,2\nin,3\n"), (16, [9, 9]));
    let (mut buffer, mut answer) = ([7; 10], [9; 2]);
    let mut write = |codes: &[u32], numbers: &[u32]| {
        let returned = (REFERENCE.text_write)(codes, numbers, &mut buffer, &mut answer);
        assert_eq!((buffer, answer), ([7; 10], [9; 2]));
        returned
    };
    assert_eq!(write(&[], &[]), 14);
    assert_eq!(write(&[4, 8], &[1, 1]), 15);
    assert_eq!(write(&[6; 4000], &[u32::MAX; 4000]), 21);
    assert_eq!(write(&[4, 4], &[1, 10]), 16);
}

/// library-10: caps, and rows read (rows-2).
#[test]
fn caps_of_days() {
    let wanted = [
        (181, [20_000, 220, 55, 40, 6]),
        (1460, [13_000, 190, 20, 30, 3]),
        (1461, [11_000, 190, 20, 30, 2]),
        (1826, [10_000, 190, 20, 30, 1]),
        (u64::MAX, [10_000, 190, 20, 30, 1]),
    ];
    for (day, caps) in wanted {
        let mut answer = [9; 5];
        assert_eq!((REFERENCE.caps)(day, &mut answer), ACCEPTED);
        assert_eq!(answer, caps, "day {day}");
    }
}

/// library-4: arguments of no call come before every refusal, and change
/// nothing.
#[test]
fn bad_arguments_come_first() {
    let file = example();
    let mut unsound = ANY;
    let wide = 1 << 32;
    let mut room = [9; 8];
    let returned = [
        (REFERENCE.open)(&mut unsound[..5], &PLAN[..6]),
        (REFERENCE.open)(&mut unsound, &[0; 8]),
        (REFERENCE.register)(&mut unsound, 3),
        (REFERENCE.register)(&mut unsound, wide),
        (REFERENCE.use_units)(&mut unsound, 4, 0, &mut room),
        (REFERENCE.use_units)(&mut unsound, wide, 1, &mut room),
        (REFERENCE.use_units)(&mut unsound, 0, 1, &mut room[..4]),
        (REFERENCE.afford)(&unsound, 4, &mut room),
        (REFERENCE.afford)(&unsound, 0, &mut []),
        (REFERENCE.run)(&mut unsound, &file, &mut []),
        (REFERENCE.statement)(&[], &mut room),
        (REFERENCE.read)(&[], &mut room[..7]),
        (REFERENCE.find)(&[], 1, &mut room[..1]),
        (REFERENCE.call)(&[], 0, &mut room[..2]),
        (REFERENCE.caps)(181, &mut room[..4]),
        (REFERENCE.write)(&PLAN[..6], &[], &[], &mut [], &mut room),
        (REFERENCE.write)(&PLAN, &[], &[], &mut [], &mut []),
        (REFERENCE.text_read)(&[], &mut [], &mut [], &mut []),
        (REFERENCE.text_read)(b"x\n", &mut [], &mut [], &mut []),
        (REFERENCE.text_write)(&[], &[], &mut [], &mut []),
        (REFERENCE.text_write)(&[8], &[0], &mut [], &mut []),
    ];
    assert_eq!(returned, [BAD_ARGUMENT; 21]);
    assert_eq!((unsound, room), (ANY, [9; 8]));
}

/// library-5, refusal-0: numbers that are no sound account, and other counts of
/// them, are refused.
#[test]
fn every_function_with_an_account_refuses_0() {
    let file = example();
    let mut broken = opened();
    broken[at::PAID] = 1;
    let longer = [&opened()[..], &[0]].concat();
    for all in [&broken[..], &opened()[..1648], &longer, &[]] {
        let mut all = all.to_vec();
        let before = all.clone();
        let mut room = [9; 5];
        let returned = [
            (REFERENCE.is_sound)(&all),
            (REFERENCE.register)(&mut all, 0),
            (REFERENCE.use_units)(&mut all, 0, 0, &mut room),
            (REFERENCE.top_up)(&mut all, 0),
            (REFERENCE.next_day)(&mut all),
            (REFERENCE.afford)(&all, 0, &mut room),
            (REFERENCE.run)(&mut all, &file[1..], &mut room),
        ];
        assert_eq!(returned, [0; 7]);
        assert_eq!((all, room), (before, [9; 5]));
    }
    assert_eq!((REFERENCE.open)(&mut ANY[1..].to_vec(), &PLAN), 0);
    assert_eq!((REFERENCE.is_sound)(&opened()), ACCEPTED);
}

/// library-6, library-9: an account that is kept beside its numbers goes as the
/// numbers alone do, and a list of single calls ends as its file.
#[test]
fn kept_accounts_go_as_their_numbers() {
    let mut calls = 0;
    for seed in 1..60 {
        let case = case(seed);
        let mut kept = Kept::new(Account::open(case.plan).unwrap());
        let mut all = numbers(&kept.account);
        let mut refused = 0;
        for call in case.calls.iter().take(700) {
            let step = Step::from(*call);
            let (mut ours, mut theirs) = ([9; 6], [9; 6]);
            let returned = kept.make(step, &mut ours);
            assert_eq!(step.make(&REFERENCE, &mut all, &mut theirs), returned);
            assert_eq!((ours, &*kept.numbers), (theirs, &all));
            refused += u64::from(returned != ACCEPTED && call.to_words().is_some());
            calls += 1;
        }
        let words = case.calls.iter().take(700).filter_map(|c| c.to_words());
        let words: Vec<(u32, u32)> = words.collect();
        if words.is_empty() {
            continue;
        }
        let mut account = numbers(&Account::open(case.plan).unwrap());
        let mut answer = [0];
        let file = file(&case.plan, &words);
        assert_eq!((REFERENCE.run)(&mut account, &file, &mut answer), ACCEPTED);
        assert_eq!((account, answer), (all, [refused]));
    }
    assert!(calls > 5000, "{calls} calls");
}
