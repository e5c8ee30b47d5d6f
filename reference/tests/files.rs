//! The trip file: numbers and order of reading, finding, the reader, writing.
//! Rules file-1 to file-9, find-1, reader-1, reader-2, write-1, write-2,
//! order-4, refusal-10 to refusal-16, fault-1 to fault-4.

mod common;
use common::*;
use reference::damage::{assemble, get, resum, set, to_bytes};
use reference::plan::Plan;
use reference::statement::statement;
use reference::tripfile::{find, read, write, CallReader};

fn plan_words() -> Vec<u8> {
    to_bytes(&prepaid(1461, 1, 2, 3).to_words())
}

fn calls_words() -> Vec<u8> {
    to_bytes(&[1, 1, 6, 5])
}

/// write-1, file-1 to file-8.
#[test]
fn a_written_file_word_by_word() {
    let bytes = file(&bundle(1461, 4, 5, 6), &[(1, 2), (7, 0)]);
    let words: Vec<u32> = (0..bytes.len() / 4).map(|i| get(&bytes, i)).collect();
    let sum = words[1];
    let wanted = [
        80, sum, 2, 1, 36, 28, 2, 64, 16, 1, 1461, 4, 60, 10, 5, 6, 1, 2, 7, 0,
    ];
    assert_eq!(words, wanted);
    assert_eq!(words.iter().fold(0, |a: u32, b| a.wrapping_add(*b)), 0);
}

/// refusal-10: too short, too long, or not as told (file-2).
#[test]
fn read_10_comes_from_the_bytes_got() {
    for short in 0..12 {
        assert_eq!(read(&vec![0; short]), Err(10));
    }
    let fine = assemble(&[(1, plan_words()), (2, calls_words())]);
    assert!(read(&fine).is_ok());
    assert_eq!(read(&fine[..fine.len() - 4]), Err(10));
    let mut longest = assemble(&[(1, plan_words()), (2, calls_words()), (9, vec![0; 65_444])]);
    assert_eq!(longest.len(), 65_536);
    assert!(read(&longest).is_ok());
    longest.extend([0; 4]);
    set(&mut longest, 0, 65_540);
    resum(&mut longest);
    assert_eq!(read(&longest), Err(10));
}

/// order-4: 11 before 12. file-4: the count and the room for the table.
#[test]
fn read_11_before_12() {
    let mut bytes = assemble(&[(1, plan_words()), (2, calls_words())]);
    set(&mut bytes, 2, 9);
    assert_eq!(read(&bytes), Err(11));
    resum(&mut bytes);
    assert_eq!(read(&bytes), Err(12));
    // Only a header: a count of 0, and a table that does not fit.
    for count in [0, 1] {
        let mut header = to_bytes(&[12, 0, count]);
        resum(&mut header);
        assert_eq!(read(&header), Err(12));
    }
}

/// file-6: empty bodies, and no wrapping sums; file-4: at most 8.
#[test]
fn empty_sections_and_exact_sums() {
    let empty = assemble(&[
        (5, vec![]),
        (1, plan_words()),
        (6, vec![]),
        (2, calls_words()),
    ]);
    assert!(read(&empty).is_ok());
    assert_eq!(find(&empty, 5), Ok(&[][..]));
    let mut wrapping = assemble(&[(1, plan_words()), (2, calls_words())]);
    set(&mut wrapping, 5, 0u32.wrapping_sub(8));
    set(&mut wrapping, 7, 28);
    set(&mut wrapping, 8, 52);
    resum(&mut wrapping);
    assert_eq!(read(&wrapping), Err(12));
    let nine: Vec<(u32, Vec<u8>)> = (1..10).map(|kind| (kind, vec![])).collect();
    assert_eq!(read(&assemble(&nine)), Err(12));
    assert_eq!(read(&assemble(&nine[..8])), Err(14));
}

/// file-9: other kinds are passed over.
#[test]
fn other_kinds_and_either_order() {
    let sections = [
        (0, vec![1, 2, 3, 4]),
        (2, calls_words()),
        (u32::MAX, vec![]),
        (0, vec![]),
        (1, plan_words()),
    ];
    let trip = read(&assemble(&sections)).unwrap();
    assert_eq!(trip.plan, prepaid(1461, 1, 2, 3));
    assert_eq!(trip.calls, [(1, 1), (6, 5)]);
}

/// order-4: 13, 14, 15, then the plan's numbers.
#[test]
fn order_of_13_14_15_1_2() {
    let bad_plan = to_bytes(&[9; 7]);
    let late = to_bytes(&prepaid(3834, 1, 2, 3).to_words());
    let bad_calls = to_bytes(&[1, 1, 8, 0]);
    let cases = [
        (vec![(1, vec![0; 4]), (1, vec![]), (2, vec![])], 13),
        (vec![(1, plan_words())], 13),
        (vec![(2, calls_words())], 13),
        (vec![(1, plan_words()), (2, calls_words()), (2, vec![])], 13),
        (vec![(1, vec![0; 32]), (2, bad_calls.clone())], 14),
        (vec![(1, plan_words()), (2, vec![])], 14),
        (vec![(1, plan_words()), (2, vec![0; 12])], 14),
        (vec![(1, bad_plan.clone()), (2, bad_calls)], 15),
        (vec![(1, bad_plan), (2, calls_words())], 1),
        (vec![(1, late), (2, calls_words())], 2),
    ];
    for (sections, number) in cases {
        let bytes = assemble(&sections);
        assert_eq!(read(&bytes), Err(number));
        assert_eq!(statement(&bytes), format!("file {number}\n"));
    }
}

/// order-4: the faults of a plan in reading, after 15, and 1, 17, 18, 2 in
/// turn.
#[test]
fn read_tells_the_faults_of_a_plan_apart() {
    let bad_calls = to_bytes(&[1, 1, 8, 0]);
    for (number, words) in bad_plans() {
        let plan = to_bytes(&words);
        let bytes = assemble(&[(1, plan.clone()), (2, calls_words())]);
        assert_eq!(read(&bytes), Err(number), "{words:?}");
        assert_eq!(statement(&bytes), format!("file {number}\n"));
        let turned = assemble(&[(2, calls_words()), (7, vec![]), (1, plan.clone())]);
        assert_eq!(read(&turned), Err(number), "{words:?}");
        let none = assemble(&[(1, plan.clone()), (2, vec![])]);
        assert_eq!(read(&none), Err(14));
        let with_calls = assemble(&[(1, plan), (2, bad_calls.clone())]);
        assert_eq!(read(&with_calls), Err(15));
    }
    for words in GOOD_PLANS {
        let bytes = assemble(&[(1, to_bytes(&words)), (2, calls_words())]);
        assert_eq!(read(&bytes).unwrap().plan.to_words(), words);
    }
}

/// order-4: in writing they come before all others; order-2: nothing is
/// written.
#[test]
fn write_tells_the_faults_of_a_plan_first() {
    let many = vec![7; 8185];
    let zeros = vec![0; 8185];
    for (number, words) in bad_plans() {
        let plan = Plan::from_words(words);
        let mut buffer = [7u8; 80];
        for (codes, numbers, room) in [
            (&[1][..], &[2][..], 80),
            (&[1], &[2], 71),
            (&[1], &[3], 80),
            (&[8], &[0], 0),
            (&[], &[], 80),
            (&[1], &[], 0),
            (&many, &zeros, 80),
        ] {
            let got = write(&plan, codes, numbers, &mut buffer[..room]);
            assert_eq!(got, Err(number), "{words:?}");
        }
        assert_eq!(buffer, [7; 80]);
    }
    for words in GOOD_PLANS {
        let mut buffer = [7u8; 80];
        let plan = Plan::from_words(words);
        assert_eq!(write(&plan, &[1], &[2], &mut buffer), Ok(72));
        assert_eq!(read(&buffer[..72]).unwrap().plan, plan);
    }
}

/// refusal-15: codes, places and day changes.
#[test]
fn read_15_codes_and_numbers() {
    for (code, number, fine) in [
        (0, 0, false),
        (1, 2, true),
        (1, 3, false),
        (2, u32::MAX, true),
        (6, 0, true),
        (7, 0, true),
        (7, 1, false),
        (8, 0, false),
    ] {
        let bytes = assemble(&[(1, plan_words()), (2, to_bytes(&[1, 0, code, number]))]);
        assert_eq!(read(&bytes).err(), if fine { None } else { Some(15) });
    }
}

/// refusal-4, refusal-7: no fault of the file.
#[test]
fn numbers_out_of_range_are_refused_calls() {
    let bytes = file(
        &prepaid(1461, 0, 0, 0),
        &[(1, 0), (2, 0), (3, u32::MAX), (6, 0)],
    );
    assert!(statement(&bytes).ends_with("refused 3\n"));
}

/// find-1: a part of the file; order-4: 10 to 13.
#[test]
fn finding_hands_back_the_part_itself() {
    let bytes = assemble(&[
        (1, plan_words()),
        (7, vec![]),
        (2, calls_words()),
        (7, vec![]),
    ]);
    let found = find(&bytes, 2).unwrap();
    assert!(std::ptr::eq(found, &bytes[88..104]));
    assert_eq!(find(&bytes, 7), Err(13));
    assert_eq!(find(&bytes, 3), Err(13));
    assert_eq!(find(&bytes[..100], 2), Err(10));
    let mut other = bytes.clone();
    other[20] ^= 4;
    assert_eq!(find(&other, 2), Err(11));
    resum(&mut other);
    assert_eq!(find(&other, 2), Err(12));
    // order-4: bodies, codes and plans are no matter of finding.
    let odd = assemble(&[(2, vec![0; 4])]);
    assert_eq!(find(&odd, 2), Ok(&[0; 4][..]));
    assert_eq!(find(&odd, 1), Err(13));
}

/// reader-1, reader-2: two calls, then none.
#[test]
fn the_reader_stays_where_fewer_than_8_remain() {
    let section = to_bytes(&[9, 8, 7, 6, 5]);
    let mut reader = CallReader::new(&section);
    assert_eq!(reader.next(), Some((9, 8)));
    assert_eq!(reader.next(), Some((7, 6)));
    assert_eq!((reader.next(), reader.position), (None, 16));
    assert_eq!((reader.next(), reader.position), (None, 16));
}

/// order-4: 1, 2, 14, 15, 16; write-2: bytes behind the file.
#[test]
fn order_of_writing_and_the_buffer() {
    let fine = prepaid(1461, 1, 2, 3);
    let bad = Plan { fee: 1, ..fine };
    let late = Plan {
        start: 3834,
        ..fine
    };
    let mut buffer = [7u8; 80];
    let many = vec![7; 8185];
    let zeros = vec![0; 8185];
    assert_eq!(write(&bad, &[], &[], &mut buffer), Err(1));
    assert_eq!(write(&late, &[], &[], &mut buffer), Err(2));
    assert_eq!(write(&fine, &[], &[], &mut buffer), Err(14));
    assert_eq!(write(&fine, &[9], &[], &mut buffer), Err(14));
    assert_eq!(write(&fine, &[], &[1], &mut buffer), Err(14));
    assert_eq!(write(&fine, &many, &zeros, &mut buffer), Err(14));
    assert_eq!(write(&fine, &[1], &[3], &mut []), Err(15));
    assert_eq!(write(&fine, &[1], &[2], &mut buffer[..71]), Err(16));
    assert_eq!(buffer, [7; 80]);
    assert_eq!(write(&fine, &[1], &[2], &mut buffer), Ok(72));
    assert_eq!(buffer[72..], [7; 8]);
    assert_eq!(read(&buffer[..72]).unwrap().calls, [(1, 2)]);
    let mut large = vec![0; 65_536];
    let got = write(&fine, &many[1..], &zeros[1..], &mut large);
    assert_eq!(got, Ok(65_536));
    assert_eq!(read(&large).unwrap().calls.len(), 8184);
}
