//! Calls as text, by hand: lines, limits, the order of refusals, what stays, and
//! both ways back. Rules lines-1 to lines-12, refusal-21, refusal-22.

mod common;
use common::*;
use reference::lines::{calls_of, export_file, import_file, read, write, Declined};
use reference::plan::Plan;

type Words = (u32, u32);

/// statement-1: the calls of 01's printed example, and their lines.
const FERRY: [Words; 6] = [
    (6, 22_000),
    (1, 1),
    (2, 2_097_152),
    (2, 1),
    (2, 104_857),
    (5, 1),
];
const FERRY_TEXT: &str = "topup,22000\nregister,1\ndata,2097152\ndata,1\ndata,104857\nsms,1\n";

/// Codes, numbers, and what reading answers, with so many places in each list.
fn read_into(text: &[u8], places: [usize; 2]) -> (Result<usize, Declined>, Vec<u32>, Vec<u32>) {
    let [mut codes, mut numbers] = places.map(|count| vec![77; count]);
    let answer = read(text, &mut codes, &mut numbers);
    (answer, codes, numbers)
}

/// The same with more places than any text has lines.
fn read_text(text: &[u8]) -> Result<Vec<Words>, Declined> {
    let (answer, codes, numbers) = read_into(text, [9000, 9000]);
    let count = answer?;
    assert!(codes[count..]
        .iter()
        .chain(&numbers[count..])
        .all(|n| *n == 77));
    Ok(codes.into_iter().zip(numbers).take(count).collect())
}

/// The buffer of so many bytes, and what exporting answers.
fn write_into(calls: &[Words], bytes: usize) -> (Result<usize, u32>, Vec<u8>) {
    let (codes, numbers): (Vec<u32>, Vec<u32>) = calls.iter().copied().unzip();
    let mut buffer = vec![b'#'; bytes];
    (write(&codes, &numbers, &mut buffer), buffer)
}

fn write_text(calls: &[Words]) -> Result<Vec<u8>, u32> {
    let (answer, mut buffer) = write_into(calls, 200_000);
    buffer.truncate(answer?);
    Ok(buffer)
}

/// lines-1, lines-2: a line for each code, both ways.
#[test]
fn every_name_and_its_code() {
    let text = "register,0\ndata,1\nout,2\nin,3\nsms,4\ntopup,5\nnextday,0\n";
    let calls = [(1, 0), (2, 1), (3, 2), (4, 3), (5, 4), (6, 5), (7, 0)];
    assert_eq!(read_text(text.as_bytes()), Ok(calls.to_vec()));
    assert_eq!(write_text(&calls), Ok(text.as_bytes().to_vec()));
}

/// lines-5, lines-6: 12 + 11 + 13 + 7 + 12 + 6 bytes.
#[test]
fn the_example_as_text() {
    assert_eq!(FERRY_TEXT.len(), 61);
    assert_eq!(read_text(FERRY_TEXT.as_bytes()), Ok(FERRY.to_vec()));
    let (answer, buffer) = write_into(&FERRY, 64);
    assert_eq!(answer, Ok(61));
    assert_eq!(buffer, [FERRY_TEXT.as_bytes(), b"###"].concat());
}

/// lines-3: numbers in decimal, and what they are.
const NUMBERS: [(&str, u32); 6] = [
    ("0", 0),
    ("9", 9),
    ("10", 10),
    ("100", 100),
    ("1000000001", 1_000_000_001),
    ("4294967295", u32::MAX),
];

/// lines-3: what is no such number.
const NO_NUMBERS: [&str; 23] = [
    "",
    "00",
    "01",
    "010",
    "04294967295",
    "4294967296",
    "4294967297",
    "9999999999",
    "42949672950",
    "18446744073709551616",
    "18446744073709551617",
    "340282366920938463463374607431768211457",
    "+1",
    "-1",
    "-0",
    " 1",
    "1 ",
    "1.0",
    "1e3",
    "0x1",
    "1_000",
    "1,000",
    "one",
];

/// lines-3: decimal, no leading zeros, at most 4,294,967,295; any such number of
/// a use or top-up is read, as in a trip file.
#[test]
fn numbers_of_a_line() {
    for (digits, number) in NUMBERS {
        for (name, code) in [("data", 2), ("out", 3), ("in", 4), ("sms", 5), ("topup", 6)] {
            let text = format!("{name},{digits}\n").into_bytes();
            assert_eq!(read_text(&text), Ok(vec![(code, number)]));
            assert_eq!(write_text(&[(code, number)]), Ok(text));
        }
    }
    for digits in NO_NUMBERS {
        let text = format!("data,{digits}\n");
        assert_eq!(
            read_text(text.as_bytes()),
            Err(Declined::Line(1)),
            "{digits}"
        );
    }
}

/// lines-3, file-8: the numbers of a registration and of a day change.
#[test]
fn places_and_day_changes() {
    let text = b"register,0\nregister,1\nregister,2\nnextday,0\n";
    let calls = vec![(1, 0), (1, 1), (1, 2), (7, 0)];
    assert_eq!(read_text(text), Ok(calls));
    let bad = [
        "register,3",
        "register,4294967295",
        "register,4294967297",
        "nextday,1",
        "nextday,4294967296",
        "nextday,",
        "nextday",
    ];
    for line in bad {
        let text = format!("{line}\n");
        assert_eq!(read_text(text.as_bytes()), Err(Declined::Line(1)), "{line}");
    }
}

/// lines-1, lines-2: what is no line, without its line feed.
const NO_LINES: [&[u8]; 32] = [
    b"",
    b",",
    b"data",
    b"5",
    b",5",
    b"data5",
    b"data;5",
    b"data 5",
    b"data,,5",
    b"data,5,",
    b",data,5",
    b"data,5\r",
    b"\rdata,5",
    b" data,5",
    b"data ,5",
    b"data,\t5",
    b"DATA,5",
    b"Data,5",
    b"dat,5",
    b"datas,5",
    b"d,5",
    b"next day,0",
    b"top-up,5",
    b"incoming,5",
    b"limit,5",
    b"2,5",
    b"\"data\",5",
    b"data,\"5\"",
    b"\xEF\xBB\xBFdata,5",
    b"data\0,5",
    b"data,5\0",
    b"d\xC3\xA4ta,5",
];

/// lines-1, lines-2: a line between two right ones that is not of the form.
#[test]
fn lines_that_are_not_of_the_form() {
    for line in NO_LINES {
        let text = [b"in,1\n", line, b"\nsms,1\n"].concat();
        assert_eq!(read_text(&text), Err(Declined::Line(2)), "{line:?}");
    }
}

/// refusal-22: of several bad lines the first one, counted from 1.
#[test]
fn the_first_bad_line_is_told() {
    let told = |text: &str| read_text(text.as_bytes());
    assert_eq!(told("x\nin,1\nsms,1\n"), Err(Declined::Line(1)));
    assert_eq!(told("in,1\nsms,1\nx\n"), Err(Declined::Line(3)));
    assert_eq!(told("in,1\nx\nsms,1\ny\n"), Err(Declined::Line(2)));
    assert_eq!(told("in,1\n\nx\n"), Err(Declined::Line(2)));
    assert_eq!(told("in,1\n\n"), Err(Declined::Line(2)));
    assert_eq!(told("\n"), Err(Declined::Line(1)));
}

/// refusal-22: a rest without a line feed is the last line, whatever it is.
#[test]
fn a_last_line_that_is_not_ended() {
    let told = |text: &str| read_text(text.as_bytes());
    assert_eq!(told("in,1"), Err(Declined::Line(1)));
    assert_eq!(told("in,1\nin,2"), Err(Declined::Line(2)));
    assert_eq!(told("in,1\nx"), Err(Declined::Line(2)));
    assert_eq!(told("x\nin,1"), Err(Declined::Line(1)));
    assert_eq!(told("in,1\nin,2\n"), Ok(vec![(4, 1), (4, 2)]));
}

/// lines-4, refusal-21: 1 to 8,184 lines, a rest without a line feed counted.
#[test]
fn the_limits_of_lines() {
    let lines = |count: usize| b"in,0\n".repeat(count);
    assert_eq!(read_text(b""), Err(Declined::Limits));
    assert_eq!(read_text(&lines(1)), Ok(vec![(4, 0)]));
    assert_eq!(lines(8184).len(), 40_920);
    assert_eq!(read_text(&lines(8184)), Ok(vec![(4, 0); 8184]));
    assert_eq!(read_text(&lines(8185)), Err(Declined::Limits));
    let with_rest = |count: usize| [&lines(count)[..], b"in,0"].concat();
    assert_eq!(read_text(&with_rest(8183)), Err(Declined::Line(8184)));
    assert_eq!(read_text(&with_rest(8184)), Err(Declined::Limits));
    assert_eq!(read_text(&vec![b'\n'; 8184]), Err(Declined::Line(1)));
    assert_eq!(read_text(&vec![b'\n'; 8185]), Err(Declined::Limits));
    let one_rest = [&lines(8184)[..], b"x"].concat();
    assert_eq!(read_text(&one_rest), Err(Declined::Limits));
}

/// Calls whose lines have 65,536 bytes: 3,854 of 17 bytes, one of 11 and one of
/// 7.
fn full_calls() -> Vec<Words> {
    let mut calls = vec![(6, u32::MAX); 3854];
    calls.extend([(1, 0), (2, 0)]);
    calls
}

/// The same by hand.
fn full_text() -> Vec<u8> {
    [
        &b"topup,4294967295\n".repeat(3854)[..],
        b"register,0\n",
        b"data,0\n",
    ]
    .concat()
}

/// lines-4, refusal-21: at most 65,536 bytes, ended or not.
#[test]
fn the_limits_of_bytes() {
    let text = full_text();
    assert_eq!(text.len(), 65_536);
    assert_eq!(read_text(&text), Ok(full_calls()));
    let longer = [&text[..65_534], b"10\n"].concat();
    assert_eq!(longer.len(), 65_537);
    assert_eq!(read_text(&longer), Err(Declined::Limits));
    // The same without its last line feed.
    assert_eq!(read_text(&longer[..65_536]), Err(Declined::Line(3856)));
    assert_eq!(read_text(&vec![b'5'; 65_536]), Err(Declined::Line(1)));
    assert_eq!(read_text(&vec![b'5'; 65_537]), Err(Declined::Limits));
    // Both limits at once: 8,184 lines of 8 bytes, 64 of them with one more.
    let eights = b"data,15\n".repeat(8120);
    let both = [eights, b"data,150\n".repeat(64)].concat();
    assert_eq!(both.len(), 65_536);
    assert_eq!(read_text(&both).map(|calls| calls.len()), Ok(8184));
    assert_eq!(calls_of(&both).map(|calls| calls[8120]), Ok((2, 150)));
}

/// lines-10: 21, 22, 16, and each of them alone.
#[test]
fn the_order_of_reading() {
    let right = b"in,1\nin,2\n";
    let bad = b"in,1\nx\n";
    let many = b"in,1\n".repeat(8185);
    let many_bad = [&many[..], b"x\n"].concat();
    let told = |text: &[u8], places| read_into(text, places).0;
    assert_eq!(told(right, [2, 2]), Ok(2));
    assert_eq!(told(right, [1, 2]), Err(Declined::Room));
    assert_eq!(told(right, [2, 1]), Err(Declined::Room));
    assert_eq!(told(right, [0, 0]), Err(Declined::Room));
    assert_eq!(told(bad, [2, 2]), Err(Declined::Line(2)));
    assert_eq!(told(bad, [0, 2]), Err(Declined::Line(2)));
    assert_eq!(told(&many, [9000, 9000]), Err(Declined::Limits));
    assert_eq!(told(&many, [0, 9000]), Err(Declined::Limits));
    assert_eq!(told(&many_bad, [9000, 9000]), Err(Declined::Limits));
    assert_eq!(told(&many_bad, [1, 1]), Err(Declined::Limits));
    assert_eq!(told(b"", [0, 0]), Err(Declined::Limits));
    let numbers = [Declined::Limits, Declined::Line(5), Declined::Room];
    assert_eq!(numbers.map(Declined::number), [21, 22, 16]);
}

/// lines-5, order-2: places past the lines stay, and all of them where a text is
/// refused.
#[test]
fn what_the_lists_hold_afterwards() {
    let (answer, codes, numbers) = read_into(b"in,1\nsms,2\n", [3, 4]);
    assert_eq!(answer, Ok(2));
    assert_eq!((codes, numbers), (vec![4, 5, 77], vec![1, 2, 77, 77]));
    let refused: [(&[u8], [usize; 2]); 4] = [
        (b"in,1\nsms,2\nx\n", [3, 3]),
        (b"in,1\nsms,2", [3, 3]),
        (b"in,1\nsms,2\n", [1, 3]),
        (b"", [3, 3]),
    ];
    for (text, places) in refused {
        let (answer, codes, numbers) = read_into(text, places);
        assert!(answer.is_err());
        assert!(codes.iter().chain(&numbers).all(|number| *number == 77));
    }
}

/// lines-4, lines-9: 65,536 bytes at most, and 8,184 calls.
#[test]
fn the_limits_of_an_export() {
    assert_eq!(write_text(&full_calls()), Ok(full_text()));
    let mut longer = full_calls();
    longer[3855] = (2, 10);
    assert_eq!(write_text(&longer), Err(21));
    let most = vec![(4, 0); 8184];
    assert_eq!(write_text(&most), Ok(b"in,0\n".repeat(8184)));
    assert_eq!(write_text(&vec![(4, 0); 8185]), Err(14));
    assert_eq!(write_text(&vec![(6, u32::MAX); 8184]), Err(21));
    assert_eq!(write_text(&[]), Err(14));
}

/// lines-9, refusal-14: codes and numbers of unequal count.
#[test]
fn unequal_counts() {
    let mut buffer = [b'#'; 20];
    assert_eq!(write(&[4, 4], &[1], &mut buffer), Err(14));
    assert_eq!(write(&[4], &[1, 1], &mut buffer), Err(14));
    assert_eq!(write(&[], &[1], &mut buffer), Err(14));
    assert_eq!(write(&[4], &[], &mut buffer), Err(14));
    assert_eq!(buffer, [b'#'; 20]);
    assert_eq!(write(&[4], &[1], &mut buffer), Ok(5));
}

/// lines-9, refusal-15: as the writer of the trip file.
#[test]
fn calls_that_have_no_line() {
    for call in [(0, 0), (8, 0), (u32::MAX, 0), (1, 3), (7, 1)] {
        let (answer, buffer) = write_into(&[(4, 1), call, (4, 1)], 40);
        assert_eq!((answer, buffer), (Err(15), vec![b'#'; 40]));
    }
}

/// lines-9: 14, 15, 21, 16, pair by pair. 8,185 lines of `topup,4294967295` are
/// too long a text, and so are 8,184.
#[test]
fn the_order_of_exporting() {
    let told = |calls: &[Words], bytes| write_into(calls, bytes).0;
    let (bad, long) = ((8, 0), (6, u32::MAX));
    let with_bad = |calls: &[Words]| [calls, &[bad]].concat();
    assert_eq!(told(&with_bad(&[(4, 0); 8184]), 50_000), Err(14));
    assert_eq!(told(&[long; 8185], 200_000), Err(14));
    assert_eq!(told(&[(4, 0); 8185], 0), Err(14));
    assert_eq!(told(&with_bad(&[long; 8184]), 0), Err(14));
    assert_eq!(told(&with_bad(&[long; 8183]), 200_000), Err(15));
    assert_eq!(told(&with_bad(&[(4, 0)]), 0), Err(15));
    assert_eq!(told(&[long; 8184], 200_000), Err(21));
    assert_eq!(told(&[long; 8184], 65_536), Err(21));
    assert_eq!(told(&[long; 3856], 0), Err(21));
    assert_eq!(told(&[long; 3855], 65_534), Err(16));
    assert_eq!(told(&[long; 3855], 65_535), Ok(65_535));
    assert_eq!(told(&[(4, 0)], 4), Err(16));
    assert_eq!(told(&[(4, 0)], 5), Ok(5));
}

/// lines-6, order-2: bytes past the text stay, and all of them where calls are
/// refused.
#[test]
fn what_the_buffer_holds_afterwards() {
    let (answer, buffer) = write_into(&[(7, 0), (2, 30)], 22);
    assert_eq!(answer, Ok(18));
    assert_eq!(buffer, b"nextday,0\ndata,30\n####");
    let refused: [(&[Words], usize); 4] = [
        (&[], 9),
        (&[(4, 1), (9, 1)], 30),
        (&[(6, u32::MAX); 4000], 70_000),
        (&[(4, 1), (4, 2)], 9),
    ];
    for (calls, bytes) in refused {
        let (answer, buffer) = write_into(calls, bytes);
        assert!(answer.is_err());
        assert!(buffer.iter().all(|byte| *byte == b'#'));
    }
}

/// lines-7, lines-8: numbers of one to ten digits, the least and the largest of
/// each, out and back.
#[test]
fn both_ways_back() {
    let powers = (0..10).map(|power| 10u32.pow(power));
    let numbers = powers.flat_map(|power| [power - 1, power, power + 1]);
    let numbers: Vec<u32> = numbers.chain([u32::MAX - 1, u32::MAX]).collect();
    let uses = numbers.iter().flat_map(|n| (2..=6).map(|code| (code, *n)));
    let others = [(1, 0), (1, 1), (1, 2), (7, 0)];
    let calls: Vec<Words> = uses.chain(others).collect();
    let text = write_text(&calls).unwrap();
    assert_eq!(read_text(&text), Ok(calls.clone()));
    assert_eq!(write_text(&read_text(&text).unwrap()), Ok(text));
}

/// lines-11, lines-12: a trip file's calls as text, and back under the same plan.
#[test]
fn trip_files_out_and_in() {
    let plan = prepaid(1461, 10_000, 600, 500);
    let trip = file(&plan, &FERRY);
    let text = export_file(&trip).unwrap();
    assert_eq!(text, FERRY_TEXT.as_bytes());
    assert_eq!(import_file(&plan, &text), Ok(trip.clone()));
    assert_eq!(export_file(&trip[..11]), Err("file 10".to_string()));
    let long = file(&plan, &[(6, u32::MAX); 3856]);
    assert_eq!(export_file(&long), Err("text 21".to_string()));
    let told = |plan: &Plan, text: &[u8]| import_file(plan, text).unwrap_err();
    assert_eq!(told(&plan, b"in,1\nx\n"), "text 22 line 2");
    assert_eq!(told(&plan, b""), "text 21");
    assert_eq!(told(&prepaid(1461, 1_000_001, 0, 0), b"x"), "plan 17");
    assert_eq!(told(&prepaid(180, 0, 0, 0), b""), "plan 2");
    for (number, words) in bad_plans() {
        let told = told(&Plan::from_words(words), &text);
        assert_eq!(told, format!("plan {number}"));
    }
}
