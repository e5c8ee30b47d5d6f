//! Meters that go wrong in one point of a text, each of which the comparison
//! finds. Rules lines-1 to lines-10, library-14.

use reference::differ::{Differ, Mismatch};
use reference::sides::{Side, ACCEPTED, REFERENCE};

const SEEDS: u64 = 200;

fn compared(other: Side) -> Result<(), Box<Mismatch>> {
    let mut differ = Differ::new(other);
    (1..=SEEDS).try_for_each(|seed| differ.texts(seed))
}

/// A meter with one function of its own, and what the mismatch must tell.
macro_rules! wrong {
    ($test:ident, $field:ident: $function:expr, $told:literal) => {
        #[test]
        fn $test() {
            let other = Side {
                $field: $function,
                ..REFERENCE
            };
            let told = compared(other).expect_err("a wrong meter").what;
            assert!(told.contains($told), "{told}");
        }
    };
}

/// Reads another text in place of the one that is given.
fn read_as(
    text: &[u8],
    change: impl Fn(&str) -> String,
    codes: &mut [u32],
    numbers: &mut [u32],
    answer: &mut [u64],
) -> u64 {
    match std::str::from_utf8(text) {
        Ok(known) => (REFERENCE.text_read)(change(known).as_bytes(), codes, numbers, answer),
        Err(_) => (REFERENCE.text_read)(text, codes, numbers, answer),
    }
}

wrong!(lines_counted_from_0_are_found, text_read: |text, codes, numbers, answer| {
    let returned = (REFERENCE.text_read)(text, codes, numbers, answer);
    if returned == 22 {
        answer[0] -= 1;
    }
    returned
}, "TextRead answered [");

wrong!(a_line_that_is_not_told_is_found, text_read: |text, codes, numbers, answer| {
    let before = answer.first().copied();
    let returned = (REFERENCE.text_read)(text, codes, numbers, answer);
    if let (22, Some(before)) = (returned, before) {
        answer[0] = before;
    }
    returned
}, "TextRead answered [");

wrong!(an_answer_to_21_is_found, text_read: |text, codes, numbers, answer| {
    let returned = (REFERENCE.text_read)(text, codes, numbers, answer);
    if returned == 21 {
        answer[0] = 0;
    }
    returned
}, "TextRead answered [");

wrong!(an_answer_to_16_is_found, text_read: |text, codes, numbers, answer| {
    let returned = (REFERENCE.text_read)(text, codes, numbers, answer);
    if returned == 16 {
        answer[0] = 1;
    }
    returned
}, "TextRead answered [");

wrong!(a_number_past_the_answer_is_found, text_read: |text, codes, numbers, answer| {
    let returned = (REFERENCE.text_read)(text, codes, numbers, answer);
    if let (22, Some(number)) = (returned, answer.get_mut(1)) {
        *number = 0;
    }
    returned
}, "TextRead answered [");

wrong!(a_short_answer_that_is_taken_is_found, text_read: |text, codes, numbers, answer| {
    match answer.len() {
        0 => (REFERENCE.text_read)(text, codes, numbers, &mut [0]),
        _ => (REFERENCE.text_read)(text, codes, numbers, answer),
    }
}, "not 1001");

wrong!(codes_put_as_numbers_are_found, text_read: |text, codes, numbers, answer| {
    (REFERENCE.text_read)(text, numbers, codes, answer)
}, "TextRead code 0 is ");

wrong!(a_code_past_the_lines_is_found, text_read: |text, codes, numbers, answer| {
    let returned = (REFERENCE.text_read)(text, codes, numbers, answer);
    if returned == ACCEPTED {
        codes.iter_mut().skip(answer[0] as usize).for_each(|code| *code = 0);
    }
    returned
}, "TextRead code ");

wrong!(a_number_past_the_lines_is_found, text_read: |text, codes, numbers, answer| {
    let returned = (REFERENCE.text_read)(text, codes, numbers, answer);
    if returned == ACCEPTED {
        numbers.iter_mut().skip(answer[0] as usize).for_each(|number| *number = 0);
    }
    returned
}, "TextRead number ");

wrong!(a_refused_text_that_is_stored_is_found, text_read: |text, codes, numbers, answer| {
    let returned = (REFERENCE.text_read)(text, codes, numbers, answer);
    if let (22, Some(number)) = (returned, numbers.first_mut()) {
        *number ^= 1;
    }
    returned
}, "TextRead number 0 is ");

wrong!(lists_filled_as_far_as_they_go_are_found, text_read: |text, codes, numbers, answer| {
    let mut more = [[0; 9000]; 2];
    let [all_codes, all_numbers] = &mut more;
    match (REFERENCE.text_read)(text, codes, numbers, answer) {
        16 => {
            (REFERENCE.text_read)(text, all_codes, all_numbers, &mut [0]);
            codes.iter_mut().zip(all_codes).for_each(|(code, read)| *code = *read);
            16
        }
        returned => returned,
    }
}, "TextRead code 0 is ");

wrong!(codes_alone_looked_at_for_room_are_found, text_read: |text, codes, numbers, answer| {
    let mut longer = numbers.to_vec();
    longer.resize(9000, 0);
    let returned = (REFERENCE.text_read)(text, codes, &mut longer, answer);
    numbers.iter_mut().zip(longer).for_each(|(number, read)| *number = read);
    returned
}, "TextRead returned 1000, not 16");

wrong!(room_before_the_form_is_found, text_read: |text, codes, numbers, answer| {
    let lines = text.split_inclusive(|byte| *byte == b'\n').count();
    match (REFERENCE.text_read)(text, codes, numbers, &mut answer.to_vec()) {
        22 if codes.len().min(numbers.len()) < lines => 16,
        _ => (REFERENCE.text_read)(text, codes, numbers, answer),
    }
}, "TextRead returned 16, not 22");

wrong!(a_text_cut_to_its_limit_is_found, text_read: |text, codes, numbers, answer| {
    let cut = &text[..text.len().min(65_536)];
    (REFERENCE.text_read)(cut, codes, numbers, answer)
}, "not 21");

wrong!(an_empty_text_that_is_read_is_found, text_read: |text, codes, numbers, answer| {
    match (text, &mut *answer) {
        ([], [first, ..]) => {
            *first = 0;
            ACCEPTED
        }
        _ => (REFERENCE.text_read)(text, codes, numbers, answer),
    }
}, "TextRead returned 1000, not 21");

wrong!(a_line_feed_put_to_the_end_is_found, text_read: |text, codes, numbers, answer| {
    let ended = |text: &str| match text {
        "" => String::new(),
        _ => text.trim_end_matches('\n').to_string() + "\n",
    };
    read_as(text, ended, codes, numbers, answer)
}, "TextRead ");

wrong!(line_ends_of_another_sort_are_found, text_read: |text, codes, numbers, answer| {
    read_as(text, |text| text.replace("\r\n", "\n"), codes, numbers, answer)
}, "not 22");

wrong!(capitals_that_are_read_are_found, text_read: |text, codes, numbers, answer| {
    read_as(text, |text| text.to_ascii_lowercase(), codes, numbers, answer)
}, "not 22");

wrong!(blanks_passed_over_are_found, text_read: |text, codes, numbers, answer| {
    read_as(text, |text| text.replace([' ', '\t'], ""), codes, numbers, answer)
}, "not 22");

wrong!(plus_signs_passed_over_are_found, text_read: |text, codes, numbers, answer| {
    read_as(text, |text| text.replace(",+", ","), codes, numbers, answer)
}, "not 22");

wrong!(zeros_passed_over_are_found, text_read: |text, codes, numbers, answer| {
    read_as(text, |text| text.replace(",00", ",0"), codes, numbers, answer)
}, "not 22");

wrong!(quotation_marks_passed_over_are_found, text_read: |text, codes, numbers, answer| {
    read_as(text, |text| text.replace('"', ""), codes, numbers, answer)
}, "not 22");

wrong!(empty_lines_passed_over_are_found, text_read: |text, codes, numbers, answer| {
    let fuller = |text: &str| text.replace("\n\n", "\n");
    read_as(text, fuller, codes, numbers, answer)
}, "TextRead ");

wrong!(a_number_one_too_large_is_found, text_read: |text, codes, numbers, answer| {
    read_as(text, |text| text.replace(",4294967296\n", ",0\n"), codes, numbers, answer)
}, "not 22");

wrong!(a_day_change_with_a_number_is_found, text_read: |text, codes, numbers, answer| {
    read_as(text, |text| text.replace("nextday,1\n", "nextday,0\n"), codes, numbers, answer)
}, "not 22");

wrong!(a_byte_after_the_text_is_found, text_write: |codes, numbers, text, answer| {
    let returned = (REFERENCE.text_write)(codes, numbers, text, answer);
    if returned == ACCEPTED {
        if let Some(byte) = text.get_mut(answer[0] as usize) {
            *byte ^= 1;
        }
    }
    returned
}, "TextWrite byte ");

wrong!(a_byte_written_by_a_refusal_is_found, text_write: |codes, numbers, text, answer| {
    let returned = (REFERENCE.text_write)(codes, numbers, text, answer);
    if let (16, Some(byte)) = (returned, text.first_mut()) {
        *byte ^= 1;
    }
    returned
}, "TextWrite byte 0 is ");

wrong!(a_text_without_its_last_line_feed_is_found, text_write: |codes, numbers, text, answer| {
    let returned = (REFERENCE.text_write)(codes, numbers, text, answer);
    if returned == ACCEPTED {
        answer[0] -= 1;
    }
    returned
}, "TextWrite answered [");

wrong!(another_name_is_found, text_write: |codes, numbers, text, answer| {
    let returned = (REFERENCE.text_write)(codes, numbers, text, answer);
    if returned == ACCEPTED && codes[0] == 5 {
        text[..3].copy_from_slice(b"mms");
    }
    returned
}, "TextWrite byte 0 is 109, not 115");

wrong!(a_limit_of_65535_bytes_is_found, text_write: |codes, numbers, text, answer| {
    let before = (text.to_vec(), answer.to_vec());
    match (REFERENCE.text_write)(codes, numbers, text, answer) {
        ACCEPTED if answer[0] == 65_536 => {
            text.copy_from_slice(&before.0);
            answer.copy_from_slice(&before.1);
            21
        }
        returned => returned,
    }
}, "TextWrite returned 21, not 1000");

wrong!(the_size_of_the_buffer_taken_for_the_text_is_found, text_write: |codes, numbers, text, answer| {
    match (REFERENCE.text_write)(codes, numbers, text, answer) {
        16 if text.len() > 65_000 => 21,
        21 if text.len() <= 65_536 => 16,
        returned => returned,
    }
}, "TextWrite returned ");

wrong!(calls_looked_at_before_they_are_counted_are_found, text_write: |codes, numbers, text, answer| {
    let mut calls = codes.iter().zip(numbers);
    match (REFERENCE.text_write)(codes, numbers, text, answer) {
        14 if calls.any(|(code, _)| !(1..=7).contains(code)) => 15,
        returned => returned,
    }
}, "TextWrite returned 15, not 14");

wrong!(a_code_8_that_is_taken_is_found, text_write: |codes, numbers, text, answer| {
    let known: Vec<u32> = codes.iter().map(|code| if *code == 8 { 2 } else { *code }).collect();
    (REFERENCE.text_write)(&known, numbers, text, answer)
}, "not 15");

wrong!(an_export_without_room_for_its_answer_is_found, text_write: |codes, numbers, text, answer| {
    match answer.len() {
        0 => (REFERENCE.text_write)(codes, numbers, text, &mut [0]),
        _ => (REFERENCE.text_write)(codes, numbers, text, answer),
    }
}, "not 1001");

/// A text that differs is kept with the mismatch.
#[test]
fn the_text_of_a_mismatch_is_kept() {
    let other = Side {
        text_read: |_, _, _, _| ACCEPTED,
        ..REFERENCE
    };
    let found = compared(other).expect_err("a wrong meter");
    assert!(!found.text.is_empty() && found.file.is_empty());
}
