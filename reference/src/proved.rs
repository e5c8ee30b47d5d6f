//! The proved meter, linked as a static library: the functions of
//! include/meter.h. A slice passes as its pointer and its count.

use crate::family::interface::BoxStep;
use crate::family::Card;
use crate::sides::Side;

extern "C" {
    fn meter_open(account: *mut u64, numbers: usize, plan: *const u64, plan_numbers: usize) -> u64;
    fn meter_register(account: *mut u64, numbers: usize, place: u64) -> u64;
    fn meter_use(
        account: *mut u64,
        numbers: usize,
        kind: u64,
        n: u64,
        answer: *mut u64,
        answer_numbers: usize,
    ) -> u64;
    fn meter_top_up(account: *mut u64, numbers: usize, points: u64) -> u64;
    fn meter_next_day(account: *mut u64, numbers: usize) -> u64;
    fn meter_afford(
        account: *const u64,
        numbers: usize,
        kind: u64,
        answer: *mut u64,
        answer_numbers: usize,
    ) -> u64;
    fn meter_is_sound(account: *const u64, numbers: usize) -> u64;
    fn meter_run(
        account: *mut u64,
        numbers: usize,
        file: *const u8,
        file_bytes: usize,
        answer: *mut u64,
        answer_numbers: usize,
    ) -> u64;
    fn meter_statement(
        file: *const u8,
        file_bytes: usize,
        answer: *mut u64,
        answer_numbers: usize,
    ) -> u64;
    fn meter_read(
        file: *const u8,
        file_bytes: usize,
        answer: *mut u64,
        answer_numbers: usize,
    ) -> u64;
    fn meter_find(
        file: *const u8,
        file_bytes: usize,
        kind: u32,
        answer: *mut u64,
        answer_numbers: usize,
    ) -> u64;
    fn meter_write(
        plan: *const u64,
        plan_numbers: usize,
        codes: *const u32,
        code_count: usize,
        numbers: *const u32,
        number_count: usize,
        buffer: *mut u8,
        buffer_bytes: usize,
        answer: *mut u64,
        answer_numbers: usize,
    ) -> u64;
    fn meter_call(
        section: *const u8,
        section_bytes: usize,
        position: usize,
        answer: *mut u64,
        answer_numbers: usize,
    ) -> u64;
    fn meter_caps(day: u64, answer: *mut u64, answer_numbers: usize) -> u64;
    fn meter_box_open(
        account: *mut u64,
        numbers: usize,
        cards: *mut Card,
        card_count: usize,
        plan: *const u64,
        plan_numbers: usize,
    ) -> u64;
    fn meter_box_call(
        account: *mut u64,
        numbers: usize,
        cards: *mut Card,
        card_count: usize,
        call: u64,
        card: usize,
        which: u64,
        n: u64,
        answer: *mut u64,
        answer_numbers: usize,
    ) -> u64;
    fn meter_text_read(
        text: *const u8,
        text_bytes: usize,
        codes: *mut u32,
        code_count: usize,
        numbers: *mut u32,
        number_count: usize,
        answer: *mut u64,
        answer_numbers: usize,
    ) -> u64;
    fn meter_text_write(
        codes: *const u32,
        code_count: usize,
        numbers: *const u32,
        number_count: usize,
        text: *mut u8,
        text_bytes: usize,
        answer: *mut u64,
        answer_numbers: usize,
    ) -> u64;
}

// family-1: a card is six numbers of the header's `struct meter_card`.
const _: () = assert!(size_of::<Card>() == 48 && align_of::<Card>() == 8);

/// The proved meter.
pub const SIDE: Side = Side {
    open,
    register,
    use_units,
    top_up,
    next_day,
    afford,
    is_sound,
    run,
    statement,
    read,
    find,
    write,
    call,
    caps,
    box_open,
    box_call,
    text_read,
    text_write,
};

// SAFETY, of every call below: each slice is valid for its count and aligned,
// those that are written overlap no other, and the meter keeps none of them.

fn open(account: &mut [u64], plan: &[u64]) -> u64 {
    unsafe {
        meter_open(
            account.as_mut_ptr(),
            account.len(),
            plan.as_ptr(),
            plan.len(),
        )
    }
}

fn register(account: &mut [u64], place: u64) -> u64 {
    unsafe { meter_register(account.as_mut_ptr(), account.len(), place) }
}

fn use_units(account: &mut [u64], kind: u64, n: u64, answer: &mut [u64]) -> u64 {
    unsafe {
        meter_use(
            account.as_mut_ptr(),
            account.len(),
            kind,
            n,
            answer.as_mut_ptr(),
            answer.len(),
        )
    }
}

fn top_up(account: &mut [u64], points: u64) -> u64 {
    unsafe { meter_top_up(account.as_mut_ptr(), account.len(), points) }
}

fn next_day(account: &mut [u64]) -> u64 {
    unsafe { meter_next_day(account.as_mut_ptr(), account.len()) }
}

fn afford(account: &[u64], kind: u64, answer: &mut [u64]) -> u64 {
    unsafe {
        meter_afford(
            account.as_ptr(),
            account.len(),
            kind,
            answer.as_mut_ptr(),
            answer.len(),
        )
    }
}

fn is_sound(account: &[u64]) -> u64 {
    unsafe { meter_is_sound(account.as_ptr(), account.len()) }
}

fn run(account: &mut [u64], file: &[u8], answer: &mut [u64]) -> u64 {
    unsafe {
        meter_run(
            account.as_mut_ptr(),
            account.len(),
            file.as_ptr(),
            file.len(),
            answer.as_mut_ptr(),
            answer.len(),
        )
    }
}

fn statement(file: &[u8], answer: &mut [u64]) -> u64 {
    unsafe { meter_statement(file.as_ptr(), file.len(), answer.as_mut_ptr(), answer.len()) }
}

fn read(file: &[u8], answer: &mut [u64]) -> u64 {
    unsafe { meter_read(file.as_ptr(), file.len(), answer.as_mut_ptr(), answer.len()) }
}

fn find(file: &[u8], kind: u32, answer: &mut [u64]) -> u64 {
    unsafe {
        meter_find(
            file.as_ptr(),
            file.len(),
            kind,
            answer.as_mut_ptr(),
            answer.len(),
        )
    }
}

fn write(
    plan: &[u64],
    codes: &[u32],
    numbers: &[u32],
    buffer: &mut [u8],
    answer: &mut [u64],
) -> u64 {
    unsafe {
        meter_write(
            plan.as_ptr(),
            plan.len(),
            codes.as_ptr(),
            codes.len(),
            numbers.as_ptr(),
            numbers.len(),
            buffer.as_mut_ptr(),
            buffer.len(),
            answer.as_mut_ptr(),
            answer.len(),
        )
    }
}

fn call(section: &[u8], position: usize, answer: &mut [u64]) -> u64 {
    unsafe {
        meter_call(
            section.as_ptr(),
            section.len(),
            position,
            answer.as_mut_ptr(),
            answer.len(),
        )
    }
}

fn caps(day: u64, answer: &mut [u64]) -> u64 {
    unsafe { meter_caps(day, answer.as_mut_ptr(), answer.len()) }
}

fn box_open(account: &mut [u64], cards: &mut [Card], plan: &[u64]) -> u64 {
    unsafe {
        meter_box_open(
            account.as_mut_ptr(),
            account.len(),
            cards.as_mut_ptr(),
            cards.len(),
            plan.as_ptr(),
            plan.len(),
        )
    }
}

fn box_call(account: &mut [u64], cards: &mut [Card], step: BoxStep, answer: &mut [u64]) -> u64 {
    unsafe {
        meter_box_call(
            account.as_mut_ptr(),
            account.len(),
            cards.as_mut_ptr(),
            cards.len(),
            step.call,
            step.card,
            step.which,
            step.n,
            answer.as_mut_ptr(),
            answer.len(),
        )
    }
}

fn text_read(text: &[u8], codes: &mut [u32], numbers: &mut [u32], answer: &mut [u64]) -> u64 {
    unsafe {
        meter_text_read(
            text.as_ptr(),
            text.len(),
            codes.as_mut_ptr(),
            codes.len(),
            numbers.as_mut_ptr(),
            numbers.len(),
            answer.as_mut_ptr(),
            answer.len(),
        )
    }
}

fn text_write(codes: &[u32], numbers: &[u32], text: &mut [u8], answer: &mut [u64]) -> u64 {
    unsafe {
        meter_text_write(
            codes.as_ptr(),
            codes.len(),
            numbers.as_ptr(),
            numbers.len(),
            text.as_mut_ptr(),
            text.len(),
            answer.as_mut_ptr(),
            answer.len(),
        )
    }
}
