//! The checks that each random trip goes through. Rules list-1, list-2, list-9,
//! half-8, book-, afford-1, trip-1, order-2.

use crate::book::{Book, Stage};
use crate::coverage::seen::{rest, Observed};
use crate::coverage::{Coverage, TripEvents};
use crate::damage;
use crate::family::check::check_box;
use crate::generate::{self, Case};
use crate::matching;
use crate::meter::{Account, Answer};
use crate::rng::Rng;
use crate::services::State;
use crate::sides::{Kept, Step, ACCEPTED, FIND_NUMBERS, READ_NUMBERS, REFERENCE, USE_NUMBERS};
use crate::statement::{lines, statement};
use crate::terms::{Call, Kind, Place};
use crate::tripfile::{self, Trip, BEFORE_CALLS, CALLS_KIND, MAX_CALLS, PLAN_KIND};
use crate::writes::WriteCase;

/// What a check that failed says.
pub type Failure = String;

pub(crate) fn demand(holds: bool, what: impl FnOnce() -> String) -> Result<(), Failure> {
    if holds {
        Ok(())
    } else {
        Err(what())
    }
}

/// All checks of one seed, a list on an account and one on a box; answers how
/// many calls both had.
pub fn check_seed(seed: u64, coverage: &mut Coverage) -> Result<usize, Failure> {
    let mut rng = Rng::new(seed ^ 0xC0FF_EE00);
    let mut events = TripEvents::default();
    let case = generate::case(seed);
    check_list(&case, &mut rng, &mut events)?;
    check_round_trip(&case, &mut rng)?;
    check_pairs(&case, &mut rng, &mut events)?;
    for _ in 0..3 {
        check_file(&mut rng, &mut events)?;
        check_write(&mut rng, &mut events)?;
    }
    coverage.add(&events);
    let mut events = TripEvents::default();
    let box_calls = check_box(seed, &mut events)?;
    coverage.add(&events);
    Ok(case.calls.len() + box_calls)
}

/// book-12: the account against the book after every call.
pub fn check_list(case: &Case, rng: &mut Rng, events: &mut TripEvents) -> Result<(), Failure> {
    let account = Account::open(case.plan).map_err(|n| format!("open refused: {n}"))?;
    let mut kept = Kept::new(account);
    let mut book = Book::new(case.plan);
    if case.calls.is_empty() {
        events.empty_list();
    }
    compare(&kept.account, &book).map_err(|what| format!("at opening: {what}"))?;
    for (index, call) in case.calls.iter().enumerate() {
        let whole = one_call(&mut kept, &mut book, *call, rng, events);
        whole.map_err(|what| format!("call {index}, {call:?}: {what}"))?;
    }
    Ok(())
}

fn one_call(
    kept: &mut Kept,
    book: &mut Book,
    call: Call,
    rng: &mut Rng,
    events: &mut TripEvents,
) -> Result<(), Failure> {
    let before = kept.account.clone();
    let numbers_before = *rest(&kept.numbers);
    let (step, mut answer) = (Step::from(call), [0; USE_NUMBERS]);
    let returned = kept.make(step, &mut answer);
    let verdict = match book.verdict(call) {
        0 => ACCEPTED,
        number => u64::from(number),
    };
    demand(returned == verdict, || {
        format!("returned {returned}, the book says {verdict}")
    })?;
    let account = &kept.account;
    if returned == ACCEPTED {
        check_answer(&before, book, call, &answer, account)?;
    } else {
        demand(*account == before, || "a refusal altered".to_string())?;
    }
    book.feed(call, returned == ACCEPTED);
    let seen = Observed::new(step, returned, &answer, &numbers_before, &kept.numbers);
    events.call(&seen)?;
    compare(account, book)?;
    let kind = rng.pick(&Kind::ALL);
    compare_kind(account, book, kind)?;
    check_afford(account, kind)
}

/// book-11: the units of a kind that account and book hold.
fn compare_kind(account: &Account, book: &Book, kind: Kind) -> Result<(), Failure> {
    let k = kind as usize;
    let ours = [
        account.priced[k],
        account.surcharged[k],
        account.cap_sums[k],
    ];
    let right = ours == book.borne(kind)
        && account.lifetime[k] == book.lifetime(kind)
        && account.charged == book.charged_seconds();
    demand(right, || format!("units of {kind:?}"))
}

/// use-13 to use-15, half-7: the answer of an accepted use against the two
/// accounts and the book; Afford leaves the account (afford-1).
fn check_answer(
    before: &Account,
    book: &Book,
    call: Call,
    answer: &[u64; USE_NUMBERS],
    now: &Account,
) -> Result<(), Failure> {
    let right = match call {
        Call::Use(kind, n) => {
            let share = book.share(kind, n);
            let (r, l) = (book.r(), book.l());
            let grows = kind == Kind::Data && before.place == Some(Place::Zone);
            let notice = grows && l.is_some_and(|l| r < l && r + n >= l);
            *answer
                == [
                    now.home - before.home,
                    now.extra - before.extra,
                    share.surcharged,
                    share.charged,
                    u64::from(notice),
                ]
        }
        Call::Afford(_) => before == now,
        Call::Register(_) | Call::TopUp(_) | Call::NextDay => true,
    };
    demand(right, || format!("wrong answer {answer:?}"))
}

/// Soundness, the balance (sound-4), and the fields that the book knows too.
pub(crate) fn compare(account: &Account, book: &Book) -> Result<(), Failure> {
    demand(account.sound(), || "not sound".to_string())?;
    let balance = account.credit + account.home + account.extra;
    demand(account.paid_in == balance, || "no balance".to_string())?;
    let whereabouts = account.day == book.day() && account.place == book.place();
    demand(whereabouts, || "day or place".to_string())?;
    let ours = [account.paid_in, account.home, account.extra, account.credit];
    let books = [
        book.paid_in(),
        book.home_charges(),
        book.surcharges(),
        book.credit(),
    ];
    demand(ours == books, || {
        format!("account {ours:?}, book {books:?}")
    })?;
    let limits = (account.h, account.r, account.l);
    let theirs = (book.h(), book.r(), book.l());
    demand(limits == theirs, || {
        format!("H, R, L {limits:?}, book {theirs:?}")
    })?;
    let same = |(state, stage): (&State, &Stage)| {
        matches!(
            (state, stage),
            (State::Clear, Stage::Clear)
                | (State::Surcharged, Stage::Surcharged)
                | (State::Warned(_), Stage::Warned { .. })
        )
    };
    let states = account.states.iter().zip(&book.stages()).all(same);
    demand(states, || "service states".to_string())
}

/// afford-1: Use accepts Afford's n and refuses one more, on copies.
fn check_afford(account: &Account, kind: Kind) -> Result<(), Failure> {
    let n = match account.afford(kind) {
        Ok(Answer::Most(n)) => n,
        other => {
            let none = account.place.is_none() && other == Err(3);
            return demand(none, || format!("afford answered {other:?}"));
        }
    };
    let taken = n == 0 || account.clone().use_units(kind, n).is_ok();
    demand(taken, || format!("{n} {kind:?} affordable, yet refused"))?;
    let more = account.clone().use_units(kind, n + 1).is_err();
    demand(more, || format!("{} {kind:?} not affordable", n + 1))
}

/// trip-1: writing and reading give the same plan and calls. The statement of
/// the file is that of the list.
fn check_round_trip(case: &Case, rng: &mut Rng) -> Result<(), Failure> {
    let calls: Vec<(u32, u32)> = case.calls.iter().filter_map(|c| c.to_words()).collect();
    let (codes, numbers): (Vec<u32>, Vec<u32>) = calls.iter().copied().unzip();
    let need = BEFORE_CALLS + 8 * calls.len();
    let room = need + rng.below(20) as usize;
    let mut buffer = rng.bytes(room);
    let old = buffer.clone();
    let got = tripfile::write(&case.plan, &codes, &numbers, &mut buffer);
    if calls.is_empty() || calls.len() > MAX_CALLS {
        return demand(got == Err(14) && buffer == old, || format!("write {got:?}"));
    }
    demand(got == Ok(need) && buffer[need..] == old[need..], || {
        format!("write {got:?}")
    })?;
    let file = &buffer[..need];
    let trip = Trip {
        plan: case.plan,
        calls,
    };
    demand(tripfile::read(file).as_ref() == Ok(&trip), || {
        "read another trip".to_string()
    })?;
    let mut short = old[..need - 1].to_vec();
    let got = tripfile::write(&case.plan, &codes, &numbers, &mut short);
    demand(got == Err(16) && short == old[..need - 1], || {
        format!("short buffer: {got:?}")
    })?;
    let (account, refused) = plain_run(case);
    demand(statement(file) == lines(&account, refused), || {
        "statement of the file".to_string()
    })
}

/// Runs the calls that a file can hold.
fn plain_run(case: &Case) -> (Account, usize) {
    let mut account = Account::open(case.plan).expect("the plan keeps its ranges");
    let mut refused = 0;
    for call in case.calls.iter().filter(|call| call.to_words().is_some()) {
        refused += usize::from(account.apply(*call).is_err());
    }
    (account, refused)
}

/// list-9, half-8: demand 3's claim about pairs of lists; answers the lists
/// that the case was paired with.
pub fn check_pairs(
    case: &Case,
    rng: &mut Rng,
    events: &mut TripEvents,
) -> Result<Vec<Vec<Call>>, Failure> {
    let first = matching::trace(case.plan, &case.calls);
    let rearranged = matching::rearranged(rng, &first);
    let same = matching::trace(case.plan, &rearranged);
    demand(
        first.cuts == same.cuts && first.stretches_agree(&same),
        || "rearranged uses were refused".to_string(),
    )?;
    demand(first.accounts == same.accounts, || {
        "rearranged uses: other accounts".to_string()
    })?;
    let stretches = first.stretches();
    events.pair(&stretches, &same.stretches(), rearranged == case.calls);
    let mut lists = vec![rearranged, matching::altered(rng, &case.calls)];
    lists.extend(matching::divided(rng, &case.calls));
    for calls in &lists[1..] {
        let other = matching::trace(case.plan, calls);
        demand(first.cuts == other.cuts, || "altered cuts".to_string())?;
        events.pair(&stretches, &other.stretches(), *calls == case.calls);
        demand(first.matches(&other), || "altered uses".to_string())?;
    }
    Ok(lists)
}

/// order-4: reading a random file gives the number that it was made for, and
/// finding agrees with reading.
fn check_file(rng: &mut Rng, events: &mut TripEvents) -> Result<(), Failure> {
    let sample = damage::sample(rng);
    let bytes = &sample.bytes;
    let got = tripfile::read(bytes);
    let number = got.as_ref().err().copied().unwrap_or(0);
    let mut answer = [0; READ_NUMBERS];
    events.read(bytes, (REFERENCE.read)(bytes, &mut answer))?;
    let right = sample.expected.is_none_or(|expected| expected == number);
    demand(right, || {
        format!("file {number}, made for {:?}", sample.expected)
    })?;
    let finds = [PLAN_KIND, CALLS_KIND].map(|kind| tripfile::find(bytes, kind).err());
    for kind in [PLAN_KIND, CALLS_KIND] {
        let mut part = [0; FIND_NUMBERS];
        let returned = (REFERENCE.find)(bytes, kind, &mut part);
        events.find(bytes, kind, returned, &part)?;
    }
    let agrees = match number {
        10..=12 => finds == [Some(number); 2],
        13 => finds.contains(&Some(13)),
        _ => finds == [None; 2],
    };
    demand(agrees, || format!("file {number}, found {finds:?}"))?;
    let printed = statement(bytes);
    let bad = format!("file {number}\n");
    demand((printed == bad) == (number != 0), || {
        format!("file {number}, statement {printed:?}")
    })
}

/// A random write returns what it was made for. Without being accepted it
/// leaves the buffer (order-2), and what is written leaves the bytes behind it
/// (write-2) and is read again (trip-1).
fn check_write(rng: &mut Rng, events: &mut TripEvents) -> Result<(), Failure> {
    let case = WriteCase::random(rng);
    let mut buffer = case.buffer.clone();
    let mut answer = [0; 3];
    let returned = case.run(&REFERENCE, &mut buffer, &mut answer[..case.room]);
    events.write(&case, returned)?;
    demand(returned == case.expected, || {
        format!("write {returned}, {}", case.outline())
    })?;
    if returned != ACCEPTED {
        let stays = buffer == case.buffer && answer == [0; 3];
        return demand(stays, || format!("write altered, {}", case.outline()));
    }
    let length = BEFORE_CALLS + 8 * case.codes.len();
    let right = answer == [length as u64, 0, 0] && buffer[length..] == case.buffer[length..];
    demand(right, || format!("write {answer:?}, {}", case.outline()))?;
    let read = tripfile::read(&buffer[..length]).map(|trip| WriteCase::again(&trip, rng));
    let same = |again: &WriteCase| {
        again.plan == case.plan && again.codes == case.codes && again.numbers == case.numbers
    };
    demand(read.as_ref().is_ok_and(same), || {
        format!("written and read otherwise, {}", case.outline())
    })
}
