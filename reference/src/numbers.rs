//! An account as the numbers of the C interface and back, by the layout of
//! include/meter.h. Two accounts are equal exactly when their numbers are
//! (account-4). Rules library-1, library-2, library-5.

use crate::meter::Account;
use crate::plan::Plan;
use crate::services::{Day, Log, State, LOG_DAYS};
use crate::terms::Place;

/// library-1: how many numbers an account has.
pub const ACCOUNT_NUMBERS: usize = 1649;
/// How many of them a day of the log has.
pub const DAY_NUMBERS: usize = 13;

pub type Numbers = [u64; ACCOUNT_NUMBERS];

/// library-1: where the numbers stand.
pub mod at {
    pub const LOG: usize = 0;
    pub const PLAN: usize = 1599;
    pub const DAY: usize = 1606;
    pub const PLACE: usize = 1607;
    pub const CREDIT: usize = 1608;
    pub const PAID: usize = 1609;
    pub const HOME_CHARGES: usize = 1610;
    pub const SURCHARGES: usize = 1611;
    pub const LIFETIME: usize = 1612;
    pub const CHARGED_SECONDS: usize = 1616;
    pub const PRICED: usize = 1617;
    pub const SURCHARGED: usize = 1621;
    pub const CAP_SUMS: usize = 1625;
    pub const MONTHLY: usize = 1629;
    pub const ROAMED: usize = 1630;
    pub const LIMIT: usize = 1631;
    pub const MARKS: usize = 1632;
    pub const TODAY: usize = 1633;
    pub const LOGGED: usize = 1645;
    pub const SERVICES: usize = 1646;
}

/// The numbers of an account. Its log has at most 123 days.
pub fn numbers(account: &Account) -> Numbers {
    let mut all = [0; ACCOUNT_NUMBERS];
    put_log(&mut all, account);
    put_rest(&mut all, account);
    all
}

/// Puts the log's numbers into their places; those of days that are not there
/// become 0.
pub fn put_log(all: &mut Numbers, account: &Account) {
    let (places, _) = all[at::LOG..at::PLAN].as_chunks_mut::<DAY_NUMBERS>();
    let (newer, older) = account.log.as_slices();
    let mut days = newer.iter().chain(older);
    for place in places {
        *place = days.next().map_or([0; DAY_NUMBERS], day_numbers);
    }
}

/// Puts all other numbers into their places.
pub fn put_rest(all: &mut Numbers, account: &Account) {
    let plan = account.plan.to_words().map(u64::from);
    all[at::PLAN..at::DAY].copy_from_slice(&plan);
    all[at::DAY] = u64::from(account.day);
    all[at::PLACE] = account.place.map_or(0, |place| 1 + place as u64);
    all[at::CREDIT] = account.credit;
    all[at::PAID] = account.paid_in;
    all[at::HOME_CHARGES] = account.home;
    all[at::SURCHARGES] = account.extra;
    all[at::LIFETIME..at::CHARGED_SECONDS].copy_from_slice(&account.lifetime);
    all[at::CHARGED_SECONDS] = account.charged;
    all[at::PRICED..at::SURCHARGED].copy_from_slice(&account.priced);
    all[at::SURCHARGED..at::CAP_SUMS].copy_from_slice(&account.surcharged);
    all[at::CAP_SUMS..at::MONTHLY].copy_from_slice(&account.cap_sums);
    all[at::MONTHLY] = account.h;
    all[at::ROAMED] = account.r;
    // The last number of all would need one more; no sound account has it.
    all[at::LIMIT] = account.l.map_or(0, |limit| limit.saturating_add(1));
    all[at::MARKS..at::LOGGED].copy_from_slice(&day_numbers(&account.today));
    all[at::LOGGED] = account.log.len() as u64;
    all[at::SERVICES..].copy_from_slice(&account.states.map(state_number));
}

/// Marks, then units home, zone, elsewhere.
fn day_numbers(day: &Day) -> [u64; DAY_NUMBERS] {
    let [home, zone, elsewhere] = day.marks.map(u64::from);
    let mut numbers = [home + 2 * zone + 4 * elsewhere; DAY_NUMBERS];
    for (k, places) in day.units.iter().enumerate() {
        for (p, units) in places.iter().enumerate() {
            numbers[1 + 4 * p + k] = *units;
        }
    }
    numbers
}

/// library-2: the number of a service's state.
fn state_number(state: State) -> u64 {
    match state {
        State::Clear => 0,
        State::Surcharged => 1,
        State::Warned(changes) => 2 + u64::from(changes),
    }
}

/// The account that numbers stand for. None where they stand for no account
/// (library-5): another count of them, an unknown place or mark, a log of over
/// 123 days, or numbers of days past its count. Plan, day and warnings are
/// words here. What is wider becomes the last word: all their ranges end before
/// it.
pub fn account(numbers: &[u64]) -> Option<Account> {
    let all: &Numbers = numbers.try_into().ok()?;
    Some(Account {
        plan: Plan::from_words(std::array::from_fn(|i| word(all[at::PLAN + i]))),
        day: word(all[at::DAY]),
        place: place(all[at::PLACE])?,
        credit: all[at::CREDIT],
        paid_in: all[at::PAID],
        home: all[at::HOME_CHARGES],
        extra: all[at::SURCHARGES],
        lifetime: some(all, at::LIFETIME),
        charged: all[at::CHARGED_SECONDS],
        priced: some(all, at::PRICED),
        surcharged: some(all, at::SURCHARGED),
        cap_sums: some(all, at::CAP_SUMS),
        h: all[at::MONTHLY],
        r: all[at::ROAMED],
        l: all[at::LIMIT].checked_sub(1),
        today: day(&some(all, at::MARKS))?,
        log: log(all)?,
        states: some(all, at::SERVICES).map(state),
    })
}

/// The numbers that begin at a place.
fn some<const N: usize>(all: &Numbers, from: usize) -> [u64; N] {
    std::array::from_fn(|i| all[from + i])
}

fn word(number: u64) -> u32 {
    u32::try_from(number).unwrap_or(u32::MAX)
}

fn place(number: u64) -> Option<Option<Place>> {
    match number {
        0 => Some(None),
        1 => Some(Some(Place::Home)),
        2 => Some(Some(Place::Zone)),
        3 => Some(Some(Place::Elsewhere)),
        _ => None,
    }
}

fn day(numbers: &[u64; DAY_NUMBERS]) -> Option<Day> {
    let marks = numbers[0];
    let units = |k: usize| std::array::from_fn(|p| numbers[1 + 4 * p + k]);
    (marks < 8).then(|| Day {
        marks: [1, 2, 4].map(|mark| marks & mark != 0),
        units: std::array::from_fn(units),
    })
}

fn log(all: &Numbers) -> Option<Log> {
    let logged = usize::try_from(all[at::LOGGED]).ok()?;
    let (places, _) = all[at::LOG..at::PLAN].as_chunks::<DAY_NUMBERS>();
    let (days, past) = places.split_at_checked(logged)?;
    if past.as_flattened().iter().any(|number| *number != 0) {
        return None;
    }
    let mut log = Log::with_capacity(LOG_DAYS + 1);
    for numbers in days {
        log.push_back(day(numbers)?);
    }
    Some(log)
}

fn state(number: u64) -> State {
    match number {
        0 => State::Clear,
        1 => State::Surcharged,
        _ => State::Warned(word(number - 2)),
    }
}
