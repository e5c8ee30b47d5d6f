//! Time of each call on accounts with a full log of 123 days.

use reference::generate::{case, Case};
use reference::meter::Account;
use reference::terms::{Kind, Place};
use std::hint::black_box;
use std::time::Instant;

const ROUNDS: u32 = 100_000;

fn timed<T>(name: &str, mut call: impl FnMut() -> T) {
    let begun = Instant::now();
    for _ in 0..ROUNDS {
        black_box(call());
    }
    println!(
        "{name}: {} ns",
        begun.elapsed().as_nanos() / u128::from(ROUNDS)
    );
}

fn run(case: &Case) -> Account {
    let mut account = Account::open(case.plan).expect("the plan keeps its ranges");
    for call in &case.calls {
        let _ = account.apply(*call);
    }
    account
}

fn main() {
    let long = (1..).map(|seed| run(&case(seed)));
    let mut account = long
        .filter(|account| account.log.len() == 123 && account.credit > 1_000_000)
        .find(|account| account.lifetime[0] < 1_000_000_000)
        .expect("some seed has a long run");
    timed("open", || Account::open(black_box(account.plan)));
    timed("sound", || black_box(&account).sound());
    timed("afford", || black_box(&account).afford(Kind::Data));
    timed("register", || account.register(black_box(Place::Zone)));
    timed("top-up", || account.top_up(black_box(1)));
    timed("use", || account.use_units(black_box(Kind::Data), 1));
    let fresh = account.clone();
    let days = (3833 - account.day) as usize;
    let mut left = days;
    timed("next day", || {
        if left == 0 {
            account = fresh.clone();
            left = days;
        }
        left -= 1;
        account.next_day()
    });
}
