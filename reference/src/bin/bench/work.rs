//! What is measured: kinds of calls, the calls that they are made after, and
//! what a meter is given to do.

use crate::meters::{Act, Meter, Proved, Reference, Room};
use crate::texts::page_for;
use reference::family::{Card, CardCall, MAX_ALLOWANCE, MAX_CARDS};
use reference::numbers::at;
use reference::plan::{Plan, PREPAID};
use reference::sides::{Side, ACCEPTED};
use reference::terms::{Call, Kind, Place};
use reference::tripfile::{write, BEFORE_CALLS, MAX_CALLS};
use std::hint::black_box;

/// A kind of call: its name on the command line and in the tables, the days
/// before it, and what is done then.
pub struct Row {
    pub key: &'static str,
    pub name: &'static str,
    days: Days,
    done: Done,
    /// How many cards the box has; none is an account alone.
    cards: usize,
}

/// The days before the calls, of which the last 123 are logged (day-1).
#[derive(Clone, Copy)]
enum Days {
    /// At home and in the zone in turn. At home there is more use, so that
    /// every service stays Clear (service-4).
    InTurn,
    /// All in the zone: after them every service is Surcharged (service-8).
    Zone,
}

/// What is done after the days.
enum Done {
    /// These in turn: each is one.
    Each(&'static [Act]),
    /// These together: all of them are one.
    Group(&'static [Call]),
    /// The caps of the first day.
    Caps,
}

const IN_ZONE: Call = Call::Register(Place::Zone);
const ZONE_DAY: [Call; 6] = [
    IN_ZONE,
    Call::Use(Kind::Data, 100),
    Call::Use(Kind::Outgoing, 10),
    Call::Use(Kind::Incoming, 10),
    Call::Use(Kind::Sms, 10),
    Call::NextDay,
];

const fn each(key: &'static str, name: &'static str, acts: &'static [Act]) -> Row {
    Row {
        key,
        name,
        days: Days::InTurn,
        done: Done::Each(acts),
        cards: 0,
    }
}

/// On a box of 16 cards, which make the calls in turn.
const fn boxed(key: &'static str, name: &'static str, acts: &'static [Act]) -> Row {
    Row {
        key,
        name,
        days: Days::InTurn,
        done: Done::Each(acts),
        cards: MAX_CARDS,
    }
}

pub static ROWS: [Row; 17] = [
    each(
        "data",
        "use of data",
        &[Act::Call(Call::Use(Kind::Data, 1))],
    ),
    each(
        "outgoing",
        "use of outgoing seconds",
        &[Act::Call(Call::Use(Kind::Outgoing, 1))],
    ),
    each(
        REFUSED,
        "use refused (4)",
        &[Act::Call(Call::Use(Kind::Data, 0))],
    ),
    each(
        "register",
        "register, home and zone in turn",
        &[Act::Call(Call::Register(Place::Home)), Act::Call(IN_ZONE)],
    ),
    each("topup", "top-up in the zone", &[Act::Call(Call::TopUp(1))]),
    each("nextday", "next day", &[Act::Call(Call::NextDay)]),
    Row {
        key: "zoneday",
        name: "a day in the zone, zone days prevailing",
        days: Days::Zone,
        done: Done::Group(&ZONE_DAY),
        cards: 0,
    },
    each(
        "afford",
        "Afford of data",
        &[Act::Call(Call::Afford(Kind::Data))],
    ),
    each("sound", "is it sound", &[Act::IsSound]),
    each("open", "open", &[Act::Open]),
    Row {
        key: "caps",
        name: "caps of a day",
        days: Days::InTurn,
        done: Done::Caps,
        cards: 0,
    },
    boxed(
        "boxdata",
        "16 cards: use of data",
        &[Act::Call(Call::Use(Kind::Data, 1))],
    ),
    boxed(
        "boxregister",
        "16 cards: register, home and zone in turn",
        &[Act::Call(Call::Register(Place::Home)), Act::Call(IN_ZONE)],
    ),
    boxed(
        "boxtopup",
        "16 cards: top-up in the zone",
        &[Act::Call(Call::TopUp(1))],
    ),
    boxed(
        "boxnextday",
        "16 cards: next day",
        &[Act::Call(Call::NextDay)],
    ),
    boxed(
        "boxafford",
        "16 cards: Afford of data",
        &[Act::Call(Call::Afford(Kind::Data))],
    ),
    boxed("boxopen", "16 cards: open", &[Act::Open]),
];

/// The row whose calls are all refused.
const REFUSED: &str = "refused";

/// The row of a name on the command line.
pub fn row(key: &str) -> Option<&'static Row> {
    ROWS.iter().find(|row| row.key == key)
}

/// What a meter is given to do with its account.
pub enum Work {
    /// These, one by one.
    Acts(Vec<Act>),
    /// The statement of a file.
    Statement(Vec<u8>),
    /// The calls of a file.
    Run(Vec<u8>),
    /// The calls of a text.
    TextRead(Vec<u8>),
    /// The text of codes and numbers.
    TextWrite(Vec<u32>, Vec<u32>),
}

/// A work, and both meters with the account that it is done on.
pub struct Task {
    pub work: Work,
    pub proved: Proved,
    pub reference: Reference,
}

/// What both meters agree on when a task is done.
pub struct Agreed {
    pub refused: usize,
    /// Surcharges that came with it.
    pub surcharges: u64,
}

impl Row {
    /// Its days from the day on, then so many of it.
    pub fn task(&self, side: Side, start: u32, days: usize, count: usize) -> Task {
        let acts = match self.done {
            Done::Each(acts) => acts.iter().copied().cycle().take(count).collect(),
            Done::Group(calls) => {
                let calls = calls.iter().cycle().take(count * calls.len());
                calls.map(|call| Act::Call(*call)).collect()
            }
            Done::Caps => vec![Act::Caps(u64::from(start)); count],
        };
        let before = self.days.calls(days).into_iter().map(Act::Call);
        let before = by_cards(before.collect(), self.cards);
        let work = Work::Acts(by_cards(acts, self.cards));
        Task::with_cards(side, start, self.cards, &before, work)
    }

    /// day-1: day changes that fill the log; service-7, service-8: in the zone
    /// some more, until each service was warned and then Surcharged.
    pub fn full_days(&self) -> usize {
        match self.days {
            Days::InTurn => 130,
            Days::Zone => 145,
        }
    }

    /// How many of it are timed at once: some 300 calls, and more of what takes
    /// just some nanoseconds.
    pub fn count(&self) -> usize {
        match self.done {
            Done::Each(_) => 300,
            Done::Group(calls) => 300 / calls.len(),
            Done::Caps => 3000,
        }
    }

    /// How many of so many calls are meant to be refused.
    pub fn refused(&self, count: usize) -> usize {
        if self.key == REFUSED {
            count
        } else {
            0
        }
    }

    /// Whether every unit is surcharged.
    pub fn surcharges(&self) -> bool {
        matches!(self.days, Days::Zone)
    }
}

/// The calls, made by so many cards in turn; without cards, on the account
/// alone.
fn by_cards(acts: Vec<Act>, cards: usize) -> Vec<Act> {
    let by_card = |(index, act)| match act {
        Act::Call(call) if cards > 0 => Act::Card(CardCall {
            card: index % cards,
            call,
        }),
        _ => act,
    };
    acts.into_iter().enumerate().map(by_card).collect()
}

impl Days {
    /// The calls of so many days, with the entry into the zone after them.
    fn calls(self, count: usize) -> Vec<Call> {
        let mut calls = match self {
            Days::InTurn => days_in_turn(count),
            Days::Zone => zone_days(count),
        };
        calls.push(IN_ZONE);
        calls
    }
}

const PAYMENTS: [Call; 2] = [Call::TopUp(10_000_000), Call::TopUp(10_000_000)];

fn days_in_turn(count: usize) -> Vec<Call> {
    let mut calls = PAYMENTS.to_vec();
    for day in 0..count {
        let (place, n) = if day % 2 == 0 {
            (Place::Home, 20)
        } else {
            (Place::Zone, 10)
        };
        calls.extend([
            Call::Register(place),
            Call::Use(Kind::Data, 10 * n),
            Call::Use(Kind::Outgoing, n),
            Call::Use(Kind::Incoming, n),
            Call::Use(Kind::Sms, n),
            Call::NextDay,
        ]);
    }
    calls
}

fn zone_days(count: usize) -> Vec<Call> {
    let mut calls = PAYMENTS.to_vec();
    (0..count).for_each(|_| calls.extend(ZONE_DAY));
    calls
}

/// The calls of the largest file.
pub fn most_calls() -> Vec<Call> {
    let mut calls = days_in_turn(MAX_CALLS / 6 + 1);
    calls.truncate(MAX_CALLS);
    calls
}

fn plan_from(start: u32) -> Plan {
    Plan::from_words([PREPAID, start, 10_000, 60, 50, 0, 0])
}

/// The file of a prepaid plan.
pub fn file(start: u32, calls: &[Call]) -> Vec<u8> {
    let words = calls
        .iter()
        .map(|call| call.to_words().expect("a call of a file"));
    let (codes, numbers): (Vec<u32>, Vec<u32>) = words.unzip();
    let mut bytes = vec![0; BEFORE_CALLS + 8 * calls.len()];
    write(&plan_from(start), &codes, &numbers, &mut bytes).expect("the calls fit in a file");
    bytes
}

impl Work {
    /// The calls, one by one.
    pub fn calls(calls: &[Call]) -> Work {
        Work::Acts(calls.iter().map(|call| Act::Call(*call)).collect())
    }

    /// Has a meter do it.
    pub fn run<M: Meter>(&self, meter: &mut M, answer: &mut Room) {
        match black_box(self) {
            Work::Acts(acts) => {
                for act in acts {
                    black_box(meter.act(*act, answer));
                }
            }
            Work::Statement(file) => {
                black_box(meter.statement(file, answer));
            }
            Work::Run(file) => {
                black_box(meter.run(file, answer));
            }
            Work::TextRead(text) => {
                black_box(meter.text_read(text, answer));
            }
            Work::TextWrite(codes, numbers) => {
                black_box(meter.text_write(codes, numbers, answer));
            }
        }
    }

    /// The number and the answer of each part of it, and how many of its calls
    /// were refused.
    fn told<M: Meter>(&self, meter: &mut M) -> (Vec<(u64, Room)>, usize) {
        let mut room = Room::default();
        let number = match self {
            Work::Acts(acts) => {
                let told = acts.iter().map(|act| (meter.act(*act, &mut room), room));
                let told: Vec<(u64, Room)> = told.collect();
                let refused = told.iter().filter(|(number, _)| *number != ACCEPTED);
                let refused = refused.count();
                return (told, refused);
            }
            Work::Statement(file) => meter.statement(file, &mut room),
            Work::Run(file) => meter.run(file, &mut room),
            Work::TextRead(text) => meter.text_read(text, &mut room),
            Work::TextWrite(codes, numbers) => meter.text_write(codes, numbers, &mut room),
        };
        assert_eq!(number, ACCEPTED, "file, text or calls are taken");
        let refused = match self {
            Work::Statement(_) => room[8],
            Work::Run(_) => room[0],
            _ => 0,
        };
        (vec![(number, room)], refused as usize)
    }
}

impl Task {
    /// A work on accounts that were opened on a day.
    pub fn new(side: Side, start: u32, work: Work) -> Task {
        Task::with_cards(side, start, 0, &[], work)
    }

    /// A work on accounts, or on boxes of so many cards, that were opened on a
    /// day and then had these calls, all accepted.
    fn with_cards(side: Side, start: u32, cards: usize, before: &[Act], work: Work) -> Task {
        let plan = plan_from(start);
        let cards = vec![Card::new(MAX_ALLOWANCE); cards];
        let mut proved = Proved::opened(side, &plan, &cards, page_for(&work));
        let mut reference = Reference::opened(&plan, &cards, page_for(&work));
        let mut room = Room::default();
        for act in before {
            let numbers = [
                proved.act(*act, &mut room),
                reference.act(*act, &mut Room::default()),
            ];
            assert_eq!(numbers, [ACCEPTED; 2], "{act:?} is accepted");
        }
        Task {
            work,
            proved,
            reference,
        }
    }

    /// What both meters agree on, which is every number and every answer of the
    /// work, account and cards before it and after it, and what was lent for
    /// texts.
    pub fn agreed(&self) -> Agreed {
        let (mut proved, mut reference) = (self.proved.clone(), self.reference.clone());
        let before = proved.numbers();
        assert!(before == reference.numbers(), "the accounts agree");
        let (told, refused) = self.work.told(&mut proved);
        let (same, _) = self.work.told(&mut reference);
        assert_eq!(told, same, "the answers agree");
        let after = proved.numbers();
        assert!(
            after == reference.numbers(),
            "the accounts agree after the work"
        );
        assert_eq!(proved.cards(), reference.cards(), "the cards agree");
        assert!(proved.page() == reference.page(), "the texts agree");
        // An account that is opened anew has fewer.
        let surcharges = after[at::SURCHARGES].saturating_sub(before[at::SURCHARGES]);
        Agreed {
            refused,
            surcharges,
        }
    }
}
