//! Both meters, each with an account as it keeps it itself: the proved one as
//! numbers in memory, this crate's as a value of its own type. Neither is
//! turned into the other where something is timed. With cards it is a family
//! box; both keep the cards alike, and what is lent for texts.

use reference::caps;
use reference::family::interface::BoxStep;
use reference::family::{self, Card, CardCall};
use reference::lines;
use reference::meter::{Account, Answer};
use reference::numbers::{numbers, Numbers, ACCOUNT_NUMBERS};
use reference::plan::Plan;
use reference::sides::{put_answer, Side, ACCEPTED, PLAN_NUMBERS, STATEMENT_NUMBERS};
use reference::statement::{figures_of, run_calls};
use reference::terms::Call;
use reference::tripfile;

/// Where answers are put; the first numbers of it are used.
pub type Room = [u64; STATEMENT_NUMBERS];

/// What a meter is asked for.
#[derive(Clone, Copy, Debug)]
pub enum Act {
    /// A call on the account.
    Call(Call),
    /// A call on the box.
    Card(CardCall),
    /// The account opened anew, under the plan that it has, or the box with its
    /// cards.
    Open,
    IsSound,
    /// The caps of a day.
    Caps(u64),
}

/// Lists and a buffer that are lent for texts.
#[derive(Clone, PartialEq, Eq, Default)]
pub struct Page {
    pub codes: Vec<u32>,
    pub numbers: Vec<u32>,
    pub text: Vec<u8>,
}

/// A meter with its account. Each function returns the number of the header:
/// 1000, or a refusal.
pub trait Meter: Clone {
    fn act(&mut self, act: Act, answer: &mut Room) -> u64;
    /// The statement of a file, on an account of its own.
    fn statement(&self, file: &[u8], answer: &mut Room) -> u64;
    /// The calls of a file on the account.
    fn run(&mut self, file: &[u8], answer: &mut Room) -> u64;
    /// The calls of a text, put into the lists of the page.
    fn text_read(&mut self, text: &[u8], answer: &mut Room) -> u64;
    /// The text of calls, put into the page.
    fn text_write(&mut self, codes: &[u32], numbers: &[u32], answer: &mut Room) -> u64;
    /// The numbers of the account.
    fn numbers(&self) -> Box<Numbers>;
    /// The cards of a box.
    fn cards(&self) -> &[Card];
    fn page(&self) -> &Page;
}

#[derive(Clone)]
pub struct Proved {
    side: Side,
    plan: [u64; PLAN_NUMBERS],
    account: Box<Numbers>,
    cards: Vec<Card>,
    page: Page,
}

impl Proved {
    /// Opened with these cards, or without any as an account alone, and with a
    /// page for texts.
    pub fn opened(side: Side, plan: &Plan, cards: &[Card], page: Page) -> Proved {
        let mut meter = Proved {
            side,
            plan: plan.to_words().map(u64::from),
            account: Box::new([0; ACCOUNT_NUMBERS]),
            cards: cards.to_vec(),
            page,
        };
        let number = meter.act(Act::Open, &mut Room::default());
        assert_eq!(number, ACCEPTED, "the plan is accepted");
        meter
    }
}

impl Meter for Proved {
    fn act(&mut self, act: Act, answer: &mut Room) -> u64 {
        let (side, account) = (&self.side, &mut self.account[..]);
        match act {
            Act::Call(Call::Register(place)) => (side.register)(account, place as u64),
            Act::Call(Call::Use(kind, n)) => (side.use_units)(account, kind as u64, n, answer),
            Act::Call(Call::TopUp(points)) => (side.top_up)(account, points),
            Act::Call(Call::NextDay) => (side.next_day)(account),
            Act::Call(Call::Afford(kind)) => (side.afford)(account, kind as u64, answer),
            Act::Card(made) => {
                let step = BoxStep::from(made);
                (side.box_call)(account, &mut self.cards, step, answer)
            }
            Act::Open if self.cards.is_empty() => (side.open)(account, &self.plan),
            Act::Open => (side.box_open)(account, &mut self.cards, &self.plan),
            Act::IsSound => (side.is_sound)(account),
            Act::Caps(day) => (side.caps)(day, answer),
        }
    }

    fn statement(&self, file: &[u8], answer: &mut Room) -> u64 {
        (self.side.statement)(file, answer)
    }

    fn run(&mut self, file: &[u8], answer: &mut Room) -> u64 {
        (self.side.run)(&mut self.account[..], file, answer)
    }

    fn text_read(&mut self, text: &[u8], answer: &mut Room) -> u64 {
        let Page { codes, numbers, .. } = &mut self.page;
        (self.side.text_read)(text, codes, numbers, answer)
    }

    fn text_write(&mut self, codes: &[u32], numbers: &[u32], answer: &mut Room) -> u64 {
        (self.side.text_write)(codes, numbers, &mut self.page.text, answer)
    }

    fn numbers(&self) -> Box<Numbers> {
        self.account.clone()
    }

    fn cards(&self) -> &[Card] {
        &self.cards
    }

    fn page(&self) -> &Page {
        &self.page
    }
}

/// This crate's meter.
#[derive(Clone)]
pub struct Reference {
    plan: Plan,
    account: Account,
    cards: Vec<Card>,
    page: Page,
}

impl Reference {
    pub fn opened(plan: &Plan, cards: &[Card], page: Page) -> Reference {
        Reference {
            plan: *plan,
            account: Account::open(*plan).expect("the plan is accepted"),
            cards: cards.to_vec(),
            page,
        }
    }

    fn open_anew(&mut self) -> Result<Answer, u32> {
        self.account = if self.cards.is_empty() {
            Account::open(self.plan)?
        } else {
            family::open(self.plan, &mut self.cards)?
        };
        Ok(Answer::Done)
    }

    fn is_sound(&self) -> Result<Answer, u32> {
        if self.account.sound() {
            Ok(Answer::Done)
        } else {
            Err(0)
        }
    }

    /// Answers how many calls were refused.
    fn run_file(&mut self, file: &[u8]) -> Result<u64, u32> {
        self.is_sound()?;
        let trip = tripfile::read(file)?;
        Ok(run_calls(&mut self.account, &trip.calls)? as u64)
    }
}

impl Meter for Reference {
    fn act(&mut self, act: Act, answer: &mut Room) -> u64 {
        let told = match act {
            Act::Call(call) => self.account.apply(call),
            Act::Card(made) => family::apply(&mut self.account, &mut self.cards, made),
            Act::Open => self.open_anew(),
            Act::IsSound => self.is_sound(),
            Act::Caps(day) => {
                put_caps(day, answer);
                Ok(Answer::Done)
            }
        };
        put_answer(told, answer)
    }

    fn statement(&self, file: &[u8], answer: &mut Room) -> u64 {
        match figures_of(file) {
            Ok(figures) => {
                *answer = figures;
                ACCEPTED
            }
            Err(number) => u64::from(number),
        }
    }

    fn run(&mut self, file: &[u8], answer: &mut Room) -> u64 {
        put_number(self.run_file(file), answer)
    }

    fn text_read(&mut self, text: &[u8], answer: &mut Room) -> u64 {
        let Page { codes, numbers, .. } = &mut self.page;
        let count = lines::read(text, codes, numbers);
        let count = count.map_err(|declined| declined.number());
        put_number(count.map(|count| count as u64), answer)
    }

    fn text_write(&mut self, codes: &[u32], numbers: &[u32], answer: &mut Room) -> u64 {
        let bytes = lines::write(codes, numbers, &mut self.page.text);
        put_number(bytes.map(|bytes| bytes as u64), answer)
    }

    fn numbers(&self) -> Box<Numbers> {
        Box::new(numbers(&self.account))
    }

    fn cards(&self) -> &[Card] {
        &self.cards
    }

    fn page(&self) -> &Page {
        &self.page
    }
}

fn put_number(told: Result<u64, u32>, answer: &mut Room) -> u64 {
    match told {
        Ok(number) => {
            answer[0] = number;
            ACCEPTED
        }
        Err(number) => u64::from(number),
    }
}

fn put_caps(day: u64, answer: &mut Room) {
    let found = caps::search(day);
    answer[..4].copy_from_slice(&found.caps);
    answer[4] = found.read;
}
