//! Family boxes: rules family-1 to family-14 but for family-10, by hand. A
//! month has 31 days from day 181 (July 2022) on; the next ones begin on days
//! 212 and 243. Where a plan has prices, data costs 10,000 points a GB and an
//! SMS 500.

mod common;
use common::*;
use reference::family::{open as open_box, Card, CardCall, Family, MAX_ALLOWANCE};
use reference::meter::Answer;
use reference::plan::Plan;
use reference::services::{Day, State};
use reference::terms::{Call, Kind, Place, Service};

const SMS: Call = Call::Use(Kind::Sms, 1);
const AFFORD: Call = Call::Afford(Kind::Data);

fn plan() -> Plan {
    prepaid(181, 10_000, 0, 500)
}

/// One plan of each form.
fn plans() -> [Plan; 3] {
    [plan(), bundle(181, 10_000, 100, 5), unlimited(181, 100)]
}

/// A newly opened box whose cards have these allowances.
fn family(plan: Plan, allowances: &[u64]) -> Family {
    let cards = allowances.iter().map(|most| Card::new(*most)).collect();
    Family::open(plan, cards).unwrap()
}

/// The same, with credit and at a place.
fn placed(plan: Plan, allowances: &[u64], place: Place) -> Family {
    let mut family = family(plan, allowances);
    family.make(0, Call::TopUp(10_000_000)).unwrap();
    family.make(0, Call::Register(place)).unwrap();
    family
}

/// A call of a card.
trait Make {
    fn make(&mut self, card: usize, call: Call) -> Result<Answer, u32>;
    /// The same where it must be refused and change nothing.
    fn refused(&mut self, card: usize, call: Call) -> u32;
}

impl Make for Family {
    fn make(&mut self, card: usize, call: Call) -> Result<Answer, u32> {
        self.apply(CardCall { card, call })
    }

    fn refused(&mut self, card: usize, call: Call) -> u32 {
        let before = self.clone();
        let number = self.make(card, call).expect_err("a refusal");
        assert_eq!(*self, before, "{call:?} was refused");
        number
    }
}

fn monthly(family: &Family) -> Vec<u64> {
    family.cards.iter().map(|card| card.monthly).collect()
}

/// family-3: units of earlier days go, allowances stay; family-1: 1 and 16
/// cards.
#[test]
fn opening_clears_the_cards() {
    for count in [1, 2, 16] {
        let mut cards = vec![
            Card {
                lifetime: [9, u64::MAX, 0, 3],
                monthly: u64::MAX,
                allowance: 77,
            };
            count
        ];
        cards[0].allowance = MAX_ALLOWANCE;
        cards[count - 1].allowance = 0;
        let account = open_box(plan(), &mut cards).unwrap();
        assert_eq!(account, open(plan()), "the account as without cards");
        for (place, card) in cards.iter().enumerate() {
            let allowance = match place {
                _ if place + 1 == count => 0,
                0 => 1_000_000_000_000,
                _ => 77,
            };
            assert_eq!((card.lifetime, card.monthly), ([0; 4], 0));
            assert_eq!(card.allowance, allowance);
        }
    }
}

/// family-14: 19 and 20 after the plan's numbers, and what was lent stays.
#[test]
fn openings_that_are_refused() {
    let late = prepaid(3834, 0, 0, 0);
    let dear = prepaid(3834, 1_000_001, 0, 0);
    let far = MAX_ALLOWANCE + 1;
    let cases: [(u32, Plan, &[u64]); 11] = [
        (19, plan(), &[]),
        (19, plan(), &[5; 17]),
        (19, plan(), &[5; 40]),
        (20, plan(), &[far]),
        (20, plan(), &[1, 2, u64::MAX]),
        (20, plan(), &[far; 16]),
        (19, plan(), &[far; 17]),
        (2, late, &[]),
        (2, late, &[far; 17]),
        (17, dear, &[]),
        (17, dear, &[far]),
    ];
    for (number, plan, allowances) in cases {
        let card = |most: &u64| Card {
            lifetime: [1, 2, 3, 4],
            monthly: 5,
            allowance: *most,
        };
        let before: Vec<Card> = allowances.iter().map(card).collect();
        let mut cards = before.clone();
        assert_eq!(open_box(plan, &mut cards), Err(number), "{allowances:?}");
        assert_eq!(cards, before);
    }
    assert!(Family::open(plan(), vec![Card::new(MAX_ALLOWANCE); 16]).is_ok());
}

/// family-6, family-7: the card at the place that is named, from 0, and the
/// account; the others stay.
#[test]
fn a_use_changes_its_own_card() {
    let mut family = placed(plan(), &[100, 200, 300], Place::Home);
    let before = family.clone();
    assert_eq!(family.make(2, data(30)), used(0, 0, 0, 30, false));
    assert_eq!(family.make(0, SMS), used(500, 0, 0, 1, false));
    let calls = [Kind::Outgoing, Kind::Incoming, Kind::Incoming];
    for kind in calls {
        family.make(2, Call::Use(kind, 7)).unwrap();
    }
    assert_eq!(family.cards[0].lifetime, [0, 0, 0, 1]);
    assert_eq!(family.cards[1], before.cards[1]);
    let third = Card {
        lifetime: [30, 7, 14, 0],
        monthly: 30,
        allowance: 300,
    };
    assert_eq!(family.cards[2], third);
    assert_eq!(family.account.lifetime, [30, 7, 14, 1]);
    let mut alone = before.account;
    for call in [data(30), SMS].into_iter() {
        alone.apply(call).unwrap();
    }
    for kind in calls {
        alone.apply(Call::Use(kind, 7)).unwrap();
    }
    assert_eq!(family.account, alone, "as without cards");
}

/// family-2: kB count at home, in the zone and elsewhere; seconds and SMS do
/// not.
#[test]
fn every_place_counts_in_the_month() {
    for plan in plans() {
        let mut family = placed(plan, &[1000], Place::Home);
        for (place, sum) in Place::ALL.into_iter().zip([10, 20, 30]) {
            family.make(0, Call::Register(place)).unwrap();
            family.make(0, data(10)).unwrap();
            assert_eq!(monthly(&family), [sum]);
            family.make(0, Call::Use(Kind::Incoming, 50)).unwrap();
            family.make(0, Call::Use(Kind::Outgoing, 50)).unwrap();
            family.make(0, SMS).unwrap();
            assert_eq!(monthly(&family), [sum]);
        }
        assert_eq!(family.cards[0].lifetime, [30, 150, 150, 3]);
        assert_eq!(family.account.lifetime, [30, 150, 150, 3]);
    }
}

/// family-4: on each month's first day, for every form of plan, also of cards
/// that were not used and in a month that nothing was used in.
#[test]
fn a_cards_month_turns_with_the_accounts() {
    for plan in plans() {
        let mut family = placed(plan, &[50, 60, 70], Place::Zone);
        family.make(0, data(50)).unwrap();
        family.make(2, data(1)).unwrap();
        for day in 182..212 {
            family.make(0, Call::NextDay).unwrap();
            assert_eq!(family.account.day, day);
            assert_eq!(monthly(&family), [50, 0, 1], "day {day}");
            assert_eq!(family.refused(0, data(1)), 20);
        }
        family.make(1, Call::NextDay).unwrap();
        assert_eq!(family.account.day, 212);
        assert_eq!(monthly(&family), [0, 0, 0]);
        assert_eq!(family.cards[0].lifetime, [50, 0, 0, 0]);
        assert_eq!(family.cards[0].allowance, 50);
        family.make(0, data(50)).unwrap();
        assert_eq!(family.cards[0].lifetime, [100, 0, 0, 0]);
        for _ in 212..243 {
            assert_eq!(monthly(&family), [50, 0, 0]);
            family.make(9, Call::NextDay).unwrap();
        }
        assert_eq!(monthly(&family), [0; 3]);
    }
}

/// family-13: exactly the allowance is accepted, one kB more is not; an
/// allowance of 0 lets no data through, and all else.
#[test]
fn data_up_to_the_allowance() {
    let mut family = placed(plan(), &[100, 0], Place::Elsewhere);
    assert_eq!(family.refused(0, data(101)), 20);
    family.make(0, data(60)).unwrap();
    assert_eq!(family.refused(0, data(41)), 20);
    family.make(0, data(40)).unwrap();
    assert_eq!(monthly(&family), [100, 0]);
    for card in [0, 1] {
        assert_eq!(family.refused(card, data(1)), 20);
        assert_eq!(family.make(card, SMS), used(0, 0, 0, 1, false));
        let seconds = Call::Use(Kind::Outgoing, 1_000_000_000);
        family.make(card, seconds).unwrap();
    }
    assert_eq!(family.cards[1].lifetime, [0, 1_000_000_000, 0, 1]);
    assert!(family.sound());
}

/// family-12: a card that is not there, in Use and Afford alone; the others do
/// not look at the place.
#[test]
fn no_such_card() {
    let mut family = placed(plan(), &[5, 5], Place::Home);
    for card in [2, 3, 16, usize::MAX] {
        assert_eq!(family.refused(card, data(1)), 19);
        assert_eq!(family.refused(card, data(0)), 19, "before 4");
        assert_eq!(family.refused(card, data(6)), 19, "before 20");
        assert_eq!(family.refused(card, AFFORD), 19);
        family.make(card, home()).unwrap();
        family.make(card, Call::TopUp(1)).unwrap();
        family.make(card, Call::NextDay).unwrap();
    }
    let mut nowhere = reference::family::Family {
        account: open(plan()),
        ..family.clone()
    };
    assert_eq!(nowhere.refused(2, data(1)), 19, "before 3");
    assert_eq!(nowhere.refused(2, AFFORD), 19, "before 3");
    assert_eq!(nowhere.refused(1, data(0)), 3);
    assert_eq!(nowhere.refused(1, AFFORD), 3);
}

/// family-12: over 16 cards every call is refused; without cards only Use and
/// Afford.
#[test]
fn lists_of_another_length() {
    let calls = [home(), data(1), Call::TopUp(1), Call::NextDay, AFFORD];
    for count in [17, 40, 300] {
        let mut long = Family {
            account: open(plan()),
            cards: vec![Card::new(5); count],
        };
        assert!(long.sound());
        for call in calls {
            assert_eq!(long.refused(0, call), 19, "{call:?}");
        }
        // Over 16 it stays, wherever the units are.
        long.account.place = Some(Place::Home);
        long.account.lifetime[3] = 9;
        long.cards[16].lifetime[3] = 9;
        for call in calls {
            assert_eq!(long.refused(16, call), 19, "{call:?}");
        }
    }
    let mut empty = Family {
        account: open(plan()),
        cards: Vec::new(),
    };
    assert_eq!(empty.refused(0, data(1)), 19);
    assert_eq!(empty.refused(0, AFFORD), 19);
    for call in [home(), Call::TopUp(1), Call::NextDay] {
        assert_eq!(empty.make(0, call), Ok(Answer::Done));
    }
    assert_eq!(empty.refused(0, AFFORD), 19);
    assert_eq!((empty.account.day, empty.account.credit), (182, 1));
}

/// A sound box of three cards with units of every kind.
fn busy() -> Family {
    let mut family = placed(plan(), &[100, 200, 300], Place::Home);
    for card in 0..3 {
        for kind in Kind::ALL {
            family.make(card, Call::Use(kind, 20)).unwrap();
        }
    }
    assert!(family.sound());
    family
}

/// Every call is refused with 0, before 19 and all others.
fn is_unsound(family: &Family) {
    assert!(!family.sound());
    for card in [0, 2, 3] {
        for call in [home(), SMS, data(0), Call::TopUp(0), Call::NextDay, AFFORD] {
            assert_eq!(family.clone().refused(card, call), 0, "{call:?}");
        }
    }
}

/// family-11: each reason by itself.
#[test]
fn boxes_that_are_not_sound() {
    for kind in 0..4 {
        for by in [1, u64::MAX] {
            // One more or one less, of the cards or of the account.
            for card in 0..3 {
                let mut family = busy();
                let units = &mut family.cards[card].lifetime[kind];
                *units = units.wrapping_add(by);
                family.cards[card].monthly = 0;
                is_unsound(&family);
            }
        }
        // Two cards that together have 2^64 more.
        let mut family = busy();
        family.cards[0].lifetime[kind] += 1 << 63;
        family.cards[2].lifetime[kind] += 1 << 63;
        is_unsound(&family);
        // The units may be any card's.
        let mut family = busy();
        family.cards[0].lifetime[kind] += 15;
        family.cards[1].lifetime[kind] += 5;
        family.cards[2].lifetime[kind] -= 20;
        family.cards[2].monthly = 0;
        assert!(family.sound());
    }
    let mut family = busy();
    family.cards[1].monthly = 21;
    is_unsound(&family);
    let mut family = busy();
    family.cards[1].allowance = 19;
    is_unsound(&family);
    family.cards[1].allowance = 20;
    assert!(family.sound());
    for beyond in [MAX_ALLOWANCE + 1, u64::MAX] {
        let mut family = busy();
        family.cards[2].allowance = beyond;
        is_unsound(&family);
        family.cards[2].allowance = MAX_ALLOWANCE;
        assert!(family.sound());
    }
    // The account by itself.
    let mut family = busy();
    family.account.paid_in += 1;
    is_unsound(&family);
}

/// family-11: 0 before 19 of a list that is too long; an empty list is sound
/// only while the account has no units.
#[test]
fn unsound_lists_of_another_length() {
    let mut long = busy();
    long.cards.resize(17, Card::new(0));
    assert!(long.sound());
    assert_eq!(long.refused(0, home()), 19);
    long.cards[16].lifetime[1] = 1;
    is_unsound(&long);
    let mut long = busy();
    long.cards.resize(40, Card::new(0));
    long.cards
        .iter_mut()
        .for_each(|card| card.lifetime = [u64::MAX; 4]);
    is_unsound(&long);
    let mut empty = busy();
    empty.cards.clear();
    is_unsound(&empty);
}

/// family-13: 20 after 3, 4 and 5, before 6.
#[test]
fn the_order_of_20() {
    let mut family = family(plan(), &[10, MAX_ALLOWANCE]);
    assert_eq!(family.refused(0, data(11)), 3);
    family.make(0, home()).unwrap();
    assert_eq!(family.refused(0, data(1_000_000_001)), 4);
    // 10,000 points a GB: without credit 105 kB cost a point.
    assert_eq!(family.refused(0, data(105)), 20);
    assert_eq!(family.refused(1, data(105)), 6);
    // Both cards have used 10^12 kB together.
    family.account.lifetime[0] = MAX_ALLOWANCE;
    family.cards[1].lifetime[0] = MAX_ALLOWANCE;
    assert!(family.sound());
    assert_eq!(family.refused(0, data(11)), 5);
    assert_eq!(family.refused(0, data(1)), 5);
}

/// half-5: 5 by charged seconds is the box's.
#[test]
fn charged_seconds_are_common() {
    let mut family = placed(prepaid(181, 0, 0, 0), &[0, 0], Place::Zone);
    family.account.charged = MAX_ALLOWANCE - 30;
    assert!(family.sound());
    assert_eq!(family.make(0, outgoing(1)), used(0, 0, 0, 30, false));
    assert_eq!(family.refused(1, outgoing(1)), 5);
    assert_eq!(family.cards[0].lifetime[1], 1);
    assert_eq!(
        family.make(1, Call::Afford(Kind::Outgoing)),
        Ok(Answer::Most(0))
    );
}

fn most(family: &mut Family, card: usize, kind: Kind) -> u64 {
    match family.make(card, Call::Afford(kind)) {
        Ok(Answer::Most(n)) => n,
        other => panic!("Afford answered {other:?}"),
    }
}

/// afford-1, family-13: the lesser of what the credit and the allowance let
/// through. 10 points pay for 1,048 kB of 10,000 points a GB, up to a kB short
/// of the eleventh point: 1,153.
#[test]
fn what_a_card_can_afford() {
    let allowances = [MAX_ALLOWANCE, 1154, 1153, 1152, 0];
    let mut family = family(plan(), &allowances);
    family.make(0, Call::TopUp(10)).unwrap();
    family.make(0, home()).unwrap();
    let before = family.clone();
    for (card, wanted) in [1153, 1153, 1153, 1152, 0].into_iter().enumerate() {
        assert_eq!(most(&mut family, card, Kind::Data), wanted, "card {card}");
        assert_eq!(most(&mut family, card, Kind::Incoming), 1_000_000_000);
        assert_eq!(most(&mut family, card, Kind::Sms), 0);
    }
    assert_eq!(family, before, "Afford changes nothing");
    family.make(3, data(1000)).unwrap();
    assert_eq!(most(&mut family, 3, Kind::Data), 152);
    assert_eq!(most(&mut family, 2, Kind::Data), 153);
    family.make(0, elsewhere()).unwrap();
    assert_eq!(most(&mut family, 3, Kind::Data), 152);
    assert_eq!(most(&mut family, 0, Kind::Data), 1_000_000_000);
    assert_eq!(most(&mut family, 4, Kind::Data), 0);
}

/// family-5: L and R, H, the log and the credit are the box's. The cap of day
/// 181 is 20,000 points a GB, so that 20 points buy 1,048 kB.
#[test]
fn what_the_cards_have_in_common() {
    let mut family = family(prepaid(181, 0, 0, 0), &[MAX_ALLOWANCE; 2]);
    family.make(0, Call::TopUp(20)).unwrap();
    family.make(0, zone()).unwrap();
    assert_eq!(family.account.l, Some(1048));
    assert_eq!(family.make(0, data(1000)), used(0, 0, 0, 1000, false));
    assert_eq!(
        family.make(1, data(48)),
        used(0, 0, 0, 48, true),
        "R is at L"
    );
    assert_eq!(family.make(0, data(53)), used(0, 1, 53, 53, false));
    assert_eq!((family.account.r, family.account.credit), (1101, 19));
    // limit-2: V is 5 kB; card 1 pays for the kB after those of card 0.
    let plan = bundle(181, 1_000_000, 0, 5);
    let mut family = placed(plan, &[MAX_ALLOWANCE; 2], Place::Home);
    assert_eq!(family.make(0, data(5)), used(0, 0, 0, 5, false));
    assert_eq!(family.make(1, data(2)), used(1, 0, 0, 2, false));
    assert_eq!(family.account.h, 7);
}

/// service-7, family-5: presence and traffic are summed over the cards: each
/// card alone has fewer zone units than other ones come to.
#[test]
fn prevalence_is_of_the_whole_box() {
    let mut family = placed(prepaid(181, 0, 0, 0), &[0; 3], Place::Zone);
    family.account.day = 700;
    let mut day = Day::default();
    day.mark(Place::Zone);
    day.units[3] = [2, 1, 0];
    family.account.log.resize(123, day);
    (family.account.lifetime[3], family.cards[2].lifetime[3]) = (400, 400);
    for card in 0..3 {
        family.make(card, Call::Use(Kind::Sms, 50)).unwrap();
    }
    // 122 + 150 zone units against 244 others; without a card 222.
    family.make(0, Call::NextDay).unwrap();
    assert_eq!(
        family.account.states[Service::Sms as usize],
        State::Warned(0)
    );
}

/// family-8, family-9: after a list of calls, some of them refused.
#[test]
fn the_cards_add_up_after_a_list() {
    let mut family = placed(plan(), &[40, 0, MAX_ALLOWANCE, 3], Place::Zone);
    let list = [
        (0, data(40)),
        (0, data(1)),
        (2, data(1_000_000)),
        (1, SMS),
        (3, outgoing(12)),
        (4, SMS),
        (2, data(0)),
        (3, data(3)),
        (1, Call::NextDay),
        (3, Call::Use(Kind::Incoming, 8)),
    ];
    let told = list.map(|(card, call)| family.make(card, call).err());
    let refused = [None, Some(20), None, None, None, Some(19), Some(4)];
    assert_eq!(told[..7], refused);
    assert_eq!(told[7..], [None; 3]);
    let sum = |kind: usize| {
        let cards = family.cards.iter();
        cards.map(|card| card.lifetime[kind]).sum::<u64>()
    };
    assert_eq!([0, 1, 2, 3].map(sum), [1_000_043, 12, 8, 1]);
    assert_eq!(family.account.lifetime, [1_000_043, 12, 8, 1]);
    assert!(family.sound());
}
