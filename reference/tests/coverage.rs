//! Events mean what they say: lists made by hand that come to them, and lists
//! close by that do not. Rules caps-2, month-3, day-2, service-3 to service-10,
//! afford-1, order-3, refusal-12, sound-1 to sound-11, lines-1 to lines-10.

mod common;
use common::*;
use reference::coverage::exports::{self, ExportSeen};
use reference::coverage::soundness::{broken, Condition};
use reference::coverage::texts::{Judged, TextSeen};
use reference::coverage::{causes, Coverage, TripEvents};
use reference::damage::{assemble, resum, set, to_bytes};
use reference::lines::exports::ExportCase;
use reference::lines::texts::TextCase;
use reference::numbers::{at, numbers};
use reference::services::{Day, State};
use reference::sides::{ACCEPTED, BAD_ARGUMENT, REFERENCE};
use reference::terms::{Call, Kind, Place, Service};

const SMS: Call = Call::Use(Kind::Sms, 1);
const INCOMING: Call = Call::Use(Kind::Incoming, 60);

/// An account with credit and an empty log of so many days.
fn resting(plan: reference::plan::Plan, days: u32) -> reference::meter::Account {
    let mut account = open(plan);
    run(&mut account, &[Call::TopUp(10_000_000)]);
    for _ in 0..days {
        run(&mut account, &[Call::NextDay]);
    }
    account
}

/// use-6: a surcharged unit bears the cap of its day.
#[test]
fn caps_that_change_under_a_surcharge() {
    // caps-1: day 1095 has an SMS cap of 40, day 1096 one of 30.
    let mut account = resting(prepaid(1095, 0, 0, 0), 0);
    account.states[Service::Sms as usize] = State::Surcharged;
    let name = "SMS surcharged under two caps";
    assert_eq!(events_of(&account, &[zone(), SMS, SMS]).count(name), 0);
    // service-9: the one logged day is a zone day, so it stays Surcharged.
    let events = events_of(&account, &[zone(), SMS, Call::NextDay, SMS]);
    assert_eq!(events.count(name), 1);
    assert_eq!(events.count("SMS used while surcharged"), 1);
    let events = events_of(&account, &[zone(), Call::NextDay, SMS, SMS]);
    assert_eq!(events.count(name), 0);
}

/// mistake-4: a cap change leaves a prepaid L; topup-2 sets it.
#[test]
fn a_prepaid_limit_after_a_cap_change() {
    let name = "prepaid zone data after a cap change, without a new L";
    let account = resting(prepaid(1460, 0, 0, 0), 0);
    let kept = [zone(), Call::NextDay, data(1)];
    assert_eq!(events_of(&account, &kept).count(name), 1);
    let again = [zone(), Call::NextDay, zone(), data(1)];
    let events = events_of(&account, &again);
    assert_eq!(events.count(name), 1, "registering again sets no new L");
    let cap = "registered in the zone again under another cap";
    assert_eq!(events.count(cap), 1);
    let renewed = [zone(), Call::NextDay, Call::TopUp(1), data(1)];
    assert_eq!(events_of(&account, &renewed).count(name), 0);
    let same_day = [zone(), zone(), data(1)];
    let events = events_of(&account, &same_day);
    assert_eq!((events.count(name), events.count(cap)), (0, 0));
    assert_eq!(
        events.count("registered in the zone again on a later day"),
        0
    );
}

/// day-2: what days count as.
#[test]
fn days_by_their_marks() {
    let account = resting(prepaid(1000, 0, 0, 0), 0);
    let lists: [(&[Call], &str); 9] = [
        (&[], "off day without a place"),
        (&[zone(), Call::NextDay], "off day in the zone"),
        (&[home(), Call::NextDay], "off day at home"),
        (&[elsewhere(), Call::NextDay], "off day elsewhere"),
        (&[zone()], "day marked zone"),
        (&[zone(), home()], "day marked home and zone"),
        (&[elsewhere()], "day marked elsewhere"),
        (&[zone(), elsewhere()], "day marked zone and elsewhere"),
        (
            &[home(), zone(), elsewhere()],
            "day marked home, zone and elsewhere",
        ),
    ];
    for (calls, name) in lists {
        let calls = [calls, &[Call::NextDay]].concat();
        assert_eq!(events_of(&account, &calls).count(name), 1, "{name}");
    }
    let name = "day with refused uses alone is off";
    let refused = [zone(), Call::NextDay, data(0), Call::NextDay];
    assert_eq!(events_of(&account, &refused).count(name), 1);
    let used = [zone(), Call::NextDay, data(0), data(1), Call::NextDay];
    assert_eq!(events_of(&account, &used).count(name), 0);
}

/// month-3: 2024 and 2028 are leap years, 29 February is day 789 and day 2250.
#[test]
fn the_end_of_february() {
    let begins = "29 February begins";
    let ends = "29 February ends, a bundle's month turns";
    let common = "28 February ends in a common year, a bundle's month turns";
    for (day, names) in [
        (787, [0, 0, 0]),
        (788, [1, 0, 0]),
        (789, [0, 1, 0]),
        (790, [0, 0, 0]),
        (2250, [0, 1, 0]),
        (788 + 366, [0, 0, 1]),
        (789 + 366, [0, 0, 0]),
    ] {
        let mut account = open(unlimited(181, 0));
        (account.day, account.h, account.lifetime[0]) = (day, 1, 1);
        account.log.resize(123, Day::default());
        assert!(account.sound());
        let events = events_of(&account, &[Call::NextDay]);
        let counts = [begins, ends, common].map(|name| events.count(name));
        assert_eq!(counts, names, "day {day}");
    }
}

/// 123 zone days with a unit each, of which some are made other ones.
fn prevalent(change: impl Fn(usize, &mut Day)) -> reference::meter::Account {
    let mut account = open(unlimited(181, 0));
    account.day = 1000;
    account.lifetime = [1_000_000; 4];
    for index in 0..123 {
        let mut day = Day::default();
        day.mark(Place::Zone);
        day.units[Kind::Incoming as usize][Place::Zone as usize] = 1;
        change(index, &mut day);
        account.log.push_back(day);
    }
    account.today = account.log[0];
    assert!(account.sound());
    account
}

/// service-3, service-4: home incoming seconds are no units, and equal units
/// are not enough.
#[test]
fn units_that_decide() {
    let tipped = "calls prevail, and would not with home incoming seconds";
    let incoming = Kind::Incoming as usize;
    let account = prevalent(|_, day| day.units[incoming][Place::Home as usize] = 1);
    let events = events_of(&account, &[Call::NextDay]);
    assert_eq!((events.count(tipped), events.count("calls warned")), (1, 1));
    let account = prevalent(|_, _| {});
    assert_eq!(events_of(&account, &[Call::NextDay]).count(tipped), 0);
    let equal = "zone days prevail over 123 with equal units";
    let account = prevalent(|_, day| day.units[incoming][Place::Elsewhere as usize] = 1);
    let events = events_of(&account, &[Call::NextDay]);
    assert_eq!((events.count(equal), events.count("calls warned")), (1, 0));
}

/// off-1: 61 zone days with today, 60 home days, one elsewhere and one off.
#[test]
fn an_elsewhere_day_that_decides() {
    let name = "an elsewhere day decides over 123";
    let marked = |elsewhere: Place| {
        prevalent(move |index, day| {
            let place = match index {
                0..=59 => Place::Zone,
                60..=119 => Place::Home,
                120 => elsewhere,
                _ => return day.marks = [false; 3],
            };
            day.marks = [false; 3];
            day.mark(place);
        })
    };
    let events = events_of(&marked(Place::Elsewhere), &[Call::NextDay]);
    assert_eq!((events.count(name), events.count("calls warned")), (1, 0));
    let events = events_of(&marked(Place::Home), &[Call::NextDay]);
    assert_eq!((events.count(name), events.count("calls warned")), (0, 0));
}

/// service-8: cleared at the 15th change for its last days, and service-7,
/// service-10: warned at the next one for all 123.
#[test]
fn warned_again_at_once() {
    let name = "calls clear at the 15th change, warned at the next";
    let mut account = prevalent(|index, day| {
        if index < 8 {
            day.marks = [true, false, false];
        }
    });
    account.states[Service::Calls as usize] = State::Warned(14);
    account.today = Day::default();
    let next = [Call::NextDay, Call::NextDay];
    assert_eq!(events_of(&account, &next[..1]).count(name), 0);
    let events = events_of(&account, &next);
    assert_eq!((events.count(name), events.count("calls warned")), (1, 1));
}

/// afford-1: past V, past L, or past both.
#[test]
fn what_afford_reaches_across() {
    let mut account = open(bundle(1461, 1_000_000, 20_000, 4 * GB as u32));
    run(&mut account, &[Call::TopUp(10_000_000), zone()]);
    // plan-7: open, as 20,000 x 1,048,576 is under 11,000 x 4 GB; limit-5: L is
    // 3,813,003 kB.
    assert_eq!(account.l, Some(3_813_003));
    let names = [
        "afford across V",
        "afford across L",
        "afford across V and L",
    ];
    let counts = |account: &reference::meter::Account| {
        let events = events_of(account, &[Call::Afford(Kind::Data)]);
        names.map(|name| events.count(name))
    };
    assert_eq!(counts(&account), [1, 1, 1]);
    run(&mut account, &[data(4 * GB - 1)]);
    assert_eq!(counts(&account), [1, 0, 0]);
    run(&mut account, &[home()]);
    assert_eq!(counts(&account), [1, 0, 0]);
    run(&mut account, &[elsewhere()]);
    assert_eq!(counts(&account), [0, 0, 0]);
}

/// order-3: 3 before 4, 5 before 6, 7 before 8.
#[test]
fn refusals_by_their_order() {
    let account = resting(prepaid(1461, 0, 0, 0), 0);
    assert_eq!(events_of(&account, &[data(0)]).count("use 3 before 4"), 1);
    assert_eq!(events_of(&account, &[data(1)]).count("use 3 before 4"), 0);
    assert_eq!(events_of(&account, &[data(1)]).count("use 3"), 1);
    let mut full = resting(prepaid(1461, 0, 0, 10), 0);
    (full.credit, full.paid_in) = (0, 0);
    full.lifetime[Kind::Sms as usize] = 1_000_000_000_000;
    assert_eq!(events_of(&full, &[home(), SMS]).count("use 5 before 6"), 1);
    assert_eq!(
        events_of(&full, &[elsewhere(), SMS]).count("use 5 before 6"),
        0
    );
    let many = Call::TopUp(1_000_000_000);
    assert_eq!(events_of(&account, &[many]).count("top-up 7 before 8"), 1);
    assert_eq!(events_of(&account, &[INCOMING]).count("use 4"), 0);
}

/// refusal-12, file-6: the table of a file with plan and calls, one entry
/// changed.
#[test]
fn tables_and_their_causes() {
    let plan = to_bytes(&[0, 1461, 0, 0, 0, 0, 0]);
    let good = assemble(&[(1, plan), (2, to_bytes(&[7, 0]))]);
    let changes: [(usize, u32, &str); 8] = [
        (2, 0, "read 12, no sections"),
        (2, 9, "read 12, over 8 sections"),
        (2, 8, "read 12, table beyond the file"),
        (4, 40, "read 12, gap before the first body"),
        (4, 32, "read 12, first body within the table"),
        (7, 68, "read 12, gap between bodies"),
        (7, 60, "read 12, bodies overlap"),
        (8, 12, "read 12, last body ends beyond the file"),
    ];
    assert_eq!(causes::of_12(&good), [""; 0]);
    for (word, value, cause) in changes {
        let mut bytes = good.clone();
        set(&mut bytes, word, value);
        resum(&mut bytes);
        assert_eq!(causes::of_12(&bytes), [cause]);
        let mut events = TripEvents::default();
        events.read(&bytes, 12).unwrap();
    }
    let mut bytes = good.clone();
    set(&mut bytes, 8, 4);
    let short = "read 12, last body ends before the file";
    assert_eq!(causes::of_12(&bytes), [short]);
    set(&mut bytes, 8, 6);
    let uneven = "read 12, length no multiple of 4";
    assert_eq!(causes::of_12(&bytes), [uneven, short]);
}

/// sound-1 to sound-11: the conditions by themselves, against numbers broken by
/// hand.
#[test]
fn conditions_of_soundness() {
    let sound = numbers(&resting(bundle(700, 5000, 1000, 100_000), 40));
    assert_eq!(broken(&sound), []);
    let changes = [
        (at::PLAN + 6, 0, Condition::LeastVolume, 1),
        (at::PLACE, 5, Condition::Place, 2),
        (at::MARKS, 8, Condition::TodayMarks, 1),
        (at::LOGGED, 41, Condition::LoggedMore, 1),
        (at::LOGGED, 37, Condition::LoggedFewer, 3),
        (40 * 13, 1, Condition::PastMarks, 1),
        (1598, 9, Condition::PastUnits, 9),
        (39 * 13, 8, Condition::LoggedMarks, 1),
        (at::ROAMED, 1, Condition::Roamed, 1),
        (at::CAP_SUMS + 2, 59, Condition::CapSumIncoming, 59),
        (at::SERVICES + 2, 17, Condition::WarnedSms, 1),
        (
            at::LIMIT,
            u64::MAX,
            Condition::Limit,
            i128::from(u64::MAX) - 2_000_000_000_000_001,
        ),
    ];
    for (place, value, condition, by) in changes {
        let mut all = sound;
        all[place] = value;
        assert_eq!(broken(&all), [(condition, by)]);
        let mut events = TripEvents::default();
        assert!(events.sound(&all, 0).is_ok());
        assert!(events.sound(&all, ACCEPTED).is_err(), "a third opinion");
    }
    assert!(TripEvents::default().sound(&sound, 0).is_err());
    assert!(TripEvents::default().sound(&sound[1..], ACCEPTED).is_err());
}

fn counted(events: &TripEvents) -> Coverage {
    let mut coverage = Coverage::new();
    coverage.add(events);
    coverage
}

/// A text, with so many places in each list, and so many numbers for the answer.
fn text_case(text: &[u8], places: [usize; 2], room: usize) -> TextCase {
    let [codes, numbers] = places.map(|count| vec![8; count]);
    TextCase {
        text: text.to_vec(),
        codes,
        numbers,
        room,
    }
}

/// What the events make of a text that this crate's meter reads, and of the same
/// with another return.
fn text_events(case: &TextCase) -> Coverage {
    let (mut codes, mut numbers) = (case.codes.clone(), case.numbers.clone());
    let mut answer = [0; 2];
    let returned = case.run(
        &REFERENCE,
        &mut codes,
        &mut numbers,
        &mut answer[..case.room],
    );
    let judged = Judged::of(&case.text);
    let seen = |returned| TextSeen {
        returned,
        answer: answer[0],
        codes: &codes,
        numbers: &numbers,
    };
    let mut events = TripEvents::default();
    events.text_read(case, &judged, &seen(returned)).unwrap();
    for other in [21, 22, 16, ACCEPTED, BAD_ARGUMENT] {
        let third = TripEvents::default().text_read(case, &judged, &seen(other));
        assert_eq!(third.is_ok(), other == returned, "a third opinion");
    }
    counted(&events)
}

/// refusal-22: bad lines, and what they are taken for.
const BAD_LINES: [(&[u8], &str); 24] = [
    (b"\n", "text read 22, empty line"),
    (b"data5\n", "text read 22, no comma"),
    (b"data,1,000\n", "text read 22, two commas"),
    (
        b"data,5\r\n",
        "text read 22, carriage return before the line feed",
    ),
    (b" data,5\n", "text read 22, blank in front"),
    (b"data, 5\n", "text read 22, blank at the comma"),
    (b"data,5\t\n", "text read 22, blank at the end"),
    (b"data,+5\n", "text read 22, plus sign"),
    (b"data,-5\n", "text read 22, minus sign"),
    (b"\"data\",5\n", "text read 22, quotation marks"),
    (b"\xEF\xBB\xBFdata,5\n", "text read 22, byte 0 or above 127"),
    (b",5\n", "text read 22, no name"),
    (b"Data,5\n", "text read 22, name in capitals"),
    (b"dat,5\n", "text read 22, name cut off"),
    (b"datas,5\n", "text read 22, name with a letter more"),
    (b"limit,5\n", "text read 22, another name"),
    (b"2,5\n", "text read 22, code for a name"),
    (b"data,\n", "text read 22, no number"),
    (b"data,00\n", "text read 22, number 00"),
    (b"data,01\n", "text read 22, number 01"),
    (b"data,4294967296\n", "text read 22, number 4,294,967,296"),
    (b"register,3\n", "text read 22, register 3"),
    (b"nextday,1\n", "text read 22, nextday 1"),
    (b"data,5", "text read 22, last line not ended"),
];

/// refusal-22: a bad line after a right one, and with another bad one.
#[test]
fn bad_lines_and_their_events() {
    for (line, event) in BAD_LINES {
        let text = [b"in,0\n", line].concat();
        let events = text_events(&text_case(&text, [2, 2], 1));
        assert_eq!(events.count(event), 1, "{event}");
        assert_eq!(events.count("text read 22 alone"), 1, "{event}");
        assert_eq!(events.count("text read 22, last line"), 1, "{event}");
        // With another bad line no fault is told.
        let twice = [b"x\n", &text[..]].concat();
        let events = text_events(&text_case(&twice, [2, 3], 1));
        assert_eq!(events.count(event), 0, "{event}");
        let two = "text read 22, the first of two bad lines";
        assert_eq!(events.count(two), 1, "{event}");
        assert_eq!(events.count("text read 22 before 16"), 1, "{event}");
    }
}

/// A text, places of codes and numbers, room for the answer, and an event.
type Told = (&'static [u8], [usize; 2], usize, &'static str);

/// lines-5, lines-10, library-14: lists and answers of short texts.
const SHORT_TEXTS: [Told; 8] = [
    (b"", [0, 0], 1, "text read 21, no lines"),
    (b"in,0", [1, 1], 1, "text read 22, the only line not ended"),
    (
        b"in,0\n",
        [1, 2],
        1,
        "text read accepted, just enough places",
    ),
    (b"in,0\n", [2, 2], 1, "text read accepted, more places"),
    (
        b"in,0\nin,0\n",
        [1, 2],
        1,
        "text read 16, codes alone too few",
    ),
    (
        b"in,0\nin,0\n",
        [2, 1],
        1,
        "text read 16, numbers alone too few",
    ),
    (b"in,0\n", [1, 1], 0, "text read, short answer"),
    (b"x\n", [1, 1], 0, "text read, bad argument before 22"),
];

#[test]
fn short_texts_and_their_events() {
    for (text, places, room, event) in SHORT_TEXTS {
        let events = text_events(&text_case(text, places, room));
        assert_eq!(events.count(event), 1, "{event}");
    }
}

/// lines-4, refusal-21: texts at the limits of lines.
#[test]
fn long_texts_and_their_events() {
    let told = |lines: usize, cut: usize, event: &str| {
        let text = b"in,0\n".repeat(lines);
        let case = text_case(&text[..text.len() - cut], [9000, 9000], 1);
        assert_eq!(text_events(&case).count(event), 1, "{event}");
    };
    told(8184, 0, "text read accepted, 8,184 lines");
    told(8184, 1, "text read 22, line 8,184 not ended");
    told(8185, 0, "text read 21, 8,185 lines");
    told(8185, 1, "text read 21, 8,185 lines, the last not ended");
    told(8185, 4, "text read 21, 8,185 lines, the last not ended");
    told(8185, 5, "text read accepted, 8,184 lines");
    told(13_108, 3, "text read 21, too many lines and bytes");
}

/// lines-9: what the events make of an export, likewise.
fn export_events(calls: &[(u32, u32)], bytes: usize) -> Coverage {
    let (codes, numbers) = calls.iter().copied().unzip();
    let case = ExportCase {
        codes,
        numbers,
        buffer: vec![7; bytes],
        room: 1,
    };
    let (mut buffer, mut answer) = (case.buffer.clone(), [0]);
    let returned = case.run(&REFERENCE, &mut buffer, &mut answer);
    let judged = exports::Judged::of(&case);
    let seen = |returned| ExportSeen {
        returned,
        answer: answer[0],
        buffer: &buffer,
    };
    let mut events = TripEvents::default();
    events.text_write(&case, &judged, &seen(returned)).unwrap();
    for other in [14, 15, 21, 16, BAD_ARGUMENT] {
        let third = TripEvents::default().text_write(&case, &judged, &seen(other));
        assert_eq!(third.is_ok(), other == returned, "a third opinion");
    }
    counted(&events)
}

/// lines-9: every pair of refusals, and each of them alone.
#[test]
fn exports_and_their_events() {
    let (short, long, bad) = ((4, 0), (6, u32::MAX), (8, 0));
    let told = |call: (u32, u32), count: usize, more: &[(u32, u32)], bytes: usize, event: &str| {
        let calls = [&vec![call; count], more].concat();
        let events = export_events(&calls, bytes);
        assert_eq!(events.count(event), 1, "{event}");
    };
    told(short, 0, &[], 0, "text write 14 alone");
    told(short, 8185, &[], 40_925, "text write 14 alone");
    told(short, 8184, &[bad], 40_920, "text write 14 before 15");
    told(long, 8185, &[], 139_145, "text write 14 before 21");
    told(short, 8185, &[], 40_924, "text write 14 before 16");
    told(short, 1, &[bad], 5, "text write 15 alone");
    told(long, 4000, &[bad], 68_000, "text write 15 before 21");
    told(short, 1, &[bad], 4, "text write 15 before 16");
    told(long, 4000, &[], 68_000, "text write 21 alone");
    told(long, 4000, &[], 67_999, "text write 21 before 16");
    told(long, 3855, &[], 65_534, "text write 16 alone");
    let one = "text write 16, one byte too short";
    told(long, 3855, &[], 65_534, one);
    let exact = "text write accepted, just enough room";
    told(long, 3855, &[], 65_535, exact);
    told(short, 8184, &[], 40_921, "text write accepted, 8,184 calls");
    told(short, 8184, &[], 40_921, "text write accepted, more room");
}
