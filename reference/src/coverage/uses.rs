//! Events of accepted uses and of Afford. Rules use-1 to use-15, limit-1,
//! limit-2, half-1 to half-5, rows-2, afford-1.

use super::calls::data_cap;
use super::seen::{Observed, Seen};
use super::TripEvents;
use crate::caps::{caps_on, search};
use crate::meter::{LEAST_CHARGED, MAX_LIFETIME, MAX_UNITS};
use crate::sides::ACCEPTED;
use crate::terms::{Kind, Place};

/// rows-2: surcharges by how many rows were read.
const ROWS_READ: [&str; 6] = [
    "surcharge, 1 row of caps read",
    "surcharge, 2 rows of caps read",
    "surcharge, 3 rows of caps read",
    "surcharge, 4 rows of caps read",
    "surcharge, 5 rows of caps read",
    "surcharge, 6 rows of caps read",
];

/// half-1, half-2: outgoing records of 1, 29, 30 and 31 seconds, by place.
const RECORDS: [[&str; 4]; 3] = [
    [
        "1 outgoing second at home",
        "29 outgoing seconds at home",
        "30 outgoing seconds at home",
        "31 outgoing seconds at home",
    ],
    [
        "1 outgoing second in the zone",
        "29 outgoing seconds in the zone",
        "30 outgoing seconds in the zone",
        "31 outgoing seconds in the zone",
    ],
    [
        "1 outgoing second elsewhere",
        "29 outgoing seconds elsewhere",
        "30 outgoing seconds elsewhere",
        "31 outgoing seconds elsewhere",
    ],
];

/// use-1: accepted uses by place and kind.
const USES: [[&str; 4]; 3] = [
    [
        "data used at home",
        "outgoing seconds used at home",
        "incoming seconds used at home",
        "SMS used at home",
    ],
    [
        "data used in the zone",
        "outgoing seconds used in the zone",
        "incoming seconds used in the zone",
        "SMS used in the zone",
    ],
    [
        "data used elsewhere",
        "outgoing seconds used elsewhere",
        "incoming seconds used elsewhere",
        "SMS used elsewhere",
    ],
];

/// use-8: zone uses of a service that is Surcharged, by kind.
const WHILE_SURCHARGED: [&str; 4] = [
    "data used while surcharged",
    "outgoing seconds used while surcharged",
    "incoming seconds used while surcharged",
    "SMS used while surcharged",
];

/// use-6: surcharged units after others that were surcharged under another cap.
const TWO_CAPS: [&str; 4] = [
    "data surcharged under two caps",
    "outgoing seconds surcharged under two caps",
    "incoming seconds surcharged under two caps",
    "SMS surcharged under two caps",
];

/// afford-1: what Afford answers while a service is Surcharged, by kind.
const AFFORD_SURCHARGED: [&str; 4] = [
    "afford data while surcharged",
    "afford outgoing seconds while surcharged",
    "afford incoming seconds while surcharged",
    "afford SMS while surcharged",
];

/// refusal-5: lifetime units that come to their limit, by kind.
const AT_LIMIT: [&str; 4] = [
    "lifetime kB at their limit",
    "lifetime outgoing seconds at their limit",
    "lifetime incoming seconds at their limit",
    "lifetime SMS at their limit",
];

/// use-4, use-7 to use-9, use-15, limit-1, limit-2: accepted uses.
const USED: &[&str] = &[
    "use while surcharged",
    "use while surcharged and past L",
    "notice",
    "notice while surcharged",
    "notice at exactly L",
    "notice past L",
    "zone data with L none",
    "zone data with L 0",
    "V crossed in a record",
    "L crossed in a record",
    "V and L crossed in a record",
    "V used up exactly",
    "priced and surcharged kB",
    "H of an unlimited plan grows",
    "free use with credit 0",
    "cost equal to credit",
    "home points and surcharge at once, not alike",
    "units surcharged that are not all of the record",
    "prepaid zone data after a cap change, without a new L",
    "first use of a day, marking it",
    "use of the most units",
];

/// half-1, half-3, half-5: short zone records, and charged seconds.
const CALLED: &[&str] = &[
    "outgoing zone record of under 30 seconds",
    "zone record of under 30 seconds with a surcharge",
    "zone record of under 30 seconds with home points",
    "charged seconds at their limit, spoken ones below",
    "use 5 by charged seconds alone",
    "use 6 of a zone record affordable as spoken",
];

/// afford-1: what Afford answers, and why no more.
const AFFORDED: &[&str] = &[
    "afford nothing",
    "afford the most",
    "afford cut by 5",
    "afford across V",
    "afford across L",
    "afford across V and L",
    "afford 0 outgoing seconds in the zone",
    "afford 30 outgoing seconds in the zone",
    "afford over 30 outgoing seconds in the zone",
    "afford limited by charged seconds alone",
];

/// What lists of calls come to.
pub const OF_LISTS: &[&[&str]] = &[
    &ROWS_READ,
    RECORDS.as_flattened(),
    USES.as_flattened(),
    &WHILE_SURCHARGED,
    &TWO_CAPS,
    USED,
    CALLED,
    AFFORDED,
];

/// What sound accounts come to that lists seldom lead to.
pub const OF_ACCOUNTS: &[&[&str]] = &[
    &AFFORD_SURCHARGED,
    &AT_LIMIT,
    &[
        "as many units as Afford answers",
        "one more than Afford answers, 4",
        "one more than Afford answers, 5",
        "one more than Afford answers, 6",
    ],
];

impl TripEvents {
    pub(super) fn used(&mut self, seen: &Observed, kind: Kind, n: u64) {
        let (old, now, k) = (seen.before, seen.now, kind as usize);
        let Some(place) = old.place() else {
            return;
        };
        self.hit(USES[place as usize][k], true);
        let surcharged = old.in_zone() && old.is_surcharged(kind);
        self.hit("use while surcharged", surcharged);
        self.hit(WHILE_SURCHARGED[k], surcharged);
        let cap = caps_on(old.day() as u32)[k];
        let earlier = old.surcharged(kind);
        let another = earlier > 0 && old.cap_sum(kind) != cap * earlier;
        self.hit(TWO_CAPS[k], seen.answer[2] > 0 && another);
        let rows = search(old.day()).read as usize;
        if let Some(event) = ROWS_READ.get(rows.wrapping_sub(1)) {
            self.hit(event, now.extra() > old.extra());
        }
        let cost = old.credit() - now.credit();
        self.hit("free use with credit 0", old.credit() == 0);
        self.hit("cost equal to credit", cost > 0 && cost == old.credit());
        let [home, extra] = [seen.answer[0], seen.answer[1]];
        let unlike = home > 0 && extra > 0 && home != extra;
        self.hit("home points and surcharge at once, not alike", unlike);
        let part = (1..n).contains(&seen.answer[2]);
        self.hit("units surcharged that are not all of the record", part);
        self.hit("first use of a day, marking it", old.marks() == 0);
        self.hit(AT_LIMIT[k], now.lifetime(kind) == MAX_LIFETIME);
        self.hit("use of the most units", n == MAX_UNITS);
        match kind {
            Kind::Data => self.used_data(seen, n),
            Kind::Outgoing => self.called(old, n, now),
            Kind::Incoming | Kind::Sms => {}
        }
    }

    /// half-1 to half-3: an accepted outgoing record.
    fn called(&mut self, old: Seen, n: u64, now: Seen) {
        if let Some(place) = old.place() {
            let length = [1, 29, 30, 31].iter().position(|length| *length == n);
            if let Some(length) = length {
                self.hit(RECORDS[place as usize][length], true);
            }
        }
        let short = old.in_zone() && n < LEAST_CHARGED;
        self.hit("outgoing zone record of under 30 seconds", short);
        self.hit(
            "zone record of under 30 seconds with a surcharge",
            short && now.extra() > old.extra(),
        );
        self.hit(
            "zone record of under 30 seconds with home points",
            short && now.home() > old.home(),
        );
        let full = now.charged_seconds() == MAX_LIFETIME;
        let below = now.lifetime(Kind::Outgoing) < MAX_LIFETIME;
        self.hit(
            "charged seconds at their limit, spoken ones below",
            full && below,
        );
    }

    /// use-4, use-7, use-15, limit-1, limit-2: an accepted use of data.
    fn used_data(&mut self, seen: &Observed, n: u64) {
        let (old, now) = (seen.before, seen.now);
        let zone = old.in_zone();
        let surcharged = zone && old.is_surcharged(Kind::Data);
        let notice = seen.answer[4] == 1;
        self.hit("notice", notice);
        self.hit("notice while surcharged", notice && surcharged);
        self.hit("notice at exactly L", notice && now.l() == Some(now.r()));
        self.hit("notice past L", notice && now.l() < Some(now.r()));
        let limit = old.l().unwrap_or(u64::MAX);
        self.hit(
            "use while surcharged and past L",
            surcharged && old.r() >= limit,
        );
        self.hit("zone data with L none", zone && old.l().is_none());
        self.hit("zone data with L 0", zone && old.l() == Some(0));
        let over = |before: u64, first: u64| before < first && first < before + n;
        let past_l = zone && over(old.r(), limit);
        let counted = old.place() != Some(Place::Elsewhere);
        let volume = old.volume().filter(|_| counted).unwrap_or(u64::MAX);
        let past_v = over(old.h(), volume);
        self.hit("L crossed in a record", past_l);
        self.hit("V crossed in a record", past_v);
        self.hit("V and L crossed in a record", past_l && past_v);
        self.hit("V used up exactly", old.h() < volume && now.h() == volume);
        let priced = now.priced(Kind::Data) > old.priced(Kind::Data);
        let both = priced && now.surcharged(Kind::Data) > old.surcharged(Kind::Data);
        self.hit("priced and surcharged kB", both);
        let unlimited = now.form() == 2 && now.h() > old.h();
        self.hit("H of an unlimited plan grows", unlimited);
        let another = |cap: u64| cap != data_cap(old.day());
        let kept = zone && old.is_prepaid() && self.past.limit_cap.is_some_and(another);
        let event = "prepaid zone data after a cap change, without a new L";
        self.hit(event, kept);
    }

    pub(super) fn afforded(&mut self, seen: &Observed, kind: Kind) {
        let (account, most) = (seen.before, seen.answer[0]);
        let Some(place) = account.place() else {
            return;
        };
        self.hit("afford nothing", most == 0);
        self.hit("afford the most", most == MAX_UNITS);
        let room = MAX_LIFETIME - account.lifetime(kind);
        self.hit("afford cut by 5", most == room && room < MAX_UNITS);
        let surcharged = most > 0 && account.is_surcharged(kind);
        self.hit(AFFORD_SURCHARGED[kind as usize], surcharged);
        match kind {
            Kind::Data => self.afforded_data(account, place, most),
            Kind::Outgoing => self.afforded_calls(account, place, most),
            Kind::Incoming | Kind::Sms => {}
        }
    }

    fn afforded_data(&mut self, account: Seen, place: Place, most: u64) {
        let across = |before: u64, first: u64| before < first && first < before + most;
        let limit = account.l().unwrap_or(u64::MAX);
        let past_l = place == Place::Zone && across(account.r(), limit);
        let volume = account.volume().unwrap_or(u64::MAX);
        let past_v = place != Place::Elsewhere && across(account.h(), volume);
        self.hit("afford across V", past_v);
        self.hit("afford across L", past_l);
        self.hit("afford across V and L", past_v && past_l);
    }

    fn afforded_calls(&mut self, account: Seen, place: Place, most: u64) {
        let zone = place == Place::Zone;
        self.hit("afford 0 outgoing seconds in the zone", zone && most == 0);
        self.hit("afford 30 outgoing seconds in the zone", zone && most == 30);
        let over = zone && most > 30;
        self.hit("afford over 30 outgoing seconds in the zone", over);
        let one_more = if zone {
            (most + 1).max(LEAST_CHARGED)
        } else {
            most + 1
        };
        let by_charged = most < MAX_UNITS
            && account.lifetime(Kind::Outgoing) + most < MAX_LIFETIME
            && account.charged_seconds() + one_more > MAX_LIFETIME
            && can_pay(account, one_more);
        self.hit("afford limited by charged seconds alone", by_charged);
    }

    /// afford-1: a use of so many units on an account of which Afford answered.
    pub fn use_after_afford(&mut self, most: u64, n: u64, returned: u64) {
        let accepted = returned == ACCEPTED;
        self.hit(
            "as many units as Afford answers",
            accepted && n == most && n > 0,
        );
        if n == most + 1 {
            self.hit("one more than Afford answers, 4", returned == 4);
            self.hit("one more than Afford answers, 5", returned == 5);
            self.hit("one more than Afford answers, 6", returned == 6);
        }
    }
}

/// use-11 to use-13: whether the credit pays for so many more outgoing seconds,
/// charged as they are.
pub(super) fn can_pay(account: Seen, seconds: u64) -> bool {
    let place = account.place().unwrap_or(Place::Elsewhere);
    let surcharged = account.is_surcharged(Kind::Outgoing);
    let priced = if place == Place::Elsewhere {
        0
    } else {
        seconds
    };
    let borne = if surcharged { seconds } else { 0 };
    let old = account.priced(Kind::Outgoing);
    let home = account.minute_price() * (old + priced) / 60 - account.minute_price() * old / 60;
    let cap = caps_on(account.day() as u32)[Kind::Outgoing as usize];
    let old = account.cap_sum(Kind::Outgoing);
    let extra = (old + cap * borne) / 60 - old / 60;
    home + extra <= account.credit()
}
