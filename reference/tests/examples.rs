//! Published examples, by their E-numbers, with the cap as an argument. Rules
//! plan-7, limit-5, limit-6, use-4, use-7, use-11, use-12, register-2, topup-2,
//! service-4 to service-8, half-1.

mod common;
use common::*;
use reference::caps::Caps;
use reference::meter::{Account, Answer};
use reference::plan::{prepaid_limit, Plan};
use reference::services::State;
use reference::terms::{Call, Kind, Place, Service};

/// Lek read as points; only the data cap matters here.
const LEK: Caps = [970, 0, 0, 0];

fn limit(fee: u32, volume_gb: u32, cap: u64) -> Option<u64> {
    bundle(1461, 500, fee, volume_gb * GB as u32).limit(cap)
}

/// An account in the zone at a cap of 970, with credit.
fn in_zone(plan: Plan, credit: u64) -> Account {
    let mut account = Account::open_at(plan, &LEK).unwrap();
    account.top_up_at(credit, &LEK).unwrap();
    account.register_at(Place::Zone, &LEK).unwrap();
    account
}

fn take(account: &mut Account, kb: u64) -> Result<Answer, u32> {
    account.use_units_at(Kind::Data, kb, &LEK)
}

/// plan-7, limit-5, limit-6.
#[test]
fn e1_to_e5_bundles_at_cap_77000() {
    assert!(limit(100_000, 3, 77_000).is_some(), "E1");
    assert_eq!(limit(100_000, 1, 77_000), None, "E2");
    assert_eq!(
        unlimited(1461, 900_000).limit(77_000),
        Some(24_512_166),
        "E3"
    );
    assert_eq!(limit(100_000, 2, 77_000), Some(2_723_574), "E4");
    assert_eq!(2_723_574 - 2 * GB, 626_422, "E4");
}

/// plan-7, limit-5, limit-6.
#[test]
fn e6_to_e12_bundles_at_cap_970() {
    assert_eq!(limit(1000, 3, 970), Some(2_162_012), "E6");
    assert_eq!(limit(1000, 1, 970), None, "E7");
    assert_eq!(unlimited(1461, 9000).limit(970), Some(19_458_111), "E8");
    assert_eq!(limit(1000, 2, 970), Some(2_162_012), "E9");
    assert_eq!(limit(2000, 7, 970), Some(4_324_024), "E10");
    assert_eq!(limit(2500, 10, 970), Some(5_405_030), "E11");
    assert_eq!(limit(600, 1, 970), Some(1_297_207), "E12");
    let mb = bundle(1461, 0, 600, 1_024_000);
    assert_eq!(mb.limit(970), Some(1_297_207), "E12 with 1000 MB");
}

/// use-4: past V; use-7: past L.
#[test]
fn e9_run_home_price_between_v_and_l() {
    let mut account = in_zone(bundle(1461, 500, 1000, 2 * GB as u32), 10_000);
    assert_eq!(take(&mut account, 2 * GB), used(0, 0, 0, 2 * GB, false));
    assert_eq!(take(&mut account, 64_860), used(30, 0, 0, 64_860, true));
    assert_eq!(take(&mut account, 1), used(0, 0, 1, 1, false));
    assert_eq!(take(&mut account, GB), used(500, 970, GB, GB, false));
}

/// use-7: past L; use-4: past V.
#[test]
fn e10_run_surcharge_alone_between_l_and_v() {
    let mut account = in_zone(bundle(1461, 500, 2000, 7 * GB as u32), 10_000);
    assert_eq!(
        take(&mut account, 4_324_024),
        used(0, 0, 0, 4_324_024, true)
    );
    let past = 7 * GB - 4_324_024;
    assert_eq!(past, 3_016_008);
    assert_eq!(take(&mut account, past), used(0, 2790, past, past, false));
    assert_eq!(take(&mut account, GB), used(500, 970, GB, GB, false));
}

/// limit-2, use-4: kB at home count in H, too.
#[test]
fn e5_and_e13_volume_partly_used_at_home() {
    let mut account = Account::open_at(bundle(1461, 500, 1455, 5 * GB as u32), &LEK).unwrap();
    assert_eq!(account.l, Some(3 * GB));
    account.top_up_at(10_000, &LEK).unwrap();
    account.register_at(Place::Home, &LEK).unwrap();
    assert_eq!(take(&mut account, 3 * GB), used(0, 0, 0, 3 * GB, false));
    account.register_at(Place::Zone, &LEK).unwrap();
    assert_eq!(take(&mut account, 2 * GB), used(0, 0, 0, 2 * GB, false));
    assert_eq!(take(&mut account, GB), used(500, 0, 0, GB, true));
    assert_eq!(take(&mut account, GB), used(500, 970, GB, GB, false));
}

/// register-2, use-3, refusal-6, afford-1.
#[test]
fn e14_prepaid_credit_ends_before_the_limit() {
    assert_eq!(prepaid_limit(1000, 970), 1_081_006);
    let mut account = in_zone(prepaid(1461, 20_480, 0, 0), 1000);
    assert_eq!(account.l, Some(1_081_006));
    assert_eq!(
        account.afford_at(Kind::Data, &LEK),
        Ok(Answer::Most(51_251))
    );
    assert_eq!(take(&mut account, 51_200), used(1000, 0, 0, 51_200, false));
    assert_eq!(take(&mut account, 51), used(0, 0, 0, 51, false));
    assert_eq!(take(&mut account, 1), Err(6));
}

/// register-2, use-7, use-13, afford-1.
#[test]
fn e15_to_e17_prepaid_past_the_limit() {
    let mut at_home = open(prepaid(1461, 500, 0, 0));
    run(&mut at_home, &[Call::TopUp(2000), home()]);
    assert_eq!(at_home.afford(Kind::Data), Ok(Answer::Most(4_196_401)));
    assert_eq!(
        at_home.clone().apply(data(4 * GB)),
        used(2000, 0, 0, 4 * GB, false)
    );
    let mut account = in_zone(prepaid(1461, 500, 0, 0), 2000);
    assert_eq!(account.l, Some(2_162_012), "E15");
    assert_eq!(
        take(&mut account, 2_162_012),
        used(1030, 0, 0, 2_162_012, true),
        "E16"
    );
    assert_eq!(account.credit, 970);
    let most = account.afford_at(Kind::Data, &LEK);
    assert_eq!(most, Ok(Answer::Most(692_211)));
    let mut last = account.clone();
    assert_eq!(
        take(&mut last, 692_211),
        used(330, 640, 692_211, 692_211, false)
    );
    assert_eq!((last.credit, take(&mut last, 1)), (0, Err(6)));
    assert_eq!(take(&mut account, GB), Err(6), "E17");
    account.register_at(Place::Home, &LEK).unwrap();
    account.top_up_at(500, &LEK).unwrap();
    // topup-2: topped up at home, so the old L holds; the zone is entered by
    // hand.
    account.place = Some(Place::Zone);
    assert_eq!(take(&mut account, GB), used(500, 970, GB, GB, false), "E17");
}

/// register-2.
#[test]
fn e18_credits_of_500_and_1000() {
    assert_eq!(prepaid_limit(500, 970), 540_503);
    assert_eq!(prepaid_limit(1000, 970), 1_081_006);
}

/// Days with one kB in the zone or at home, each followed by a day change.
fn spend(account: &mut Account, days: usize, place: Place) {
    for _ in 0..days {
        account.register(place).unwrap();
        account.use_units(Kind::Data, 1).unwrap();
        account.next_day().unwrap();
    }
}

/// service-7, service-8.
#[test]
fn e35_warned_on_304_and_surcharged_on_319() {
    let mut account = open(unlimited(181, 100_000));
    spend(&mut account, 122, Place::Zone);
    assert_eq!((account.day, account.states[0]), (303, State::Clear));
    spend(&mut account, 1, Place::Zone);
    assert_eq!((account.day, account.states[0]), (304, State::Warned(0)));
    spend(&mut account, 14, Place::Zone);
    assert_eq!((account.day, account.states[0]), (318, State::Warned(14)));
    spend(&mut account, 1, Place::Zone);
    assert_eq!((account.day, account.states[0]), (319, State::Surcharged));
    assert_eq!(account.states[1..], [State::Clear; 2]);
}

/// service-4, service-7.
#[test]
fn e32_a_run_of_61_or_62_zone_days() {
    for (zone_days, wanted) in [(61, State::Clear), (62, State::Warned(0))] {
        let mut account = open(unlimited(181, 100_000));
        spend(&mut account, zone_days, Place::Zone);
        account.use_units(Kind::Data, 1000).unwrap();
        account.register(Place::Home).unwrap();
        account.next_day().unwrap();
        spend(&mut account, 122 - zone_days, Place::Home);
        assert_eq!((account.day, account.states[0]), (304, wanted));
    }
}

/// service-4, service-8.
#[test]
fn e33_a_run_of_7_or_8_zone_days_after_the_warning() {
    for (zone_days, wanted) in [(7, State::Clear), (8, State::Surcharged)] {
        let mut account = open(unlimited(181, 100_000));
        spend(&mut account, 123, Place::Zone);
        account.top_up(1000).unwrap();
        account.register(Place::Zone).unwrap();
        account.use_units(Kind::Data, 1000).unwrap();
        spend(&mut account, zone_days, Place::Zone);
        spend(&mut account, 15 - zone_days, Place::Home);
        assert_eq!((account.day, account.states[0]), (319, wanted));
    }
}

/// half-1: the source has 0.0275 euro a minute with VAT, which is 220 points
/// without: the cap of 2024, days 730 to 1095. There is no home price here.
#[test]
fn e37_the_first_30_seconds_cost_110_points() {
    let mut account = open(prepaid(730, 0, 0, 0));
    run(&mut account, &[Call::TopUp(10_000), zone()]);
    account.states[Service::Calls as usize] = State::Surcharged;
    for n in 1..=30 {
        let got = account.use_units(Kind::Outgoing, n);
        assert_eq!(got, used(0, 110, 30, 30, false), "E37, {n} s");
    }
    assert_eq!(account.extra, 30 * 110);
    // half-1, scope-2: after them by the second, though the source's first
    // minute goes by half minutes; 31 x 220 / 60 = 113.
    let got = account.use_units(Kind::Outgoing, 31);
    assert_eq!(got, used(0, 113, 31, 31, false));
}
