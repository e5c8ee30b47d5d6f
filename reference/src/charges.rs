//! The sums of charges over an account's life. Rules use-11, use-12, limit-3,
//! and the units past V or L of use-4 and use-7.

use crate::plan::Plan;
use crate::terms::GB;

/// use-11: home charges over the account's life, from the priced units.
pub fn home_points(plan: &Plan, priced: &[u64; 4]) -> u64 {
    u64::from(plan.data_price) * priced[0] / GB
        + u64::from(plan.minute_price) * priced[1] / 60
        + u64::from(plan.sms_price) * priced[3]
}

/// use-12: surcharges over the account's life, from the sums of cap x units.
pub fn extra_points(cap_sums: &[u64; 4]) -> u64 {
    cap_sums[0] / GB + cap_sums[1] / 60 + cap_sums[2] / 60 + cap_sums[3]
}

/// use-4, use-7: of n units after `before` earlier ones, those past `first`.
pub fn past(before: u64, n: u64, first: u64) -> u64 {
    (before + n).saturating_sub(first) - before.saturating_sub(first)
}
