//! Wrong rules that can be planted in this meter, one at a time, to show that
//! the comparison with the proved meter finds each. The id at each is that of
//! the rule which it breaks. Without the feature `planted` the question below
//! is answered no when the crate is built, and costs nothing. With it,
//! METER_WRONG names the rule by its number.

/// A mistake that the meter could hold.
#[derive(Clone, Copy, PartialEq, Eq, Debug)]
pub enum Wrong {
    /// mistake-1, use-11: home charges are rounded down at each record.
    RoundsEachRecord = 1,
    /// mistake-2, topup-2: L comes from the amount of a top-up.
    LimitFromTopUp,
    /// mistake-3, use-9: past L and Surcharged, a kB bears it twice.
    SurchargesTwice,
    /// limit-7: a prepaid L and R are set anew on a month's first day.
    PrepaidMonthTurn,
    /// mistake-5, register-2: registering in the zone again gives a new L.
    NewLimitOnRegisteringAgain,
    /// service-4, off-4: one zone day less is enough, over 123 days: 61 where
    /// no day is off.
    OneZoneDayLessOf123,
    /// service-4, off-4: one zone day less is enough, over 15 days: 7 where no
    /// day is off.
    OneZoneDayLessOf15,
    /// off-1: off days count as home days do.
    OffDaysAsHome,
    /// off-1: half of the days that are not off are enough.
    HalfTheDaysPrevail,
    /// off-1: the zone days must be more than all days on, not than half of
    /// them.
    TwiceForgotten,
    /// limit-7: a bundle's H runs on over the month's turn.
    MonthlyUseKept,
    /// caps-2: each row of caps begins a day late.
    CapsOneDayLate,
    /// rows-1: the search for caps stops one row early.
    FirstRowNeverRead,
    /// caps-2: the caps are those of the row after the one that has begun.
    RowAfter,
    /// rows-2: the rows that the search read are counted from 0.
    RowsCountedFromZero,
    /// rows-1: the rows are read from the first one on, and so counted.
    RowsReadFromTheFirst,
    /// use-4: one kB more than V is included.
    OneMoreThanVolume,
    /// statement-1: the statement leaves refused calls out.
    RefusedNotCounted,
    /// refusal-11: files are read whatever their sum is.
    SumNotChecked,
    /// write-2: the writer clears the bytes after the file.
    ClearsTheRest,
    /// order-4: the writer looks at the room before it looks at the calls.
    RoomBeforeCalls,
    /// order-4: the writer looks at the calls before it looks at the plan.
    CallsBeforePlan,
    /// refusal-13: a section of another kind than plan and calls may be there
    /// twice.
    OtherKindsTwice,
    /// half-1: a short outgoing zone record is charged as it was spoken.
    SpokenSecondsCharged,
    /// half-2: a short outgoing record at home is charged half a minute, too.
    HalfMinuteAtHome,
    /// half-1: the surcharge bears on spoken seconds, though the home price
    /// bears on the charged ones.
    SurchargeOnSpokenSeconds,
    /// half-4: the day's record gets charged seconds, so that prevalence is by
    /// them.
    PrevalenceByChargedSeconds,
    /// half-5: refusal-5 looks at spoken seconds alone.
    ChargedSecondsNotLimited,
    /// half-1: half a minute is added to every outgoing zone record.
    HalfMinuteAdded,
    /// fault-2, fault-3: a plan's fee and V are looked at before its prices.
    FeeBeforePrices,
    /// fault-1, fault-2: prices are looked at before the fields that the form
    /// leaves out: a data price without volume limit that is too high, too, is
    /// 17.
    PricesBeforeUnused,
    /// fault-1: a fee or V that the form leaves out is told as 18 where it is
    /// too large, too.
    UnusedToldAsFee,
    /// fault-4: the start day is looked at before fee and V.
    DayBeforeFee,
    /// fault-3: a bundle without any kB of volume is opened.
    NoVolumeAccepted,
    /// fault-2: a price that is too high is still told as 1.
    PricesToldAsForm,
    /// order-4: the writer counts codes and numbers before it looks at the
    /// plan.
    CountBeforePlan,
    /// use-15: no use gives a notice.
    NoticeNever,
    /// use-15: a notice comes where R passes L, and not where it just reaches
    /// it.
    NoticePastLimitAlone,
    /// use-14: a use answers all its units as surcharged ones.
    AllUnitsAnsweredAsSurcharged,
    /// use-14: a use answers its surcharge as home points, and the other way
    /// round.
    PointsAnsweredTheOtherWay,
    /// refusal-4: units out of range are told as 6, not as 4.
    UnitsToldAsCredit,
    /// order-3: Use looks at the units before it looks at the place.
    UnitsBeforePlace,
    /// refusal-8: a top-up over the limit of all payments is told as 7, not 8.
    PaidInToldAsAmount,
    /// account-2: surcharged units of calls and SMS are not counted, though
    /// they are charged; soundness lets it pass (sound-8).
    SurchargedCallsNotCounted,
    /// limit-2: H of a bundle without volume limit stays 0.
    UnlimitedMonthNotCounted,
    /// order-2: a use that is refused marks the day.
    RefusedUseMarks,
    /// refusal-0: every account is taken for a sound one.
    AlwaysSound,
    /// sound-8: soundness does not hold cap sums against surcharged units.
    CapSumsNotBounded,
    /// topup-1: a top-up marks the day.
    TopUpMarks,
    /// use-1: incoming seconds are left out of the lifetime units.
    IncomingNotInLifetime,
    /// use-5: incoming seconds are kept as priced ones.
    IncomingPriced,
    /// service-3: incoming seconds at home are among the other units of calls.
    HomeIncomingCounts,
    /// service-4: as many zone units as other units prevail.
    EqualUnitsPrevail,
    /// day-2: a day that is marked elsewhere alone is off.
    ElsewhereDayOff,
    /// family-6: a use of data adds to the monthly kB of the next card, too, as
    /// far as that stays sound.
    NextCardCountsToo,
    /// family-2: a card's monthly kB grow in the zone alone.
    MonthOfZoneAlone,
    /// family-13: a use looks at the credit before it looks at the allowance.
    CreditBeforeAllowance,
    /// family-13: a use looks at the allowance before place, n and lifetime
    /// units.
    AllowanceFirst,
    /// family-12: a call looks for its card before it looks at soundness.
    CardBeforeSoundness,
    /// family-8, family-11: the cards' units are added up without the last card.
    LastCardNotSummed,
    /// family-11: the cards' units are added up in 64 bits, and wrap.
    CardSumsWrap,
    /// family-11: monthly kB over a card's lifetime kB pass.
    MonthPastLifetime,
    /// family-11: monthly kB over a card's allowance pass.
    MonthPastAllowance,
    /// family-4: a card's month turns under a bundle alone.
    MonthOfBundlesAlone,
    /// afford-1, family-13: Afford takes no notice of the allowance.
    AffordPastAllowance,
    /// family-13: data that just comes to the allowance is refused.
    AllowanceNotReached,
    /// family-3: the opening leaves the cards' lifetime units.
    OpeningKeepsUnits,
    /// family-14: the opening looks at allowances before it counts the cards.
    AllowanceBeforeList,
    /// family-12: calls take a list of 17 cards.
    OneCardMore,
    /// family-12: every call refuses an empty list.
    EmptyListRefused,
    /// lines-3: a number with leading zeros is read.
    LeadingZeroAccepted,
    /// lines-3: a number above 4,294,967,295 is read as what 32 bits leave of it.
    LargeNumberWraps,
    /// lines-3: a registration at place 3 is read.
    PlaceThreeRead,
    /// lines-2: `in` and `out` stand for each other.
    InAndOutExchanged,
    /// lines-1: a carriage return before the line feed is passed over.
    CarriageReturnAccepted,
    /// refusal-22: a last line without its line feed is read.
    UnendedLineAccepted,
    /// lines-4: a last line without its line feed is not counted where the lines
    /// are too many.
    UnendedLineNotCounted,
    /// refusal-22: lines are counted from 0.
    LinesCountedFromZero,
    /// refusal-22: of several bad lines the last one is told.
    LastBadLineTold,
    /// lines-4: a text of 8,185 lines is read.
    OneLineMore,
    /// lines-4: a text of 65,537 bytes is read, and exported.
    OneTextByteMore,
    /// lines-10: reading looks at the lines before it looks at their limits.
    FormBeforeLimits,
    /// lines-10: reading looks at the lists before it looks at the lines.
    RoomBeforeForm,
    /// lines-5, order-2: the lines before a bad one are put into the lists.
    RefusedReadStores,
    /// lines-6: the export clears the byte after the text.
    ByteAfterTextCleared,
    /// lines-9: the export looks at the calls before it counts them.
    CallsBeforeCount,
    /// lines-9: the export looks at the text's size before it looks at the
    /// calls.
    SizeBeforeCalls,
    /// lines-9: the export looks at the buffer before it looks at the text's
    /// size.
    RoomBeforeSize,
}

impl Wrong {
    pub const ALL: [Wrong; 88] = [
        Wrong::RoundsEachRecord,
        Wrong::LimitFromTopUp,
        Wrong::SurchargesTwice,
        Wrong::PrepaidMonthTurn,
        Wrong::NewLimitOnRegisteringAgain,
        Wrong::OneZoneDayLessOf123,
        Wrong::OneZoneDayLessOf15,
        Wrong::OffDaysAsHome,
        Wrong::HalfTheDaysPrevail,
        Wrong::TwiceForgotten,
        Wrong::MonthlyUseKept,
        Wrong::CapsOneDayLate,
        Wrong::FirstRowNeverRead,
        Wrong::RowAfter,
        Wrong::RowsCountedFromZero,
        Wrong::RowsReadFromTheFirst,
        Wrong::OneMoreThanVolume,
        Wrong::RefusedNotCounted,
        Wrong::SumNotChecked,
        Wrong::ClearsTheRest,
        Wrong::RoomBeforeCalls,
        Wrong::CallsBeforePlan,
        Wrong::OtherKindsTwice,
        Wrong::SpokenSecondsCharged,
        Wrong::HalfMinuteAtHome,
        Wrong::SurchargeOnSpokenSeconds,
        Wrong::PrevalenceByChargedSeconds,
        Wrong::ChargedSecondsNotLimited,
        Wrong::HalfMinuteAdded,
        Wrong::FeeBeforePrices,
        Wrong::PricesBeforeUnused,
        Wrong::UnusedToldAsFee,
        Wrong::DayBeforeFee,
        Wrong::NoVolumeAccepted,
        Wrong::PricesToldAsForm,
        Wrong::CountBeforePlan,
        Wrong::NoticeNever,
        Wrong::NoticePastLimitAlone,
        Wrong::AllUnitsAnsweredAsSurcharged,
        Wrong::PointsAnsweredTheOtherWay,
        Wrong::UnitsToldAsCredit,
        Wrong::UnitsBeforePlace,
        Wrong::PaidInToldAsAmount,
        Wrong::SurchargedCallsNotCounted,
        Wrong::UnlimitedMonthNotCounted,
        Wrong::RefusedUseMarks,
        Wrong::AlwaysSound,
        Wrong::CapSumsNotBounded,
        Wrong::TopUpMarks,
        Wrong::IncomingNotInLifetime,
        Wrong::IncomingPriced,
        Wrong::HomeIncomingCounts,
        Wrong::EqualUnitsPrevail,
        Wrong::ElsewhereDayOff,
        Wrong::NextCardCountsToo,
        Wrong::MonthOfZoneAlone,
        Wrong::CreditBeforeAllowance,
        Wrong::AllowanceFirst,
        Wrong::CardBeforeSoundness,
        Wrong::LastCardNotSummed,
        Wrong::CardSumsWrap,
        Wrong::MonthPastLifetime,
        Wrong::MonthPastAllowance,
        Wrong::MonthOfBundlesAlone,
        Wrong::AffordPastAllowance,
        Wrong::AllowanceNotReached,
        Wrong::OpeningKeepsUnits,
        Wrong::AllowanceBeforeList,
        Wrong::OneCardMore,
        Wrong::EmptyListRefused,
        Wrong::LeadingZeroAccepted,
        Wrong::LargeNumberWraps,
        Wrong::PlaceThreeRead,
        Wrong::InAndOutExchanged,
        Wrong::CarriageReturnAccepted,
        Wrong::UnendedLineAccepted,
        Wrong::UnendedLineNotCounted,
        Wrong::LinesCountedFromZero,
        Wrong::LastBadLineTold,
        Wrong::OneLineMore,
        Wrong::OneTextByteMore,
        Wrong::FormBeforeLimits,
        Wrong::RoomBeforeForm,
        Wrong::RefusedReadStores,
        Wrong::ByteAfterTextCleared,
        Wrong::CallsBeforeCount,
        Wrong::SizeBeforeCalls,
        Wrong::RoomBeforeSize,
    ];
}

/// The rule that is planted, if any.
#[cfg(not(feature = "planted"))]
pub const fn chosen() -> Option<Wrong> {
    None
}

/// The rule that METER_WRONG names, read once.
#[cfg(feature = "planted")]
pub fn chosen() -> Option<Wrong> {
    use std::sync::OnceLock;
    static CHOSEN: OnceLock<Option<Wrong>> = OnceLock::new();
    *CHOSEN.get_or_init(|| {
        let number: usize = std::env::var("METER_WRONG").ok()?.parse().ok()?;
        Wrong::ALL.get(number.checked_sub(1)?).copied()
    })
}

/// Whether a wrong rule is to be followed here.
#[inline]
pub fn planted(rule: Wrong) -> bool {
    chosen() == Some(rule)
}
