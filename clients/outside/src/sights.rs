//! What random calls have to come upon, beside every answer: a run in which one of these never came up shows too little.

use std::collections::BTreeMap;

#[derive(Clone, Copy, PartialEq, Eq, PartialOrd, Ord)]
pub enum Sight {
    // boards
    EntryTaken,
    EntryRefused,
    ListedCall,
    Round,
    // walks
    Withdraw,
    TakenBack,
    Level,
    Crowded,
    Promised,
    // an a for each window
    Unequal,
    FewerThanAll,
    MoreThanAll,
    FewerThanN,
    ValueAboveN,
    UnequalAccepted,
    LateByOwn,
    // distances from the clock, of which distances.rs says more
    TurnsAhead,
    Distant,
    TurnsLate,
    AcrossATurn,
    ArrivalTurned,
    LimitTurned,
    // recordings
    ReadNew,
    ReadFormer,
    NoRoomForValues,
    FormerWritten,
    FormerTooLong,
    LimitsAtTheirLast,
    LimitsAtLine2,
    // recorded steps, of which waits.rs says more
    Unused,
    NoAdvance,
    OneSold,
    TwoSold,
    CritInUnused,
    CritWhileSold,
    TryAfterSum,
    WithdrawAfterSum,
    OfNoTry,
    AboveN,
    AtClock,
    PastClock,
    PastClockAboveN,
    RefusedInUnused,
    // threaded lists
    Threaded,
    SoldMeanwhile,
    // spans
    ClosedSpan,
    OpenSpan,
    NoSpan,
    JustRoom,
    OneShort,
    OutputAsLong,
    OutputShorter,
    FaultWithoutRoom,
    // the second engine
    BothEngines,
    BothFromFresh,
    BothInChecking,
    BothPastTheEnd,
    MatchesNone,
    MatchesUnsound,
    Around,
    ToDeadlines,
    ToArrivals,
    OtherOneShort,
    OtherLonger,
    BothTurnsAhead,
    BothDistant,
    BothTurnsLate,
    BothAcrossATurn,
    MomentTurned,
    // accepted acts
    TakenOfNew,
    TakenOfFormer,
    NoneTaken,
    ManyTaken,
    RefusedLeftOut,
    OthersLeftOut,
    JustPlaces,
    MorePlaces,
    OneTimeShort,
    OneActShort,
    WaitsWithoutRoom,
    WindowAboveN,
    FaultAndNoWindow,
    // notebooks
    NoEntry,
    ShiftAtLeast,
    ShiftAtMost,
    ShiftBelow0,
    ShiftAbove0,
    SeveralShifts,
    OnlyShift,
    WidestD,
    WidestE,
    TimeAtTheEnd,
    NoActAlike,
    PastD,
    PastE,
    PastOfTill,
    PastOfBox,
    PastBehindTheOther,
    PastAndOtherActs,
    OneActMore,
    OtherFirstAct,
    OtherLastAct,
    OtherActsAndNoShift,
    MissedByD,
    MissedByE,
    Missed32Bits,
    UncountedOfTill,
    UncountedOfBox,
    UncountedActs,
}

use Sight::*;

/// Each with how it is told.
const SIGHTS: [(Sight, &str); 109] = [
    (EntryTaken, "accepted crits whose entries a board took"),
    (EntryRefused, "accepted crits whose entries a board refused"),
    (ListedCall, "calls of lists on one board"),
    (Round, "times that such a list went around the places"),
    (Withdraw, "accepted withdraws"),
    (TakenBack, "withdraws that took back a try"),
    (Level, "acts that are late by the latest moment of several windows"),
    (Crowded, "accepted acts with nobody in remainder"),
    (Promised, "calls from a fresh table on, with the promises of lists"),
    (Unequal, "accepted lists of values of a, of fresh tables and writings, that are unequal"),
    (FewerThanAll, "accepted lists of fewer than 96 values of a"),
    (MoreThanAll, "accepted lists of more than 96 values of a"),
    (FewerThanN, "lists that are refused for fewer values of a than windows alone"),
    (ValueAboveN, "lists that are refused for values of a above n alone"),
    (UnequalAccepted, "accepted acts of windows with unequal values of a"),
    (LateByOwn, "acts that are late by a window which came after another"),
    (TurnsAhead, "accepted acts with an advance of 2^32 or more"),
    (Distant, "acts that are late by a latest moment which is too far from the clock for 16 bits"),
    (TurnsLate, "acts that are late, and would not be if the advance had 32 bits"),
    (AcrossATurn, "acts that are late with a multiple of 2^32 between two latest moments"),
    (ArrivalTurned, "tables that are refused for arrivals which are 2^32 or more from sound ones"),
    (LimitTurned, "tables that are refused for limits which are 2^32 more than those that stand"),
    (ReadNew, "recordings that are read of the shape that is written"),
    (ReadFormer, "recordings that are read of the former shape"),
    (NoRoomForValues, "recordings that are not read for want of room for values of a alone"),
    (FormerWritten, "recordings of the former shape that are written"),
    (FormerTooLong, "recordings of the former shape that are read and too long to be written"),
    (LimitsAtTheirLast, "limits that are refused at the last line of a"),
    (LimitsAtLine2, "limits that are refused at line 2, in the former shape"),
    (Unused, "counted acts in unused time that somebody waits"),
    (NoAdvance, "counted acts without an advance while somebody waits"),
    (OneSold, "counted acts with an advance while one sells and somebody tries"),
    (TwoSold, "counted acts with an advance while two or more sell and somebody tries"),
    (CritInUnused, "crits that end a wait with their own advance"),
    (CritWhileSold, "crits with an advance while another sells"),
    (TryAfterSum, "tries of windows that had waited before"),
    (WithdrawAfterSum, "withdraws of windows that had waited"),
    (OfNoTry, "counted acts in unused time beside a sum of a window that does not try"),
    (AboveN, "counted acts in unused time beside a sum of a window above n"),
    (AtClock, "counted acts in unused time at which a sum is all of the clock"),
    (PastClock, "summaries that are not sound by a sum that is one past the clock"),
    (PastClockAboveN, "summaries that are not sound by such a sum of a window above n"),
    (RefusedInUnused, "refused acts with an advance while somebody waits"),
    (Threaded, "calls of threaded lists whose summaries acts and answers come to"),
    (SoldMeanwhile, "waits of such lists in which another sold"),
    (ClosedSpan, "closed spans that were put"),
    (OpenSpan, "open spans that were put"),
    (NoSpan, "recordings without a span"),
    (JustRoom, "outputs with room for just the spans"),
    (OneShort, "outputs that are short of the spans by one byte"),
    (OutputAsLong, "spans put into an output that is at least as long as the recording"),
    (OutputShorter, "spans put into an output that is shorter than the recording"),
    (FaultWithoutRoom, "faulty recordings with an output that is too short for any spans"),
    (BothEngines, "acts of both engines at tables that match"),
    (BothFromFresh, "of these, from fresh tables on"),
    (BothInChecking, "of these, accepted by both with somebody in checking"),
    (BothPastTheEnd, "of these, accepted by both with a last moment past the clock's end"),
    (MatchesNone, "deadline tables that match no table"),
    (MatchesUnsound, "deadline tables that match a table which is not sound"),
    (Around, "deadline tables with a moment near 2^64 that are refused"),
    (ToDeadlines, "tables that became deadline tables"),
    (ToArrivals, "deadline tables that became tables"),
    (OtherOneShort, "sound tables whose output is short by one number"),
    (OtherLonger, "sound tables whose output is longer than needed"),
    (BothTurnsAhead, "acts that both engines accept with an advance of 2^32 or more"),
    (BothDistant, "acts that are late for both by a last moment which is too far from the clock for 16 bits"),
    (BothTurnsLate, "acts that are late for both, and would not be if the advance had 32 bits"),
    (BothAcrossATurn, "acts that are late for both with a multiple of 2^32 between two last moments"),
    (MomentTurned, "deadline tables that are refused for moments which are 2^32 or more from sound ones"),
    (TakenOfNew, "accepted acts taken out of a recording of the shape that is written"),
    (TakenOfFormer, "accepted acts taken out of a recording of the former shape"),
    (NoneTaken, "windows of which no act was accepted"),
    (ManyTaken, "windows of which 70 acts or more were accepted"),
    (RefusedLeftOut, "accepted acts of windows that others were refused to"),
    (OthersLeftOut, "accepted acts of windows beside which others acted"),
    (JustPlaces, "lists with places for just the accepted acts"),
    (MorePlaces, "lists with more places than there are accepted acts"),
    (OneTimeShort, "lists that are short of one place for a time alone"),
    (OneActShort, "lists that are short of one place for an act alone"),
    (WaitsWithoutRoom, "askings for window 0 with fewer places than there are waits"),
    (WindowAboveN, "askings for the next window after n"),
    (FaultAndNoWindow, "faulty recordings that are asked for a window which none has"),
    (NoEntry, "notebooks without an act that agree"),
    (ShiftAtLeast, "notebooks with acts that agree at the shift -d"),
    (ShiftAtMost, "notebooks with acts that agree at the shift d"),
    (ShiftBelow0, "notebooks that agree at a shift between -d and 0"),
    (ShiftAbove0, "notebooks that agree at a shift between 0 and d"),
    (SeveralShifts, "notebooks that agree at several shifts"),
    (OnlyShift, "notebooks that agree at one shift alone, with an e above 0"),
    (WidestD, "notebooks with acts that agree with the greatest d"),
    (WidestE, "notebooks with acts that agree with the greatest e"),
    (TimeAtTheEnd, "notebooks that agree with a time at the clock's end"),
    (NoActAlike, "notebooks that agree with a number that is no act"),
    (PastD, "notebooks that are out of bounds by d alone"),
    (PastE, "notebooks that are out of bounds by e alone"),
    (PastOfTill, "notebooks that are out of bounds by times of the till alone"),
    (PastOfBox, "notebooks that are out of bounds by times of the box alone"),
    (PastBehindTheOther, "notebooks that are out of bounds behind the end of the shorter one alone"),
    (PastAndOtherActs, "notebooks that are out of bounds, and whose acts differ"),
    (OneActMore, "notebooks that differ by one act more at the end"),
    (OtherFirstAct, "notebooks that differ in the first act alone"),
    (OtherLastAct, "notebooks that differ in the last act alone"),
    (OtherActsAndNoShift, "notebooks whose acts differ, and whose times no shift would serve"),
    (MissedByD, "notebooks that no shift serves, and one would if d were greater by 1"),
    (MissedByE, "notebooks that no shift serves, and one would if e were greater by 1"),
    (Missed32Bits, "notebooks that no shift serves, and one would if differences had 32 bits"),
    (UncountedOfTill, "notebooks within bounds with a time of the till past its limit that does not count"),
    (UncountedOfBox, "notebooks within bounds with a time of the box past its limit that does not count"),
    (UncountedActs, "notebooks within bounds with acts that do not count"),
];

/// How often each came up.
#[derive(Default)]
pub struct Sights(BTreeMap<Sight, u64>);

impl Sights {
    pub fn count(&mut self, sight: Sight, times: u64) {
        *self.0.entry(sight).or_default() += times;
    }

    /// Once, if it is there.
    pub fn look(&mut self, sight: Sight, is_there: bool) {
        self.count(sight, u64::from(is_there));
    }

    pub fn add(&mut self, other: &Sights) {
        other.0.iter().for_each(|(&sight, &times)| self.count(sight, times));
    }

    pub fn say(&self) {
        for (sight, told) in SIGHTS {
            println!("{told}: {}", self.times(sight));
        }
    }

    /// Those that never came up.
    pub fn missing(&self) -> impl Iterator<Item = &'static str> + '_ {
        SIGHTS.iter().filter(|&&(sight, _)| self.times(sight) == 0).map(|&(_, told)| told)
    }

    fn times(&self, sight: Sight) -> u64 {
        self.0.get(&sight).copied().unwrap_or(0)
    }
}
