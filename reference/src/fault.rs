//! Faults that can be planted in the reference. A comparison that does not find
//! a planted fault is too weak.

use crate::layout::*;

macro_rules! faults {
    (
        plain { $($plain:ident $plain_name:literal $plain_what:literal)* }
        home { $($home:ident $home_name:literal $home_what:literal)* }
    ) => {
        #[derive(Clone, Copy, Debug, PartialEq, Eq)]
        pub enum Fault {
            /// The rules as they are.
            None,
            /// No fault: words that the rules leave free are written otherwise.
            FreeWords,
            $(#[doc = $plain_what] $plain,)*
            $(#[doc = $home_what] $home,)*
        }

        /// Every fault.
        pub const FAULTS: &[Planted] = &[
            $(Planted::new(Fault::$plain, $plain_name, $plain_what, false),)*
            $(Planted::new(Fault::$home, $home_name, $home_what, true),)*
        ];
    };
}

/// A fault with its name and what it does.
#[derive(Clone, Copy, Debug)]
pub struct Planted {
    pub fault: Fault,
    pub name: &'static str,
    pub what: &'static str,
    /// Whether it shows only where home is in item 0.
    pub home: bool,
}

impl Planted {
    const fn new(fault: Fault, name: &'static str, what: &'static str, home: bool) -> Planted {
        Planted { fault, name, what, home }
    }
}

faults! {
    plain {
        Expiry249 "expiry-249" "a request expires after 249 ms"
        SixthAtFour "sixth-at-four" "the upload ends at repeats 4"
        TimerNotRestarted "timer-not-restarted" "a repeated request does not restart the timer"
        ClockGreater "clock-greater" "clock readings are compared by greater than"
        BackwardLate "backward-late" "elapsed 2^31 is an expiry"
        WrongItemRestarts "wrong-item-restarts" "an item that is not expected restarts the timer"
        RepeatsKept "repeats-kept" "an item taken leaves the repeats"
        ClearAtCount "clear-at-count" "a nonzero COUNT empties the plan"
        CountKeepsUpload "count-keeps-upload" "a COUNT above the size leaves the station's upload"
        CountForeignSpace "count-foreign-space" "a foreign COUNT above the size gets 4"
        RepeatEnds "repeat-ends" "a repeated item ends the upload"
        JudgedBeforeNumber "judged-before-number" "an item is judged before its number"
        AckAnswered "ack-answered" "an ACK gets a reply"
        AckEndsAll "ack-ends-all" "a nonzero ACK ends all uploads of its station"
        AckFromAnyone "ack-from-anyone" "a nonzero ACK of another station ends the upload"
        ClearOwnOnly "clear-own-only" "CLEAR_ALL 255 clears the kinds without a foreign upload"
        ShortKindLastByte "short-kind-last-byte" "kind is read from a short payload's last byte"
        IdLowByte "id-low-byte" "ids are compared by their low byte"
        ComponentIgnored "component-ignored" "the target component is not judged"
        BufferBeforeRange "buffer-before-range" "outcome 10 comes before 15"
        NotTrimmed "not-trimmed" "replies are not trimmed"
        NumberZero "number-zero" "number 0 follows 4294967295"
        EmptyShowsNumber "empty-shows-number" "an empty plan shows its number"
        EmptySwitchesHalf "empty-switches-half" "emptying a plan switches its half"
        HalfNotSwitched "half-not-switched" "a replacement leaves the half"
        AddressKept "address-kept" "the address bytes are kept in place of frame and autocontinue"
        CurrentKept "current-kept" "the sent current field is kept in place of autocontinue"
        FenceResetsFlight "fence-resets-flight" "emptying any plan restarts the flight"
        SetCurrentBegun "set-current-begun" "SET_CURRENT leaves begun"
        SetCurrentCounts "set-current-counts" "SET_CURRENT sets the jump counts to 0"
        FenceEndUnchecked "fence-end-unchecked" "a fence run may end short at the plan's end"
        FenceGaps "fence-gaps" "a circle may stand inside a fence run"
        FenceTwoReturns "fence-two-returns" "two return points are allowed"
        XLimit "x-limit" "x 900000001 is valid"
        MinusZero "minus-zero" "minus zero is not at least 0"
        NanHeading "nan-heading" "115 takes NaN"
        FrameTwo "frame-two" "frame 2 is valid for all commands"
        HomePositional "home-positional" "return home is positional"
        HomePlaceJudged "home-place-judged" "return home takes frame 2, but its x, y and z are judged"
        HomeAnyFrame "home-any-frame" "return home takes every frame"
        HomeStuck "home-stuck" "the search judges return home as positional"
        LandNotPositional "land-not-positional" "land is not positional"
        NanRepeatRefused "nan-repeat-refused" "a jump's repeat must have a value"
        NanRepeatZero "nan-repeat-zero" "a repeat without a value is 0"
        NanRepeatForever "nan-repeat-forever" "a repeat without a value is -1"
        NanRepeatTwice "nan-repeat-twice" "a repeat without a value is 2"
        NanStoredAsOne "nan-stored-as-one" "a repeat without a value is stored as 1"
        SignallingRefused "signalling-refused" "a signalling NaN as a repeat is refused"
        NegativeNanRefused "negative-nan-refused" "a NaN with a sign as a repeat is refused"
        InfiniteRepeat "infinite-repeat" "an infinite repeat is taken"
        NanTarget "nan-target" "a jump's target needs no value"
        NanPulse "nan-pulse" "a servo's pulse needs no value"
        JumpToItself "jump-to-itself" "a jump may have its own number as target"
        SixteenJumps "sixteen-jumps" "a sixteenth jump is valid"
        Follow65 "follow-65" "65 jumps are followed"
        PassedCounted "passed-counted" "jumps passed over count towards 64"
        StuckKeepsCounts "stuck-keeps-counts" "Stuck keeps the jump counts of its search"
        SearchTrusts "search-trusts" "the search does not judge the items it answers with"
        FrameSwapped "frame-swapped" "frame and autocontinue have each other's place in the last word"
        FencePlaceEarly "fence-place-early" "fence items lie one place early"
        SeqIsPlace "seq-is-place" "a stored item's seq is its place in the half"
        KindNotPutBack "kind-not-put-back" "a stored item's kind is 0"
        ShortAt5632 "short-at-5632" "5632 words of store are too short"
        LongAt5631 "long-at-5631" "5631 words of store suffice"
        PartialFromZero "partial-from-0" "a partial upload requests item 0 first"
        PartialStartPastEnd "partial-start-past-end" "a partial upload's start may be past its end"
        PartialEndAtLength "partial-end-at-length" "a partial upload's end may be the plan's length"
        PartialNegative "partial-negative" "a partial upload's start may be below 0"
        PartialKeepsUpload "partial-keeps-upload" "a range outside the plan leaves the station's upload"
        PartialForeignRange "partial-foreign-range" "another station's range outside the plan gets 13"
        PartialExpiryStart "partial-expiry-start" "an expiry requests a partial upload's first item"
        PartialItemByItem "partial-item-by-item" "each item of a partial upload changes the plan"
        PartialPlaceEarly "partial-place-early" "a partial upload's items are put in one place early"
        PartialLosesBefore "partial-loses-before" "the items before a partial upload's first are lost"
        PartialLosesBehind "partial-loses-behind" "the items behind a partial upload's last are lost"
        PartialOldJudged "partial-old-judged" "items that a partial upload leaves are judged"
        PartialTargetsToEnd "partial-targets-to-end" "jump targets are judged against a range's end"
        PartialRoomEach "partial-room-each" "a partial upload judges the jump room at each item"
        PartialSpaceIs5 "partial-space-is-5" "jumps too many in a partial upload get 5"
        PartialJumpsSent "partial-jumps-sent" "a partial upload counts the jumps of its own items"
        PartialJumpsOld "partial-jumps-old" "a partial upload counts the jumps of the old plan"
        PartialJumpsBoth "partial-jumps-both" "a partial upload counts the jumps that it replaces too"
        PartialLastJump "partial-last-jump" "jumps too many get 4 only if the last item is one"
        PartialFenceFree "partial-fence-free" "a partial upload is not put to the fence rule"
        PartialFenceSent "partial-fence-sent" "a partial upload's own items are put to the fence rule"
        PartialRefusedStays "partial-refused-stays" "a partial upload goes on after 4 or 5"
        PartialKeepsNumber "partial-keeps-number" "a partial upload leaves the plan number"
        PartialResetsCurrent "partial-resets-current" "a partial upload makes item 0 current"
        PartialResetsBegun "partial-resets-begun" "a partial upload makes the flight not begun"
        PartialCurrentLost "partial-current-lost" "replacing the current item restarts the flight"
        PartialAllIsWhole "partial-all-is-whole" "a partial upload of all items restarts the flight"
        PartialKeepsCounts "partial-keeps-counts" "a partial upload leaves the jump counts"
        PartialAnyCount "partial-any-count" "a partial upload's count may differ from the length"
        PartialNextBelow "partial-next-below" "a partial upload's next number may be below its first"
        PartialAnyLast "partial-any-last" "a partial upload's last number may be past its count"
        WholeAnyFirst "whole-any-first" "a whole upload's first number may differ from 0"
        WholeAnyLast "whole-any-last" "a whole upload's last number may differ from its end"
        MoveShortAt26752 "move-short-at-26752" "26752 bytes of old store are too short for the move"
        MoveLongAt26751 "move-long-at-26751" "26751 bytes of old store suffice for the move"
        MoveNewUnjudged "move-new-unjudged" "the move does not judge the new store's length"
        MoveRangeFirst "move-range-first" "the move judges the ranges before the lengths"
        MoveUploadsUnjudged "move-uploads-unjudged" "the move does not judge the numbers of uploads"
        MoveRefusedEnds "move-refused-ends" "a refused move ends the uploads"
        MoveKeepsUpload "move-keeps-upload" "the move leaves the uploads"
        MoveForgetsRally "move-forgets-rally" "the move leaves the rally plan behind"
        MoveOtherHalf "move-other-half" "the move takes the items of the other half"
        MoveToFirstHalf "move-to-first-half" "the move puts every plan into the first half"
        MoveBySeq "move-by-seq" "the move puts an item where its seq says"
        MoveLeavesInvalid "move-leaves-invalid" "the move leaves out items that break the rules"
        MoveWritesBeside "move-writes-beside" "the move writes zeros past the end of each plan"
        MoveResetsProgress "move-resets-progress" "the move restarts the flight"
        Home0Always "home0-always" "a fresh start without home in item 0 has it"
    }
    home {
        Home0Never "home0-never" "a fresh start with home in item 0 does not have it"
        Home0AfterFrame "home0-after-frame" "item 0 is judged as home after its frame"
        Home0AfterParams "home0-after-params" "item 0 is judged as home after its params"
        Home0AnyCommand "home0-any-command" "any command is taken as item 0"
        Home0AnyPositional "home0-any-positional" "any positional command is taken as item 0"
        Home0PartialFree "home0-partial-free" "a partial upload's item 0 is not judged as home"
        Home0OfFence "home0-of-fence" "item 0 of a fence must be command 16"
        Home0OfRally "home0-of-rally" "item 0 of a rally plan must be command 16"
        Home0JumpTaken "home0-jump-taken" "a jump to 0 is taken"
        Home0JumpMinusZero "home0-jump-minus-zero" "a jump to -0.0 is taken"
        Home0JumpPartial "home0-jump-partial" "a jump to 0 is taken in a partial upload"
        Home0JumpLate "home0-jump-late" "a jump to 0 is judged after its repeat"
        Home0SetSeq0 "home0-set-seq-0" "SET_CURRENT 0 is answered with seq 0"
        Home0SetStays "home0-set-stays" "SET_CURRENT 0 makes item 0 current"
        Home0SetAlone "home0-set-alone" "SET_CURRENT 0 is accepted with home alone"
        Home0SetRefused "home0-set-refused" "SET_CURRENT 0 is always refused"
        Home0SetKeepsBegun "home0-set-keeps-begun" "SET_CURRENT 0 leaves begun"
        Home0Flown "home0-flown" "a search begins at 0"
        Home0SkipsTwo "home0-skips-two" "a search behind a begun item 0 begins at 2"
        Home0AloneStuck "home0-alone-stuck" "a search with home alone is stuck"
        Home0Judged "home0-judged" "a search judges item 0 too"
        Home0JumpFollowed "home0-jump-followed" "a search follows a host's jump to 0"
        Home0JumpPassed "home0-jump-passed" "a search passes over a host's jump to 0"
        Home0Uncounted "home0-uncounted" "a search does not count a host's jump at item 0"
        Home0TakesNoRoom "home0-takes-no-room" "a host's jump at item 0 takes no room in an upload"
        Home0WholeLess0 "home0-whole-less-0" "the whole of a partial upload has no jump at item 0"
        Home0RestartsAt1 "home0-restarts-at-1" "a replacement makes item 1 current"
        Home0NotShown "home0-not-shown" "the current field of item 0 is always 0"
        Home0LostAtClear "home0-lost-at-clear" "a clear of the flight plan loses home"
        Home0LostAtClearAll "home0-lost-at-clear-all" "a clear of all plans loses home"
        Home0LostAtCount0 "home0-lost-at-count-0" "a flight count of 0 loses home"
        Home0LostAtFence "home0-lost-at-fence" "emptying the fence loses home"
        Home0LostAtReplacement "home0-lost-at-replacement" "a replacement of the flight plan loses home"
        Home0LostAtPart "home0-lost-at-part" "a partial upload of the flight plan loses home"
        Home0LostAtMove "home0-lost-at-move" "the move loses home"
    }
}

impl Fault {
    pub fn named(name: &str) -> Option<Fault> {
        let found = FAULTS.iter().find(|planted| planted.name == name);
        found.map(|planted| planted.fault)
    }

    pub fn is(self, other: Fault) -> bool {
        self == other
    }
}

/// The payload with its last byte moved to the kind's place, if it is short.
pub fn kind_from_last_byte(id: u32, payload: &[u8]) -> Vec<u8> {
    let kind_at = match id {
        REQUEST_LIST | CLEAR_ALL => 2,
        ACK => 3,
        COUNT | REQUEST_INT => 4,
        WRITE_PARTIAL_LIST => 6,
        ITEM_INT => 37,
        _ => return payload.to_vec(),
    };
    let mut bent = payload.to_vec();
    if let (Some(full), Some(last)) = (full_length(id), payload.last()) {
        if payload.len() < full {
            bent.resize(full, 0);
            bent[kind_at] = *last;
        }
    }
    bent
}
