//! What scripts can reach.

use std::fmt;

use super::events::events;
use super::grid::{self, GridEvent, Way};
use super::lookup::{LookupEvent, NodesEvent};
use super::tidying::TidyingEvent;
use crate::form::Fault;
use crate::place::Direction::{self, Clockwise, Counterclockwise};
use crate::refusal::Refusal;
use crate::table::Rule;

pub(super) const BOTH_WAYS: [Direction; 2] = [Clockwise, Counterclockwise];

events! {
    /// What a line of a script reached.
    pub enum Event {
        /// What the script program's lines can show, in the order of the report.
        of_script {
            Step1 => "step 1";
            /// Step 1 with a circuit and its return, which share in this direction.
            Step1Return(way: Direction) in BOTH_WAYS =>
                "  of these: a circuit and its return share {way}";
            /// Step 1 in this direction, the longer way, though a place of the other one was unlit.
            Step1Longer(way: Direction) in BOTH_WAYS =>
                "  of these: the longer way, {way}, though a place of the shorter is unlit";
            Step2 => "step 2";
            /// Step 2 in this direction, where the circuit uses fewer links than in the other.
            Step2Shorter(way: Direction) in BOTH_WAYS => "  of these: the shorter way, {way}";
            /// Step 2 in this direction, with as many links in either; counterclockwise if clockwise
            /// is full.
            Step2Equal(way: Direction) in BOTH_WAYS =>
                "  of these: both ways equal, {way}{}",
                if way == Clockwise { "" } else { ", as clockwise is full" };
            /// Step 2 in this direction, the longer way, as the other one is full.
            Step2Longer(way: Direction) in BOTH_WAYS =>
                "  of these: the longer way, {way}, as the shorter is full";
            /// Step 2 in this direction, though a lower place of the other one was unlit.
            Step2PassedOver(way: Direction) in BOTH_WAYS =>
                "  of these: {way}, past a lower unlit place of the other direction";
            Step3aBothFit => "step 3a, both members fit";
            Step3aFirstFits => "step 3a, the first member fits";
            Step3aSecondFits => "step 3a, the second member fits";
            /// 3a with a circuit and its return: in which direction each of the two stood.
            Step3aReturn { stayed: Direction, moved: Direction } in [
                (Clockwise, Clockwise),
                (Clockwise, Counterclockwise),
                (Counterclockwise, Counterclockwise),
                (Counterclockwise, Clockwise),
            ] =>
                "  of 3a: a circuit and its return share {stayed} as {} stood",
                if stayed == moved { "both" } else { "one" };
            Step3bWithNew => "step 3b, two moves";
            Step3bOld => "step 3b, three moves";
            /// 3b where the lowest place of the direction is shared, so that c lies higher.
            Step3bOverShared => "  of 3b: the direction's lowest place is shared";
            OpenedWithAccount => "opened with an account";
            OpenedWithWidestAccount => "  of these: account 4294967295";
            /// A circuit with an account is moved, by an opening of so many moves.
            MovedWithAccount { moves: usize } in [1, 2, 3] =>
                "opened with moves {moves}, one of a circuit with an account";
            Closed => "closed";
            ClosedOneOfTwo => "  of these: one of two at a place";
            RingAccepted => "ring accepted";
            RingReplaced => "  of these: in place of another";
            RingRefused(number: u8) in [1, 2, 3] => "ring refused {number}";
            OpenRefused(number: u8) in [10, 11, 12, 13, 14] => "open refused {number}";
            CloseRefused(number: u8) in [15] => "close refused {number}";
            RefusedBeforeRing => "line refused: before the first ring";
            RefusedEmpty => "line refused: empty";
            RefusedTooLong => "line refused: over 256 bytes";
            RefusedSpaces => "line refused: spaces";
            RefusedCr => "line refused: CR";
            RefusedNul => "line refused: NUL";
            RefusedHighByte => "line refused: byte above 127";
            /// An opening of four numbers, as lines had before.
            RefusedNoAccount => "line refused: open without an account";
            RefusedWideAccount => "line refused: account too wide";
            /// An opening whose last word is no number.
            RefusedOddAccount => "line refused: account that is no number";
            /// An opening with a word after the account.
            RefusedAfterAccount => "line refused: open with a word after the account";
            RefusedWideNumber => "line refused: another number too wide";
            RefusedOther => "line refused: other";
            Exactly256Good => "good line of exactly 256 bytes";
            LeadingZeroGood => "good line with leading zeros";
        }

        /// What the other lines of the planning program can show.
        of_plan {
            Read => "read";
            ReadBeforeRing => "  of these: the first table";
            ReadReplaced => "  of these: in place of another table";
            ReadWithRemark => "  of these: with a remark";
            ReadWithAccount => "  of these: with an account";
            /// A form with circuits but no account, as forms were before.
            ReadWithoutAccount => "  of these: with circuits, none of which has an account";
            ReadWithPair => "  of these: with two circuits at a place";
            /// A form with a circuit and its return, which share in this direction.
            ReadWithReturn(way: Direction) in BOTH_WAYS =>
                "  of these: a circuit and its return share {way}";
            /// A form with a record of this field map.
            ReadFieldMap(bits: u8) in FIELD_MAPS => "  of these: with field map {bits:05b}";
            ReadFault(fault: Fault) in FAULTS.map(|(fault, _)| fault) =>
                "read refused {}{}", fault.refusal().number(), detail(fault);
            ReadFailed => "read failed";
            Written => "write";
            WrittenWithAccount => "  of these: with an account";
            /// A circuit with an account was moved before on this table.
            WrittenAfterMove => "  of these: a circuit with an account was moved before";
            WriteFailed => "write failed";
            Load => "load";
            LoadOfNone => "  of these: no circuits";
            /// The report of a ring of 64 nodes.
            LoadOfLargestRing => "  of these: 64 nodes";
            LoadOfPair => "  of these: two circuits at a place";
            /// Lightpaths of this direction run over link N.
            LoadOverLastLink(way: Direction) in BOTH_WAYS =>
                "  of these: lightpaths {way} over link N";
            /// At some node a lightpath of this direction begins and another ends.
            LoadBeginsAndEnds(way: Direction) in BOTH_WAYS =>
                "  of these: a lightpath {way} begins where another ends";
            /// The load of this direction falls from some link to the one after it in the report.
            LoadFalls(way: Direction) in BOTH_WAYS =>
                "  of these: the load {way} falls from a link to the next";
            LinkCircuit => "link circuit";
            LinkOfPair => "  of these: one of two at the place";
            LinkNone => "link none";
            LinkNoneThoughLit => "  of these: the place is lit";
            LinkRefused(number: u8) in [10, 16, 17] => "link refused {number}";
            /// A link question whose numbers would be good ones but for their bits above the lowest 8.
            LinkRefusedWide => "  of these: good in the lowest 8 bits";
            Circuits => "circuits";
            CircuitsNone => "  of these: none";
            CircuitsWithAccount => "  of these: with an account";
            CircuitsAfterMove => "  of these: a circuit with an account was moved before";
            /// A line of this first word before there is a table.
            RefusedBeforeTable(word: &'static str) in
                ["write", "load", "link", "circuits", "from", "to", "nodes", "tidy"] =>
                "line refused: {word} before the first table";
            RefusedOddDigits => "line refused: form of an odd number of digits";
            RefusedCapitalDigit => "line refused: form with a capital digit";
            RefusedNoPath => "line refused: write to something without @";
            RefusedOver8192 => "line refused: over 8,192 bytes";
            Exactly8192Good => "good line of exactly 8,192 bytes";
            /// What a lookup of the circuits from a node reached.
            Lookup(event: LookupEvent) in LookupEvent::all() => "{}", event.words("from");
            /// What a lookup of the circuits to a node reached.
            Received(event: LookupEvent) in LookupEvent::all() => "{}", event.words("to");
            /// What a list of all nodes reached.
            Nodes(event: NodesEvent) in NodesEvent::all() => "{}", event.words();
            /// What a tidying reached.
            Tidying(event: TidyingEvent) in TidyingEvent::all() => "{}", event.words();
            /// What a line on a frequency plan reached.
            Grid(way: Way, event: GridEvent) in grid::there_and_back() => "{}", event.words(way);
        }
    }
}

/// The field maps that a record can have: bits 2 and 4 are those of a second circuit, bit 1.
const FIELD_MAPS: [u8; 20] = [
    0b00000, 0b00001, 0b01000, 0b01001, 0b00010, 0b00011, 0b00110, 0b00111, 0b01010, 0b01011,
    0b01110, 0b01111, 0b10010, 0b10011, 0b10110, 0b10111, 0b11010, 0b11011, 0b11110, 0b11111,
];

/// The faults that forms can show, each with what tells it from others of the same refusal.
const FAULTS: [(Fault, &str); 17] = [
    (Fault::Ring(Refusal::RingSize), ""),
    (Fault::Ring(Refusal::NodePorts), ""),
    (Fault::Ring(Refusal::RingPorts), ""),
    (Fault::AccountCut, ": an account"),
    (Fault::Cut, ": another field"),
    (Fault::HighPlace, ": map bit at 2 x W or above"),
    (Fault::UnknownField, ": field map bit 5 to 7"),
    (Fault::RemarkOfNone, ": bit 2 without bit 1"),
    (Fault::AccountOfNone, ": bit 4 without bit 1"),
    (Fault::RemarkOfZero, ": a written remark of 0"),
    (Fault::AccountOfZero, ": a written account of 0"),
    (Fault::Tail, ""),
    (Fault::Rule(Rule::Ends), ": ends off the ring or equal"),
    (Fault::Rule(Rule::Numbers), ": a number twice"),
    (Fault::Rule(Rule::Ports), ": more circuits than ports"),
    (Fault::Rule(Rule::Order), ": the higher number first"),
    (Fault::Rule(Rule::Sharing), ": two that cannot share there"),
];

fn detail(fault: Fault) -> &'static str {
    FAULTS.iter().find(|(listed, _)| *listed == fault).map_or("", |(_, detail)| detail)
}

impl fmt::Display for Event {
    fn fmt(&self, f: &mut fmt::Formatter) -> fmt::Result {
        f.write_str(&self.words())
    }
}
