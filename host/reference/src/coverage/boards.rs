//! What a board adds to a file (02 #107): slots, records of kind 7 and their framing, openings at calls that are there, and
//! the lines that show them. Each class has to be reached.

use super::{kind_name, label, records, KINDS, ROWS};
use crate::listing::{listing, Listing, Reached, ROOM};
use crate::model::events::{self, Event, LONGEST_FILE};
use crate::model::{Framed, Given, Phase, SLOTS};
use crate::table::phase_name;
use std::collections::{BTreeMap, BTreeSet};

/// Where a record stands: a plain one in a file without slots or with them, one of kind 7 by its slot.
const FORMS: [&str; 5] = ["plain", "plain among slots", "in slot 0", "in slot 1 to 62", "in slot 63"];

/// The numbers that a record can get in each of them.
const NUMBERS: [u8; 9] = [0, 1, 2, 3, 4, 15, 16, 17, 20];

/// The slots that are not there, the first and the last; some whose low or high byte is a slot; and all others.
const NO_SLOTS: [(&str, u16); 6] =
    [("64", 64), ("65", 65), ("255", 255), ("256", 256), ("16128", 16_128), ("65535", 65_535)];

/// The phases in which an opening can come to a call.
const PHASES: [Phase; 5] = [Phase::None, Phase::Null, Phase::Setup, Phase::Answered, Phase::Cleared];

/// The numbers that the only record of kind 7 can get and yet put slots on every line.
const ALONE: [u8; 8] = [0, 1, 3, 15, 16, 17, 19, 20];

/// How many calls are open at once.
const OPEN: [(&str, std::ops::RangeInclusive<usize>); 6] =
    [("1", 1..=1), ("2", 2..=2), ("3", 3..=3), ("4 to 15", 4..=15), ("16 to 63", 16..=63), ("64", 64..=64)];

/// Of how many other slots a row was applied between two of a slot.
const BETWEEN: [(&str, std::ops::RangeInclusive<usize>); 3] = [("1", 1..=1), ("2", 2..=2), ("3 or more", 3..=SLOTS)];

/// What a call had that is opened anew.
const BEFORE: [&str; 5] = ["seconds", "no seconds", "the same role", "the other role", "another slot open"];

/// The reasons for 5, 6 and 7, each of them with slots on the lines and without.
fn reasons() -> Vec<String> {
    let mut names: Vec<String> =
        ["5: a lone byte", "5: the kind lacks", "5: half a kind", "5: bytes of a plain record lack"]
            .map(str::to_string)
            .to_vec();
    names.extend(["2 to 7", "8 to 29", "30 to 35"].map(|length| format!("5: kind 7 of length {length}, bytes lack")));
    names.extend(["alone", "and half a kind"].map(|kind| format!("5: a length of 30 to 35 {kind}")));
    let lengths = ["0", "1", "36, whole", "36, bytes lack", "37 to 255", "256 and more"];
    names.extend(lengths.map(|length| format!("6: length {length}")));
    for kind in ["known", "unknown"] {
        names.extend(["whole", "bytes lack"].map(|rest| format!("6: a length of 30 to 35, {kind} kind, {rest}")));
    }
    names.extend((2..8).map(|length| format!("6: kind 7 of length {length}")));
    names.extend(["too small", "too large", "of 256 and more"].map(|length| format!("6: an inner length {length}")));
    names.push("6: an inner length that does not fill it, an unknown kind".into());
    names.extend(["0", "7", "8 to 255", "256 and more"].map(|kind| format!("7: inner kind {kind}")));
    names.extend(KINDS.map(|kind| format!("6: inner {kind} of another length")));
    names.extend(["0", "8 to 255", "256 and more"].map(|kind| format!("7: kind {kind}")));
    names.extend(KINDS.map(|kind| format!("6: {kind} of another length")));
    names.push("6 or 7: inside, at a slot that is not there".into());
    names
}

/// Why the record that stands there cannot be read.
fn reason(rest: &[u8]) -> String {
    let two = |at: usize| rest.get(at..at + 2).map(|bytes| usize::from(u16::from_le_bytes([bytes[0], bytes[1]])));
    let Some(length) = two(0) else { return "5: a lone byte".into() };
    let kind = two(2);
    let whole = rest.len() >= 2 + length;
    let kind_class = |kind: usize| match kind {
        0 => "0",
        7 => "7",
        8..=255 => "8 to 255",
        _ => "256 and more",
    };
    match (length, kind) {
        (0..=1, _) => format!("6: length {length}"),
        (36, _) => format!("6: length 36, {}", if whole { "whole" } else { "bytes lack" }),
        (37..=255, _) => "6: length 37 to 255".into(),
        (256.., _) => "6: length 256 and more".into(),
        (30..=35, None) if rest.len() == 2 => "5: a length of 30 to 35 alone".into(),
        (30..=35, None) => "5: a length of 30 to 35 and half a kind".into(),
        (30..=35, Some(kind)) if kind != 7 => {
            let known = if (1..=6).contains(&kind) { "known" } else { "unknown" };
            format!("6: a length of 30 to 35, {known} kind, {}", if whole { "whole" } else { "bytes lack" })
        }
        (_, None) => if rest.len() == 2 { "5: the kind lacks" } else { "5: half a kind" }.into(),
        (_, Some(7)) if !whole => {
            let class = if length < 8 {
                "2 to 7"
            } else if length < 30 {
                "8 to 29"
            } else {
                "30 to 35"
            };
            format!("5: kind 7 of length {class}, bytes lack")
        }
        (_, Some(_)) if !whole => "5: bytes of a plain record lack".into(),
        (2..=7, Some(7)) => format!("6: kind 7 of length {length}"),
        (_, Some(7)) => {
            let (inner, kind) = (two(6).expect("an inner length"), two(8).expect("an inner kind"));
            let known = (1..=6).contains(&kind);
            match inner {
                _ if inner + 6 != length && !known => {
                    "6: an inner length that does not fill it, an unknown kind".into()
                }
                256.. => "6: an inner length of 256 and more".into(),
                _ if inner + 6 < length => "6: an inner length too small".into(),
                _ if inner + 6 > length => "6: an inner length too large".into(),
                _ if !known => format!("7: inner kind {}", kind_class(kind)),
                _ => format!("6: inner {} of another length", KINDS[kind - 1]),
            }
        }
        (_, Some(kind @ 1..=6)) => format!("6: {} of another length", KINDS[kind - 1]),
        (_, Some(kind)) => format!("7: kind {}", kind_class(kind)),
    }
}

/// Whether a record that cannot be read is of kind 7, wrong inside, and names a slot that is not there: the framing comes before 19.
fn wrong_inside_no_slot(rest: &[u8]) -> bool {
    rest.len() >= 6
        && rest[1] == 0
        && (8..=35).contains(&rest[0])
        && rest[2..4] == [7, 0]
        && rest.len() >= 2 + usize::from(rest[0])
        && u16::from_le_bytes([rest[4], rest[5]]) >= SLOTS as u16
}

fn form(slots: bool, reached: &Reached) -> &'static str {
    match (slots, reached.in_slot, reached.slot) {
        (false, _, _) => FORMS[0],
        (true, false, _) => FORMS[1],
        (true, true, 0) => FORMS[2],
        (true, true, 63) => FORMS[4],
        (true, true, _) => FORMS[3],
    }
}

fn opening_name(phase: Phase, good: bool, in_slot: bool) -> String {
    let what = if good { "opening" } else { "bad opening" };
    format!("{what} at a call in {}, {}", phase_name(phase), if in_slot { "in a slot" } else { "plain" })
}

fn stop_name(slots: bool, reason: &str) -> String {
    format!("{reason}, {}", if slots { "lines with slots" } else { "lines without" })
}

/// A message by the parts that bring bytes, another record by its kind.
fn inner_name(framed: &Framed) -> String {
    match framed.record.bytes() {
        [_, _, 3, _, _, _, _, _, parts, ..] => format!("kind 7 around a message with parts {}", parts & 0x70),
        _ => format!("kind 7 around an {}", kind_name(framed)),
    }
}

pub struct Boards {
    counts: BTreeMap<String, u64>,
    files: u64,
}

impl Boards {
    pub fn new() -> Boards {
        let mut names = Vec::new();
        for number in NUMBERS {
            names.extend(FORMS.map(|form| format!("{number} {form}")));
        }
        names.extend(NO_SLOTS.map(|(name, _)| format!("19 at slot {name}")));
        names.push("19 at another slot".into());
        for kind in KINDS {
            names.push(format!("19, {kind}"));
            names.extend((kind != "expiry").then(|| format!("19, bad {kind}")));
        }
        for phase in PHASES {
            for (good, in_slot) in [(true, true), (true, false), (false, true), (false, false)] {
                names.push(opening_name(phase, good, in_slot));
            }
        }
        names.extend(BEFORE.map(|before| format!("opened anew: {before}")));
        names.push("opened anew: seconds counted again".into());
        names.extend((0..SLOTS).map(|slot| format!("slot {slot} opened")));
        names.extend((0..ROWS).map(|place| format!("{} in a slot", label(place))));
        names.extend(KINDS.iter().filter(|kind| **kind != "message").map(|kind| format!("kind 7 around an {kind}")));
        names.extend((0..8).map(|parts| format!("kind 7 around a message with parts {}", parts << 4)));
        names.extend(OPEN.map(|(name, _)| format!("calls open at once: {name}")));
        names.extend(BETWEEN.map(|(name, _)| format!("between two rows of a slot, rows of {name} others")));
        names.push("a call by plain records and by those of kind 7".into());
        names
            .extend(["the first", "between", "the last"].map(|place| format!("the first record of kind 7 is {place}")));
        names.extend(ALONE.map(|number| format!("the only record of kind 7 gets {number}")));
        for reason in reasons() {
            names.extend([true, false].map(|slots| stop_name(slots, &reason)));
        }
        names.extend(PHASES.map(|phase| format!("a stop shows slot 0 in {}, with slots", phase_name(phase))));
        names.extend([true, false].map(|slots| stop_name(slots, "a record of kind 7 after the stop")));
        names.extend([ROOM - 1, ROOM].map(|length| format!("a listing of {length} bytes with slots")));
        names.extend(
            ["8, too long with slots", "8, too long by the slots alone", "8, a listing of 65537 bytes with slots"]
                .map(str::to_string),
        );
        names.push("8, a file with slots of more than 65536 bytes".into());
        names.push("a file with slots of 65536 bytes".into());
        names.push("a listing of 65534 bytes and more, with slots by a last record that gets 19".into());
        Boards { counts: names.into_iter().map(|name| (name, 0)).collect(), files: 0 }
    }

    pub fn all(&self) -> Vec<(String, u64)> {
        self.counts.iter().map(|(name, &count)| (name.clone(), count)).collect()
    }

    /// How many files were listed with slots.
    pub fn files(&self) -> u64 {
        self.files
    }

    /// Nothing can be reached that is no class.
    fn hit(&mut self, name: String) {
        *self.counts.get_mut(&name).unwrap_or_else(|| panic!("no class of a board is called {name}")) += 1;
    }

    pub fn count(&mut self, file: &[u8], listing: &Listing) {
        self.files += u64::from(listing.slots);
        let framed = records(file);
        for (framed, reached) in framed.iter().zip(&listing.reached) {
            self.count_record(listing.slots, framed, reached);
        }
        self.count_calls(listing);
        self.count_stop(file, &framed, listing);
        self.count_slots(file, &framed, listing);
    }

    /// What a record names, says and gets.
    fn count_record(&mut self, slots: bool, framed: &Framed, reached: &Reached) {
        let good = reached.event.is_some();
        if reached.given == Given::NoSuchSlot {
            let name = NO_SLOTS.iter().find(|(_, slot)| *slot == reached.slot).map(|(name, _)| *name);
            self.hit(name.map_or("19 at another slot".into(), |name| format!("19 at slot {name}")));
            self.hit(format!("19, {}{}", if good { "" } else { "bad " }, kind_name(framed)));
            return;
        }
        self.hit(format!("{} {}", reached.given as u8, form(slots, reached)));
        if framed.record.is_opening() {
            self.hit(opening_name(reached.from, good, reached.in_slot));
        }
        if reached.in_slot {
            self.hit(inner_name(framed));
        }
        if let Some(row) = reached.row.filter(|_| reached.in_slot && reached.given == Given::Applied) {
            self.hit(format!("{} in a slot", label(super::place(row))));
        }
    }

    /// What becomes of the calls of a file, slot by slot.
    fn count_calls(&mut self, listing: &Listing) {
        let mut open = BTreeSet::new();
        // of each slot: its last call, the slots that had rows since its last row, how its records stood, whether it was opened anew
        let mut last = BTreeMap::new();
        let mut between: BTreeMap<u16, BTreeSet<u16>> = BTreeMap::new();
        let mut stood: BTreeMap<u16, BTreeSet<bool>> = BTreeMap::new();
        let mut anew = BTreeSet::new();
        for reached in listing.reached.iter().filter(|reached| reached.given == Given::Applied) {
            let (slot, call) = (reached.slot, reached.call);
            if matches!(reached.event, Some(Event::Opening { .. })) {
                self.hit(format!("slot {slot} opened"));
                self.count_anew(reached, last.get(&slot).filter(|_| reached.from == Phase::Cleared), !open.is_empty());
                if reached.from == Phase::Cleared {
                    anew.insert(slot);
                }
                open.insert(slot);
                stood.remove(&slot);
            }
            if anew.contains(&slot) && matches!(reached.event, Some(Event::Time(1..))) && call.total > 0 {
                self.hit("opened anew: seconds counted again".into());
            }
            if call.phase == Phase::Cleared {
                open.remove(&slot);
            }
            if let Some(others) = between.insert(slot, BTreeSet::new()) {
                let class = BETWEEN.iter().find(|(_, count)| count.contains(&others.len()));
                if let Some((name, _)) = class {
                    self.hit(format!("between two rows of a slot, rows of {name} others"));
                }
            }
            for (_, others) in between.iter_mut().filter(|(other, _)| **other != slot) {
                others.insert(slot);
            }
            let stood = stood.entry(slot).or_default();
            if stood.insert(reached.in_slot) && stood.len() == 2 {
                self.hit("a call by plain records and by those of kind 7".into());
            }
            if let Some((name, _)) = OPEN.iter().find(|(_, count)| count.contains(&open.len())) {
                self.hit(format!("calls open at once: {name}"));
            }
            last.insert(slot, call);
        }
    }

    /// An opening at a call that has cleared.
    fn count_anew(&mut self, reached: &Reached, cleared: Option<&crate::model::Call>, others: bool) {
        let Some(cleared) = cleared else { return };
        let seconds = cleared.total > 0 || cleared.sum() > 0;
        self.hit(format!("opened anew: {}", if seconds { BEFORE[0] } else { BEFORE[1] }));
        self.hit(format!("opened anew: {}", if cleared.role == reached.call.role { BEFORE[2] } else { BEFORE[3] }));
        if others {
            self.hit(format!("opened anew: {}", BEFORE[4]));
        }
    }

    /// The record that stops the reading.
    fn count_stop(&mut self, file: &[u8], framed: &[Framed], listing: &Listing) {
        let Some(reached) = listing.reached.get(framed.len()) else { return };
        let rest = &file[framed.iter().map(Framed::size).sum()..];
        self.hit(stop_name(listing.slots, &reason(rest)));
        if wrong_inside_no_slot(rest) {
            self.hit(stop_name(listing.slots, "6 or 7: inside, at a slot that is not there"));
        }
        if listing.slots {
            self.hit(format!("a stop shows slot 0 in {}, with slots", phase_name(reached.call.phase)));
        }
        let next = rest.get(..2).map(|head| 2 + usize::from(u16::from_le_bytes([head[0], head[1]])));
        let behind = next.and_then(|next| rest.get(next..)).filter(|behind| !behind.is_empty());
        if behind.is_some_and(|behind| events::frame(behind).is_ok_and(|framed| framed.named.is_some())) {
            self.hit(stop_name(listing.slots, "a record of kind 7 after the stop"));
        }
    }

    /// Which record puts slots on the lines, and how long file and listing are with them.
    fn count_slots(&mut self, file: &[u8], framed: &[Framed], listing: &Listing) {
        if !listing.slots {
            return;
        }
        let named: Vec<usize> = (0..framed.len()).filter(|&place| framed[place].named.is_some()).collect();
        let place = match named[0] {
            0 => "the first",
            place if place + 1 == listing.reached.len() => "the last",
            _ => "between",
        };
        self.hit(format!("the first record of kind 7 is {place}"));
        if let [only] = named[..] {
            let given = listing.reached[only].given as u8;
            if ALONE.contains(&given) {
                self.hit(format!("the only record of kind 7 gets {given}"));
            }
        }
        if let ([only], true) = (&named[..], listing.text.len() >= ROOM - 2) {
            if listing.reached[*only].given == Given::NoSuchSlot {
                self.hit("a listing of 65534 bytes and more, with slots by a last record that gets 19".into());
            }
        }
        if listing.text.len() >= ROOM - 1 {
            self.hit(format!("a listing of {} bytes with slots", listing.text.len()));
        }
        if file.len() == LONGEST_FILE {
            self.hit("a file with slots of 65536 bytes".into());
        }
    }

    /// A file that is refused with 8: whether it has slots, and what would have fitted.
    pub fn count_refused(&mut self, file: &[u8]) {
        if file.len() > LONGEST_FILE {
            if records(file).iter().any(|framed| framed.named.is_some()) {
                self.hit("8, a file with slots of more than 65536 bytes".into());
            }
            return;
        }
        let Some(listing) = listing(file, usize::MAX).filter(|listing| listing.slots) else { return };
        let slots: usize = listing.reached.iter().map(|reached| format!("{} ", reached.slot).len()).sum();
        self.hit("8, too long with slots".into());
        if listing.text.len() - slots <= ROOM {
            self.hit("8, too long by the slots alone".into());
        }
        if listing.text.len() == ROOM + 1 {
            self.hit("8, a listing of 65537 bytes with slots".into());
        }
    }
}

#[cfg(test)]
mod tests {
    use super::*;

    /// Each reason is that of a class, and of the number that the framing gives.
    #[test]
    fn reasons_have_their_numbers() {
        let broken: [(&[u8], &str); 20] = [
            (&[8], "5: a lone byte"),
            (&[8, 0], "5: the kind lacks"),
            (&[8, 0, 7], "5: half a kind"),
            (&[30, 0], "5: a length of 30 to 35 alone"),
            (&[35, 0, 3], "5: a length of 30 to 35 and half a kind"),
            (&[35, 0, 7, 0], "5: kind 7 of length 30 to 35, bytes lack"),
            (&[29, 0, 7, 0], "5: kind 7 of length 8 to 29, bytes lack"),
            (&[7, 0, 7, 0, 0], "5: kind 7 of length 2 to 7, bytes lack"),
            (&[29, 0, 9, 0], "5: bytes of a plain record lack"),
            (&[36, 0], "6: length 36, bytes lack"),
            (&[0, 1], "6: length 256 and more"),
            (&[30, 0, 3, 0], "6: a length of 30 to 35, known kind, bytes lack"),
            (&[30, 0, 7, 1], "6: a length of 30 to 35, unknown kind, bytes lack"),
            (&[7, 0, 7, 0, 0, 0, 2, 0, 5], "6: kind 7 of length 7"),
            (&[9, 0, 7, 0, 0, 0, 2, 0, 5, 0, 0], "6: an inner length too small"),
            (&[8, 0, 7, 0, 0, 0, 3, 0, 5, 0], "6: an inner length too large"),
            (&[8, 0, 7, 0, 0, 0, 3, 0, 9, 0], "6: an inner length that does not fill it, an unknown kind"),
            (&[8, 0, 7, 0, 0, 0, 2, 0, 7, 0], "7: inner kind 7"),
            (&[8, 0, 7, 0, 0, 0, 2, 0, 6, 0], "6: inner time of another length"),
            (&[2, 0, 0, 1], "7: kind 256 and more"),
        ];
        let known = reasons();
        for (bytes, wanted) in broken {
            assert_eq!(reason(bytes), wanted);
            assert!(known.contains(&wanted.to_string()), "{wanted}");
            let given = events::frame(bytes).expect_err("it cannot be read") as u8;
            assert_eq!(wanted.split(':').next(), Some(given.to_string().as_str()));
        }
    }

    #[test]
    fn what_is_missing_is_told() {
        let boards = Boards::new();
        assert!(boards.all().iter().all(|(_, count)| *count == 0));
        assert!(boards.all().len() > 400);
    }
}
