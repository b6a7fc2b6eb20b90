//! Counts how often each class of records to be put in a slot was reached (02 #107).

use crate::tally::Tally;
use crate::write::{Event, InSlot, Refusal};

/// A record that is lent with a slot, the room for the record around it, and what the model gave: a length or a refusal.
pub struct SlotCase {
    pub asked: InSlot,
    pub room: usize,
    pub given: Result<usize, Refusal>,
}

impl SlotCase {
    fn lent(&self) -> &[u8] {
        &self.asked.lent
    }

    /// The two bytes at a place, where they are there.
    fn two(&self, place: usize) -> Option<u16> {
        self.lent().get(place..place + 2).map(|bytes| u16::from_le_bytes([bytes[0], bytes[1]]))
    }

    fn is(&self, kind: u8) -> bool {
        self.asked.event().is_some_and(|event| event.kind() == kind)
    }

    /// How many bytes the record would have, where there is one inside.
    fn size(&self) -> Option<usize> {
        self.asked.plain().ok().map(|plain| plain.len() + 6)
    }

    fn more_follows(&self) -> bool {
        self.asked.plain().is_ok_and(|plain| plain.len() < self.lent().len())
    }

    fn written(&self) -> bool {
        self.given.is_ok()
    }

    fn no_room(&self) -> bool {
        self.given == Err(Refusal::NoRoom)
    }

    fn bad_field(&self) -> bool {
        matches!(self.given, Err(Refusal::BadField { .. }))
    }

    fn framing(&self, number: u8) -> bool {
        self.given == Err(Refusal::Framing(number))
    }

    fn bad_ordinals(&self) -> Vec<u32> {
        self.asked.event().as_ref().map_or(vec![], Event::bad_ordinals)
    }
}

const KINDS: [&str; 6] = ["opening", "request", "message", "access", "expiry", "time"];

pub type SlotClasses = Tally<SlotCase>;

impl SlotClasses {
    pub fn all() -> SlotClasses {
        let mut classes = Tally::new();
        classes.records();
        classes.slots();
        classes.ordinals();
        classes.framings();
        classes
    }

    /// Each kind inside with each number and each room.
    fn records(&mut self) {
        for (kind, name) in (1..).zip(KINDS) {
            let mut add = |what: &str, holds: fn(&SlotCase) -> bool| {
                self.add(format!("in a slot, {name}: {what}"), move |case| case.is(kind) && holds(case));
            };
            add("0, nothing follows", |case| case.written() && !case.more_follows());
            add("0, more follows", |case| case.written() && case.more_follows());
            add("0, the exact room", |case| case.given == Ok(case.room));
            add("0, more room", |case| case.given.is_ok_and(|length| length < case.room));
            add("8, no room", |case| case.no_room() && case.room == 0);
            add("8, a byte too few", |case| case.no_room() && Some(case.room + 1) == case.size());
            add("8, room for the inner record alone", |case| case.no_room() && Some(case.room + 6) >= case.size());
            if name != "expiry" {
                add("3, room", |case| case.bad_field() && Some(case.room) >= case.size());
                add("3, no room", |case| case.bad_field() && case.room == 0);
                add("3, more follows", |case| case.bad_field() && case.more_follows());
            }
        }
        for values in 0..8 {
            self.add(format!("in a slot, a message with parts {}", values << 4), move |case| {
                case.written() && case.is(3) && case.lent()[8] >> 4 & 7 == values
            });
        }
    }

    fn slots(&mut self) {
        for slot in [0, 63, 64, 255, 256, u16::MAX] {
            self.add(format!("slot {slot}"), move |case| case.written() && case.asked.slot == slot);
        }
        self.add("another slot".into(), |case| case.written() && case.asked.slot > 256);
    }

    /// The first bad field is counted in the inner body.
    fn ordinals(&mut self) {
        for (kind, fields) in [(1, 3), (2, 2), (3, 7), (4, 2), (6, 1)] {
            let name = KINDS[usize::from(kind) - 1];
            for first in 1..=fields {
                self.add(format!("in a slot, {name}: field {first} bad"), move |case| {
                    case.is(kind) && case.bad_ordinals() == [first]
                });
                if first < fields {
                    self.add(format!("in a slot, {name}: field {first} bad, and one after it"), move |case| {
                        case.is(kind) && matches!(case.bad_ordinals()[..], [found, _, ..] if found == first)
                    });
                }
            }
        }
    }

    /// Each reason for 5, 6 and 7, in room and in none.
    fn framings(&mut self) {
        let mut add = |number: u8, what: &str, holds: fn(&SlotCase) -> bool| {
            for (room, enough) in [("room", true), ("no room", false)] {
                self.add(format!("in a slot, {number}: {what}, {room}"), move |case| {
                    case.framing(number) && holds(case) && if enough { case.room >= 15 } else { case.room == 0 }
                });
            }
        };
        add(5, "nothing", |case| case.lent().is_empty());
        add(5, "a lone byte", |case| case.lent().len() == 1);
        add(5, "the kind lacks", |case| case.lent().len() == 2);
        add(5, "half a kind", |case| case.lent().len() == 3);
        add(5, "bytes lack after the kind", |case| case.lent().len() > 3);
        add(6, "length 0 or 1", |case| case.two(0) < Some(2));
        add(6, "length 30", |case| case.two(0) == Some(30));
        add(6, "length 31 to 35", |case| (Some(31)..=Some(35)).contains(&case.two(0)));
        add(6, "length 36 to 255", |case| (Some(36)..=Some(255)).contains(&case.two(0)));
        add(6, "length 256 and more", |case| case.two(0) > Some(255));
        add(6, "a length of 30 to 35 of kind 7", |case| case.two(0) > Some(29) && case.two(2) == Some(7));
        add(7, "kind 0", |case| case.two(2) == Some(0));
        add(7, "kind 7", |case| case.two(2) == Some(7));
        add(7, "a whole record of kind 7", |case| {
            case.two(2) == Some(7) && case.two(6).is_some_and(|inner| Some(inner + 6) == case.two(0))
        });
        add(7, "kind 8 to 255", |case| (Some(8)..=Some(255)).contains(&case.two(2)));
        add(7, "kind 256 and more", |case| case.two(2) > Some(255));
        for (kind, name) in (1..).zip(KINDS) {
            self.add(format!("in a slot, 6: {name} of another length"), move |case| {
                case.framing(6) && (Some(2)..=Some(29)).contains(&case.two(0)) && case.two(2) == Some(kind)
            });
        }
    }
}

#[cfg(test)]
mod tests {
    use super::*;
    use crate::generate::lent::lent;
    use crate::write::Asked;

    fn classes_of(count: u64) -> SlotClasses {
        let mut classes = SlotClasses::all();
        for ordinal in 0..count {
            let (asked, before) = lent(7, ordinal);
            let given = asked.write(before.len()).map(|record| record.len());
            if let Asked::InSlot(asked) = asked {
                classes.count(&SlotCase { asked, room: before.len(), given });
            }
        }
        classes
    }

    #[test]
    fn every_class_is_reached() {
        assert_eq!(classes_of(65_000).missing(), Vec::<&str>::new());
    }

    #[test]
    fn what_is_missing_is_told() {
        let classes = classes_of(40);
        assert!(classes.missing().contains(&"in a slot, 7: a whole record of kind 7, no room"));
        assert!(classes.report().contains("\nnot reached: "));
    }
}
