//! Counts how often each class of parameters, entries and rooms was reached.

use crate::generate::wires::Question;
use crate::tally::Tally;
use crate::wire::entries::{bad_ordinals, of_entry, Answer};
use crate::wire::read::{self, Met, Refusal};
use crate::wire::{kind, sequence, Component, Says, ERRORS, LONGEST_DURATION, NO_IDENTIFIER};
use crate::write::{part, Event, Nature, Number};

pub struct Reading {
    length: usize,
    message: u8,
    cause: u8,
    room: usize,
    read: Result<Vec<Component>, Refusal>,
    met: Met,
    answer: Answer,
}

pub struct Writing {
    entry: Vec<u8>,
    room: usize,
    read: Result<Option<(Component, Event)>, u8>,
    bad_fields: Vec<&'static str>,
    bad_ordinals: Vec<u32>,
    answer: Answer,
}

/// A question and the model's answer to it.
pub enum Case {
    Read(Reading),
    Write(Writing),
}

impl Case {
    pub fn new(question: &Question, answer: Answer) -> Case {
        match question {
            Question::Read { parameter, message, cause, before } => {
                let (read, met) = read::parameter(parameter);
                let (length, room) = (parameter.len(), before.len());
                Case::Read(Reading { length, message: *message, cause: *cause, room, read, met, answer })
            }
            Question::Write { entry, before } => {
                let read = of_entry(entry);
                let bad_fields = match &read {
                    Ok(Some((component, event))) => {
                        let own = event.bad_fields().into_iter().filter(|name| matches!(*name, "message" | "cause"));
                        own.chain(component.bad_fields()).collect()
                    }
                    _ => vec![],
                };
                let bad_ordinals = match &read {
                    Ok(Some((component, event))) => bad_ordinals(component, event),
                    _ => vec![],
                };
                Case::Write(Writing {
                    entry: entry.clone(),
                    room: before.len(),
                    read,
                    bad_fields,
                    bad_ordinals,
                    answer,
                })
            }
        }
    }
}

impl Reading {
    fn number(&self) -> u32 {
        self.answer.given() % 256
    }

    /// The components, where they were written to the buffer.
    fn written(&self) -> Option<&[Component]> {
        self.read.as_deref().ok().filter(|_| self.number() == 0)
    }

    fn only(&self) -> Option<&Component> {
        match self.written()? {
            [component] => Some(component),
            _ => None,
        }
    }

    fn refusal(&self) -> Option<&Refusal> {
        self.read.as_ref().err()
    }

    fn message_in_range(&self) -> bool {
        (1..=5).contains(&self.message)
    }

    /// The bytes of the entries, which are 11 and those of the parts that have some.
    fn size(&self) -> Option<usize> {
        let components = self.read.as_ref().ok()?;
        let parts = |component: &Component| {
            [(part::CALLING, 9), (part::CALLED, 9), (part::DURATION, 4)]
                .into_iter()
                .map(|(part, bytes)| if component.names(part) { bytes } else { 0 })
                .sum::<usize>()
        };
        Some(components.iter().map(|component| 11 + parts(component)).sum::<usize>().max(11))
    }
}

impl Writing {
    fn number(&self) -> u32 {
        self.answer.given() % 256
    }

    fn component(&self) -> Option<&Component> {
        Some(&self.read.as_ref().ok()?.as_ref()?.0)
    }

    fn written(&self) -> Option<&Component> {
        self.component().filter(|_| self.number() == 0)
    }

    /// The parameter's length, where the component could be written.
    fn size(&self) -> Option<usize> {
        let component = self.component().filter(|_| self.bad_fields.is_empty())?;
        Some(component.octets().len() + 3)
    }

    /// The record's own length, where its two bytes are there.
    fn length(&self) -> Option<u16> {
        Some(u16::from_le_bytes([*self.entry.get(2)?, *self.entry.get(3)?]))
    }

    fn kind(&self) -> Option<u16> {
        Some(u16::from_le_bytes([*self.entry.get(4)?, *self.entry.get(5)?]))
    }
}

pub type Classes = Tally<Case>;

/// Why the module rules an element out, with the words of the reader.
const NOT_REV: [&str; 46] = [
    "another parameter",
    "another profile",
    "no component's tag",
    "no identifier",
    "no identifier's tag",
    "an identifier not of one octet",
    "a NULL with contents",
    "a NULL identifier outside a reject",
    "an invoke without operation",
    "an invoke without operation after the linked identifier",
    "a linked identifier not of one octet",
    "an invoke without SEQUENCE",
    "more in an invoke",
    "a result without SEQUENCE",
    "no SEQUENCE in a result",
    "a result without operation",
    "a result without SEQUENCE of parts",
    "more in the SEQUENCE of a result",
    "more in a result",
    "an error without number",
    "no number of an error",
    "more in an error",
    "a reject without problem",
    "no problem's tag",
    "a problem not of one octet",
    "more in a reject",
    "no object identifier's tag",
    "another object identifier of seven octets",
    "an object identifier not of seven octets",
    "no number of an operation",
    "no SEQUENCE of parts",
    "a part in constructed form",
    "a part after an unknown element",
    "a part twice",
    "a part out of order",
    "a BOOLEAN not of one octet",
    "a number of less than two octets",
    "another nature",
    "an incomplete number, or another plan",
    "a number without digits",
    "a filler other than 0",
    "a number of more than fifteen digits",
    "a digit above 9",
    "a duration not of three octets",
    "more than 59 minutes",
    "more than 59 seconds",
];

/// What an element reader meets at any depth.
const LENGTHS: [&str; 6] = [
    "an end in the identifier octets",
    "an end before the length",
    "an end in the length",
    "an end in the contents",
    "an indefinite length",
    "a reserved length",
];

const NOTES: [&str; 11] = [
    "a linked identifier",
    "FALSE, as absent",
    "TRUE, not FF",
    "other presentation or screening",
    "problem 80",
    "problem 81",
    "problem 82",
    "problem 83",
    "an unknown tag of several octets",
    "an unknown element, primitive",
    "an unknown element, constructed",
];

/// Each kind, operation or error, and set of parts that can be on the wire, with a name for each.
fn forms() -> Vec<(u8, u8, u8)> {
    let mut forms: Vec<_> = ERRORS.map(|error| (kind::ERROR, error, 0)).collect();
    forms.push((kind::REJECT, 0, 0));
    for kind in [kind::INVOKE, kind::RESULT] {
        for item in 1..=3 {
            let places = sequence(kind, item).iter().fold(0, |parts, says: &Says| parts | says.parts());
            let sets = (0..128).filter(|parts| parts & !places == 0 && parts & 6 != 4);
            forms.extend(sets.map(|parts| (kind, item, parts)));
        }
    }
    forms
}

fn is_form(component: &Component, (kind, item, parts): (u8, u8, u8)) -> bool {
    (component.kind, component.item, component.parts) == (kind, item, parts)
}

fn number_of(component: &Component) -> Option<Number> {
    match component.parts & (part::CALLING | part::CALLED) {
        part::CALLING => Some(component.calling),
        part::CALLED => Some(component.called),
        _ => None,
    }
}

impl Classes {
    pub fn all() -> Classes {
        let mut classes = Tally::new();
        classes.read_refusals();
        classes.read_answers();
        classes.read_components();
        classes.read_looser();
        classes.write_answers();
        classes.write_bad_fields();
        classes.write_ordinals();
        classes.write_framing();
        classes.write_components();
        classes
    }

    fn read(&mut self, name: String, holds: impl Fn(&Reading) -> bool + 'static) {
        self.add(format!("read: {name}"), move |case| matches!(case, Case::Read(r) if holds(r)));
    }

    fn write(&mut self, name: String, holds: impl Fn(&Writing) -> bool + 'static) {
        self.add(format!("write: {name}"), move |case| matches!(case, Case::Write(w) if holds(w)));
    }

    fn refused(&mut self, name: String, holds: impl Fn(&Reading, &Refusal) -> bool + 'static) {
        self.read(name, move |reading| reading.refusal().is_some_and(|refusal| holds(reading, refusal)));
    }

    /// Each number at each depth that it has, and each reason.
    fn read_refusals(&mut self) {
        for reason in ["a parameter without name and length", "a parameter with too few bytes"] {
            self.refused(format!("11, {reason}"), move |_, refusal| refusal.reason == reason);
        }
        for reason in ["a parameter with too many bytes", "a parameter without a profile"] {
            self.refused(format!("12, {reason}"), move |_, refusal| refusal.reason == reason);
        }
        for reason in LENGTHS {
            for depth in 1..=9 {
                let number = if depth == 1 && reason.starts_with("an end") { 11 } else { 12 };
                self.refused(format!("{number}, {reason} at depth {depth}"), move |_, refusal| {
                    (refusal.number, refusal.depth, refusal.reason) == (number, depth, reason)
                });
            }
        }
        for (kind, name) in [(kind::INVOKE, "an invoke"), (kind::RESULT, "a result")] {
            self.refused(format!("13 in {name}"), move |reading, refusal| {
                (refusal.number, reading.met.kind) == (13, kind)
            });
        }
        for reason in NOT_REV {
            self.refused(format!("14, {reason}"), move |_, refusal| (refusal.number, refusal.reason) == (14, reason));
        }
        for depth in 0..=4 {
            self.refused(format!("14 at depth {depth}"), move |_, refusal| {
                (refusal.number, refusal.depth) == (14, depth)
            });
        }
        for number in 11..=14 {
            for (name, few, many) in [("first", 0, 0), ("second", 1, 1), ("third or a later", 2, 36)] {
                self.refused(format!("{number} in the {name} component"), move |reading, refusal| {
                    let reached = refusal.depth > 0 && (few..=many).contains(&reading.met.components);
                    refusal.number == number && reached
                });
            }
            self.refused(format!("{number}, message out of range too"), move |reading, refusal| {
                refusal.number == number && !reading.message_in_range()
            });
            self.refused(format!("{number}, cause out of range too"), move |reading, refusal| {
                refusal.number == number && reading.cause > 127
            });
            self.refused(format!("{number}, no room too"), move |reading, refusal| {
                refusal.number == number && reading.room == 0
            });
        }
        self.refused("14 at the very end".into(), |reading, refusal| {
            refusal.number == 14 && refusal.place == reading.length
        });
        self.refused("a parameter that is longer than any".into(), |reading, _| reading.length > 257);
        self.refused("no byte".into(), |reading, _| reading.length == 0);
    }

    /// 0, 3 and 8, with each room.
    fn read_answers(&mut self) {
        for (name, few, many) in [("no component", 0, 0), ("one component", 1, 1), ("several components", 2, 36)] {
            let mut add = |what: &str, holds: fn(&Reading) -> bool| {
                self.read(format!("{name}, {what}"), move |reading| {
                    reading.read.as_ref().is_ok_and(|read| (few..=many).contains(&read.len())) && holds(reading)
                });
            };
            add("0 in the exact room", |reading| reading.number() == 0 && reading.size() == Some(reading.room));
            add("0 with more room", |reading| reading.number() == 0 && reading.size() < Some(reading.room));
            add("8", |reading| reading.number() == 8);
            add("8 with no room", |reading| reading.number() == 8 && reading.room == 0);
            add("8 by a byte", |reading| reading.number() == 8 && reading.size() == Some(reading.room + 1));
            add("3 by the message", |reading| reading.number() == 3 && reading.cause < 128);
            add("3 by the cause", |reading| reading.number() == 3 && reading.message_in_range());
            add("3 by both", |reading| reading.number() == 3 && !reading.message_in_range() && reading.cause > 127);
            add("3 in the exact room", |reading| reading.number() == 3 && reading.size() == Some(reading.room));
            add("3 with too little room", |reading| reading.number() == 3 && reading.size() > Some(reading.room));
        }
        for message in [0, 1, 2, 3, 4, 5, 6, 255] {
            let number = if (1..=5).contains(&message) { 0 } else { 3 };
            self.read(format!("message {message}"), move |reading| {
                reading.message == message && reading.number() == number && reading.cause < 128
            });
        }
        for cause in [0, 127, 128, 255] {
            let number = if cause < 128 { 0 } else { 3 };
            self.read(format!("cause {cause}"), move |reading| {
                reading.cause == cause && reading.number() == number && reading.message_in_range()
            });
        }
    }

    /// Each form, alone and among others; counts and lengths.
    fn read_components(&mut self) {
        for form in forms() {
            let (kind, item, parts) = form;
            self.read(format!("component {kind} with {item}, parts {parts}"), move |reading| {
                reading.only().is_some_and(|component| is_form(component, form))
            });
        }
        for kind in kind::INVOKE..=kind::REJECT {
            for (name, place) in [("first", 0), ("second", 1), ("third", 2)] {
                self.read(format!("component {kind} as the {name} of several"), move |reading| {
                    reading
                        .written()
                        .is_some_and(|read| read.len() > 1 && read.get(place).is_some_and(|c| c.kind == kind))
                });
            }
        }
        for count in [0, 1, 2, 3, 4, 5, 6, 36] {
            self.read(format!("{count} components"), move |reading| {
                reading.written().is_some_and(|read| read.len() == count)
            });
        }
        self.read("the longest parameter".into(), |reading| reading.written().is_some() && reading.length == 257);
        self.read("the most bytes of entries".into(), |reading| {
            reading.written().is_some() && reading.size() == Some(36 * 11)
        });
        for identifier in [0, 127, 128, 255, NO_IDENTIFIER] {
            self.read(format!("identifier {identifier}"), move |reading| {
                reading.only().is_some_and(|component| component.identifier == identifier)
            });
        }
        for nature in Nature::ALL {
            for count in 1..=15 {
                self.read(format!("a {nature:?} number of {count} digits"), move |reading| {
                    reading.only().and_then(number_of).is_some_and(|n| (n.nature, n.count) == (nature, count))
                });
            }
        }
        for duration in [0, 59, 60, 3599, 3600, LONGEST_DURATION] {
            self.read(format!("a duration of {duration}"), move |reading| {
                reading.only().is_some_and(|c| c.names(part::DURATION) && c.duration == duration)
            });
        }
    }

    /// What a neighbour may do otherwise.
    fn read_looser(&mut self) {
        for note in NOTES {
            self.read(note.into(), move |reading| reading.written().is_some() && reading.met.notes.contains(&note));
        }
        self.read("an empty constructed element at depth 8".into(), |reading| {
            let note = "an empty constructed element at the greatest depth";
            reading.written().is_some() && reading.met.notes.contains(&note)
        });
        for (least, most) in [(1, 1), (2, 2), (3, 3), (4, 4), (5, 8), (9, 16), (17, 125), (126, 126)] {
            self.read(format!("lengths of {least} to {most} octets"), move |reading| {
                reading.written().is_some() && (least..=most).contains(&reading.met.length_octets)
            });
        }
        for depth in 2..=8 {
            self.read(format!("elements to depth {depth}"), move |reading| {
                reading.written().is_some() && reading.met.depth == depth
            });
        }
    }

    fn write_answers(&mut self) {
        self.write("0 in the exact room".into(), |writing| {
            writing.number() == 0 && writing.size() == Some(writing.room)
        });
        self.write("0 with more room".into(), |writing| writing.number() == 0 && writing.size() < Some(writing.room));
        self.write("0 with bytes after the record".into(), |writing| {
            writing.number() == 0
                && writing.length().is_some_and(|length| writing.entry.len() > 4 + usize::from(length))
        });
        self.write("8".into(), |writing| writing.number() == 8);
        self.write("8 with no room".into(), |writing| writing.number() == 8 && writing.room == 0);
        self.write("8 by a byte".into(), |writing| writing.number() == 8 && writing.size() == Some(writing.room + 1));
        for number in [3, 5, 6, 7] {
            self.write(format!("{number} with no room"), move |writing| {
                writing.number() == number && writing.room == 0
            });
            self.write(format!("{number} with room"), move |writing| writing.number() == number && writing.room >= 41);
        }
    }

    /// Each field alone out of its range, and the values next to the bounds.
    fn write_bad_fields(&mut self) {
        for field in [
            "message",
            "cause",
            "kind",
            "item",
            "part 128",
            "part 4 without 2",
            "a part without a place",
            "calling number",
            "called number",
            "duration",
            "identifier",
        ] {
            self.write(format!("{field} alone bad"), move |writing| writing.bad_fields == [field]);
        }
        let mut alone = |name: String, field: &'static str, holds: Box<dyn Fn(&Component) -> bool>| {
            self.write(name, move |writing| writing.bad_fields == [field] && writing.component().is_some_and(&holds));
        };
        for kind in [0, 5, 255] {
            alone(format!("kind {kind}"), "kind", Box::new(move |c| c.kind == kind));
        }
        for (kind, item) in [(1, 0), (1, 4), (2, 0), (2, 4), (3, 0), (3, 3), (3, 13), (3, 255), (4, 1)] {
            alone(format!("kind {kind} with {item}"), "item", Box::new(move |c| (c.kind, c.item) == (kind, item)));
        }
        for kind in kind::INVOKE..=kind::REJECT {
            for part in [1, 2, 8, 16, 32, 64] {
                let places = (1..=3).map(|item| sequence(kind, item).iter().fold(0, |all, says| all | says.parts()));
                if places.fold(255, |common, places| common & places) & part == 0 {
                    let name = format!("part {part} without a place in kind {kind}");
                    alone(name, "a part without a place", Box::new(move |c| c.kind == kind && c.names(part)));
                }
            }
        }
        for kind in kind::INVOKE..=kind::REJECT {
            for identifier in [NO_IDENTIFIER, 257, 512, 65_535] {
                let name = format!("identifier {identifier} in kind {kind}");
                if (kind, identifier) != (kind::REJECT, NO_IDENTIFIER) {
                    let holds = move |c: &Component| (c.kind, c.identifier) == (kind, identifier);
                    alone(name, "identifier", Box::new(holds));
                }
            }
        }
        for duration in [LONGEST_DURATION + 1, u32::MAX] {
            alone(format!("duration {duration}"), "duration", Box::new(move |c| c.duration == duration));
        }
        for field in ["calling number", "called number"] {
            for nature in Nature::ALL {
                let mut bad = |what: String, holds: Box<dyn Fn(Number) -> bool>| {
                    let holds = move |n: Number| n.nature == nature && holds(n);
                    let name = format!("{nature:?} {field} {what}");
                    alone(name, field, Box::new(move |c| number_of(c).is_some_and(&holds)));
                };
                for (count, value) in [(0, 0), (0, 1), (16, 0), (127, 0), (1, 10), (15, 1_000_000_000_000_000)] {
                    bad(format!("{count}:{value}"), Box::new(move |n| (n.count, n.value) == (count, value)));
                }
                bad("of the largest value".into(), Box::new(|n| n.value == u64::MAX));
            }
        }
    }

    /// Each ordinal alone, and before each that is bad too. What the parts bring is 6 and 7, the identifier is after it.
    fn write_ordinals(&mut self) {
        for first in 1..=8 {
            self.write(format!("field {first} bad"), move |writing| writing.bad_ordinals == [first]);
            for second in first + 1..=8 {
                // a component that is not known allows any number of its own
                if (first, second) != (3, 4) {
                    self.write(format!("fields {first} and {second} bad"), move |writing| {
                        writing.bad_ordinals == [first, second]
                    });
                }
            }
        }
        for (kind, item, parts, ordinal) in [
            (1, 1, 0, 6),
            (1, 1, 16, 7),
            (1, 3, 32, 7),
            (2, 1, 32, 7),
            (2, 3, 2, 6),
            (2, 3, 80, 8),
            (2, 3, 64, 7),
            (3, 4, 0, 6),
            (4, 0, 0, 6),
        ] {
            self.write(
                format!("the identifier is field {ordinal} in component {kind} with {item}, parts {parts}"),
                move |writing| {
                    let is = |c: &Component| (c.kind, c.item, c.parts & 0x70) == (kind, item, parts & 0x70);
                    writing.bad_fields == ["identifier"]
                        && writing.bad_ordinals == [ordinal]
                        && writing.component().is_some_and(is)
                },
            );
        }
    }

    fn write_framing(&mut self) {
        for length in 0..6 {
            self.write(format!("5, an entry of {length} bytes"), move |writing| {
                writing.number() == 5 && writing.entry.len() == length
            });
        }
        self.write("5, a byte lacks".into(), |writing| {
            writing.number() == 5 && writing.length().is_some_and(|l| writing.entry.len() + 1 == 4 + usize::from(l))
        });
        for length in [0, 1, 30, 255] {
            self.write(format!("6, a length of {length}"), move |writing| {
                writing.number() == 6 && writing.length() == Some(length)
            });
        }
        self.write("6, a length above 255".into(), |writing| {
            writing.number() == 6 && writing.length().is_some_and(|length| length > 255 && length % 256 < 30)
        });
        for kind in 1..=6 {
            self.write(format!("6, not the length of kind {kind}"), move |writing| {
                let framed = writing.length().is_some_and(|length| (2..=29).contains(&length));
                writing.number() == 6 && framed && writing.kind() == Some(kind)
            });
            if kind != 3 {
                self.write(format!("3, a record of kind {kind}"), move |writing| {
                    writing.number() == 3 && writing.kind() == Some(kind)
                });
            }
        }
        for kind in [0, 7, 255] {
            self.write(format!("7, kind {kind}"), move |writing| writing.number() == 7 && writing.kind() == Some(kind));
        }
        self.write("7, a kind above 255".into(), |writing| {
            writing.number() == 7 && writing.kind().is_some_and(|kind| kind > 255 && (1..=6).contains(&(kind % 256)))
        });
        for (name, least, most) in [("past the record", 11, usize::MAX), ("past the entry", 0, 10)] {
            self.write(format!("6, the place of the parts {name}"), move |writing| {
                let short =
                    writing.kind() == Some(3) && writing.length().is_some_and(|length| (2..7).contains(&length));
                writing.number() == 6 && short && (least..=most).contains(&writing.entry.len())
            });
        }
    }

    fn write_components(&mut self) {
        for form in forms() {
            let (kind, item, parts) = form;
            self.write(format!("component {kind} with {item}, parts {parts}"), move |writing| {
                writing.written().is_some_and(|component| is_form(component, form))
            });
        }
        for identifier in [0, 127, 128, 255, NO_IDENTIFIER] {
            self.write(format!("identifier {identifier}, written"), move |writing| {
                writing.written().is_some_and(|component| component.identifier == identifier)
            });
        }
        for nature in Nature::ALL {
            for count in 1..=15_u8 {
                let nines = 10_u64.pow(u32::from(count)) - 1;
                for (what, value) in [("zeros", 0), ("nines", nines)] {
                    let number = Number { nature, count, value };
                    self.write(format!("{count} {what}, {nature:?}"), move |writing| {
                        writing.written().and_then(number_of) == Some(number)
                    });
                }
            }
        }
        for duration in [0, 59, 60, 3599, 3600, LONGEST_DURATION] {
            self.write(format!("a duration of {duration}, written"), move |writing| {
                writing.written().is_some_and(|c| c.names(part::DURATION) && c.duration == duration)
            });
        }
        for message in 1..=5 {
            self.write(format!("message {message}, written"), move |writing| {
                writing.number() == 0 && writing.entry[6] == message
            });
        }
        for cause in [0, 127] {
            self.write(format!("cause {cause}, written"), move |writing| {
                writing.number() == 0 && writing.entry[7] == cause
            });
        }
        self.write("the longest parameter".into(), |writing| writing.written().is_some() && writing.size() == Some(41));
    }
}

#[cfg(test)]
mod tests {
    use super::*;
    use crate::generate::wires::question;

    fn classes_of(count: u64) -> Classes {
        let mut classes = Classes::all();
        for ordinal in 0..count {
            let question = question(7, ordinal);
            let answer = super::super::answer(&question);
            classes.count(&Case::new(&question, answer));
        }
        classes
    }

    #[test]
    fn every_class_is_reached() {
        let classes = classes_of(30_000);
        println!("{}", classes.report());
        assert_eq!(classes.missing(), Vec::<&str>::new());
    }

    #[test]
    fn what_is_missing_is_told() {
        let classes = classes_of(10);
        assert!(classes.missing().contains(&"read: 36 components"));
        assert!(classes.report().contains("\nnot reached: "));
    }
}
