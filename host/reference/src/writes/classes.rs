//! Counts how often each class of events and rooms was reached.

use crate::tally::Tally;
use crate::write::{part, Event, Message, Nature, Number, Refusal};

/// An event, the room that it was lent, and what the model gave: the record's length or a refusal.
pub struct Case {
    pub event: Event,
    pub room: usize,
    pub given: Result<usize, Refusal>,
}

impl Case {
    fn written(&self) -> bool {
        self.given.is_ok()
    }

    fn no_room(&self) -> bool {
        self.given == Err(Refusal::NoRoom)
    }

    fn bad_field(&self) -> bool {
        matches!(self.given, Err(Refusal::BadField { .. }))
    }

    /// Whether this field, and no other, is out of its range.
    fn only_bad(&self, field: &str) -> bool {
        self.event.bad_fields() == [field]
    }

    fn message(&self) -> Option<&Message> {
        match &self.event {
            Event::Message(message) => Some(message),
            _ => None,
        }
    }

    /// The numbers that are wanted in the event, each by what it is.
    fn wanted(&self) -> Vec<(&'static str, Number)> {
        match &self.event {
            Event::Opening { own, .. } => vec![(NUMBERS[0], *own)],
            Event::Request { request: 0..=1, called } => vec![(NUMBERS[1], *called)],
            Event::Message(message) => {
                [(part::CALLING, NUMBERS[2], message.calling), (part::CALLED, NUMBERS[3], message.called)]
                    .into_iter()
                    .filter(|(part, _, _)| message.names(*part))
                    .map(|(_, name, number)| (name, number))
                    .collect()
            }
            _ => vec![],
        }
    }

    /// Whether a number of which this holds is wanted in the event.
    fn wants(&self, holds: impl Fn(Number) -> bool) -> bool {
        self.wanted().into_iter().any(|(_, number)| holds(number))
    }
}

/// What a number is that is wanted.
const NUMBERS: [&str; 4] = ["own number", "called number of a request", "calling number", "called number"];

/// How a dump shows the nature: the names of classes have it before the rest.
fn sign(nature: Nature) -> &'static str {
    match nature {
        Nature::National => "",
        Nature::International => "+",
    }
}

const KINDS: [&str; 6] = ["opening", "request", "message", "access", "expiry", "time"];

/// The fields that can be out of range, by the number of the kind.
const FIELDS: [(u8, &str); 16] = [
    (1, "role"),
    (1, "flags"),
    (1, "number"),
    (2, "request"),
    (2, "number"),
    (3, "message"),
    (3, "cause"),
    (3, "component"),
    (3, "item"),
    (3, "parts"),
    (3, "calling number"),
    (3, "called number"),
    (3, "duration"),
    (4, "told"),
    (4, "error"),
    (6, "seconds"),
];

pub type Classes = Tally<Case>;

impl Classes {
    pub fn all() -> Classes {
        let mut classes = Tally::new();
        classes.answers();
        classes.bad_fields();
        classes.ordinals();
        classes.values();
        classes.bounds();
        classes.natures();
        classes.unnamed();
        classes
    }

    /// Each kind with each number and each room; an expiry has no field that could be bad.
    fn answers(&mut self) {
        for (kind, name) in (1..).zip(KINDS) {
            let mut add = |what: &str, holds: fn(&Case) -> bool| {
                self.add(format!("{name}: {what}"), move |case| case.event.kind() == kind && holds(case));
            };
            add("0", Case::written);
            add("0, the exact room", |case| case.given == Ok(case.room));
            add("0, more room", |case| case.given.is_ok_and(|length| length < case.room));
            add("8", Case::no_room);
            add("8, no room", |case| case.no_room() && case.room == 0);
            add("8, a byte too few", |case| case.no_room() && case.room + 1 == case.event.size());
            if name != "expiry" {
                add("3", Case::bad_field);
                add("3, no room", |case| case.bad_field() && case.room == 0);
                add("3, a byte too few", |case| case.bad_field() && case.room + 1 == case.event.size());
                add("3, room", |case| case.bad_field() && case.room >= case.event.size());
            }
        }
    }

    fn bad_fields(&mut self) {
        for (kind, field) in FIELDS {
            let name = KINDS[usize::from(kind) - 1];
            self.add(format!("{name}: {field} alone bad"), move |case| {
                case.event.kind() == kind && case.only_bad(field)
            });
        }
    }

    /// Each ordinal alone, and before each that is bad too. In a message the numbers are 6 and 7; a called number alone is 6; a Duration
    /// that is named is never bad.
    fn ordinals(&mut self) {
        for (kind, fields) in [(1, 3), (2, 2), (3, 7), (4, 2), (6, 1)] {
            let name = KINDS[usize::from(kind) - 1];
            for first in 1..=fields {
                self.add(format!("{name}: field {first} bad"), move |case| {
                    case.event.kind() == kind && case.event.bad_ordinals() == [first]
                });
                for second in first + 1..=fields {
                    // an item belongs to a component, and none is bad beside one that is not known
                    if (kind, first, second) == (3, 3, 4) {
                        continue;
                    }
                    self.add(format!("{name}: fields {first} and {second} bad"), move |case| {
                        case.event.kind() == kind && case.event.bad_ordinals() == [first, second]
                    });
                }
            }
        }
        self.add("message: a called number alone is 6".into(), |case| {
            case.only_bad("called number") && case.given == Err(Refusal::BadField { ordinal: 6 })
        });
        for part in [part::CALLING, part::CALLED, part::DURATION] {
            self.add(
                format!("message: part {part} not named and there, a number that is named out of range"),
                move |case| {
                    let there = |message: &Message| match part {
                        part::CALLING => message.calling != Number::ABSENT,
                        part::CALLED => message.called != Number::ABSENT,
                        _ => message.duration != 0,
                    };
                    case.message().is_some_and(|m| !m.names(part) && there(m))
                        && case.wants(|number| !number.in_range())
                        && case.given == Err(Refusal::BadField { ordinal: 5 })
                },
            );
        }
    }

    /// Each value that has a name, written.
    fn values(&mut self) {
        for value in 0..2 {
            self.written(
                format!("role {value}"),
                move |event| matches!(event, Event::Opening { role, .. } if *role == value),
            );
        }
        for flag in [1, 2, 4, 8, 16] {
            self.written(
                format!("flag {flag}"),
                move |event| matches!(event, Event::Opening { flags, .. } if flags & flag != 0),
            );
        }
        for value in 0..4 {
            self.written(
                format!("request {value}"),
                move |event| matches!(event, Event::Request { request, .. } if *request == value),
            );
        }
        for value in 1..6 {
            self.message(format!("message {value}"), move |message| message.message == value);
            self.written(
                format!("told {value}"),
                move |event| matches!(event, Event::Access { told, .. } if *told == value),
            );
        }
        for (component, item) in
            [(0, 0), (1, 1), (1, 2), (1, 3), (2, 1), (2, 2), (2, 3), (3, 0), (3, 12), (3, 255), (4, 0)]
        {
            self.message(format!("component {component} with {item}"), move |message| {
                (message.component, message.item) == (component, item)
            });
        }
        for part in [1, 2, 4, 8] {
            self.message(format!("part {part}"), move |message| message.names(part));
        }
        for values in 0..8 {
            self.message(format!("parts {} and none else with bytes", values << 4), move |message| {
                message.parts >> 4 == values
            });
        }
        for value in [0, 4, 12, 255] {
            self.written(format!("access error {value}"), move |event| {
                *event == Event::Access { told: 2, error: value }
            });
        }
    }

    fn written(&mut self, name: String, holds: impl Fn(&Event) -> bool + 'static) {
        self.add(name, move |case| case.written() && holds(&case.event));
    }

    fn message(&mut self, name: String, holds: impl Fn(&Message) -> bool + 'static) {
        self.add(name, move |case| case.written() && case.message().is_some_and(&holds));
    }

    /// The last value in range is written, and the first out of it is the event's only bad field.
    fn bounds(&mut self) {
        self.written("flags 31".into(), |event| matches!(event, Event::Opening { flags: 31, .. }));
        self.add("flags 32 and more".into(), |case| {
            case.only_bad("flags") && matches!(case.event, Event::Opening { flags: 32..=63, .. })
        });
        self.message("cause 127".into(), |message| message.cause == 127);
        self.add("cause 128".into(), |case| case.only_bad("cause") && case.message().is_some_and(|m| m.cause == 128));
        self.add("component 5".into(), |case| {
            case.only_bad("component") && case.message().is_some_and(|m| m.component == 5)
        });
        self.add("operation 0".into(), |case| {
            case.only_bad("item") && case.message().is_some_and(|m| matches!(m.component, 1 | 2) && m.item == 0)
        });
        self.add("operation 4".into(), |case| {
            case.only_bad("item") && case.message().is_some_and(|m| matches!(m.component, 1 | 2) && m.item == 4)
        });
        self.add("part 4 without 2".into(), |case| {
            case.only_bad("parts") && case.message().is_some_and(|m| m.parts & 134 == 4)
        });
        self.add("part 128".into(), |case| {
            case.only_bad("parts") && case.message().is_some_and(|m| m.names(128) && m.parts & 6 != 4)
        });
        self.message("the longest duration".into(), |message| message.duration == u32::MAX);
        for seconds in [0, 86_400] {
            self.written(format!("seconds {seconds}"), move |event| *event == Event::Time { seconds });
        }
        for seconds in [86_401, u32::MAX] {
            self.add(format!("seconds {seconds}"), move |case| case.event == Event::Time { seconds });
        }
        self.add("a wanted number is absent".into(), |case| {
            bad_number(case) && case.wants(|number| number == Number::ABSENT)
        });
    }

    /// Each number with each nature, and the bounds of both. A count of 128 or more is no count byte.
    fn natures(&mut self) {
        for nature in Nature::ALL {
            let sign = sign(nature);
            for name in NUMBERS {
                let is = move |case: &Case, holds: fn(Number) -> bool| {
                    case.wanted().into_iter().any(|(n, number)| n == name && number.nature == nature && holds(number))
                };
                self.add(format!("{name} {sign}digits"), move |case| case.written() && is(case, |_| true));
                self.add(format!("{name} {sign}0:0"), move |case| {
                    bad_number(case) && is(case, |number| (number.count, number.value) == (0, 0))
                });
                self.add(format!("{name} with a count of {sign}16 to 127"), move |case| {
                    bad_number(case) && is(case, |number| (16..128).contains(&number.count))
                });
                self.add(format!("{name} with a value of more than {sign}digits"), move |case| {
                    bad_number(case) && is(case, |number| (1..16).contains(&number.count) && !number.in_range())
                });
                self.add(format!("{name} with a count of {sign}128 and digits in range"), move |case| {
                    bad_number(case)
                        && is(case, |number| {
                            number.count > 128 && Number { count: number.count - 128, ..number }.in_range()
                        })
                });
            }
            for digits in 1..=15 {
                let nines = 10_u64.pow(digits) - 1;
                let most = Number { nature, count: digits as u8, value: nines };
                let over = Number { value: nines + 1, ..most };
                self.add(format!("{sign}{digits} nines"), move |case| case.written() && case.wants(|n| n == most));
                self.add(format!("ten to the {sign}{digits}"), move |case| {
                    bad_number(case) && case.wants(|number| number == over)
                });
            }
            for count in [0, 16, 127, 128, 255] {
                self.add(format!("a count of {sign}{count}"), move |case| {
                    bad_number(case) && case.wants(|number| (number.nature, number.count) == (nature, count))
                });
            }
        }
    }

    /// A field that nothing names, its least value among them.
    fn unnamed(&mut self) {
        for (name, number) in [
            ("nature", Number::international(0, 0)),
            ("count", Number::national(1, 0)),
            ("value", Number::national(0, 1)),
        ] {
            self.add(format!("a {name} in a request B or C"), move |case| {
                case.only_bad("number")
                    && matches!(case.event, Event::Request { request: 2..=3, called } if called == number)
            });
            self.add(format!("a {name} of a calling number not named"), move |case| {
                case.only_bad("calling number")
                    && case.message().is_some_and(|m| !m.names(part::CALLING) && m.calling == number)
            });
            self.add(format!("a {name} of a called number not named"), move |case| {
                case.only_bad("called number")
                    && case.message().is_some_and(|m| !m.names(part::CALLED) && m.called == number)
            });
        }
        self.add("a duration of 1 not named".into(), |case| {
            case.only_bad("duration") && case.message().is_some_and(|m| m.duration == 1)
        });
    }
}

/// A number, and nothing else, is out of its range.
fn bad_number(case: &Case) -> bool {
    matches!(case.event.bad_fields()[..], ["number" | "calling number" | "called number"])
}

#[cfg(test)]
mod tests {
    use super::*;
    use crate::generate::lent::lent;
    use crate::write::Asked;

    fn classes_of(count: u64) -> Classes {
        let mut classes = Classes::all();
        for ordinal in 0..count {
            let (asked, before) = lent(7, ordinal);
            let given = asked.write(before.len()).map(|record| record.len());
            if let Asked::Event(event) = asked {
                classes.count(&Case { event, room: before.len(), given });
            }
        }
        classes
    }

    #[test]
    fn every_class_is_reached() {
        assert_eq!(classes_of(65_000).missing(), Vec::<&str>::new());
    }

    #[test]
    fn what_is_missing_is_told() {
        let classes = classes_of(10);
        assert!(classes.missing().contains(&"a duration of 1 not named"));
        assert!(classes.report().contains("\nnot reached: "));
    }
}
