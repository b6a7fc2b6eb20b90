//! Events for a writer, in range or not, and records to be put in a slot, each with the bytes of the buffer that it is lent.

use super::fields;
use super::random::Random;
use crate::write::{part, Asked, Event, InSlot, Message, Nature, Number};

/// What is asked for and the buffer, of a seed and an ordinal. Each can be made again without those before it.
pub fn lent(seed: u64, ordinal: u64) -> (Asked, Vec<u8>) {
    let mut random = Random::new(seed, ordinal);
    let (asked, size) = if random.below(4) == 0 {
        let asked = in_slot(&mut random);
        // as if there were a record where there is none
        let size = 6 + asked.plain().map_or(9, <[u8]>::len);
        (Asked::InSlot(asked), size)
    } else {
        let event = event(&mut random);
        (Asked::Event(event), event.size())
    };
    let room = room(&mut random, size);
    (asked, (0..room).map(|_| random.byte()).collect())
}

/// A record to be put in a slot: in range, with bad fields, or none at all; bytes may come after it.
fn in_slot(random: &mut Random) -> InSlot {
    let slot = match random.below(4) {
        0 => random.pick(&[0, 63, 64, 255, 256, u16::MAX]),
        _ => random.next() as u16,
    };
    let mut lent = match random.below(16) {
        0..=6 => fields::any(random),
        7..=9 => {
            let mut record = fields::any(random);
            fields::spoil(random, &mut record);
            if random.below(3) == 0 {
                fields::spoil(random, &mut record);
            }
            record
        }
        10 => fields::longest_message(random),
        _ => return InSlot { slot, lent: no_record(random) },
    };
    if random.below(3) == 0 {
        for _ in 0..1 + random.below(12) {
            lent.push(random.byte());
        }
    }
    InSlot { slot, lent }
}

/// What stands where a plain record should: cut short, or of a length or a kind that none has.
fn no_record(random: &mut Random) -> Vec<u8> {
    let mut record = fields::any(random);
    let size = record.len() as u64;
    match random.below(10) {
        0 => vec![],
        1 => record[..1].to_vec(),
        2 => record[..2 + random.below(2) as usize].to_vec(),
        3 => record[..2 + random.below(size - 2) as usize].to_vec(),
        4 => {
            record[0] = random.pick(&[0, 1, 30, 31, 35, 36, 255]);
            record
        }
        5 => {
            record[1] = random.pick(&[1, 255]);
            record
        }
        6..=7 => {
            let kind: u16 = random.pick(&[0, 7, 8, 255, 256, 0x0105, 0xFFFF]);
            record[2..4].copy_from_slice(&kind.to_le_bytes());
            record
        }
        8 => fields::in_slot(5, &record),
        // of another length than its kind's, with as many bytes; the parts of a message may say just that
        _ => {
            let length = 2 + random.below(28) as usize;
            record[0] = length as u8;
            record.resize(2 + length, 0);
            record
        }
    }
}

/// Half of them are in range; the rest have one bad field or two, or any bytes at all.
fn event(random: &mut Random) -> Event {
    match random.below(20) {
        0..=9 => Event::of_record(&fields::any(random)),
        10..=14 => spoilt(random, 1),
        15 => spoilt(random, 2),
        16 => unnamed(random),
        17 => unnamed_and_spoilt(random),
        18 => large_count(random),
        _ => wild(random),
    }
}

/// An event with bad fields; its parts name all the numbers that it has.
fn spoilt(random: &mut Random, times: u32) -> Event {
    let mut record = fields::any(random);
    for _ in 0..times {
        fields::spoil(random, &mut record);
    }
    Event::of_record(&record)
}

/// A message with a number or Duration that its parts do not name.
fn unnamed(random: &mut Random) -> Event {
    let (name, component) = (1 + random.below(5) as u8, random.below(5) as u8);
    let item = fields::good_detail(random, component);
    let parts = fields::good_parts(random.byte());
    let Event::Message(mut message) = Event::of_record(&fields::message(random, name, component, item, parts)) else {
        unreachable!("the record of a message")
    };
    match random.below(3) {
        0 => {
            message.parts &= !part::CALLING;
            message.calling = not_absent(random);
        }
        1 => {
            message.parts &= !part::CALLED;
            message.called = not_absent(random);
        }
        _ => {
            message.parts &= !part::DURATION;
            message.duration = random.duration().max(1);
        }
    }
    Event::Message(message)
}

/// The same, and a field before it or a number after it is bad too.
fn unnamed_and_spoilt(random: &mut Random) -> Event {
    let Event::Message(mut message) = unnamed(random) else { unreachable!("a message") };
    let bad = Number { nature: random.pick(&Nature::ALL), count: random.pick(&[0, 16, 127, 255]), value: 0 };
    match random.below(8) {
        0 => message.message = random.pick(&[0, 6, 255]),
        1 => message.cause = random.pick(&[128, 255]),
        2 => message.component = random.pick(&[5, 255]),
        3 => (message.component, message.item) = random.pick(&[(0, 1), (1, 4), (2, 0), (4, 255)]),
        4..=5 if message.names(part::CALLING) => message.calling = bad,
        4..=7 if message.names(part::CALLED) => message.called = bad,
        _ => message.parts |= 128,
    }
    Event::Message(message)
}

fn not_absent(random: &mut Random) -> Number {
    match random.below(5) {
        0 => Number::national(0, 1),
        1 => Number::national(1, 0),
        2 => Number::international(0, 0),
        3 => Number { nature: random.pick(&Nature::ALL), count: 0, value: random.next().max(1) },
        _ => random.number(),
    }
}

/// An event with a count that no record holds, and which is its only bad field: the count byte of an international number in the place
/// of a count, or any other with the top bit.
fn large_count(random: &mut Random) -> Event {
    let mut number = random.number();
    number.count = random.pick(&[0x80, 0x80 | number.count, 0x80 | number.count, 0xFF]);
    let (name, part) = (1 + random.below(5) as u8, random.pick(&[part::CALLING, part::CALLED]));
    let mut event = Event::of_record(&match random.below(3) {
        0 => fields::opening(random),
        1 => {
            let request = random.below(2) as u8;
            fields::good_ask(random, request)
        }
        _ => fields::message(random, name, 0, 0, part),
    });
    match &mut event {
        Event::Opening { own, .. } => *own = number,
        Event::Request { called, .. } => *called = number,
        Event::Message(message) if part == part::CALLING => message.calling = number,
        Event::Message(message) => message.called = number,
        _ => unreachable!("an event with a number"),
    }
    event
}

/// Fields of any bytes, or of small ones.
fn wild(random: &mut Random) -> Event {
    let least = random.pick(&[4, 8, 32, 256]);
    let mut byte = || random.below(least) as u8;
    let (a, b, c, d, e) = (byte(), byte(), byte(), byte(), byte());
    let counts = (byte(), byte());
    let mut value = || random.next() >> random.below(64);
    let values = (value(), value());
    let seconds = value() as u32;
    let calling = Number { nature: random.pick(&Nature::ALL), count: counts.0, value: values.0 };
    let called = Number { nature: random.pick(&Nature::ALL), count: counts.1, value: values.1 };
    match random.below(6) {
        0 => Event::Opening { role: a, flags: b, own: calling },
        1 => Event::Request { request: a, called },
        2..=3 => Event::Message(Message {
            message: a,
            cause: b,
            component: c,
            item: d,
            parts: e,
            calling,
            called,
            duration: seconds,
        }),
        4 => Event::Access { told: a, error: b },
        _ => Event::Time { seconds },
    }
}

/// The bytes that are lent for a record of this size: none, too few, too few by one, just as many, or more.
pub fn room(random: &mut Random, size: usize) -> usize {
    match random.below(10) {
        0 => 0,
        1 => random.below(size as u64) as usize,
        2 => size - 1,
        3..=6 => size,
        7 => size + 1,
        _ => size + random.below(48) as usize,
    }
}

#[cfg(test)]
mod tests {
    use super::*;

    #[test]
    fn a_seed_gives_the_same_events() {
        let events = |seed| (0..300).map(|ordinal| lent(seed, ordinal)).collect::<Vec<_>>();
        assert_eq!(events(5), events(5));
        assert_ne!(events(5), events(6));
        assert_eq!(lent(5, 299), events(5)[299]);
    }

    #[test]
    fn unnamed_fields_alone_are_bad() {
        let mut random = Random::new(4, 0);
        for _ in 0..2000 {
            let event = unnamed(&mut random);
            assert!(matches!(event.bad_fields()[..], ["calling number" | "called number" | "duration"]), "{event:?}");
        }
    }

    #[test]
    fn large_counts_alone_are_bad() {
        let mut random = Random::new(4, 1);
        for _ in 0..2000 {
            let event = large_count(&mut random);
            assert!(matches!(event.bad_fields()[..], ["number" | "calling number" | "called number"]), "{event:?}");
        }
    }
}
