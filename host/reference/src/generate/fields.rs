//! Records made from fields, good and bad.

use super::random::Random;
use crate::model::events::DAY;
use crate::write::Number;

fn record(kind: u8, body: &[u8]) -> Vec<u8> {
    let mut bytes = vec![body.len() as u8 + 2, 0, kind, 0];
    bytes.extend(body);
    bytes
}

/// A record of kind 7 around another, which need not be one that belongs there.
pub fn in_slot(slot: u16, inner: &[u8]) -> Vec<u8> {
    record(7, &[&slot.to_le_bytes(), inner].concat())
}

pub fn opening_of(role: u8, flags: u8, own: Number) -> Vec<u8> {
    record(1, &[vec![role, flags], own.bytes()].concat())
}

/// An opening in either role. All flags occur; but interaction is mostly allowed and the user mostly subscribed, since
/// the services are refused otherwise.
pub fn opening(random: &mut Random) -> Vec<u8> {
    let role = random.below(2) as u8;
    let mut flags = random.below(32) as u8;
    if random.below(5) > 0 {
        flags |= 8;
    }
    if random.below(3) > 0 {
        flags |= 4;
    }
    let own = random.number();
    opening_of(role, flags, own)
}

pub fn ask(request: u8, number: Number) -> Vec<u8> {
    record(2, &[vec![request], number.bytes()].concat())
}

/// A request with the number that belongs to it.
pub fn good_ask(random: &mut Random, request: u8) -> Vec<u8> {
    let number = if request < 2 { random.number() } else { Number::ABSENT };
    ask(request, number)
}

/// A message; the numbers and the duration follow its parts.
pub fn message(random: &mut Random, name: u8, component: u8, detail: u8, parts: u8) -> Vec<u8> {
    let mut body = vec![name, random.cause(), component, detail, parts];
    for bit in [16, 32] {
        if parts & bit != 0 {
            body.extend(random.number().bytes());
        }
    }
    if parts & 64 != 0 {
        body.extend(random.duration().to_le_bytes());
    }
    record(3, &body)
}

pub fn access(item: u8, error: u8) -> Vec<u8> {
    record(4, &[item, error])
}

pub fn good_access(random: &mut Random, item: u8) -> Vec<u8> {
    let error = if item == 2 { random.error() } else { 0 };
    access(item, error)
}

pub fn expiry() -> Vec<u8> {
    record(5, &[])
}

pub fn time(seconds: u32) -> Vec<u8> {
    record(6, &seconds.to_le_bytes())
}

/// The parts without 128, and with 2 wherever 4 is.
pub fn good_parts(parts: u8) -> u8 {
    let parts = parts & 127;
    if parts & 4 != 0 {
        parts | 2
    } else {
        parts
    }
}

/// The operation or error number that belongs to a component.
pub fn good_detail(random: &mut Random, component: u8) -> u8 {
    match component {
        1 | 2 => 1 + random.below(3) as u8,
        3 => random.error(),
        _ => 0,
    }
}

/// Any event in range, whatever the call is in. Seconds can be out of range.
pub fn any(random: &mut Random) -> Vec<u8> {
    match random.below(16) {
        0 => opening(random),
        1..=3 => {
            let request = random.below(4) as u8;
            good_ask(random, request)
        }
        4..=10 => {
            let name = 1 + random.below(5) as u8;
            let component = random.below(5) as u8;
            let detail = good_detail(random, component);
            let parts = good_parts(random.byte());
            message(random, name, component, detail, parts)
        }
        11..=12 => {
            let item = 1 + random.below(5) as u8;
            good_access(random, item)
        }
        13 => expiry(),
        _ => time(random.seconds()),
    }
}

/// The longest record of all: 31 bytes. A reject in a message other than FAC and REL has no row.
pub fn longest_message(random: &mut Random) -> Vec<u8> {
    let name = 1 + random.below(3) as u8;
    message(random, name, 4, 0, 127)
}

/// A record that has no row at an originating exchange at any time, and is in range: so the number is 1 in every state.
pub fn refused_record(random: &mut Random) -> Vec<u8> {
    match random.below(4) {
        0 => access(5, 0),
        1 => longest_message(random),
        2 => message(random, 1, 0, 0, 0),
        _ => access(1, 0),
    }
}

/// Records that fill a space of at least 32 bytes to its last byte.
pub fn filling(mut space: usize) -> Vec<Vec<u8>> {
    let mut records = Vec::new();
    let mut take = |record: Vec<u8>, space: &mut usize| {
        *space -= record.len();
        records.push(record);
    };
    if space % 2 == 1 {
        take(record(3, &[5, 0, 0, 0, 0]), &mut space);
    }
    if space % 4 == 2 {
        take(access(4, 0), &mut space);
    }
    while space > 0 {
        take(expiry(), &mut space);
    }
    records
}

/// Makes one field of a good record bad. A record without fields stays as it is.
pub fn spoil(random: &mut Random, record: &mut [u8]) {
    let (kind, body) = (record[2], &mut record[4..]);
    match kind {
        1 => match random.below(3) {
            0 => body[0] = random.pick(&[2, 3, 128, 255]),
            1 => body[1] |= random.pick(&[32, 64, 128]),
            _ => spoil_number(random, &mut body[2..]),
        },
        2 => match random.below(2) {
            0 => body[0] = random.pick(&[4, 5, 255]),
            _ => spoil_number(random, &mut body[1..]),
        },
        3 => spoil_message(random, body),
        4 => match random.below(2) {
            0 => body[0] = random.pick(&[0, 6, 7, 255]),
            _ => {
                // An error number where none belongs, or any that does.
                body[1] = random.pick(&[1, 4, 12, 255]);
            }
        },
        6 => {
            let seconds = random.pick(&[DAY + 1, DAY + 2, 1 << 24, u32::MAX]);
            body.copy_from_slice(&seconds.to_le_bytes());
        }
        _ => {}
    }
}

/// The top bit of the first byte of a number: it is international.
const INTERNATIONAL: u8 = 0x80;

/// Bytes of a nature, a count and a value: no digits or too many, or a value with one digit more than the count, of either nature.
fn spoil_number(random: &mut Random, number: &mut [u8]) {
    let (count, nature) = (number[0] & !INTERNATIONAL, random.pick(&[0, INTERNATIONAL]));
    match random.below(4) {
        0 => number[0] = nature | random.pick(&[0, 16, 17, 127]),
        1 => {
            number[0] = nature | count;
            number[1..9].copy_from_slice(&10_u64.pow(u32::from(count.min(15))).to_le_bytes());
        }
        2 => {
            number[0] = nature | count;
            number[8] = random.pick(&[1, 128, 255]);
        }
        // No digits and no value, in nine zero bytes or with the bit; or, where none belong, the bit, a digit or both.
        _ if count > 0 => {
            number[..9].fill(0);
            number[0] = nature;
        }
        _ => number[0] = random.pick(&[1, INTERNATIONAL, INTERNATIONAL | 1]),
    }
}

/// Where there is a number, it is the bad field in half of all messages.
fn spoil_message(random: &mut Random, body: &mut [u8]) {
    let fields = if body.len() >= 14 { 12 } else { 6 };
    match random.below(fields) {
        0 => body[0] = random.pick(&[0, 6, 7, 255]),
        1 => body[1] = random.pick(&[128, 129, 255]),
        2 => body[2] = random.pick(&[5, 6, 128, 255]),
        // The operation or error number of another component.
        3 => {
            body[3] = match body[2] {
                1 | 2 => random.pick(&[0, 4, 12, 255]),
                _ => random.pick(&[1, 2, 3, 255]),
            }
        }
        4 => body[4] |= 128,
        5 => body[4] = body[4] & !2 | 4,
        _ => {
            // The first number there, or the second.
            let second = if body.len() >= 23 && random.below(2) == 0 { 9 } else { 0 };
            spoil_number(random, &mut body[5 + second..14 + second]);
        }
    }
}

#[cfg(test)]
mod tests {
    use super::*;
    use crate::model::events::{plain, Event};

    #[test]
    fn any_event_is_framed_and_in_range() {
        let mut random = Random::new(2, 0);
        for _ in 0..5000 {
            let bytes = any(&mut random);
            let record = plain(&bytes).expect("right framing");
            assert_eq!(record.bytes(), bytes);
            assert!(record.event().is_ok() || bytes[2] == 6, "{bytes:?}");
        }
    }

    /// Spoiling leaves the framing right, so that 3 is what is given.
    #[test]
    fn spoilt_records_are_framed() {
        let mut random = Random::new(2, 1);
        let mut bad = 0;
        for _ in 0..5000 {
            let mut bytes = any(&mut random);
            spoil(&mut random, &mut bytes);
            let record = plain(&bytes).expect("right framing");
            bad += u32::from(record.event().is_err());
        }
        assert!(bad > 3500, "{bad} of 5000 bad");
    }

    #[test]
    fn a_space_is_filled() {
        for space in 32..120 {
            let records = filling(space);
            assert_eq!(records.iter().map(Vec::len).sum::<usize>(), space);
            assert!(records.iter().all(|record| plain(record).is_ok_and(|record| record.event().is_ok())));
        }
        assert_eq!(plain(&expiry()).expect("a record").event(), Ok(Event::Expiry));
    }
}
