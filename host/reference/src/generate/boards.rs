//! Files of a board: records of kind 7, and plain ones among them (02 #107). What happens at a slot is a history of its own, as a file
//! of plain records has it, and several of them are shuffled into one file. Some stop at a record that is damaged, inside or out.

use super::random::Random;
use super::{a_year, another_duration, damage, edge_of_listing_of, fields, framed_noise, history, long};
use super::{plain_file, pressed_again, wanted, without_rows};
use crate::model::events::{self, LONGEST_FILE};
use crate::model::SLOTS;

pub fn file(random: &mut Random) -> Vec<u8> {
    match random.below(100) {
        0..=26 => shuffled(random),
        27..=31 => every_slot(random),
        32..=43 => one_slot(random),
        44..=50 => slots_at_last(random),
        51..=81 => stopped(random),
        82..=87 => {
            let mut bytes = shuffled(random);
            damage(random, &mut bytes);
            bytes
        }
        88..=93 => {
            let mut bytes = shuffled(random);
            damage_inside(random, &mut bytes);
            bytes
        }
        94..=96 => knocked(random),
        97 => long_board(random),
        _ => edge(random),
    }
}

/// The last slot, and the first that is not there.
const LAST: u16 = SLOTS as u16 - 1;

/// A slot that is there: the first, the last, a neighbour of either, or any.
fn slot(random: &mut Random) -> u16 {
    match random.below(8) {
        0..=1 => 0,
        2 => LAST,
        3 => random.pick(&[1, LAST - 1]),
        _ => random.below(u64::from(LAST) + 1) as u16,
    }
}

/// A slot that is not there. Of some the low byte, or the high one, is that of a slot which is.
fn no_slot(random: &mut Random) -> u16 {
    match random.below(4) {
        0 => random.pick(&[LAST + 1, LAST + 2]),
        1 => random.pick(&[255, 256, 256 * LAST, 256 * (LAST + 1), u16::MAX]),
        _ => LAST + 1 + random.below(u64::from(u16::MAX - LAST)) as u16,
    }
}

/// The records of a file, as far as its framing is right: plain ones, and those inside of kind 7.
fn records(file: &[u8]) -> Vec<Vec<u8>> {
    let mut records = Vec::new();
    let mut rest = file;
    while let Some(framed) = Some(rest).filter(|rest| !rest.is_empty()).and_then(|rest| events::frame(rest).ok()) {
        records.push(framed.record.bytes().to_vec());
        rest = &rest[framed.size()..];
    }
    records
}

/// What is said of slot 0: all of it by plain records, none, or some of it.
#[derive(Clone, Copy)]
enum Plain {
    All,
    None,
    Some,
}

impl Plain {
    fn any(random: &mut Random) -> Plain {
        random.pick(&[Plain::All, Plain::None, Plain::Some])
    }

    /// The record as it stands in the file.
    fn put(self, random: &mut Random, slot: u16, record: &[u8]) -> Vec<u8> {
        let plain = match self {
            Plain::All => true,
            Plain::None => false,
            Plain::Some => random.below(2) == 0,
        };
        if slot == 0 && plain {
            record.to_vec()
        } else {
            fields::in_slot(slot, record)
        }
    }
}

/// One call after another at a slot: each has cleared when the next begins, or is still in use.
fn calls(random: &mut Random) -> Vec<Vec<u8>> {
    let mut all = Vec::new();
    for _ in 0..1 + random.below(3) {
        let file = match random.below(10) {
            0 => pressed_again(random),
            1 => framed_noise(random),
            _ => history(random),
        };
        all.extend(records(&file));
        if random.below(2) == 0 {
            all.push(wanted::clearing(random));
        }
    }
    all
}

/// A record that does not belong to what happens at a slot: an event, an opening or a bad field, there or where no slot is.
fn stray(random: &mut Random) -> (u16, Vec<u8>) {
    let slot = if random.below(2) == 0 { slot(random) } else { no_slot(random) };
    let mut record = match random.below(3) {
        0 => fields::opening(random),
        1 => wanted::any(random),
        _ => fields::any(random),
    };
    if random.below(3) == 0 {
        fields::spoil(random, &mut record);
    }
    (slot, record)
}

/// The records of each of these slots in their order, one slot after another at random, for a while or for one record.
fn shuffle(random: &mut Random, plain: Plain, mut left: Vec<(u16, Vec<Vec<u8>>)>) -> Vec<u8> {
    let strays = random.below(3);
    let mut bytes = Vec::new();
    left.iter_mut().for_each(|(_, records)| records.reverse());
    loop {
        left.retain(|(_, records)| !records.is_empty());
        if left.is_empty() {
            return bytes;
        }
        let turn = random.below(left.len() as u64) as usize;
        for _ in 0..random.pick(&[1, 1, 1, 2, 5]) {
            let (slot, records) = &mut left[turn];
            let Some(record) = records.pop() else { break };
            bytes.extend(plain.put(random, *slot, &record));
        }
        if random.below(10) < strays {
            let (slot, record) = stray(random);
            bytes.extend(plain.put(random, slot, &record));
        }
    }
}

/// Calls at some slots, or at one, shuffled.
fn shuffled(random: &mut Random) -> Vec<u8> {
    let count = random.pick(&[1, 2, 2, 3, 3, 4, 6]);
    let mut slots: Vec<u16> = Vec::new();
    while slots.len() < count {
        let slot = slot(random);
        if !slots.contains(&slot) {
            slots.push(slot);
        }
    }
    let plain = Plain::any(random);
    let left = slots.into_iter().map(|slot| (slot, calls(random))).collect();
    shuffle(random, plain, left)
}

/// A call at each of the 64 slots; most are open at once. Then some go on, and each is tried to be opened.
fn every_slot(random: &mut Random) -> Vec<u8> {
    let plain = Plain::any(random);
    let left = (0..=LAST).map(|slot| (slot, vec![fields::opening(random)])).collect();
    let mut bytes = shuffle(random, plain, left);
    let some: Vec<u16> = (0..=LAST).filter(|_| random.below(4) == 0).collect();
    let left = some.into_iter().map(|slot| (slot, calls(random))).collect();
    bytes.extend(shuffle(random, plain, left));
    bytes
}

/// What a file of plain records says, at one slot. What is damaged there stays as it is.
fn one_slot(random: &mut Random) -> Vec<u8> {
    let file = match random.below(8) {
        0 => a_year(random),
        1 => another_duration(random),
        _ => plain_file(random),
    };
    let (slot, plain) = (slot(random), Plain::any(random));
    let mut bytes = Vec::new();
    let mut rest = file.as_slice();
    while let Some(framed) = Some(rest).filter(|rest| !rest.is_empty()).and_then(|rest| events::frame(rest).ok()) {
        bytes.extend(plain.put(random, slot, framed.record.bytes()));
        rest = &rest[framed.size()..];
    }
    bytes.extend(rest);
    bytes.truncate(LONGEST_FILE + 2);
    bytes
}

/// Events that have no row wherever a call comes, in slots.
fn knocked(random: &mut Random) -> Vec<u8> {
    let left = vec![(slot(random), records(&without_rows(random)))];
    let plain = Plain::any(random);
    shuffle(random, plain, left)
}

/// Plain records, and one of kind 7 as the last: whatever it gets, all lines have slots.
fn slots_at_last(random: &mut Random) -> Vec<u8> {
    let all = records(&history(random));
    let mut bytes = all[..=random.below(all.len() as u64) as usize].concat();
    let (slot, record) = match random.below(6) {
        0..=2 => (0, wanted::any(random)),
        3 => (0, fields::opening(random)),
        _ => stray(random),
    };
    bytes.extend(fields::in_slot(slot, &record));
    bytes
}

/// A file that stops at a record which is broken, after plain records alone or after those of a board; where it does not end there,
/// records of kind 7 come after it, and are not read.
fn stopped(random: &mut Random) -> Vec<u8> {
    let mut bytes = if random.below(2) == 0 { history(random) } else { shuffled(random) };
    if random.below(8) == 0 {
        bytes.clear();
    }
    let (broken, more) = broken(random);
    bytes.extend(broken);
    if more && random.below(2) == 0 {
        let (slot, record) = stray(random);
        bytes.extend(fields::in_slot(slot, &record));
    }
    bytes
}

/// A record that stops the reading, for each reason that there is; and whether more may come after it.
fn broken(random: &mut Random) -> (Vec<u8>, bool) {
    let slot = if random.below(3) == 0 { no_slot(random) } else { slot(random) };
    let inner = fields::any(random);
    let whole = fields::in_slot(slot, &inner);
    let size = whole.len() as u64;
    let longest = fields::in_slot(slot, &fields::longest_message(random));
    let mut filler = |size: u64| (0..size).map(|_| random.byte()).collect::<Vec<u8>>();
    let head = |length: u8, kind: u16| [vec![length, 0], kind.to_le_bytes().to_vec()].concat();
    let (bytes, rest) = (filler(40), filler(600));
    match random.below(34) {
        // cut short: before the kind, in it, after it
        0 => (vec![random.byte()], false),
        1 => (whole[..2 + random.below(2) as usize].to_vec(), false),
        24 => (whole[..2 + random.below(size - 2) as usize].to_vec(), false),
        2 => (longest[..2 + random.below(35) as usize].to_vec(), false),
        3 => (vec![30 + random.below(6) as u8, 0], false),
        4 => (vec![30 + random.below(6) as u8, 0, random.pick(&[7, 7, 3, 9])], false),
        5 | 29 => {
            let length = 2 + random.below(6) as usize;
            ([head(length as u8, 7), bytes[..random.below(length as u64 - 1) as usize].to_vec()].concat(), false)
        }
        // a length that none has
        6 => ([vec![random.below(2) as u8, 0], bytes[..4].to_vec()].concat(), true),
        7 | 27 | 28 => {
            let length: u16 = random.pick(&[36, 36, 36, 36, 37, 255, 256, 0x0108, 0x0702, 0xFFFF]);
            let follow = usize::from(length.min(500));
            let follow = if random.below(2) == 0 { follow } else { random.below(follow as u64) as usize };
            ([length.to_le_bytes().to_vec(), [&[7, 0], &rest[..]].concat()[..follow].to_vec()].concat(), true)
        }
        // 30 to 35 with another kind, whole or not
        8..=9 | 26 => {
            let length = 30 + random.below(6) as usize;
            let kind = random.pick(&[0, 1, 2, 3, 4, 5, 6, 8, 9, 255, 263, 0x0700]);
            let follow = if random.below(2) == 0 { length - 2 } else { random.below(length as u64 - 2) as usize };
            ([head(length as u8, kind), bytes[..follow].to_vec()].concat(), follow == length - 2)
        }
        // kind 7 with no place for a record
        10..=11 | 25 => {
            let length = 2 + random.below(6) as usize;
            ([head(length as u8, 7), bytes[..length - 2].to_vec()].concat(), true)
        }
        // the inner length does not fill it: it says too little or too much, or more than there can be
        12..=14 => {
            let mut record = whole;
            let right = record[6];
            record[6] = random.pick(&[0, 1, right.wrapping_sub(1), right + 1, right + 6, 35, 255]);
            if record[6] == right || random.below(4) == 0 {
                record[7] = random.pick(&[1, 255]);
            }
            if random.below(3) == 0 {
                record[8] = random.pick(&[0, 7, 9]);
            }
            (record, true)
        }
        // an inner kind that none has; 7 is none, with all that belongs to it
        15..=17 => {
            let mut record = whole;
            let kind: u16 = random.pick(&[0, 7, 8, 9, 255, 256, 0x0105, 0x0700, 0xFFFF]);
            record[8..10].copy_from_slice(&kind.to_le_bytes());
            (record, true)
        }
        18 => (fields::in_slot(slot, &fields::in_slot(slot, &fields::expiry())), true),
        // an inner record of another length than its kind's
        19..=21 => {
            let kind = 1 + random.below(6) as u8;
            let body = random.below(28) as usize;
            let body = if [11, 10, 99, 2, 0, 4][usize::from(kind) - 1] == body { body + 1 } else { body };
            let mut inner = [vec![body as u8 + 2, 0, kind, 0], bytes[..body].to_vec()].concat();
            // the parts of a message may say just this length, and then one of them less or more does not
            if events::plain(&inner).is_ok() {
                inner[8] ^= 16;
            }
            (fields::in_slot(slot, &inner), true)
        }
        // a plain record of an unknown kind, or of another length than its kind's
        22 => (head(2, random.pick(&[0, 8, 255, 256, 263, 0x0700])), true),
        _ => {
            let kind = 1 + random.below(6) as u16;
            let body = if kind == 5 { 1 } else { 0 };
            ([head(2 + body as u8, kind), bytes[..body].to_vec()].concat(), true)
        }
    }
}

/// Damages a record of kind 7 at its length, its kind, its slot, or the inner length, kind or parts.
fn damage_inside(random: &mut Random, bytes: &mut [u8]) {
    let mut starts = Vec::new();
    let mut at = 0;
    while let Some(framed) =
        Some(&bytes[at..]).filter(|rest| !rest.is_empty()).and_then(|rest| events::frame(rest).ok())
    {
        if framed.named.is_some() {
            starts.push(at);
        }
        at += framed.size();
    }
    if starts.is_empty() {
        return;
    }
    let start = random.pick(&starts);
    let size = 2 + usize::from(bytes[start]);
    let place = start + random.pick(&[0, 0, 1, 2, 3, 4, 5, 6, 6, 7, 8, 8, 9, 14]).min(size - 1);
    let (old, bit) = (bytes[place], 1 << random.below(8));
    bytes[place] = match random.below(3) {
        0 => random.pick(&[0, 1, 7, 8, 29, 30, 35, 36, 64]),
        1 => random.pick(&[old.wrapping_add(1), old.wrapping_sub(1), old ^ bit]),
        _ => random.byte(),
    };
}

/// A file of about 65,536 bytes, most of them in slots.
fn long_board(random: &mut Random) -> Vec<u8> {
    if random.below(2) == 0 {
        let mut bytes = shuffled(random);
        bytes.extend(long(random));
        bytes.truncate(LONGEST_FILE);
        return bytes;
    }
    let mut bytes = every_slot(random);
    let size = LONGEST_FILE - 20 + random.pick(&[0, 19, 20, 20, 21, 21, 60]);
    while bytes.len() < size {
        let slot = slot(random);
        bytes.extend(fields::in_slot(slot, &fields::longest_message(random)));
    }
    bytes.truncate(size);
    bytes
}

/// A listing about as long as the buffer, whose lines have slots: each record names one; or only the last does, perhaps one that is not
/// there, and without it the listing would fit.
fn edge(random: &mut Random) -> Vec<u8> {
    if random.below(2) == 0 {
        let slot = slot(random);
        return edge_of_listing_of(random, |_, record| fields::in_slot(slot, &record));
    }
    let last = if random.below(2) == 0 { 0 } else { no_slot(random) };
    edge_of_listing_of(random, |after, record| if after > 0 { record } else { fields::in_slot(last, &record) })
}

#[cfg(test)]
mod tests {
    use super::*;
    use crate::listing;

    #[test]
    fn broken_records_stop_the_reading() {
        let mut random = Random::new(3, 0);
        for _ in 0..5000 {
            let (bytes, _) = broken(&mut random);
            assert!(events::frame(&bytes).is_err(), "{bytes:02x?}");
        }
    }

    #[test]
    fn slots_are_there_or_not() {
        let mut random = Random::new(3, 1);
        for _ in 0..5000 {
            assert!(slot(&mut random) < 64);
            assert!(no_slot(&mut random) >= 64);
        }
    }

    #[test]
    fn the_edge_of_a_listing_with_slots_is_hit() {
        let mut lengths = Vec::new();
        for ordinal in 0..60 {
            let file = edge(&mut Random::new(4, ordinal));
            assert!(file.len() <= LONGEST_FILE);
            let listing = listing::listing(&file, usize::MAX).expect("any length fits");
            assert!(listing.slots);
            lengths.push(listing.text.len());
        }
        lengths.sort();
        lengths.dedup();
        assert_eq!(lengths, (listing::ROOM - 2..=listing::ROOM + 2).collect::<Vec<_>>());
    }
}
