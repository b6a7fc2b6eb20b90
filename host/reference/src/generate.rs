//! Event files from a seed. Most are histories that are steered by the model: the next record is mostly one that
//! matters in the state the call is in. The rest are damaged, long, empty or noise. Every other file is one of a board, with
//! records of kind 7 (`boards`).

mod boards;
mod elements;
mod fields;
pub mod lent;
mod random;
mod wanted;
pub mod wires;

use crate::listing;
use crate::model::events::{self, DAY, LONGEST_FILE};
use crate::model::{flag, Call, Phase, Rev, YEAR};
use crate::write::Number;
use random::Random;

/// The file of a seed and an ordinal. Each can be made again without those before it.
pub fn file(seed: u64, ordinal: u64) -> Vec<u8> {
    let mut random = Random::new(seed, ordinal);
    if is_of_a_board(ordinal) {
        boards::file(&mut random)
    } else {
        plain_file(&mut random)
    }
}

/// Whether the file of an ordinal is made for a board: every second one is.
pub fn is_of_a_board(ordinal: u64) -> bool {
    ordinal % 2 == 1
}

/// A file of plain records.
fn plain_file(random: &mut Random) -> Vec<u8> {
    match random.below(1000) {
        0..=2 => Vec::new(),
        3..=12 => noise(random),
        13..=32 => framed_noise(random),
        33..=42 => a_year(random),
        43..=46 => long(random),
        47..=49 => edge_of_listing(random),
        50..=169 => {
            let mut bytes = history(random);
            damage(random, &mut bytes);
            bytes
        }
        170..=199 => pressed_again(random),
        200..=204 => another_duration(random),
        205..=264 => without_rows(random),
        _ => history(random),
    }
}

/// A file being written, with the call that its records lead to.
struct Writer<'r> {
    random: &'r mut Random,
    bytes: Vec<u8>,
    call: Call,
}

impl<'r> Writer<'r> {
    fn new(random: &'r mut Random) -> Writer<'r> {
        Writer { random, bytes: Vec::new(), call: Call::before_opening() }
    }

    fn push(&mut self, record: Vec<u8>) {
        if let Ok(record) = events::plain(&record) {
            self.call = self.call.take(&record).1.call;
        }
        self.bytes.extend(record);
    }

    fn draw(&mut self, make: fn(&mut Random) -> Vec<u8>) {
        let record = make(self.random);
        self.push(record);
    }

    /// One record: mostly one that matters now, sometimes time, any event at all, or one with a bad field. A call that has
    /// cleared is often opened anew.
    fn step(&mut self) {
        let record = match self.random.below(100) {
            0..=29 if self.call.phase == Phase::Cleared => fields::opening(self.random),
            0..=74 => wanted::record(self.random, &self.call),
            75..=84 => fields::time(self.random.seconds()),
            85..=94 => fields::any(self.random),
            _ => {
                let mut record = wanted::record(self.random, &self.call);
                fields::spoil(self.random, &mut record);
                record
            }
        };
        self.push(record);
    }

    /// Events that have no row at the call as it is, openings and bad fields among them: none of them changes it. They
    /// are more where a history seldom comes.
    fn knock(&mut self) {
        let times = if self.call.rev == Rev::Idle { 24 } else { 72 };
        for _ in 0..times {
            let mut record = match self.random.below(12) {
                0 => fields::opening(self.random),
                _ => wanted::any(self.random),
            };
            if self.random.below(8) == 0 {
                fields::spoil(self.random, &mut record);
            }
            let framed = events::plain(&record).expect("right framing");
            if self.call.take(&framed).1.row.is_none() {
                self.push(record);
            }
        }
    }

    fn days(&mut self, count: u64) {
        for _ in 0..count {
            self.push(fields::time(DAY));
        }
    }

    fn open(&mut self) {
        while self.call.phase == Phase::None {
            let record = match self.random.below(20) {
                0 => fields::any(self.random),
                1 => {
                    let mut record = fields::opening(self.random);
                    fields::spoil(self.random, &mut record);
                    record
                }
                _ => fields::opening(self.random),
            };
            self.push(record);
        }
    }
}

/// An opening and up to 40 events; a few more after the call has cleared.
fn history(random: &mut Random) -> Vec<u8> {
    let events = 1 + random.below(40);
    let after_clearing = random.below(4);
    let mut writer = Writer::new(random);
    writer.open();
    let mut cleared = 0;
    for _ in 0..events {
        writer.step();
        if writer.call.phase == Phase::Cleared {
            cleared += 1;
            if cleared > after_clearing {
                break;
            }
        }
    }
    writer.bytes
}

/// A history in which about a year passes after the answer, at one payer or in two runs at several.
fn a_year(random: &mut Random) -> Vec<u8> {
    let mut runs = 1 + random.below(2);
    let mut writer = Writer::new(random);
    writer.open();
    for _ in 0..40 {
        writer.step();
        if runs == 0 || writer.call.phase != Phase::Answered || writer.random.below(3) > 0 {
            continue;
        }
        runs -= 1;
        // All whole days that are left, or some of them if another run comes.
        let left = u64::from(seconds_left(&writer.call) / DAY);
        let part = if runs > 0 { writer.random.below(left + 1) } else { left };
        writer.days(part);
        let left = seconds_left(&writer.call);
        let near = [left, left.saturating_add(1), left.saturating_sub(1), 0, 1, DAY];
        for _ in 0..3 {
            let seconds = writer.random.pick(&near);
            writer.push(fields::time(seconds));
        }
    }
    writer.bytes
}

/// A history of a destination that asks the originating exchange, in case D before the answer and in cases B and C
/// after it. While it waits for the response, each record comes after a second press.
fn pressed_again(random: &mut Random) -> Vec<u8> {
    use flag::{CASE_D, INTERACTION, TRANSFER};
    let flags = INTERACTION | random.pick(&[0, TRANSFER, TRANSFER, TRANSFER, CASE_D, CASE_D | TRANSFER]);
    let own = random.number();
    let mut writer = Writer::new(random);
    writer.push(fields::opening_of(1, flags, own));
    writer.draw(wanted::plain_iam);
    for _ in 0..10 {
        if (writer.call.phase, writer.call.rev) == (Phase::Answered, Rev::Idle) {
            writer.draw(wanted::first_press);
        }
        if matches!(writer.call.rev, Rev::WaitCalled(_)) {
            writer.draw(wanted::second_press);
        }
        writer.step();
    }
    writer.bytes
}

/// A history in which, wherever the call has come, events are tried that have no row there (02 #106).
fn without_rows(random: &mut Random) -> Vec<u8> {
    let steps = 2 + random.below(10);
    let mut writer = Writer::new(random);
    writer.knock();
    writer.open();
    for _ in 0..steps {
        writer.knock();
        writer.step();
    }
    if writer.random.below(2) == 0 {
        writer.draw(wanted::clearing);
    }
    writer.knock();
    writer.bytes
}

/// A history of a destination in case C with transfer in which about a year passes, before and while the response is
/// waited for, and after it. Its Duration mostly says another number of seconds than were counted here, so that in the
/// end the total is full and the meters are not, or the meters are and the total is not.
fn another_duration(random: &mut Random) -> Vec<u8> {
    let own = random.number();
    let mut writer = Writer::new(random);
    writer.push(fields::opening_of(1, flag::INTERACTION | flag::TRANSFER, own));
    writer.draw(wanted::plain_iam);
    writer.draw(wanted::time);
    writer.draw(wanted::answer);
    let days = writer.random.below(u64::from(YEAR / DAY) + 1);
    let waiting = writer.random.below(days + 1);
    writer.days(days - waiting);
    writer.draw(wanted::time);
    writer.draw(wanted::entire_call);
    writer.days(waiting);
    let total = writer.call.total;
    let any = writer.random.duration();
    let duration = writer.random.pick(&[0, 1, total.saturating_sub(1), total, total, total + 1, YEAR, any]);
    let result = wanted::entire_call_accepted(writer.random, duration);
    writer.push(result);
    let left = seconds_left(&writer.call);
    writer.days(u64::from(left / DAY));
    let left = left % DAY;
    for seconds in [left + 1, left, 1, 0] {
        writer.push(fields::time(seconds));
    }
    for _ in 0..4 {
        writer.step();
    }
    writer.bytes
}

/// What the meters and the total can still take.
fn seconds_left(call: &Call) -> u32 {
    YEAR - call.total.max(call.caller + call.called + call.far)
}

/// A file of about 65,536 bytes, just that many, or a little more.
fn long(random: &mut Random) -> Vec<u8> {
    let size = match random.below(8) {
        0..=2 => LONGEST_FILE,
        3 => LONGEST_FILE + 1,
        4 => LONGEST_FILE - 1,
        5 => LONGEST_FILE + 1 + random.below(64) as usize,
        _ => 20_000 + random.below(40_000) as usize,
    };
    match random.below(3) {
        // The reading stops early, so that the length alone decides.
        0 => {
            let mut bytes = history(random);
            bytes.extend([0, 0]);
            bytes.resize(size, 0);
            bytes
        }
        // Long records in a state with a short name: the listing fits. All records are whole.
        1 => {
            let mut writer = Writer::new(random);
            writer.draw(fields::opening);
            while size - writer.bytes.len() > 80 {
                writer.draw(fields::longest_message);
            }
            for record in fields::filling(size - writer.bytes.len()) {
                writer.push(record);
            }
            writer.bytes
        }
        // Any records: the listing is mostly too long.
        _ => {
            let mut writer = Writer::new(random);
            writer.open();
            while writer.bytes.len() < size {
                if writer.call.phase == Phase::Cleared {
                    writer.draw(fields::longest_message);
                } else {
                    writer.step();
                }
            }
            writer.bytes.truncate(size);
            writer.bytes
        }
    }
}

/// A file whose listing is as long as the buffer, or up to two bytes longer or shorter. A record that is refused
/// takes one byte more in SETUP than in NULL, so the place of the request decides the length.
fn edge_of_listing(random: &mut Random) -> Vec<u8> {
    edge_of_listing_of(random, |_, record| record)
}

/// The same of records that are put where `put` says, by how many come after each.
fn edge_of_listing_of(random: &mut Random, put: impl Fn(usize, Vec<u8>) -> Vec<u8>) -> Vec<u8> {
    let target = listing::ROOM - 2 + random.below(5) as usize;
    let with_request_at = |random: &mut Random, place: usize, records: usize| {
        let mut bytes = put(records, fields::opening_of(0, 0, Number::national(1, 1)));
        for ordinal in 0..records {
            let record =
                if ordinal == place { fields::ask(0, Number::national(1, 5)) } else { fields::refused_record(random) };
            bytes.extend(put(records - 1 - ordinal, record));
        }
        bytes
    };
    // So many lines are too long wherever the request stands; then fewer.
    let mut records = 2_900;
    loop {
        let place = records / 2;
        let bytes = with_request_at(random, place, records);
        let length = listing::listing(&bytes, usize::MAX).map_or(0, |listing| listing.text.len());
        // A later request makes the listing shorter by one byte a record, an earlier one longer.
        let moved = place as i64 + length as i64 - target as i64;
        if (0..records as i64).contains(&moved) {
            return with_request_at(random, moved as usize, records);
        }
        records -= 40;
    }
}

/// Bytes without any sense.
fn noise(random: &mut Random) -> Vec<u8> {
    let size = 1 + random.below(64);
    (0..size).map(|_| random.byte()).collect()
}

/// Records whose lengths and kinds are right more often than not, with bodies of any bytes.
fn framed_noise(random: &mut Random) -> Vec<u8> {
    let mut bytes = Vec::new();
    if random.below(2) == 0 {
        bytes.extend(fields::opening(random));
    }
    for _ in 0..1 + random.below(12) {
        let kind = 1 + random.below(6) as u8;
        let body = match kind {
            1 => 11,
            2 => 10,
            3 => random.pick(&[5, 9, 14, 18, 23, 27]),
            4 => 2,
            5 => 0,
            _ => 4,
        };
        bytes.extend([body + 2, 0, kind, 0]);
        let small = random.below(2) == 0;
        for _ in 0..body {
            let byte = random.byte();
            bytes.push(if small { byte % 8 } else { byte });
        }
    }
    bytes
}

/// Damages a file in one place or in a few.
fn damage(random: &mut Random, bytes: &mut Vec<u8>) {
    for _ in 0..1 + random.below(2) {
        if bytes.is_empty() {
            return;
        }
        let place = random.below(bytes.len() as u64) as usize;
        let start = record_start(random, bytes);
        match random.below(8) {
            // cut short
            0 => bytes.truncate(place),
            // a flipped bit, a byte of any value, a byte too few, a byte too many
            1 => bytes[place] ^= 1 << random.below(8),
            2 => bytes[place] = random.byte(),
            3 => {
                bytes.remove(place);
            }
            4 => bytes.insert(place, random.byte()),
            // a wrong length
            5 => {
                let old = bytes[start];
                let length =
                    random.pick(&[0, 1, 2, 7, 8, 28, 29, 30, 35, 36, 255, old.wrapping_add(1), old.wrapping_sub(1)]);
                bytes[start] = length;
            }
            6 if start + 1 < bytes.len() => bytes[start + 1] = random.pick(&[1, 255]),
            // an unknown kind
            _ if start + 3 < bytes.len() => {
                let kind: u16 = random.pick(&[0, 7, 8, 255, 256, 0x0101, 0x0106, 0xFFFF]);
                bytes[start + 2..start + 4].copy_from_slice(&kind.to_le_bytes());
            }
            _ => bytes.truncate(place),
        }
    }
}

/// The start of one of the records of a file, as far as its framing is right.
fn record_start(random: &mut Random, bytes: &[u8]) -> usize {
    let mut starts = vec![0];
    let mut at = 0;
    while let Ok(framed) = events::frame(&bytes[at..]) {
        at += framed.size();
        if at >= bytes.len() {
            break;
        }
        starts.push(at);
    }
    random.pick(&starts)
}

#[cfg(test)]
mod tests {
    use super::*;

    #[test]
    fn a_seed_gives_the_same_files() {
        let files = |seed| (0..600).map(|ordinal| file(seed, ordinal)).collect::<Vec<_>>();
        assert_eq!(files(5), files(5));
        assert_ne!(files(5), files(6));
        assert_eq!([file(5, 298), file(5, 299)], files(5)[298..300]);
    }

    #[test]
    fn the_edge_of_the_listing_is_hit() {
        let mut lengths = Vec::new();
        for ordinal in 0..40 {
            let file = edge_of_listing(&mut Random::new(3, ordinal));
            assert!(file.len() <= LONGEST_FILE);
            lengths.push(listing::listing(&file, usize::MAX).expect("any length fits").text.len());
        }
        lengths.sort();
        lengths.dedup();
        assert_eq!(lengths, (listing::ROOM - 2..=listing::ROOM + 2).collect::<Vec<_>>());
    }

    #[test]
    fn long_files_have_their_sizes() {
        let sizes: Vec<usize> = (0..200).map(|ordinal| long(&mut Random::new(1, ordinal)).len()).collect();
        assert!(sizes.contains(&LONGEST_FILE));
        assert!(sizes.contains(&(LONGEST_FILE + 1)));
        assert!(sizes.iter().all(|&size| size <= LONGEST_FILE + 64));
        let shown = (0..200).filter(|&ordinal| {
            let file = long(&mut Random::new(1, ordinal));
            file.len() == LONGEST_FILE && listing::listing(&file, listing::ROOM).is_some_and(|l| l.reached.len() > 1000)
        });
        assert!(shown.count() > 5, "files of 65,536 bytes with a thousand records that are listed");
    }
}
