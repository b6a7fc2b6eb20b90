//! 01, "The event file": the framing of records and the fields of each kind.

use super::Given;

/// 01: "A file has at most 65,536 bytes."
pub const LONGEST_FILE: usize = 65_536;

/// The longest time in one record.
pub const DAY: u32 = 86_400;

#[derive(Clone, Copy, PartialEq, Eq, Debug)]
pub enum Role {
    Originating,
    Destination,
}

/// 02 #103: "A number now also states its nature, national or international".
#[derive(Clone, Copy, PartialEq, Eq, Debug)]
pub enum Nature {
    National,
    International,
}

/// A user number: `count` digits, of which the leading ones may be zeros. "Two numbers are equal only with equal nature,
/// count and value": so the derived equality has it.
#[derive(Clone, Copy, PartialEq, Eq, Debug)]
pub struct Digits {
    pub nature: Nature,
    pub count: u8,
    pub value: u64,
}

impl Digits {
    /// "A count of 0 has the bit clear."
    pub const ABSENT: Digits = Digits { nature: Nature::National, count: 0, value: 0 };

    /// "below 10 to the count; count 1 to 15", of either nature
    fn in_range(self) -> bool {
        (1..=15).contains(&self.count) && self.value < 10_u64.pow(u32::from(self.count))
    }
}

/// Kind 2. The called number that comes with 0 and 1 is looked at for its range alone.
#[derive(Clone, Copy, PartialEq, Eq, Debug)]
pub enum Ask {
    Basic,
    A,
    B,
    C,
}

#[derive(Clone, Copy, PartialEq, Eq, Debug)]
pub enum Name {
    Iam,
    Anm,
    Con,
    Rel,
    Fac,
}

/// The operations of 3.4.2: REVCallingReqSetup, REVCallingReqActive, REVCalledRequest.
#[derive(Clone, Copy, PartialEq, Eq, Debug)]
pub enum Operation {
    Setup,
    Active,
    Called,
}

#[derive(Clone, Copy, PartialEq, Eq, Debug)]
pub enum Component {
    None,
    Invoke(Operation),
    Result(Operation),
    Error(u8),
    Reject,
}

/// The parts of a message in bit order.
#[derive(Clone, Copy, PartialEq, Eq, Debug, Default)]
pub struct Parts {
    pub transfer_requested: bool,
    pub transfer_accepted: bool,
    pub as_transfer: bool,
    pub partial: bool,
    pub calling: Option<Digits>,
    pub called: Option<Digits>,
    pub duration: Option<u32>,
}

/// A message between the exchanges, in either direction. The cause counts with a REL only.
#[derive(Clone, Copy, PartialEq, Eq, Debug)]
pub struct Message {
    pub name: Name,
    pub cause: u8,
    pub component: Component,
    pub parts: Parts,
}

/// Kind 4.
#[derive(Clone, Copy, PartialEq, Eq, Debug)]
pub enum Access {
    Accept,
    Error(u8),
    Reject,
    Clear,
    Answer,
}

#[derive(Clone, Copy, PartialEq, Eq, Debug)]
pub enum Event {
    Opening { role: Role, flags: u8, own: Digits },
    Ask(Ask),
    Message(Message),
    Access(Access),
    Expiry,
    Time(u32),
}

impl Event {
    pub fn is_opening(&self) -> bool {
        matches!(self, Event::Opening { .. })
    }
}

/// 02 #106: "the field's ordinal in the body as well, first bad field first; a number is one field". It counts from 1.
pub type Ordinal = usize;

/// What a field is read to, or its ordinal where it is out of its range.
fn judged<Value>(value: Option<Value>, ordinal: Ordinal) -> Result<Value, Ordinal> {
    value.ok_or(ordinal)
}

/// A plain record whose framing is right: a kind of 1 to 6, and a body as long as the kind says.
#[derive(Clone, Copy, PartialEq, Eq, Debug)]
pub struct Record<'a> {
    kind: u16,
    body: &'a [u8],
    bytes: &'a [u8],
}

/// 02 #107: "Event files get kind 7: two bytes of slot, then a whole inner record of kind 1 to 6".
#[derive(Clone, Copy, PartialEq, Eq, Debug)]
pub struct Framed<'a> {
    /// The slot that a record of kind 7 names; a plain record names none.
    pub named: Option<u16>,
    /// The plain record, or the one inside.
    pub record: Record<'a>,
    bytes: &'a [u8],
}

impl Framed<'_> {
    /// "A plain record of kind 1 to 6 acts on slot 0."
    pub fn slot(&self) -> u16 {
        self.named.unwrap_or(0)
    }

    /// The bytes that the record takes in its file.
    pub fn size(&self) -> usize {
        self.bytes.len()
    }
}

/// The longest plain record, and the longest of kind 7, by what they say of their lengths.
const LONGEST_PLAIN: usize = 29;
const LONGEST: usize = 35;

const IN_A_SLOT: u16 = 7;

fn two_bytes(bytes: &[u8]) -> u16 {
    u16::from_le_bytes([bytes[0], bytes[1]])
}

/// What follows the length of the record at the start of `bytes`. The order is 5, 6, 5: "5 if two length bytes aren't there;
/// 6 for the range; 5 if bytes lack".
fn counted(bytes: &[u8], most: usize) -> Result<&[u8], Given> {
    if bytes.len() < 2 {
        return Err(Given::CutShort);
    }
    let length = usize::from(two_bytes(bytes));
    if !(2..=most).contains(&length) {
        return Err(Given::BadLength);
    }
    // 02 #107: "30 to 35 with another kind stays 6, with the kind cut off 5"; so 6 also where bytes lack after the kind.
    if length > LONGEST_PLAIN {
        let kind = bytes.get(2..4).ok_or(Given::CutShort)?;
        if two_bytes(kind) != IN_A_SLOT {
            return Err(Given::BadLength);
        }
    }
    bytes.get(2..2 + length).ok_or(Given::CutShort)
}

/// A record of this kind with this body, which are `bytes` of the file with the length before them: "7; 6 for the kind".
fn of_kind<'a>(bytes: &'a [u8], kind: u16, body: &'a [u8]) -> Result<Record<'a>, Given> {
    let right = match kind {
        1 => body.len() == 1 + 1 + 9,
        2 => body.len() == 1 + 9,
        3 => body.len() >= 5 && body.len() == 5 + parts_length(body[4]),
        4 => body.len() == 2,
        5 => body.is_empty(),
        6 => body.len() == 4,
        _ => return Err(Given::UnknownKind),
    };
    if right {
        Ok(Record { kind, body, bytes })
    } else {
        Err(Given::BadLength)
    }
}

/// Finds the record at the start of `file`, which isn't empty. The order is 5, 6, 5, 7, 6.
pub fn frame(file: &[u8]) -> Result<Framed<'_>, Given> {
    let follows = counted(file, LONGEST)?;
    let bytes = &file[..2 + follows.len()];
    let (kind, body) = (two_bytes(follows), &follows[2..]);
    if kind == IN_A_SLOT {
        return inside(body).map(|(slot, record)| Framed { named: Some(slot), record, bytes });
    }
    of_kind(bytes, kind, body).map(|record| Framed { named: None, record, bytes })
}

/// What a record of kind 7 holds, a slot and a record: "its length is 8 to 35"; "Inside: 6 if the inner length doesn't fill
/// it, then 7, then 6 for the kind." None is of kind 7.
fn inside(body: &[u8]) -> Result<(u16, Record<'_>), Given> {
    if body.len() < 2 + 2 + 2 {
        return Err(Given::BadLength);
    }
    let (slot, inner) = (two_bytes(body), &body[2..]);
    if usize::from(two_bytes(inner)) != inner.len() - 2 {
        return Err(Given::BadLength);
    }
    Ok((slot, of_kind(inner, two_bytes(&inner[2..]), &inner[4..])?))
}

/// Finds the plain record at the start of `bytes`, judged as in a file, where none of kind 7 is looked for.
pub fn plain(bytes: &[u8]) -> Result<Record<'_>, Given> {
    let follows = counted(bytes, LONGEST_PLAIN)?;
    of_kind(&bytes[..2 + follows.len()], two_bytes(follows), &follows[2..])
}

/// "a kind 3 length follows parts 16, 32 and 64 alone"
fn parts_length(parts: u8) -> usize {
    let one = |bit, size| if parts & bit != 0 { size } else { 0 };
    one(16, 9) + one(32, 9) + one(64, 4)
}

impl<'a> Record<'a> {
    /// Length and kind are among them.
    pub fn bytes(&self) -> &'a [u8] {
        self.bytes
    }

    pub fn is_opening(&self) -> bool {
        self.kind == 1
    }

    /// The event, or the first field that is out of its range (number 3).
    pub fn event(&self) -> Result<Event, Ordinal> {
        let mut fields = Fields(self.body);
        match self.kind {
            1 => {
                let role = match fields.byte() {
                    0 => Role::Originating,
                    1 => Role::Destination,
                    _ => return Err(1),
                };
                let flags = judged(Some(fields.byte()).filter(|flags| *flags < 32), 2)?;
                let own = judged(fields.number(), 3)?;
                Ok(Event::Opening { role, flags, own })
            }
            2 => {
                let (ask, dials) = match fields.byte() {
                    0 => (Ask::Basic, true),
                    1 => (Ask::A, true),
                    2 => (Ask::B, false),
                    3 => (Ask::C, false),
                    _ => return Err(1),
                };
                let number = fields.digits();
                let right = if dials { number.in_range() } else { number == Digits::ABSENT };
                judged(right.then_some(Event::Ask(ask)), 2)
            }
            3 => fields.message().map(Event::Message),
            4 => {
                let (item, error) = (fields.byte(), fields.byte());
                let access = match item {
                    1 => Access::Accept,
                    2 => return Ok(Event::Access(Access::Error(error))),
                    3 => Access::Reject,
                    4 => Access::Clear,
                    5 => Access::Answer,
                    _ => return Err(1),
                };
                judged((error == 0).then_some(Event::Access(access)), 2)
            }
            5 => Ok(Event::Expiry),
            _ => {
                let seconds = fields.four_bytes();
                judged((seconds <= DAY).then_some(Event::Time(seconds)), 1)
            }
        }
    }
}

/// Reads fields from a body that is long enough.
struct Fields<'a>(&'a [u8]);

impl Fields<'_> {
    fn byte(&mut self) -> u8 {
        let byte = self.0[0];
        self.0 = &self.0[1..];
        byte
    }

    fn little_endian(&mut self, size: u32) -> u64 {
        (0..size).map(|place| u64::from(self.byte()) << (8 * place)).sum()
    }

    fn four_bytes(&mut self) -> u32 {
        self.little_endian(4) as u32
    }

    /// The nature is "in the top bit of the count byte (set for international)".
    fn digits(&mut self) -> Digits {
        let (nature, count) = match self.byte() {
            byte @ 0..=127 => (Nature::National, byte),
            byte => (Nature::International, byte - 128),
        };
        Digits { nature, count, value: self.little_endian(8) }
    }

    /// A user number that has to be there.
    fn number(&mut self) -> Option<Digits> {
        Some(self.digits()).filter(|digits| digits.in_range())
    }

    fn message(&mut self) -> Result<Message, Ordinal> {
        let name = match self.byte() {
            1 => Name::Iam,
            2 => Name::Anm,
            3 => Name::Con,
            4 => Name::Rel,
            5 => Name::Fac,
            _ => return Err(1),
        };
        let cause = self.byte();
        if cause > 127 {
            return Err(2);
        }
        let component = component(self.byte(), self.byte())?;
        let parts = self.parts()?;
        Ok(Message { name, cause, component, parts })
    }

    /// The parts are field 5, and those that bring bytes are counted from 6 as they are there.
    fn parts(&mut self) -> Result<Parts, Ordinal> {
        let bits = self.byte();
        let has = |bit| bits & bit != 0;
        // Bit 128 names no part; "Part 4 without part 2 is a bad field."
        if has(128) || has(4) && !has(2) {
            return Err(5);
        }
        let mut ordinal = 5;
        let mut number = |there: bool| {
            if !there {
                return Ok(None);
            }
            ordinal += 1;
            judged(self.number(), ordinal).map(Some)
        };
        let calling = number(has(16))?;
        let called = number(has(32))?;
        let duration = has(64).then(|| self.four_bytes());
        Ok(Parts {
            transfer_requested: has(1),
            transfer_accepted: has(2),
            as_transfer: has(4),
            partial: has(8),
            calling,
            called,
            duration,
        })
    }
}

/// "operation (1 SETUP, 2 ACTIVE, 3 CALLED) or error number, else 0", which is field 4
fn component(component: u8, detail: u8) -> Result<Component, Ordinal> {
    let operation = match detail {
        1 => Some(Operation::Setup),
        2 => Some(Operation::Active),
        3 => Some(Operation::Called),
        _ => None,
    };
    let found = match component {
        0 => (detail == 0).then_some(Component::None),
        1 => operation.map(Component::Invoke),
        2 => operation.map(Component::Result),
        3 => Some(Component::Error(detail)),
        4 => (detail == 0).then_some(Component::Reject),
        _ => return Err(3),
    };
    judged(found, 4)
}

#[cfg(test)]
mod tests {
    use super::*;

    #[test]
    fn framing_in_its_order() {
        let cases: [(&[u8], Given); 14] = [
            (&[6], Given::CutShort),
            (&[0, 0], Given::BadLength),
            (&[1, 0], Given::BadLength),
            (&[36, 0], Given::BadLength),
            (&[2, 1, 5, 0], Given::BadLength),
            (&[2, 0], Given::CutShort),
            (&[29, 0, 9, 9], Given::CutShort),
            (&[2, 0, 0, 0], Given::UnknownKind),
            (&[2, 0, 5, 1], Given::UnknownKind),
            (&[3, 0, 8, 0, 0], Given::UnknownKind),
            (&[3, 0, 5, 0, 0], Given::BadLength),
            (&[6, 0, 3, 0, 5, 0, 0, 0], Given::BadLength),
            (&[7, 0, 3, 0, 5, 0, 0, 0, 16], Given::BadLength),
            (&[2, 0, 3, 0], Given::BadLength),
        ];
        for (bytes, given) in cases {
            assert_eq!(frame(bytes), Err(given), "{bytes:?}");
            assert_eq!(plain(bytes), Err(given), "{bytes:?}");
        }
    }

    /// 02 #107: the lengths that only kind 7 has, and what is inside, each before what comes after it.
    #[test]
    fn framing_of_kind_7_in_its_order() {
        let filled = |head: &[u8], size: usize| [head, &vec![0; size - head.len()]].concat();
        let cases = [
            (vec![30, 0], Given::CutShort),
            (vec![35, 0, 7], Given::CutShort),
            (vec![30, 0, 7, 0], Given::CutShort),
            (filled(&[35, 0, 7, 0], 36), Given::CutShort),
            (vec![30, 0, 3, 0], Given::BadLength),
            (filled(&[30, 0, 3, 0], 32), Given::BadLength),
            (vec![35, 0, 9, 0], Given::BadLength),
            (filled(&[35, 0, 7, 1], 37), Given::BadLength),
            (vec![2, 0, 7, 0], Given::BadLength),
            (vec![7, 0, 7, 0, 0, 0, 2, 0, 5], Given::BadLength),
            (vec![7, 0, 7, 0, 0, 0], Given::CutShort),
            (vec![29, 0, 7, 0], Given::CutShort),
            (vec![8, 0, 7, 1, 0, 0, 2, 0, 5, 0], Given::UnknownKind),
            (vec![9, 0, 7, 0, 0, 0, 2, 0, 5, 0, 0], Given::BadLength),
            (vec![8, 0, 7, 0, 0, 0, 3, 0, 5, 0], Given::BadLength),
            (vec![8, 0, 7, 0, 0, 0, 3, 0, 9, 0], Given::BadLength),
            (vec![8, 0, 7, 0, 0, 0, 2, 1, 5, 0], Given::BadLength),
            (vec![8, 0, 7, 0, 0, 0, 2, 0, 0, 0], Given::UnknownKind),
            (vec![8, 0, 7, 0, 0, 0, 2, 0, 5, 1], Given::UnknownKind),
            (vec![14, 0, 7, 0, 0, 0, 8, 0, 7, 0, 0, 0, 2, 0, 5, 0], Given::UnknownKind),
            (vec![11, 0, 7, 0, 0, 0, 5, 0, 9, 0, 0, 0, 0], Given::UnknownKind),
            (vec![11, 0, 7, 0, 0, 0, 5, 0, 6, 0, 0, 0, 0], Given::BadLength),
            (vec![13, 0, 7, 0, 0, 0, 7, 0, 3, 0, 5, 0, 0, 0, 16], Given::BadLength),
        ];
        for (bytes, given) in cases {
            assert_eq!(frame(&bytes), Err(given), "{bytes:?}");
        }
    }

    /// A record of kind 7 is read as the one inside, at the slot that it names, whichever that is; its shortest and its longest.
    #[test]
    fn records_in_slots() {
        let longest = [vec![29, 0, 3, 0, 5, 0, 0, 0, 112], vec![1; 22]].concat();
        for inner in [vec![2, 0, 5, 0], longest] {
            for slot in [0, 1, 63, 64, 256, 16_128, 65_535_u16] {
                let head = [vec![inner.len() as u8 + 4, 0, 7, 0], slot.to_le_bytes().to_vec()].concat();
                let bytes = [head, inner.clone(), vec![9; 3]].concat();
                let framed = frame(&bytes).expect("a framed record");
                assert_eq!((framed.named, framed.slot(), framed.size()), (Some(slot), slot, inner.len() + 6));
                assert_eq!(framed.record, plain(&inner).expect("a plain record"));
                assert_eq!(framed.record.bytes(), inner);
            }
            let framed = frame(&inner).expect("a framed record");
            assert_eq!((framed.named, framed.slot(), framed.size()), (None, 0, inner.len()));
        }
    }

    /// Where a plain record is asked for, one of kind 7 is of an unknown kind, and 30 is too long at once.
    #[test]
    fn plain_records_alone() {
        let cases: [(&[u8], Given); 5] = [
            (&[8, 0, 7, 0, 0, 0, 2, 0, 5, 0], Given::UnknownKind),
            (&[2, 0, 7, 0], Given::UnknownKind),
            (&[30, 0], Given::BadLength),
            (&[30, 0, 7, 0], Given::BadLength),
            (&[], Given::CutShort),
        ];
        for (bytes, given) in cases {
            assert_eq!(plain(bytes), Err(given), "{bytes:?}");
        }
    }

    fn event(bytes: &[u8]) -> Result<Event, Ordinal> {
        let framed = frame(bytes).expect("a framed record");
        assert_eq!(framed.size(), bytes.len());
        framed.record.event()
    }

    /// Sixty seconds as 01 writes them, and the ends of the range.
    #[test]
    fn seconds() {
        let time = |seconds: u32| {
            let mut bytes = vec![6, 0, 6, 0];
            bytes.extend(seconds.to_le_bytes());
            event(&bytes)
        };
        assert_eq!(event(&[6, 0, 6, 0, 0x3C, 0, 0, 0]), Ok(Event::Time(60)));
        assert_eq!(time(86_400), Ok(Event::Time(86_400)));
        assert_eq!(time(86_401), Err(1));
        assert_eq!(time(u32::MAX), Err(1));
    }

    #[test]
    fn numbers() {
        let opening = |role: u8, flags: u8, count: u8, value: u64| {
            let mut bytes = vec![13, 0, 1, 0, role, flags, count];
            bytes.extend(value.to_le_bytes());
            event(&bytes)
        };
        assert!(opening(0, 31, 1, 9).is_ok());
        assert!(opening(1, 0, 15, 999_999_999_999_999).is_ok());
        assert!(opening(1, 0, 15, 0).is_ok());
        for (ordinal, role, flags, count, value) in [
            (1, 2, 0, 1, 1),
            (1, 2, 32, 0, 0),
            (2, 0, 32, 1, 1),
            (2, 0, 32, 0, 0),
            (3, 0, 0, 0, 0),
            (3, 0, 0, 16, 0),
            (3, 0, 0, 1, 10),
            (3, 0, 0, 15, 1_000_000_000_000_000),
        ] {
            assert_eq!(opening(role, flags, count, value), Err(ordinal));
            assert_eq!(opening(role, flags, 0x80 | count, value), Err(ordinal));
        }
        for (count, nature) in [(7, Nature::National), (0x87, Nature::International)] {
            let own = Digits { nature, count: 7, value: 5_550_100 };
            let opened = Event::Opening { role: Role::Originating, flags: 0, own };
            assert_eq!(opening(0, 0, count, 5_550_100), Ok(opened));
        }
        assert!(opening(1, 0, 0x8F, 999_999_999_999_999).is_ok());
        assert_eq!(opening(0, 0, 0xFF, 0), Err(3));
        let ask = |ask: u8, count: u8, value: u64| {
            let mut bytes = vec![12, 0, 2, 0, ask, count];
            bytes.extend(value.to_le_bytes());
            event(&bytes)
        };
        assert_eq!(ask(1, 1, 0), Ok(Event::Ask(Ask::A)));
        assert_eq!(ask(1, 0x81, 0), Ok(Event::Ask(Ask::A)));
        assert_eq!(ask(3, 0, 0), Ok(Event::Ask(Ask::C)));
        for (number, count, value) in
            [(0, 0, 0), (0, 0x80, 0), (2, 1, 1), (2, 0, 1), (2, 0x80, 0), (2, 0x81, 1), (3, 0x80, 0)]
        {
            assert_eq!(ask(number, count, value), Err(2));
        }
        assert_eq!([ask(4, 0, 0), ask(4, 16, 0)], [Err(1); 2]);
    }

    #[test]
    fn access_items() {
        let access = |item, error| event(&[4, 0, 4, 0, item, error]);
        assert_eq!(access(2, 255), Ok(Event::Access(Access::Error(255))));
        assert_eq!(access(4, 0), Ok(Event::Access(Access::Clear)));
        assert_eq!([access(0, 0), access(6, 1)], [Err(1); 2]);
        assert_eq!([access(1, 1), access(5, 255)], [Err(2); 2]);
    }

    #[test]
    fn messages() {
        let plain = |name, cause, component, detail, parts| event(&[7, 0, 3, 0, name, cause, component, detail, parts]);
        assert!(plain(5, 127, 4, 0, 15).is_ok());
        assert!(plain(1, 0, 3, 255, 0).is_ok());
        for (ordinal, [name, cause, component, detail, parts]) in [
            (1, [0, 0, 0, 0, 0]),
            (1, [6, 0, 0, 0, 0]),
            (1, [6, 128, 5, 1, 128]),
            (2, [1, 128, 0, 0, 0]),
            (2, [1, 128, 5, 1, 128]),
            (3, [1, 0, 5, 0, 0]),
            (3, [1, 0, 5, 1, 128]),
            (4, [1, 0, 0, 1, 0]),
            (4, [1, 0, 1, 0, 0]),
            (4, [1, 0, 2, 4, 0]),
            (4, [1, 0, 4, 1, 128]),
            (5, [1, 0, 0, 0, 4]),
            (5, [1, 0, 0, 0, 128]),
        ] {
            assert_eq!(plain(name, cause, component, detail, parts), Err(ordinal));
        }
        let mut full = vec![29, 0, 3, 0, 5, 0, 2, 3, 0x72];
        full.extend([2, 7, 0, 0, 0, 0, 0, 0, 0]);
        full.extend([0x81, 8, 0, 0, 0, 0, 0, 0, 0]);
        full.extend([40, 0, 0, 0]);
        let Ok(Event::Message(message)) = event(&full) else { panic!("a message") };
        assert_eq!(message.parts.calling, Some(Digits { nature: Nature::National, count: 2, value: 7 }));
        assert_eq!(message.parts.called, Some(Digits { nature: Nature::International, count: 1, value: 8 }));
        assert_eq!(message.parts.duration, Some(40));
        for (place, ordinal) in [(18, 7), (9, 6)] {
            full[place..place + 9].copy_from_slice(&[0x80, 0, 0, 0, 0, 0, 0, 0, 0]);
            assert_eq!(event(&full), Err(ordinal));
        }
        // A called number alone is field 6.
        let alone = [16, 0, 3, 0, 5, 0, 2, 3, 0x20, 0x80, 0, 0, 0, 0, 0, 0, 0, 0];
        assert_eq!(event(&alone), Err(6));
    }
}
