//! The model's own writer of events, from docs/FORMAT.md and 02 #102 and #103, and of records of kind 7 (02 #107). It shares no code with
//! the reader of the model, and takes fields as a host gives them, in range or not.

/// What a telephone number is, as 02 #103 adds it.
#[derive(Clone, Copy, PartialEq, Eq, Debug)]
pub enum Nature {
    National,
    International,
}

impl Nature {
    pub const ALL: [Nature; 2] = [Nature::National, Nature::International];

    /// What it adds to the count byte.
    fn bit(self) -> u8 {
        match self {
            Nature::National => 0,
            Nature::International => 0x80,
        }
    }
}

/// A telephone number. The count is a number of digits, and has no top bit to spare: one of 128 or more is out of range.
#[derive(Clone, Copy, PartialEq, Eq, Debug)]
pub struct Number {
    pub nature: Nature,
    pub count: u8,
    pub value: u64,
}

impl Number {
    /// "nine zero bytes for 2 and 3": where a number is not wanted.
    pub const ABSENT: Number = Number::national(0, 0);

    pub const fn national(count: u8, value: u64) -> Number {
        Number { nature: Nature::National, count, value }
    }

    pub const fn international(count: u8, value: u64) -> Number {
        Number { nature: Nature::International, count, value }
    }

    /// "the count of digits, 1 to 15"; "The value is below ten to the count": it has no more digits than that. The nature is either.
    pub fn in_range(self) -> bool {
        self.count <= 15 && self.value.to_string().len() <= usize::from(self.count)
    }

    fn fits(self, wanted: bool) -> bool {
        if wanted {
            self.in_range()
        } else {
            self == Number::ABSENT
        }
    }

    /// Of a count that its seven bits do not hold, they are not what is written, and yet nine.
    pub fn bytes(self) -> Vec<u8> {
        [vec![self.nature.bit() | self.count], self.value.to_le_bytes().to_vec()].concat()
    }
}

/// The parts that bring bytes of their own.
pub mod part {
    pub const CALLING: u8 = 16;
    pub const CALLED: u8 = 32;
    pub const DURATION: u8 = 64;
}

#[derive(Clone, Copy, PartialEq, Eq, Debug)]
pub struct Message {
    pub message: u8,
    pub cause: u8,
    pub component: u8,
    /// the operation or error number
    pub item: u8,
    pub parts: u8,
    pub calling: Number,
    pub called: Number,
    pub duration: u32,
}

impl Message {
    pub fn names(&self, part: u8) -> bool {
        self.parts & part != 0
    }

    /// "the operation of an invoke or a result (1 SETUP, 2 ACTIVE, 3 CALLED ..), the number of an error, else 0"
    fn item_in_range(&self) -> bool {
        match self.component {
            0 | 4 => self.item == 0,
            1 | 2 => (1..=3).contains(&self.item),
            // any error; of a component that is none the component is the bad field
            _ => true,
        }
    }

    /// The ordinal of what this part brings, "a number is one field": five fields are before those that the parts name.
    fn place_of(&self, part: u8) -> Option<u32> {
        let before = [part::CALLING, part::CALLED, part::DURATION].into_iter().filter(|p| *p < part && self.names(*p));
        self.names(part).then(|| 6 + before.count() as u32)
    }

    /// "4 its answer is transfer (not without 2)"; 128 is no part.
    fn parts_in_range(&self) -> bool {
        !self.names(128) && (!self.names(4) || self.names(2))
    }

    fn body(&self) -> Vec<u8> {
        let mut body = vec![self.message, self.cause, self.component, self.item, self.parts];
        if self.names(part::CALLING) {
            body.extend(self.calling.bytes());
        }
        if self.names(part::CALLED) {
            body.extend(self.called.bytes());
        }
        if self.names(part::DURATION) {
            body.extend(self.duration.to_le_bytes());
        }
        body
    }
}

#[derive(Clone, Copy, PartialEq, Eq, Debug)]
pub enum Event {
    Opening { role: u8, flags: u8, own: Number },
    Request { request: u8, called: Number },
    Message(Message),
    Access { told: u8, error: u8 },
    Expiry,
    Time { seconds: u32 },
}

/// 02 #102: "Refusals: 3, then 8." And 02 #106: "Where 3 is told, give the field's ordinal in the body as well". Where a record is lent,
/// its framing is judged before.
#[derive(Clone, Copy, PartialEq, Eq, Debug)]
pub enum Refusal {
    /// 5, 6 or 7
    Framing(u8),
    /// from 1; 0 where no field of it is to blame
    BadField {
        ordinal: u32,
    },
    NoRoom,
}

impl Refusal {
    pub fn number(self) -> u8 {
        match self {
            Refusal::Framing(number) => number,
            Refusal::BadField { .. } => 3,
            Refusal::NoRoom => 8,
        }
    }

    pub fn ordinal(self) -> u32 {
        match self {
            Refusal::BadField { ordinal } => ordinal,
            Refusal::Framing(_) | Refusal::NoRoom => 0,
        }
    }

    /// Both in one number, as a C host gets them.
    pub fn given(self) -> u32 {
        u32::from(self.number()) + 256 * self.ordinal()
    }
}

/// The fields that are out of their range: the ordinal of each and its name.
pub struct Faults(Vec<(u32, &'static str)>);

impl Faults {
    /// Of fields by their ordinals and names, with whether each is in range.
    pub fn among(fields: Vec<(u32, &'static str, bool)>) -> Faults {
        Faults(fields.into_iter().filter(|(_, _, good)| !good).map(|(ordinal, name, _)| (ordinal, name)).collect())
    }

    pub fn names(&self) -> Vec<&'static str> {
        self.0.iter().map(|(_, name)| *name).collect()
    }

    /// The first first, each once.
    pub fn ordinals(&self) -> Vec<u32> {
        let mut ordinals: Vec<u32> = self.0.iter().map(|(ordinal, _)| *ordinal).collect();
        ordinals.sort();
        ordinals.dedup();
        ordinals
    }
}

impl Event {
    pub fn kind(&self) -> u8 {
        match self {
            Event::Opening { .. } => 1,
            Event::Request { .. } => 2,
            Event::Message(_) => 3,
            Event::Access { .. } => 4,
            Event::Expiry => 5,
            Event::Time { .. } => 6,
        }
    }

    /// The fields that are out of their range, in the order of the record, counted in the body.
    fn out_of_range(&self) -> Faults {
        let fields = match *self {
            Event::Opening { role, flags, own } => {
                vec![(1, "role", role <= 1), (2, "flags", flags < 32), (3, "number", own.fits(true))]
            }
            Event::Request { request, called } => {
                vec![(1, "request", request <= 3), (2, "number", called.fits(request <= 1))]
            }
            Event::Message(message) => {
                // What the parts do not name, and yet is there, is a fault of the parts.
                let place = |part| message.place_of(part).unwrap_or(5);
                vec![
                    (1, "message", (1..=5).contains(&message.message)),
                    (2, "cause", message.cause <= 127),
                    (3, "component", message.component <= 4),
                    (4, "item", message.item_in_range()),
                    (5, "parts", message.parts_in_range()),
                    (place(part::CALLING), "calling number", message.calling.fits(message.names(part::CALLING))),
                    (place(part::CALLED), "called number", message.called.fits(message.names(part::CALLED))),
                    (place(part::DURATION), "duration", message.names(part::DURATION) || message.duration == 0),
                ]
            }
            Event::Access { told, error } => {
                vec![(1, "told", (1..=5).contains(&told)), (2, "error", told == 2 || error == 0)]
            }
            Event::Expiry => vec![],
            Event::Time { seconds } => vec![(1, "seconds", seconds <= 86_400)],
        };
        Faults::among(fields)
    }

    /// The names of the fields that are out of their range, in the order of the record.
    pub fn bad_fields(&self) -> Vec<&'static str> {
        self.out_of_range().names()
    }

    /// The ordinals of these fields, the first first.
    pub fn bad_ordinals(&self) -> Vec<u32> {
        self.out_of_range().ordinals()
    }

    /// The record, whether its fields are in range or not.
    fn record(&self) -> Vec<u8> {
        let body = match *self {
            Event::Opening { role, flags, own } => [vec![role, flags], own.bytes()].concat(),
            Event::Request { request, called } => [vec![request], called.bytes()].concat(),
            Event::Message(message) => message.body(),
            Event::Access { told, error } => vec![told, error],
            Event::Expiry => vec![],
            Event::Time { seconds } => seconds.to_le_bytes().to_vec(),
        };
        let (length, kind) = (2 + body.len() as u16, u16::from(self.kind()));
        [length.to_le_bytes().to_vec(), kind.to_le_bytes().to_vec(), body].concat()
    }

    /// How many bytes the record has, or would have.
    pub fn size(&self) -> usize {
        self.record().len()
    }

    /// The record, in a room of so many bytes.
    pub fn write(&self, room: usize) -> Result<Vec<u8>, Refusal> {
        if let [ordinal, ..] = self.bad_ordinals()[..] {
            return Err(Refusal::BadField { ordinal });
        }
        let record = self.record();
        if record.len() > room {
            return Err(Refusal::NoRoom);
        }
        Ok(record)
    }

    /// The event of a record whose framing is right; its fields may be out of range.
    pub fn of_record(record: &[u8]) -> Event {
        let mut fields = Fields(&record[4..]);
        match record[2] {
            1 => Event::Opening { role: fields.byte(), flags: fields.byte(), own: fields.number(true) },
            2 => Event::Request { request: fields.byte(), called: fields.number(true) },
            3 => Event::Message(fields.message()),
            4 => Event::Access { told: fields.byte(), error: fields.byte() },
            5 => Event::Expiry,
            _ => Event::Time { seconds: fields.seconds(true) },
        }
    }
}

/// A record of kind 7 to be written: "two bytes of slot, then a whole inner record of kind 1 to 6", which stands at the start of `lent`.
/// What follows it there is not looked at, and of the slot nothing is judged: which slots a row has, its reader knows.
#[derive(Clone, PartialEq, Eq, Debug)]
pub struct InSlot {
    pub slot: u16,
    pub lent: Vec<u8>,
}

impl InSlot {
    /// The plain record, or 5, 6 or 7 where none stands there: judged as if it were a file of its own, in which no record is of kind 7.
    pub fn plain(&self) -> Result<&[u8], u8> {
        let [low, high, follow @ ..] = &self.lent[..] else { return Err(5) };
        let length = usize::from(*low) + 256 * usize::from(*high);
        if !(2..30).contains(&length) {
            return Err(6);
        }
        if follow.len() < length {
            return Err(5);
        }
        let right = match (follow[0], follow[1]) {
            (1, 0) => 2 + 2 + 9,
            (2, 0) => 2 + 1 + 9,
            (3, 0) => {
                let parts = if length < 7 { 0 } else { follow[6] };
                let brings = |part: u8, bytes: usize| usize::from(parts / part % 2) * bytes;
                2 + 5 + brings(part::CALLING, 9) + brings(part::CALLED, 9) + brings(part::DURATION, 4)
            }
            (4, 0) => 2 + 2,
            (5, 0) => 2,
            (6, 0) => 2 + 4,
            _ => return Err(7),
        };
        if length == right {
            Ok(&self.lent[..2 + length])
        } else {
            Err(6)
        }
    }

    /// The event of the plain record, if there is one.
    pub fn event(&self) -> Option<Event> {
        self.plain().ok().map(Event::of_record)
    }

    /// The record, in a room of so many bytes. The ordinal of a bad field is counted in the inner body.
    pub fn write(&self, room: usize) -> Result<Vec<u8>, Refusal> {
        let plain = self.plain().map_err(Refusal::Framing)?;
        if let [ordinal, ..] = Event::of_record(plain).bad_ordinals()[..] {
            return Err(Refusal::BadField { ordinal });
        }
        let record = [&[plain.len() as u8 + 4, 0, 7, 0], &self.slot.to_le_bytes()[..], plain].concat();
        if record.len() > room {
            return Err(Refusal::NoRoom);
        }
        Ok(record)
    }
}

/// What a writer is asked for.
#[derive(Clone, PartialEq, Eq, Debug)]
pub enum Asked {
    Event(Event),
    InSlot(InSlot),
}

impl Asked {
    pub fn write(&self, room: usize) -> Result<Vec<u8>, Refusal> {
        match self {
            Asked::Event(event) => event.write(room),
            Asked::InSlot(record) => record.write(room),
        }
    }
}

/// The fields of a record that are not read yet. One that is not there is zero.
struct Fields<'a>(&'a [u8]);

impl Fields<'_> {
    fn take<const SIZE: usize>(&mut self) -> [u8; SIZE] {
        let (field, rest) = self.0.split_first_chunk().expect("a record as long as its kind and parts say");
        self.0 = rest;
        *field
    }

    fn byte(&mut self) -> u8 {
        u8::from_le_bytes(self.take())
    }

    fn number(&mut self, there: bool) -> Number {
        if !there {
            return Number::ABSENT;
        }
        let first = self.byte();
        let nature = if first & 0x80 == 0 { Nature::National } else { Nature::International };
        Number { nature, count: first & 0x7F, value: u64::from_le_bytes(self.take()) }
    }

    fn seconds(&mut self, there: bool) -> u32 {
        if !there {
            return 0;
        }
        u32::from_le_bytes(self.take())
    }

    fn message(&mut self) -> Message {
        let [message, cause, component, item, parts] = self.take();
        let calling = self.number(parts & part::CALLING != 0);
        let called = self.number(parts & part::CALLED != 0);
        let duration = self.seconds(parts & part::DURATION != 0);
        Message { message, cause, component, item, parts, calling, called, duration }
    }
}

#[cfg(test)]
mod tests {
    use super::*;

    const HOME: Number = Number::national(7, 5_550_100);
    const MOST: Number = Number::international(15, 999_999_999_999_999);

    /// FAC with a result to CALLED and every part, 31 bytes.
    const FULL: Message = Message {
        message: 5,
        cause: 127,
        component: 2,
        item: 3,
        parts: 127,
        calling: HOME,
        called: MOST,
        duration: u32::MAX,
    };

    /// ANM that carries nothing.
    const PLAIN: Message = Message {
        message: 2,
        cause: 0,
        component: 0,
        item: 0,
        parts: 0,
        calling: Number::ABSENT,
        called: Number::ABSENT,
        duration: 0,
    };

    fn opening(role: u8, flags: u8, own: Number) -> Event {
        Event::Opening { role, flags, own }
    }

    fn request(request: u8, called: Number) -> Event {
        Event::Request { request, called }
    }

    fn access(told: u8, error: u8) -> Event {
        Event::Access { told, error }
    }

    fn time(seconds: u32) -> Event {
        Event::Time { seconds }
    }

    fn full_record() -> Vec<u8> {
        let head = vec![29, 0, 3, 0, 5, 127, 2, 3, 127];
        let calling = vec![7, 0x14, 0xB0, 0x54, 0, 0, 0, 0, 0];
        let called = vec![0x8F, 0xFF, 0x7F, 0xC6, 0xA4, 0x7E, 0x8D, 3, 0];
        [head, calling, called, vec![255; 4]].concat()
    }

    /// Each kind, byte for byte, with as much room as it takes; a byte less is 8.
    #[test]
    fn records() {
        let records = [
            (opening(0, 8, HOME), vec![13, 0, 1, 0, 0, 8, 7, 0x14, 0xB0, 0x54, 0, 0, 0, 0, 0]),
            (request(1, Number::national(1, 0)), vec![12, 0, 2, 0, 1, 1, 0, 0, 0, 0, 0, 0, 0, 0]),
            (request(1, Number::international(1, 0)), vec![12, 0, 2, 0, 1, 0x81, 0, 0, 0, 0, 0, 0, 0, 0]),
            (request(2, Number::ABSENT), vec![12, 0, 2, 0, 2, 0, 0, 0, 0, 0, 0, 0, 0, 0]),
            (Event::Message(PLAIN), vec![7, 0, 3, 0, 2, 0, 0, 0, 0]),
            (Event::Message(FULL), full_record()),
            (access(2, 255), vec![4, 0, 4, 0, 2, 255]),
            (Event::Expiry, vec![2, 0, 5, 0]),
            (time(86_400), vec![6, 0, 6, 0, 0x80, 0x51, 1, 0]),
        ];
        for (event, record) in records {
            let size = record.len();
            assert_eq!(event.size(), size);
            for room in 0..size {
                assert_eq!(event.write(room), Err(Refusal::NoRoom), "{event:?} in {room} bytes");
            }
            for room in size..size + 3 {
                assert_eq!(event.write(room).as_ref(), Ok(&record), "{event:?} in {room} bytes");
            }
            assert_eq!(Event::of_record(&record), event);
        }
    }

    /// One bad field each: 3 in any room, so also where there is none.
    #[test]
    fn bad_fields() {
        let message = |change: fn(&mut Message)| {
            let mut message = PLAIN;
            change(&mut message);
            Event::Message(message)
        };
        let full = |change: fn(&mut Message)| {
            let mut message = FULL;
            change(&mut message);
            Event::Message(message)
        };
        let cases = [
            (1, "role", opening(2, 31, HOME)),
            (2, "flags", opening(1, 32, HOME)),
            (3, "number", opening(1, 0, Number::ABSENT)),
            (3, "number", opening(1, 0, Number::national(0, 1))),
            (3, "number", opening(1, 0, Number::national(1, 10))),
            (3, "number", opening(1, 0, Number::national(15, MOST.value + 1))),
            (3, "number", opening(1, 0, Number::national(16, 0))),
            (3, "number", opening(1, 0, Number::national(0x87, 5_550_100))),
            (3, "number", opening(1, 0, Number::national(255, u64::MAX))),
            (3, "number", opening(1, 0, Number::international(0, 0))),
            (3, "number", opening(1, 0, Number::international(1, 10))),
            (3, "number", opening(1, 0, Number::international(16, 0))),
            (3, "number", opening(1, 0, Number::international(0x87, 5_550_100))),
            (1, "request", request(4, Number::ABSENT)),
            (2, "number", request(0, Number::ABSENT)),
            (2, "number", request(1, Number::international(0, 0))),
            (2, "number", request(2, Number::national(0, 1))),
            (2, "number", request(2, Number::international(0, 0))),
            (2, "number", request(3, Number::national(1, 0))),
            (1, "message", message(|m| m.message = 0)),
            (1, "message", message(|m| m.message = 6)),
            (2, "cause", message(|m| m.cause = 128)),
            (3, "component", message(|m| m.component = 5)),
            (4, "item", message(|m| m.item = 1)),
            (4, "item", full(|m| m.item = 0)),
            (4, "item", full(|m| m.item = 4)),
            (4, "item", full(|m| (m.component, m.item) = (4, 3))),
            (5, "parts", message(|m| m.parts = 128)),
            (5, "parts", message(|m| m.parts = 4)),
            (6, "calling number", full(|m| m.calling = Number::ABSENT)),
            (5, "calling number", full(|m| m.parts &= !part::CALLING)),
            (7, "called number", full(|m| m.called.value += 1)),
            (5, "called number", message(|m| m.called.count = 1)),
            (5, "called number", message(|m| m.called.nature = Nature::International)),
            (5, "calling number", message(|m| m.calling.nature = Nature::International)),
            (6, "calling number", full(|m| m.calling = Number::international(0, 0))),
            (7, "called number", full(|m| m.called.count = 0x8F)),
            (5, "duration", full(|m| m.parts &= !part::DURATION)),
            (1, "told", access(0, 0)),
            (1, "told", access(6, 0)),
            (2, "error", access(1, 1)),
            (1, "seconds", time(86_401)),
        ];
        for (ordinal, field, event) in cases {
            assert_eq!(event.bad_fields(), [field], "{event:?}");
            for room in [0, event.size() - 1, event.size(), 40] {
                assert_eq!(event.write(room), Err(Refusal::BadField { ordinal }), "{event:?} in {room} bytes");
            }
        }
    }

    /// "first bad field first": what the parts do not name is a fault of the parts, so it is before the numbers that they do.
    #[test]
    fn the_first_bad_field() {
        let bad = Number::national(16, 0);
        let wrong = Message {
            message: 0,
            cause: 128,
            component: 5,
            item: 9,
            parts: 0x74,
            calling: bad,
            called: bad,
            duration: 1,
        };
        let named = |parts| Message { parts, duration: 0, ..FULL };
        let cases = [
            (1, opening(2, 32, bad)),
            (2, opening(1, 32, bad)),
            (1, request(4, bad)),
            (1, access(6, 1)),
            (1, Event::Message(wrong)),
            (2, Event::Message(Message { message: 1, ..wrong })),
            (3, Event::Message(Message { message: 1, cause: 0, ..wrong })),
            (4, Event::Message(Message { message: 1, cause: 0, component: 1, ..wrong })),
            (5, Event::Message(Message { message: 1, cause: 0, component: 3, ..wrong })),
            (6, Event::Message(Message { message: 1, cause: 0, component: 3, parts: 0x70, ..wrong })),
            (7, Event::Message(Message { called: bad, ..named(0x70) })),
            (6, Event::Message(Message { called: bad, calling: Number::ABSENT, ..named(0x60) })),
            (5, Event::Message(Message { called: bad, ..named(0x60) })),
            (5, Event::Message(Message { calling: bad, ..named(0x50) })),
            (5, Event::Message(Message { calling: bad, duration: 1, ..named(0x30) })),
        ];
        for (ordinal, event) in cases {
            assert_eq!(event.write(0), Err(Refusal::BadField { ordinal }), "{event:?}");
        }
        assert_eq!(Refusal::BadField { ordinal: 5 }.given(), 3 + 5 * 256);
        assert_eq!(Refusal::NoRoom.given(), 8);
        assert_eq!(Refusal::Framing(7).given(), 7);
    }

    fn in_slot(slot: u16, lent: &[u8]) -> InSlot {
        InSlot { slot, lent: lent.to_vec() }
    }

    /// 02 #107: the shortest and the longest, with more behind the plain record and without, at any slot.
    #[test]
    fn records_in_slots() {
        for (plain, head) in [(vec![2, 0, 5, 0], [8, 0, 7, 0]), (full_record(), [35, 0, 7, 0])] {
            for (slot, bytes) in [(0, [0, 0]), (63, [63, 0]), (64, [64, 0]), (0x0102, [2, 1]), (u16::MAX, [255, 255])] {
                let record = [&head[..], &bytes, &plain].concat();
                for lent in [plain.clone(), [plain.clone(), vec![9]].concat(), [&plain[..], &plain].concat()] {
                    let asked = in_slot(slot, &lent);
                    assert_eq!(asked.write(record.len() - 1), Err(Refusal::NoRoom));
                    assert_eq!(asked.write(0), Err(Refusal::NoRoom));
                    assert_eq!(asked.write(record.len()).as_ref(), Ok(&record));
                }
            }
        }
    }

    /// The framing of what is lent, then its fields, then the room.
    #[test]
    fn records_that_cannot_be_put_in_a_slot() {
        let framing = |number| Err(Refusal::Framing(number));
        for (lent, number) in [
            (vec![], 5),
            (vec![2], 5),
            (vec![2, 0, 5], 5),
            (vec![6, 0, 6, 0, 1, 0, 0], 5),
            (vec![0, 0], 6),
            (vec![1, 0, 5, 0], 6),
            (vec![30, 0], 6),
            (vec![30, 0, 7, 0], 6),
            (vec![2, 1, 5, 0], 6),
            (vec![3, 0, 5, 0, 0], 6),
            (vec![7, 0, 3, 0, 5, 0, 0, 0, 16], 6),
            (vec![6, 0, 3, 0, 5, 0, 0, 0], 6),
            (vec![2, 0, 0, 0], 7),
            (vec![2, 0, 5, 1], 7),
            (vec![8, 0, 7, 0, 0, 0, 2, 0, 5, 0], 7),
            (vec![3, 0, 9, 0, 0], 7),
        ] {
            for room in [0, 40] {
                assert_eq!(in_slot(64, &lent).write(room), framing(number), "{lent:?}");
            }
        }
        for (lent, ordinal) in [
            (vec![6, 0, 6, 0, 0x81, 0x51, 1, 0], 1),
            (vec![4, 0, 4, 0, 1, 1], 2),
            (vec![7, 0, 3, 0, 5, 0, 0, 0, 128], 5),
            ([vec![13, 0, 1, 0, 1, 32], vec![0; 9]].concat(), 2),
            ([vec![16, 0, 3, 0, 5, 0, 0, 0, 32], vec![0; 9]].concat(), 6),
        ] {
            for room in [0, 40] {
                assert_eq!(in_slot(5, &lent).write(room), Err(Refusal::BadField { ordinal }), "{lent:?}");
            }
        }
    }

    /// Its framing is the reader's of a plain record, and what it writes the reader reads.
    #[test]
    fn framing_is_that_of_the_reader() {
        use crate::model::events;
        for length in 0..40_u8 {
            for kind in 0..10 {
                for (parts, there) in [(0, 60), (16, 60), (32, 60), (64, 60), (80, 60), (112, 60), (0, 20)] {
                    let mut lent = vec![length, 0, kind, 0, 1, 0, 0, 0, parts];
                    lent.resize(there, 0);
                    let asked = in_slot(9, &lent);
                    let read = events::plain(&lent).map(|record| record.bytes()).map_err(|given| given as u8);
                    assert_eq!(asked.plain(), read);
                    if let Ok(record) = asked.write(40) {
                        let framed = events::frame(&record).expect("right framing");
                        assert_eq!((framed.named, framed.size()), (Some(9), record.len()));
                        assert_eq!(Ok(framed.record.bytes()), asked.plain());
                    }
                }
            }
        }
    }

    /// Every byte of a field and every number around its bounds are judged as the reader judges them.
    #[test]
    fn ranges_are_those_of_the_reader() {
        let judged = |event: Event| {
            let record = event.record();
            let read = crate::model::events::plain(&record).expect("right framing").event();
            assert_eq!(event.bad_ordinals().first().copied(), read.err().map(|ordinal| ordinal as u32), "{event:?}");
        };
        for byte in 0..=255 {
            judged(opening(byte, 0, HOME));
            judged(opening(0, byte, HOME));
            judged(request(byte, HOME));
            judged(request(byte, Number::ABSENT));
            judged(access(byte, 0));
            judged(access(byte, 1));
            judged(access(2, byte));
            judged(Event::Message(Message { message: byte, ..FULL }));
            judged(Event::Message(Message { cause: byte, ..FULL }));
            for component in 0..=255 {
                judged(Event::Message(Message { component, item: byte, ..FULL }));
            }
            // What the parts do not name the reader does not see.
            let there = |part| byte & part != 0;
            judged(Event::Message(Message {
                parts: byte,
                calling: if there(part::CALLING) { HOME } else { Number::ABSENT },
                called: if there(part::CALLED) { MOST } else { Number::ABSENT },
                duration: if there(part::DURATION) { 7 } else { 0 },
                ..FULL
            }));
            for digits in 0..20 {
                let limit = 10_u64.pow(digits);
                for value in [limit - 1, limit, limit + 1, 0, u64::MAX] {
                    for nature in Nature::ALL {
                        let number = Number { nature, count: byte, value };
                        let (opening, request) = (opening(0, 0, number), [request(0, number), request(3, number)]);
                        let message = Event::Message(Message { calling: number, ..FULL });
                        for event in [opening, message].into_iter().chain(request) {
                            if byte < 0x80 {
                                judged(event);
                            } else {
                                // Such a count has no byte that the reader could see.
                                assert_ne!(event.bad_fields(), Vec::<&str>::new(), "{event:?}");
                            }
                        }
                    }
                }
            }
        }
        for seconds in [0, 1, 86_399, 86_400, 86_401, 1 << 24, u32::MAX] {
            judged(time(seconds));
            judged(Event::Message(Message { duration: seconds, ..FULL }));
        }
    }
}
