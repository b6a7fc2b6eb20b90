//! Compares another program's writers of events with the model's, event by event.
//!
//! The other program is started once. For each event it is sent its kind, a byte; its fields, in the order of the writers' parameters in
//! host/c/rev.h, of which a bool is a byte, 0 or 1; and a 4-byte length and the bytes of the buffer to lend. For a record of kind 7 the
//! fields are the slot, in two bytes, and a 4-byte length and the bytes of the record that is lent. It answers, before it reads on, with
//! the 4 bytes that the writer gave back; the bytes of the buffer after the call; and a 4-byte length and the dump of the record, which is
//! empty where none was written. All numbers are little-endian. It ends when its input does.

mod classes;
mod slots;

use crate::generate::lent::lent;
use crate::server::{end_progress, progress, Server};
use crate::write::{Asked, Event, InSlot, Nature, Number};
use crate::{undump, Trouble};
use classes::{Case, Classes};
use slots::{SlotCase, SlotClasses};
use std::io::{Read, Write};

/// No dump of a record is so long.
const LONGEST_DUMP: u32 = 4096;

/// Compares `count` events. The first that differs is written to `keep`; gives whether there was none, and every class was reached.
pub fn compare(count: u64, seed: u64, keep: &str, command: &[String]) -> Result<bool, Trouble> {
    let mut server = Server::start(command)?;
    let (mut classes, mut slot_classes) = (Classes::all(), SlotClasses::all());
    for ordinal in 0..count {
        let (asked, before) = lent(seed, ordinal);
        let given = asked.write(before.len()).map(|record| record.len());
        let sent = server.input.write_all(&question(&asked, &before));
        let answer = match sent.and_then(|()| receive(&mut server.output, before.len())) {
            Ok(answer) => answer,
            Err(error) => return Err(server.lost(&format!("event {ordinal} of seed {seed}, {asked:?}"), error)),
        };
        if let Err(difference) = judge(&asked, &before, &answer) {
            let text = format!("{asked:?}\nlent {}\n{difference}\n", hex(&before));
            std::fs::write(keep, &text)?;
            end_progress();
            print!("event {ordinal} of seed {seed} differs; it is kept in {keep}\n{text}");
            server.stop()?;
            return Ok(false);
        }
        match asked {
            Asked::Event(event) => classes.count(&Case { event, room: before.len(), given }),
            Asked::InSlot(asked) => slot_classes.count(&SlotCase { asked, room: before.len(), given }),
        }
        progress(ordinal + 1, count, "events");
    }
    server.end()?;
    end_progress();
    print!("{}{}", classes.report(), slot_classes.report());
    println!("{count} events, 0 differences");
    Ok(classes.missing().is_empty() && slot_classes.missing().is_empty())
}

/// What is sent for an event, or for a record of kind 7.
fn question(asked: &Asked, before: &[u8]) -> Vec<u8> {
    let counted = |bytes: &[u8]| [&(bytes.len() as u32).to_le_bytes(), bytes].concat();
    let (kind, fields) = match asked {
        Asked::Event(event) => (event.kind(), fields(event)),
        Asked::InSlot(InSlot { slot, lent }) => (7, [slot.to_le_bytes().to_vec(), counted(lent)].concat()),
    };
    [vec![kind], fields, counted(before)].concat()
}

fn fields(event: &Event) -> Vec<u8> {
    let number = |number: Number| {
        let international = u8::from(number.nature == Nature::International);
        [vec![international, number.count], number.value.to_le_bytes().to_vec()].concat()
    };
    match *event {
        Event::Opening { role, flags, own } => [vec![role, flags], number(own)].concat(),
        Event::Request { request, called } => [vec![request], number(called)].concat(),
        Event::Message(message) => [
            vec![message.message, message.cause, message.component, message.item, message.parts],
            number(message.calling),
            number(message.called),
            message.duration.to_le_bytes().to_vec(),
        ]
        .concat(),
        Event::Access { told, error } => vec![told, error],
        Event::Expiry => vec![],
        Event::Time { seconds } => seconds.to_le_bytes().to_vec(),
    }
}

/// What another writer did.
#[derive(Clone, PartialEq, Eq, Debug)]
struct Answer {
    given: u32,
    after: Vec<u8>,
    dump: Vec<u8>,
}

fn receive(input: &mut impl Read, room: usize) -> std::io::Result<Answer> {
    let given = four_bytes(input)?;
    let mut after = vec![0; room];
    input.read_exact(&mut after)?;
    let length = four_bytes(input)?;
    if length > LONGEST_DUMP {
        return Err(std::io::ErrorKind::InvalidData.into());
    }
    let mut dump = vec![0; length as usize];
    input.read_exact(&mut dump)?;
    Ok(Answer { given, after, dump })
}

fn four_bytes(input: &mut impl Read) -> std::io::Result<u32> {
    let mut bytes = [0; 4];
    input.read_exact(&mut bytes)?;
    Ok(u32::from_le_bytes(bytes))
}

/// Whether the answer is the model's: the number with the ordinal of a bad field, every byte of the buffer, and a record that is read back
/// as the event, or as itself. If not, what differs.
fn judge(asked: &Asked, before: &[u8], answer: &Answer) -> Result<(), String> {
    let (given, record) = match asked.write(before.len()) {
        Ok(record) => (0, record),
        Err(refusal) => (refusal.given(), vec![]),
    };
    let after = [&record, &before[record.len()..]].concat();
    if answer.given != given {
        let number = |given: u32| format!("number {} with {}", given % 256, given / 256);
        return Err(format!("expected {}, got {}", number(given), number(answer.given)));
    }
    if answer.after != after {
        return Err(format!("expected {}\ngot      {}", hex(&after), hex(&answer.after)));
    }
    if record.is_empty() {
        return if answer.dump.is_empty() { Ok(()) } else { Err("a record that was refused is dumped".into()) };
    }
    let dump = String::from_utf8_lossy(&answer.dump);
    let read_back = undump::only_record(&dump).is_some_and(|bytes| match asked {
        Asked::Event(event) => Event::of_record(&bytes) == *event,
        Asked::InSlot(_) => bytes == record,
    });
    read_back.then_some(()).ok_or_else(|| format!("it is not read back: {dump:?}"))
}

fn hex(bytes: &[u8]) -> String {
    bytes.iter().map(|byte| format!("{byte:02x}")).collect()
}

#[cfg(test)]
mod tests {
    use super::*;
    use crate::write::Message;

    const TIME: Asked = Asked::Event(Event::Time { seconds: 60 });
    const TOO_LONG: Asked = Asked::Event(Event::Time { seconds: 86_401 });

    fn answer(given: u32, after: &[u8], dump: &str) -> Answer {
        Answer { given, after: after.to_vec(), dump: dump.as_bytes().to_vec() }
    }

    #[test]
    fn questions() {
        let message = Asked::Event(Event::Message(Message {
            message: 1,
            cause: 2,
            component: 3,
            item: 4,
            parts: 5,
            calling: Number::national(1, 6),
            called: Number::international(0x81, 7),
            duration: 0x01020304,
        }));
        let numbers = [[0, 1, 6, 0, 0, 0, 0, 0, 0, 0], [1, 0x81, 7, 0, 0, 0, 0, 0, 0, 0]].concat();
        let fields = [[1, 2, 3, 4, 5].as_slice(), &numbers, &[4, 3, 2, 1]];
        assert_eq!(question(&message, &[9]), [&[3], fields.concat().as_slice(), &[1, 0, 0, 0, 9]].concat());
        assert_eq!(question(&Asked::Event(Event::Expiry), &[]), [5, 0, 0, 0, 0]);
        assert_eq!(question(&TIME, &[8, 9]), [6, 60, 0, 0, 0, 2, 0, 0, 0, 8, 9]);
        let in_slot = Asked::InSlot(InSlot { slot: 0x0203, lent: vec![2, 0, 5] });
        assert_eq!(question(&in_slot, &[9]), [7, 3, 2, 3, 0, 0, 0, 2, 0, 5, 1, 0, 0, 0, 9]);
    }

    #[test]
    fn answers_are_received() {
        let bytes = [0, 0, 0, 0, 7, 8, 2, 0, 0, 0, b'O', b'K'];
        assert_eq!(receive(&mut bytes.as_slice(), 2).ok(), Some(answer(0, &[7, 8], "OK")));
        assert!(receive(&mut bytes[..11].as_ref(), 2).is_err());
        assert!(receive(&mut [0, 0, 0, 0, 255, 255, 255, 255].as_slice(), 0).is_err());
    }

    /// One wrong thing each: the number, the ordinal, a byte of the record, a byte past it, a byte on a refusal, the words.
    #[test]
    fn answers_are_judged() {
        let (lent, dump) = ([1, 2, 3, 4, 5, 6, 7, 8, 9], "RECORDS 1\n1 0 TIME 60\n");
        let written = [6, 0, 6, 0, 60, 0, 0, 0, 9];
        assert_eq!(judge(&TIME, &lent, &answer(0, &written, dump)), Ok(()));
        assert_eq!(judge(&TIME, &lent[..7], &answer(8, &lent[..7], "")), Ok(()));
        assert_eq!(judge(&TOO_LONG, &lent[..7], &answer(259, &lent[..7], "")), Ok(()));
        for wrong in [
            answer(8, &lent, ""),
            answer(256, &written, dump),
            answer(0, &[5, 0, 6, 0, 60, 0, 0, 0, 9], dump),
            answer(0, &[6, 0, 6, 0, 60, 0, 0, 0, 0], dump),
            answer(0, &written, ""),
            answer(0, &written, "RECORDS 1\n1 0 TIME 61\n"),
            answer(0, &written, "RECORDS 1\n1 0 TIME 60"),
        ] {
            assert!(judge(&TIME, &lent, &wrong).is_err(), "{wrong:?}");
        }
        assert!(judge(&TIME, &lent[..7], &answer(8, &written[..7], "")).is_err());
        assert!(judge(&TIME, &lent[..7], &answer(8, &lent[..7], dump)).is_err());
        for wrong in [8, 3, 3 + 512] {
            assert!(judge(&TOO_LONG, &lent[..7], &answer(wrong, &lent[..7], "")).is_err());
        }
    }

    /// The same of a record of kind 7: also its slot, and the number of a framing.
    #[test]
    fn answers_of_slots_are_judged() {
        let (lent, dump) = ([1, 2, 3, 4, 5, 6, 7, 8, 9, 10, 11], "RECORDS 1\n1 0 SLOT 5 EXPIRY\n");
        let expiry = |slot, kind| Asked::InSlot(InSlot { slot, lent: vec![2, 0, kind, 0, 77] });
        let written = [8, 0, 7, 0, 5, 0, 2, 0, 5, 0, 11];
        assert_eq!(judge(&expiry(5, 5), &lent, &answer(0, &written, dump)), Ok(()));
        assert_eq!(judge(&expiry(5, 9), &lent, &answer(7, &lent, "")), Ok(()));
        assert_eq!(judge(&expiry(5, 5), &lent[..9], &answer(8, &lent[..9], "")), Ok(()));
        assert!(judge(&expiry(6, 5), &lent, &answer(0, &written, dump)).is_err());
        assert!(judge(&expiry(5, 9), &lent, &answer(6, &lent, "")).is_err());
        for wrong in ["", "RECORDS 1\n1 0 EXPIRY\n", "RECORDS 1\n1 0 SLOT 6 EXPIRY\n", "RECORDS 1\n1 0 SLOT 5 TIME 0\n"]
        {
            assert!(judge(&expiry(5, 5), &lent, &answer(0, &written, wrong)).is_err(), "{wrong}");
        }
    }
}
