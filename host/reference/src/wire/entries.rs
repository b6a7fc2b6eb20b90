//! The two functions that a C host calls. An entry is an identifier in two bytes, the least first, and a record of kind 3.

use super::{read, Component};
use crate::model::{events, Given};
use crate::write::{Event, Refusal};

/// What is given back in one number: the low byte says whether it was done or why not, the rest where, how much, or in which field.
#[derive(Clone, PartialEq, Eq, Debug)]
pub enum Answer {
    Written(Vec<u8>),
    Refused { number: u8, rest: usize },
}

impl Answer {
    pub fn given(&self) -> u32 {
        match self {
            Answer::Written(bytes) => 256 * bytes.len() as u32,
            Answer::Refused { number, rest } => u32::from(*number) + 256 * *rest as u32,
        }
    }

    pub fn written(&self) -> &[u8] {
        match self {
            Answer::Written(bytes) => bytes,
            Answer::Refused { .. } => &[],
        }
    }

    fn of(refusal: Refusal) -> Answer {
        Answer::Refused { number: refusal.number(), rest: refusal.ordinal() as usize }
    }
}

/// The events of a parameter: one for each component, in order; where there is none, one without a component.
pub fn events(components: &[Component]) -> &[Component] {
    if components.is_empty() {
        &[Component::NONE]
    } else {
        components
    }
}

pub fn entry(component: Component, message: u8, cause: u8) -> Result<Vec<u8>, Refusal> {
    let record = Event::Message(component.in_message(message, cause)).write(usize::MAX)?;
    Ok([component.identifier.to_le_bytes().to_vec(), record].concat())
}

/// Reads a parameter to the entries of its events.
pub fn read_parameter(parameter: &[u8], message: u8, cause: u8, room: usize) -> Answer {
    let components = match read::parameter(parameter).0 {
        Ok(components) => components,
        Err(read::Refusal { number, place, .. }) => return Answer::Refused { number, rest: place },
    };
    let entries: Result<Vec<_>, _> = events(&components).iter().map(|event| entry(*event, message, cause)).collect();
    match entries.map(|entries| entries.concat()) {
        Err(refusal) => Answer::of(refusal),
        Ok(entries) if entries.len() > room => Answer::of(Refusal::NoRoom),
        Ok(entries) => Answer::Written(entries),
    }
}

/// The component of an entry, with the message's own fields; or the number that the framing gets. Nothing where the record has not kind 3.
pub fn of_entry(entry: &[u8]) -> Result<Option<(Component, Event)>, u8> {
    let cut_short = Given::CutShort as u8;
    let Some((identifier, file)) = entry.split_first_chunk() else { return Err(cut_short) };
    if file.is_empty() {
        return Err(cut_short);
    }
    // An entry has a plain record: one of kind 7 is of an unknown kind here.
    let record = events::plain(file).map_err(|given| given as u8)?;
    let event = Event::of_record(record.bytes());
    Ok(match &event {
        Event::Message(message) => Some((Component::of_message(u16::from_le_bytes(*identifier), message), event)),
        _ => None,
    })
}

/// The fields of an entry that keep it from being written, counted in the body of its record, the identifier after them: message and cause
/// stand before the component.
pub fn bad_ordinals(component: &Component, event: &Event) -> Vec<u32> {
    let mut ordinals: Vec<u32> = component.bad_ordinals().into_iter().map(|ordinal| 2 + ordinal).collect();
    ordinals.extend(event.bad_ordinals());
    ordinals.sort();
    ordinals.dedup();
    ordinals
}

/// Writes the parameter with the one component of an entry. Where the record is of another kind, no field of it is to blame.
pub fn write_parameter(entry: &[u8], room: usize) -> Answer {
    let (component, event) = match of_entry(entry) {
        Err(number) => return Answer::Refused { number, rest: 0 },
        Ok(None) => return Answer::of(Refusal::BadField { ordinal: 0 }),
        Ok(Some(both)) => both,
    };
    if let [ordinal, ..] = bad_ordinals(&component, &event)[..] {
        return Answer::of(Refusal::BadField { ordinal });
    }
    match component.write_parameter(room) {
        Ok(octets) => Answer::Written(octets),
        Err(refusal) => Answer::of(refusal),
    }
}

#[cfg(test)]
mod tests {
    use super::*;
    use crate::wire::{cases, words};

    /// The parameter with an error, and its entry: identifier 2, REL with cause 29.
    const ERROR: [u8; 17] =
        [0x32, 0x0F, 0x91, 0xA3, 0x0C, 0x02, 0x01, 0x02, 0x06, 0x07, 0x00, 0x11, 0x85, 0x60, 0x03, 0x01, 0x05];
    const ERROR_ENTRY: [u8; 11] = [2, 0, 7, 0, 3, 0, 4, 29, 3, 5, 0];

    fn refused(number: u8, rest: usize) -> Answer {
        Answer::Refused { number, rest }
    }

    #[test]
    fn one_component() {
        assert_eq!(read_parameter(&ERROR, 4, 29, 11), Answer::Written(ERROR_ENTRY.to_vec()));
        assert_eq!(read_parameter(&ERROR, 4, 29, 11).given(), 11 * 256);
        assert_eq!(read_parameter(&ERROR, 4, 29, 10), refused(8, 0));
        assert_eq!(read_parameter(&ERROR, 0, 29, 0), refused(3, 1));
        assert_eq!(read_parameter(&ERROR, 6, 128, 11), refused(3, 1));
        assert_eq!(read_parameter(&ERROR, 4, 128, 11), refused(3, 2));
        assert_eq!(read_parameter(&ERROR[..16], 0, 29, 0), refused(11, 0));
        assert_eq!(read_parameter(&[0x32, 0x01, 0x92], 0, 128, 0).given(), 14 + 2 * 256);
    }

    #[test]
    fn no_component_and_several() {
        let none = [0, 1, 7, 0, 3, 0, 5, 0, 0, 0, 0];
        assert_eq!(read_parameter(&[0x32, 0x01, 0x91], 5, 0, 11), Answer::Written(none.to_vec()));
        let reject = [0xA4, 0x05, 0x05, 0x00, 0x80, 0x01, 0x00];
        let two = [&[0x32, 22, 0x91], &ERROR[3..], &reject].concat();
        let entries = [&ERROR_ENTRY[..], &[0, 1, 7, 0, 3, 0, 4, 29, 4, 0, 0]].concat();
        assert_eq!(read_parameter(&two, 4, 29, 22), Answer::Written(entries));
        assert_eq!(read_parameter(&two, 4, 29, 21), refused(8, 0));
    }

    #[test]
    fn entries_are_written() {
        assert_eq!(write_parameter(&ERROR_ENTRY, 17), Answer::Written(ERROR.to_vec()));
        let more = [&ERROR_ENTRY[..], &[0xFF; 3]].concat();
        assert_eq!(write_parameter(&more, 17).given(), 17 * 256);
        assert_eq!(write_parameter(&ERROR_ENTRY, 16), refused(8, 0));
        for length in 0..11 {
            assert_eq!(write_parameter(&ERROR_ENTRY[..length], 17), refused(5, 0), "{length} bytes");
        }
    }

    /// Bytes of the entry changed, and the number that this gets, with the first bad field.
    #[test]
    fn entries_are_refused() {
        let changes: [(&[(usize, u8)], u8, usize); 19] = [
            (&[(1, 1)], 3, 6),
            (&[(1, 2)], 3, 6),
            (&[(2, 1)], 6, 0),
            (&[(2, 6)], 6, 0),
            (&[(2, 8)], 5, 0),
            (&[(2, 30)], 6, 0),
            (&[(3, 1)], 6, 0),
            (&[(4, 7)], 7, 0),
            (&[(4, 0)], 7, 0),
            (&[(5, 1)], 7, 0),
            (&[(6, 0)], 3, 1),
            (&[(7, 128)], 3, 2),
            (&[(9, 13)], 3, 4),
            (&[(10, 16)], 6, 0),
            (&[(1, 1), (6, 0), (7, 128), (8, 0), (10, 128)], 3, 1),
            (&[(1, 1), (7, 128), (8, 0), (10, 128)], 3, 2),
            (&[(1, 1), (8, 0), (10, 128)], 3, 3),
            (&[(1, 1), (9, 13), (10, 128)], 3, 4),
            (&[(1, 1), (10, 1)], 3, 5),
        ];
        for (bytes, number, rest) in changes {
            let mut entry = ERROR_ENTRY;
            for (place, byte) in bytes {
                entry[*place] = *byte;
            }
            assert_eq!(write_parameter(&entry, 0), refused(number, rest), "{bytes:?}");
        }
        // other kinds, whole and not
        assert_eq!(write_parameter(&[0, 0, 2, 0, 5, 0], 99), refused(3, 0));
        assert_eq!(write_parameter(&[0, 0, 3, 0, 5, 0, 0], 99), refused(6, 0));
        // no component
        assert_eq!(write_parameter(&[0, 1, 7, 0, 3, 0, 5, 0, 0, 0, 0], 99), refused(3, 3));
    }

    /// What is read from the cases is written as a parameter that is read to the same entries.
    #[test]
    fn entries_of_the_cases_go_round() {
        let mut tried = 0;
        for (input, _) in cases() {
            let Some(hex) = input.strip_prefix("C ") else { continue };
            let Ok((component, _)) = read::component(&words::bytes(hex).expect("hex")) else { continue };
            let entry = entry(component, 5, 0).expect("a component in range");
            let Answer::Written(parameter) = write_parameter(&entry, 255) else { panic!("{input} is not written") };
            assert_eq!(read_parameter(&parameter, 5, 0, 255), Answer::Written(entry));
            tried += 1;
        }
        assert!(tried > 20, "{tried} components");
    }
}
