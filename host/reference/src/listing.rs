//! 01, "The listing".

use crate::model::events::{self, LONGEST_FILE};
use crate::model::{
    Action, Answer, Call, Component, Digits, Event, Given, History, Message, Name, Nature, Operation, Phase, Rev, Row,
    Shown,
};
use std::io::Write;

/// The buffer of the listing program.
pub const ROOM: usize = 65_536;

/// What the listing program prints on 8, alone.
pub const REFUSED: &[u8] = b"REFUSED 8\n";

/// A listing, whether its lines have slots, and what was reached by each record shown.
pub struct Listing {
    pub text: Vec<u8>,
    pub slots: bool,
    pub reached: Vec<Reached>,
}

/// Of a record its slot, whether it is of kind 7, the phase of the call that it came to, its number, the row it was judged
/// by, the numbers that were sent, and the sum of the meters and the total after it. Where 2 was given for time, these are
/// what they would have been. Then the call after it, which where it was refused is the one that it came to, and the event, if
/// all its fields are in range.
pub struct Reached {
    pub slot: u16,
    pub in_slot: bool,
    pub from: Phase,
    pub given: Given,
    pub row: Option<Row>,
    pub calling: Option<Digits>,
    pub called: Option<Digits>,
    pub sum: u64,
    pub total: u64,
    pub call: Call,
    pub event: Option<Event>,
}

impl Reached {
    fn by(shown: &Shown) -> Reached {
        let Answer { given, row, call, actions } = &shown.answer;
        let refused = match (given, shown.event) {
            (Given::TooMuch, Some(Event::Time(seconds))) => u64::from(seconds),
            _ => 0,
        };
        let mut reached = Reached {
            slot: shown.slot,
            in_slot: shown.in_slot,
            from: shown.from,
            given: *given,
            row: *row,
            calling: None,
            called: None,
            sum: call.sum() + refused,
            total: u64::from(call.total) + refused,
            call: *call,
            event: shown.event,
        };
        for action in actions {
            if let Action::Send(message) = action {
                reached.calling = reached.calling.or(message.parts.calling);
                reached.called = reached.called.or(message.parts.called);
            }
        }
        reached
    }
}

/// Lists a file, or gives nothing for number 8: "listing longer than its buffer, or file too long".
pub fn listing(file: &[u8], room: usize) -> Option<Listing> {
    if file.len() > LONGEST_FILE {
        return None;
    }
    let slots = has_slots(file);
    let mut text = b"REV 1\n".to_vec();
    let mut reached = Vec::new();
    for shown in History::new(file) {
        record(&mut text, &shown, slots);
        if text.len() > room {
            return None;
        }
        reached.push(Reached::by(&shown));
    }
    line(&mut text, format_args!("END {}", reached.len()));
    (text.len() <= room).then_some(Listing { text, slots, reached })
}

/// 02 #107: "Where no record of kind 7 passes the framing, lines have no slot". One that passes it, before the reading stops,
/// puts slots on all lines, whatever number it gets.
fn has_slots(file: &[u8]) -> bool {
    let mut rest = file;
    while let Some(framed) = Some(rest).filter(|rest| !rest.is_empty()).and_then(|rest| events::frame(rest).ok()) {
        if framed.named.is_some() {
            return true;
        }
        rest = &rest[framed.size()..];
    }
    false
}

/// "Lines end in one newline."
fn line(text: &mut Vec<u8>, words: std::fmt::Arguments) {
    put(text, words);
    text.push(b'\n');
}

fn put(text: &mut Vec<u8>, words: std::fmt::Arguments) {
    text.write_fmt(words).expect("a vector takes all bytes");
}

/// "for each record its ordinal, number, phase, REV state, caller, called, far; then its actions, each after `> `"; and 02 #107:
/// "The listing puts the slot after the ordinal".
fn record(text: &mut Vec<u8>, shown: &Shown, slots: bool) {
    let (given, call) = (shown.answer.given as u8, &shown.answer.call);
    let (phase, rev) = (phase_name(call.phase), rev_name(call.rev));
    put(text, format_args!("{} ", shown.ordinal));
    if slots {
        put(text, format_args!("{} ", shown.slot));
    }
    line(text, format_args!("{given} {phase} {rev} {} {} {}", call.caller, call.called, call.far));
    for action in &shown.answer.actions {
        text.extend(b"> ");
        put_action(text, action);
        text.push(b'\n');
    }
}

fn phase_name(phase: Phase) -> &'static str {
    match phase {
        Phase::None => "NONE",
        Phase::Null => "NULL",
        Phase::Setup => "SETUP",
        Phase::Answered => "ANSWERED",
        Phase::Cleared => "CLEARED",
    }
}

pub fn rev_name(rev: Rev) -> &'static str {
    match rev {
        Rev::Idle => "IDLE",
        Rev::WaitSetup => "WAIT-SETUP",
        Rev::WaitSetupConf { .. } => "WAIT-SETUP-CONF",
        Rev::WaitCalled(_) => "WAIT-CALLED",
        Rev::WaitAnswer { .. } => "WAIT-ANSWER",
        Rev::WaitActive => "WAIT-ACTIVE",
        Rev::WaitActiveConf { .. } => "WAIT-ACTIVE-CONF",
        Rev::Active => "ACTIVE",
    }
}

fn put_action(text: &mut Vec<u8>, action: &Action) {
    match action {
        Action::NotifyAccepted => text.extend(b"NOTIFY ACCEPTED"),
        Action::AccessSetup => text.extend(b"ACCESS SETUP"),
        Action::AccessAsk => text.extend(b"ACCESS ASK"),
        Action::AccessError(number) => put(text, format_args!("ACCESS ERROR {number}")),
        Action::AccessRel(cause) => put(text, format_args!("ACCESS REL {cause}")),
        Action::ChargeCalling => text.extend(b"CHARGE CALLING"),
        Action::ChargeCalled => text.extend(b"CHARGE CALLED"),
        Action::Stop => text.extend(b"STOP"),
        Action::Send(message) => put_message(text, message),
    }
}

/// "a message name, for REL its cause, then its component (INVOKE or RESULT with SETUP, ACTIVE or CALLED; ERROR with
/// number), then its parts in bit order"
fn put_message(text: &mut Vec<u8>, message: &Message) {
    match message.name {
        Name::Iam => text.extend(b"IAM"),
        Name::Anm => text.extend(b"ANM"),
        Name::Con => text.extend(b"CON"),
        Name::Rel => put(text, format_args!("REL {}", message.cause)),
        Name::Fac => text.extend(b"FAC"),
    }
    match message.component {
        Component::None => {}
        Component::Invoke(operation) => put(text, format_args!(" INVOKE {}", operation_name(operation))),
        Component::Result(operation) => put(text, format_args!(" RESULT {}", operation_name(operation))),
        Component::Error(number) => put(text, format_args!(" ERROR {number}")),
        Component::Reject => unreachable!("no row sends a reject"),
    }
    let parts = &message.parts;
    for (there, word) in [
        (parts.transfer_requested, " TRANSFER"),
        (parts.transfer_accepted, " ACCEPTED"),
        (parts.as_transfer, " AS-TRANSFER"),
        (parts.partial, " PARTIAL"),
    ] {
        if there {
            text.extend(word.as_bytes());
        }
    }
    if let Some(number) = parts.calling {
        text.extend(b" CALLING ");
        put_digits(text, number);
    }
    if let Some(number) = parts.called {
        text.extend(b" CALLED ");
        put_digits(text, number);
    }
    if let Some(seconds) = parts.duration {
        put(text, format_args!(" DURATION {seconds}"));
    }
}

fn operation_name(operation: Operation) -> &'static str {
    match operation {
        Operation::Setup => "SETUP",
        Operation::Active => "ACTIVE",
        Operation::Called => "CALLED",
    }
}

/// "digits (as many as the count)", and 02 #103: "the listing puts `+` before international digits"
fn put_digits(text: &mut Vec<u8>, number: Digits) {
    if number.nature == Nature::International {
        text.push(b'+');
    }
    put(text, format_args!("{:0width$}", number.value, width = usize::from(number.count)));
}

#[cfg(test)]
mod tests {
    use super::*;

    const CASE_L: &str = "REV 1\n1 0 NULL IDLE 0 0 0\n2 0 SETUP WAIT-SETUP 0 0 0\n> IAM INVOKE SETUP\n\
        3 0 SETUP WAIT-SETUP 0 0 0\n4 0 ANSWERED ACTIVE 0 0 0\n> NOTIFY ACCEPTED\n> CHARGE CALLED\n\
        5 0 ANSWERED ACTIVE 0 60 0\n6 0 ANSWERED ACTIVE 0 60 0\n> ACCESS ERROR 12\n\
        7 0 CLEARED IDLE 0 60 0\n> STOP\n> REL 16\nEND 7\n";

    fn case_l() -> Vec<u8> {
        let records: [&[u8]; 7] = [
            &[13, 0, 1, 0, 0, 8, 7, 0x14, 0xB0, 0x54, 0, 0, 0, 0, 0],
            &[12, 0, 2, 0, 1, 7, 0x2B, 0xB0, 0x54, 0, 0, 0, 0, 0],
            &[6, 0, 6, 0, 8, 0, 0, 0],
            &[7, 0, 3, 0, 2, 0, 2, 1, 0],
            &[6, 0, 6, 0, 60, 0, 0, 0],
            &[12, 0, 2, 0, 2, 0, 0, 0, 0, 0, 0, 0, 0, 0],
            &[4, 0, 4, 0, 4, 0],
        ];
        records.concat()
    }

    fn text(file: &[u8], room: usize) -> Option<String> {
        listing(file, room).map(|listing| String::from_utf8(listing.text).expect("letters and digits"))
    }

    #[test]
    fn case_l_is_listed() {
        assert_eq!(text(&case_l(), ROOM).as_deref(), Some(CASE_L));
    }

    #[test]
    fn nothing_is_listed() {
        assert_eq!(text(&[], ROOM).as_deref(), Some("REV 1\nEND 0\n"));
    }

    /// A listing as long as its buffer is given, one byte more is 8, wherever the byte stands.
    #[test]
    fn the_buffer_ends() {
        for room in 0..CASE_L.len() {
            assert_eq!(text(&case_l(), room), None);
        }
        assert_eq!(text(&case_l(), CASE_L.len()).as_deref(), Some(CASE_L));
    }

    /// A file of 65,536 bytes is read (here up to a bad first length), one of 65,537 isn't.
    #[test]
    fn the_file_ends() {
        let stopped = Some("REV 1\n1 6 NONE IDLE 0 0 0\nEND 1\n");
        assert_eq!(text(&vec![0; 65_536], ROOM).as_deref(), stopped);
        assert_eq!(text(&vec![0; 65_537], ROOM), None);
    }

    #[test]
    fn damage_stops_the_reading() {
        let mut file = case_l();
        file.truncate(15 + 14 + 8 + 4);
        let shown = "REV 1\n1 0 NULL IDLE 0 0 0\n2 0 SETUP WAIT-SETUP 0 0 0\n> IAM INVOKE SETUP\n\
            3 0 SETUP WAIT-SETUP 0 0 0\n4 5 SETUP WAIT-SETUP 0 0 0\nEND 4\n";
        assert_eq!(text(&file, ROOM).as_deref(), Some(shown));
    }

    /// The nature is listed where a number is sent, directly before its digits, of which the leading zeros stay.
    #[test]
    fn natures_are_listed() {
        let sent = |count: u8, value: u8| {
            let opening = [13, 0, 1, 0, 0, 9, count, value, 0, 0, 0, 0, 0, 0, 0];
            let request = [12, 0, 2, 0, 1, 0x87, 0x2B, 0xB0, 0x54, 0, 0, 0, 0, 0];
            let text = text(&[opening.as_slice(), &request].concat(), ROOM).expect("a short listing");
            text.lines().find_map(|line| line.strip_prefix("> IAM INVOKE SETUP TRANSFER CALLING ")).map(str::to_string)
        };
        for (count, value, digits) in [(3, 7, "007"), (0x83, 7, "+007"), (0x81, 0, "+0"), (0x8F, 1, "+000000000000001")]
        {
            assert_eq!(sent(count, value).as_deref(), Some(digits));
        }
        assert_eq!(sent(0x80, 0), None);
    }

    /// All cases of these files: `## name`, one record a line in hex, `=`, and the listing up to an empty line.
    #[test]
    fn cases() {
        for file in ["cases.txt", "framing.txt", "rows.txt", "board.txt"] {
            let path = format!("{}/../../tests/{file}", env!("CARGO_MANIFEST_DIR"));
            let cases = std::fs::read_to_string(&path).unwrap_or_else(|error| panic!("{path}: {error}"));
            let mut count = 0;
            for case in cases.split("## ").skip(1) {
                let (head, rest) = case.split_once("=\n").expect("a listing");
                let (name, hex) = head.split_once('\n').expect("a name");
                let expected = rest.strip_suffix('\n').filter(|text| text.ends_with('\n')).unwrap_or(rest);
                let expected = if expected.as_bytes() == REFUSED { None } else { Some(expected) };
                assert_eq!(text(&bytes(hex), ROOM).as_deref(), expected, "{file}, case {name}");
                count += 1;
            }
            println!("{count} cases of {file} as expected");
            assert!(count > 0, "no cases in {path}");
        }
    }

    fn bytes(hex: &str) -> Vec<u8> {
        let digits: Vec<char> = hex.chars().filter(|c| !c.is_whitespace()).collect();
        let byte = |pair: &[char]| u8::from_str_radix(&pair.iter().collect::<String>(), 16).expect("hex");
        digits.chunks(2).map(byte).collect()
    }
}
