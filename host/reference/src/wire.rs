//! 02 #105: the components of the Remote operations parameter, read and written, from 02, the decisions on its sentences and the module
//! behind them. tests/wire.txt has components and parameters with the answers to them.

pub mod entries;
pub mod read;
pub mod words;
pub mod write;

use crate::write::{part, Message, Number};

/// The components of document 01 that have octets; 0, none, has not.
pub mod kind {
    pub const NONE: u8 = 0;
    pub const INVOKE: u8 = 1;
    pub const RESULT: u8 = 2;
    pub const ERROR: u8 = 3;
    pub const REJECT: u8 = 4;
}

/// The parts that bring no bytes of their own to a record.
pub mod flag {
    pub const TRANSFER: u8 = 1;
    pub const ACCEPTED: u8 = 2;
    pub const AS_TRANSFER: u8 = 4;
    pub const PARTIAL: u8 = 8;
}

/// The identifier of a reject that has NULL in its place, and of a parameter without a component.
pub const NO_IDENTIFIER: u16 = 256;

/// The module's errors, 4 to 12.
pub const ERRORS: std::ops::RangeInclusive<u8> = 4..=12;

/// 255 hours, 59 minutes and 59 seconds: more does not go into the three octets.
pub const LONGEST_DURATION: u32 = 921_599;

/// The object identifier of an operation or an error, without the number that is its last octet: 0.0.17.736.3.1.
pub const MODULE: [u8; 6] = [0x00, 0x11, 0x85, 0x60, 0x03, 0x01];

/// The octets before the components: the parameter's name, and the protocol profile after the length.
pub const NAME: u8 = 0x32;
pub const PROFILE: u8 = 0x91;

/// A component as document 01 has it and the identifier beside it, in range or not.
#[derive(Clone, Copy, PartialEq, Eq, Debug)]
pub struct Component {
    /// the octet of the invoke identifier, or `NO_IDENTIFIER`
    pub identifier: u16,
    pub kind: u8,
    /// the operation or error number
    pub item: u8,
    pub parts: u8,
    pub calling: Number,
    pub called: Number,
    pub duration: u32,
}

impl Component {
    /// One without parts.
    pub const fn bare(identifier: u16, kind: u8, item: u8) -> Component {
        Component { identifier, kind, item, parts: 0, calling: Number::ABSENT, called: Number::ABSENT, duration: 0 }
    }

    /// What a parameter without a component is an event of.
    pub const NONE: Component = Component::bare(NO_IDENTIFIER, kind::NONE, 0);

    pub fn names(&self, part: u8) -> bool {
        self.parts & part != 0
    }

    /// The message that carries it.
    pub fn in_message(self, message: u8, cause: u8) -> Message {
        let Component { kind, item, parts, calling, called, duration, .. } = self;
        Message { message, cause, component: kind, item, parts, calling, called, duration }
    }

    pub fn of_message(identifier: u16, message: &Message) -> Component {
        let Message { component, item, parts, calling, called, duration, .. } = *message;
        Component { identifier, kind: component, item, parts, calling, called, duration }
    }
}

/// What an element of an operation's SEQUENCE says.
#[derive(Clone, Copy, PartialEq, Eq, Debug)]
pub enum Says {
    /// a BOOLEAN for one part, which is there where it is TRUE
    Flag(u8),
    /// the BOOLEAN of Transfer Accepted, which is there with either value
    Accepted,
    /// a telephone number for this part
    Number(u8),
    Duration,
}

impl Says {
    /// The parts of document 01 that it can bring.
    pub fn parts(self) -> u8 {
        match self {
            Says::Flag(part) | Says::Number(part) => part,
            Says::Accepted => flag::ACCEPTED | flag::AS_TRANSFER,
            Says::Duration => part::DURATION,
        }
    }
}

/// What the module has under [0], [1] and [2] in the SEQUENCE of an invoke or a result.
pub fn sequence(kind: u8, operation: u8) -> &'static [Says] {
    match (kind, operation) {
        (kind::INVOKE, 1 | 2) => &[Says::Flag(flag::TRANSFER), Says::Number(part::CALLING)],
        (kind::INVOKE, 3) => &[Says::Flag(flag::TRANSFER), Says::Number(part::CALLED), Says::Flag(flag::PARTIAL)],
        (kind::RESULT, 1 | 2) => &[Says::Accepted, Says::Number(part::CALLED)],
        (kind::RESULT, 3) => &[Says::Accepted, Says::Number(part::CALLING), Says::Duration],
        _ => &[],
    }
}

/// The cases of tests/wire.txt and tests/wire-own.txt, each as its input and its answer.
#[cfg(test)]
pub fn cases() -> Vec<(String, String)> {
    let folder = concat!(env!("CARGO_MANIFEST_DIR"), "/../../tests/");
    let text: String = ["wire.txt", "wire-own.txt"]
        .iter()
        .map(|name| std::fs::read_to_string(format!("{folder}{name}")).unwrap_or_else(|e| panic!("tests/{name}: {e}")))
        .collect();
    let cases: Vec<_> = text
        .lines()
        .filter(|line| !line.starts_with('#'))
        .map(|line| {
            let case = line.split("   #").next().unwrap_or_default();
            let (input, answer) = case.split_once(" => ").unwrap_or_else(|| panic!("no case: {line}"));
            (input.to_string(), answer.trim_end().to_string())
        })
        .collect();
    assert!(cases.len() > 100, "{} cases", cases.len());
    cases
}
