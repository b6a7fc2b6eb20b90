//! The cases' own words: `reference wire` takes the input of a case and prints the answer.

use super::{flag, kind, read, Component, NO_IDENTIFIER};
use crate::write::{part, Nature, Number};

const OPERATIONS: [&str; 3] = ["SETUP", "ACTIVE", "CALLED"];
const FLAGS: [(u8, &str); 4] = [
    (flag::TRANSFER, "TRANSFER"),
    (flag::ACCEPTED, "ACCEPTED"),
    (flag::AS_TRANSFER, "AS-TRANSFER"),
    (flag::PARTIAL, "PARTIAL"),
];

/// The answer to `C hex`, `P hex` or `W room component`; nothing where the words are not such.
pub fn answer(input: &str) -> Option<String> {
    let (mode, rest) = input.split_once(' ')?;
    match mode {
        "C" => Some(match read::component(&bytes(rest)?) {
            Ok((component, after)) => format!("0 {} NEXT {after}", words(&component)),
            Err(refusal) => refused(&refusal),
        }),
        "P" => Some(match read::parameter(&bytes(rest)?).0 {
            Ok(components) if components.is_empty() => "0 NONE".into(),
            Ok(components) => format!("0 {}", components.iter().map(words).collect::<Vec<_>>().join("; ")),
            Err(refusal) => refused(&refusal),
        }),
        "W" => {
            let (room, rest) = rest.split_once(' ')?;
            Some(match component(rest)?.write(room.parse().ok()?) {
                Ok(octets) => hex(&octets),
                Err(refusal) => refusal.number().to_string(),
            })
        }
        _ => None,
    }
}

fn refused(refusal: &read::Refusal) -> String {
    format!("{} @{}", refusal.number, refusal.place)
}

/// Octets in hex, each a word; `.` is none.
pub fn bytes(text: &str) -> Option<Vec<u8>> {
    if text == "." {
        return Some(vec![]);
    }
    text.split(' ')
        .map(|word| {
            let digits = word.len() == 2 && word.bytes().all(|digit| digit.is_ascii_hexdigit());
            digits.then(|| u8::from_str_radix(word, 16).ok()).flatten()
        })
        .collect()
}

pub fn hex(bytes: &[u8]) -> String {
    if bytes.is_empty() {
        return ".".into();
    }
    bytes.iter().map(|byte| format!("{byte:02X}")).collect::<Vec<_>>().join(" ")
}

/// A component in words; what has no word is shown as its number.
pub fn words(component: &Component) -> String {
    let item = component.item;
    let operation = || match item {
        1..=3 => OPERATIONS[usize::from(item) - 1].to_string(),
        _ => item.to_string(),
    };
    let mut text = match component.kind {
        kind::INVOKE => format!("INVOKE {}", operation()),
        kind::RESULT => format!("RESULT {}", operation()),
        kind::ERROR => format!("ERROR {item}"),
        kind::REJECT if item == 0 => "REJECT".into(),
        kind => format!("COMPONENT {kind} {item}"),
    };
    text += &match component.identifier {
        NO_IDENTIFIER => " ID -".into(),
        identifier => format!(" ID {identifier:02X}"),
    };
    for (part, word) in FLAGS {
        if component.names(part) {
            text += &format!(" {word}");
        }
    }
    if component.names(part::CALLING) {
        text += &format!(" CALLING {}", number_words(component.calling));
    }
    if component.names(part::CALLED) {
        text += &format!(" CALLED {}", number_words(component.called));
    }
    if component.names(part::DURATION) {
        text += &format!(" DURATION {}", component.duration);
    }
    if component.names(128) {
        text += " PART 128";
    }
    text
}

fn number_words(number: Number) -> String {
    let sign = if number.nature == Nature::International { "+" } else { "" };
    let (count, value) = (usize::from(number.count), number.value);
    if number.in_range() {
        format!("{sign}{value:0count$}")
    } else {
        format!("{sign}{count}:{value}")
    }
}

/// The component that the words say, in range or not.
pub fn component(text: &str) -> Option<Component> {
    let mut words = text.split(' ').peekable();
    let operation = |words: &mut dyn Iterator<Item = &str>| {
        let word = words.next()?;
        OPERATIONS.iter().position(|name| *name == word).map(|place| place as u8 + 1)
    };
    let (kind, item) = match words.next()? {
        "INVOKE" => (kind::INVOKE, operation(&mut words)?),
        "RESULT" => (kind::RESULT, operation(&mut words)?),
        "ERROR" => (kind::ERROR, words.next()?.parse().ok()?),
        "REJECT" => (kind::REJECT, 0),
        _ => return None,
    };
    words.next_if_eq(&"ID")?;
    let identifier = match words.next()? {
        "-" => NO_IDENTIFIER,
        octet => u16::from(*bytes(octet)?.first()?),
    };
    let mut component = Component::bare(identifier, kind, item);
    for (part, word) in FLAGS {
        if words.next_if_eq(&word).is_some() {
            component.parts |= part;
        }
    }
    if words.next_if_eq(&"CALLING").is_some() {
        component.parts |= part::CALLING;
        component.calling = number(words.next()?)?;
    }
    if words.next_if_eq(&"CALLED").is_some() {
        component.parts |= part::CALLED;
        component.called = number(words.next()?)?;
    }
    if words.next_if_eq(&"DURATION").is_some() {
        component.parts |= part::DURATION;
        component.duration = words.next()?.parse().ok()?;
    }
    words.next().is_none().then_some(component)
}

/// Digits, or a count and a value; `+` before those of an international number.
fn number(word: &str) -> Option<Number> {
    let (nature, digits) = match word.strip_prefix('+') {
        Some(rest) => (Nature::International, rest),
        None => (Nature::National, word),
    };
    let (count, value) = match digits.split_once(':') {
        Some((count, value)) => (count.parse().ok()?, value.parse().ok()?),
        None => (u8::try_from(digits.len()).ok()?, digits.parse().ok()?),
    };
    Some(Number { nature, count, value })
}

#[cfg(test)]
mod tests {
    use super::*;
    use crate::wire::cases;

    /// Every line of tests/wire.txt.
    #[test]
    fn the_cases() {
        for (input, expected) in cases() {
            assert_eq!(answer(&input).as_deref(), Some(expected.as_str()), "{input}");
        }
    }

    #[test]
    fn components_are_said_and_read() {
        for text in [
            "INVOKE CALLED ID 03 TRANSFER PARTIAL CALLED +0012",
            "RESULT CALLED ID FF ACCEPTED AS-TRANSFER CALLING 2:100 DURATION 921600",
            "ERROR 13 ID 00",
            "REJECT ID -",
        ] {
            assert_eq!(component(text).map(|component| words(&component)).as_deref(), Some(text));
        }
    }

    #[test]
    fn other_words_have_no_answer() {
        for text in [
            "",
            "C",
            "X A1",
            "C A1 0",
            "C A",
            "C A1  0E",
            "C +1",
            "P zz",
            "W INVOKE SETUP ID 01",
            "W 9 INVOKE SETUP",
            "W 9 INVOKE 4 ID 01",
            "W 9 REJECT ID 1",
            "W 9 REJECT ID 01 CALLING",
            "W 9 REJECT ID 01 PARTIAL TRANSFER",
        ] {
            assert_eq!(answer(text), None, "{text}");
        }
    }
}
