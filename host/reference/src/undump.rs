//! Reads a dump back, from docs/FORMAT.md alone: every line to the bytes of its record. A line that no record has is refused, so a dump
//! from which its file is read back is the only one that the file can have.

use crate::model::{events, Given};

const FLAGS: [&str; 5] = ["transfer", "option", "subscribed", "interaction", "case-d"];
const PARTS: [&str; 4] = ["TRANSFER", "ACCEPTED", "AS-TRANSFER", "PARTIAL"];
const MESSAGES: [&str; 5] = ["IAM", "ANM", "CON", "REL", "FAC"];
const OPERATIONS: [&str; 3] = ["SETUP", "ACTIVE", "CALLED"];

/// Whether the dump is the file's; if not, what is wrong with it.
pub fn compare(dump: &str, file: &[u8]) -> Result<(), String> {
    if file.len() > events::LONGEST_FILE {
        return if dump == "REFUSED 8\n" { Ok(()) } else { Err("it is not refused".into()) };
    }
    let lines: Vec<&str> = dump.strip_suffix('\n').ok_or("the last line has no end")?.split('\n').collect();
    if lines[0] != format!("RECORDS {}", lines.len() - 1) {
        return Err(format!("{} before {} lines", lines[0], lines.len() - 1));
    }
    let mut place = 0;
    for (ordinal, line) in lines.iter().enumerate().skip(1) {
        let head = format!("{ordinal} {place} ");
        let words = line.strip_prefix(&head).ok_or(format!("{line}: expected {head}"))?;
        let rest = &file[place..];
        if rest.is_empty() {
            return Err(format!("{line}: past the end of the file"));
        }
        match events::frame(rest) {
            Ok(record) => {
                let bytes = Words::of(words).record().ok_or(format!("{line}: no record has these words"))?;
                if bytes != rest[..record.size()] {
                    return Err(format!("{line}: {bytes:02x?} and not {:02x?}", &rest[..record.size()]));
                }
                place += record.size();
            }
            Err(given) => {
                let word = match given {
                    Given::CutShort => "CUT-SHORT",
                    Given::BadLength => "BAD-LENGTH",
                    _ => "UNKNOWN-KIND",
                };
                if words != word {
                    return Err(format!("{line}: expected {word}"));
                }
                place = file.len();
            }
        }
    }
    if place < file.len() {
        return Err(format!("no line for the record at {place}"));
    }
    Ok(())
}

/// The bytes of the record that a dump of one record alone says.
pub fn only_record(dump: &str) -> Option<Vec<u8>> {
    Words::of(dump.strip_prefix("RECORDS 1\n1 0 ")?.strip_suffix('\n')?).record()
}

/// The words of a line that are not read yet.
struct Words<'a>(std::iter::Peekable<std::str::Split<'a, char>>);

impl<'a> Words<'a> {
    fn of(line: &'a str) -> Words<'a> {
        Words(line.split(' ').peekable())
    }

    /// The next word, if it is this one.
    fn take(&mut self, word: &str) -> bool {
        self.0.next_if_eq(&word).is_some()
    }

    /// The record of the whole line: one of kind 7 has its slot before the words of the record inside.
    fn record(mut self) -> Option<Vec<u8>> {
        if !self.take("SLOT") {
            return self.plain_record();
        }
        let slot = u16::try_from(decimal(self.0.next()?)?).ok()?.to_le_bytes().to_vec();
        let inner = self.plain_record()?;
        Some([vec![4 + inner.len() as u8, 0, 7, 0], slot, inner].concat())
    }

    fn plain_record(mut self) -> Option<Vec<u8>> {
        let (kind, body) = match self.0.next()? {
            "OPENING" => {
                (1, [vec![self.named(&["originating", "destination"], 0)?, self.flags()?], self.number()?].concat())
            }
            "REQUEST" => (2, [vec![self.named(&["BASIC", "A", "B", "C"], 0)?], self.number()?].concat()),
            "ACCESS" => (4, vec![self.named(&["ACCEPT", "ERROR", "REJECT", "CLEAR", "ANSWER"], 1)?, self.byte()?]),
            "EXPIRY" => (5, vec![]),
            "TIME" => (6, self.seconds()?),
            "MESSAGE" => (3, self.unnamed(1..=5).and_then(|message| self.message(message))?),
            name => (3, self.message(1 + MESSAGES.iter().position(|known| *known == name)? as u8)?),
        };
        self.0.next().is_none().then(|| [vec![2 + body.len() as u8, 0, kind, 0], body].concat())
    }

    fn message(&mut self, message: u8) -> Option<Vec<u8>> {
        let cause = self.byte()?;
        let (component, beside) = self.component()?;
        let mut parts = 0;
        let mut values = Vec::new();
        for (bit, word) in PARTS.iter().enumerate() {
            if self.take(word) {
                parts |= 1 << bit;
            }
        }
        for (part, word) in [(16, "CALLING"), (32, "CALLED")] {
            if self.take(word) {
                parts |= part;
                values.extend(self.number()?);
            }
        }
        if self.take("DURATION") {
            parts |= 64;
            values.extend(self.seconds()?);
        }
        if self.take("PART") {
            parts |= self.byte().filter(|part| *part == 128)?;
        }
        Some([vec![message, cause, component, beside, parts], values].concat())
    }

    /// The component, and the byte after it.
    fn component(&mut self) -> Option<(u8, u8)> {
        let not_zero = |byte: &u8| *byte != 0;
        if self.take("NONE") {
            return Some((0, self.byte().filter(not_zero)?));
        }
        if self.take("INVOKE") {
            return Some((1, self.named(&OPERATIONS, 1)?));
        }
        if self.take("RESULT") {
            return Some((2, self.named(&OPERATIONS, 1)?));
        }
        if self.take("ERROR") {
            return Some((3, self.byte()?));
        }
        if self.take("REJECT") {
            let beside = self.0.peek().is_some_and(|word| word.starts_with(|c: char| c.is_ascii_digit()));
            return Some((4, if beside { self.byte().filter(not_zero)? } else { 0 }));
        }
        if self.take("COMPONENT") {
            return Some((self.unnamed(0..=4)?, self.byte()?));
        }
        Some((0, 0))
    }

    /// One of the names, which stand for the numbers from `first` on; or a number that has none.
    fn named(&mut self, names: &[&str], first: u8) -> Option<u8> {
        let word = self.0.peek()?;
        match names.iter().position(|name| name == word) {
            Some(place) => {
                self.0.next();
                Some(first + place as u8)
            }
            None => self.unnamed(first..=first + names.len() as u8 - 1),
        }
    }

    fn unnamed(&mut self, named: std::ops::RangeInclusive<u8>) -> Option<u8> {
        self.byte().filter(|byte| !named.contains(byte))
    }

    fn byte(&mut self) -> Option<u8> {
        u8::try_from(decimal(self.0.next()?)?).ok()
    }

    fn seconds(&mut self) -> Option<Vec<u8>> {
        Some(u32::try_from(decimal(self.0.next()?)?).ok()?.to_le_bytes().to_vec())
    }

    fn flags(&mut self) -> Option<u8> {
        if self.take("-") {
            return Some(0);
        }
        if let Some(flags) = decimal(self.0.peek()?) {
            self.0.next();
            return u8::try_from(flags).ok().filter(|flags| *flags >= 32);
        }
        let mut flags = 0;
        for word in self.0.next()?.split(',') {
            let flag = 1 << FLAGS.iter().position(|known| *known == word)?;
            if flag <= flags {
                return None;
            }
            flags |= flag;
        }
        Some(flags)
    }

    /// The nine bytes of a telephone number. A `+` sets the top bit of the first; its other seven are the count.
    fn number(&mut self) -> Option<Vec<u8>> {
        let word = self.0.next()?;
        if word == "-" {
            return Some(vec![0; 9]);
        }
        let (bit, counted) = word.strip_prefix('+').map_or((0, word), |counted| (0x80, counted));
        let in_range = |count: u64, value: u64| (1..=15).contains(&count) && value < 10_u64.pow(count as u32);
        let (count, value) = match counted.split_once(':') {
            Some((count, value)) => {
                let (count, value) = (decimal(count)?, decimal(value)?);
                // What has digits is shown by them, and nine zero bytes are `-`.
                if in_range(count, value) || word == "0:0" {
                    return None;
                }
                (u8::try_from(count).ok().filter(|count| *count < 0x80)?, value)
            }
            None => {
                let digits = counted.bytes().all(|byte| byte.is_ascii_digit());
                let (count, value) = (counted.len() as u64, counted.parse().ok().filter(|_| digits)?);
                in_range(count, value).then_some((count as u8, value))?
            }
        };
        Some([vec![bit | count], value.to_le_bytes().to_vec()].concat())
    }
}

/// A number without leading zeros.
fn decimal(word: &str) -> Option<u64> {
    word.parse().ok().filter(|number: &u64| number.to_string() == word)
}

#[cfg(test)]
mod tests {
    use super::*;

    fn words(line: &str) -> Option<Vec<u8>> {
        Words::of(line).record()
    }

    #[test]
    fn records_are_read_back() {
        let own = [vec![7, 0x14, 0xB0, 0x54], vec![0; 5]].concat();
        assert_eq!(words("OPENING 7 transfer,interaction 5550100"), Some([vec![13, 0, 1, 0, 7, 9], own].concat()));
        assert_eq!(words("REQUEST B -"), Some([vec![12, 0, 2, 0, 2], vec![0; 9]].concat()));
        assert_eq!(words("ANM 0 RESULT SETUP"), Some(vec![7, 0, 3, 0, 2, 0, 2, 1, 0]));
        assert_eq!(words("MESSAGE 8 1 REJECT 7 PARTIAL PART 128"), Some(vec![7, 0, 3, 0, 8, 1, 4, 7, 136]));
        assert_eq!(words("FAC 0 DURATION 40"), Some(vec![11, 0, 3, 0, 5, 0, 0, 0, 64, 40, 0, 0, 0]));
        assert_eq!(words("ACCESS CLEAR 0"), Some(vec![4, 0, 4, 0, 4, 0]));
        assert_eq!(words("SLOT 5 TIME 60"), Some(vec![12, 0, 7, 0, 5, 0, 6, 0, 6, 0, 60, 0, 0, 0]));
        assert_eq!(words("SLOT 65535 EXPIRY"), Some(vec![8, 0, 7, 0, 255, 255, 2, 0, 5, 0]));
        assert_eq!(words("SLOT 0 FAC 0 NONE 9"), Some(vec![13, 0, 7, 0, 0, 0, 7, 0, 3, 0, 5, 0, 0, 9, 0]));
    }

    #[test]
    fn numbers_are_read_back() {
        for (word, count, value) in [
            ("-", 0, 0),
            ("5550100", 7, 5_550_100),
            ("+5550100", 0x87, 5_550_100),
            ("007", 3, 7),
            ("+007", 0x83, 7),
            ("+999999999999999", 0x8F, 999_999_999_999_999),
            ("0:1", 0, 1),
            ("+0:0", 0x80, 0),
            ("+0:1", 0x80, 1),
            ("16:5", 16, 5),
            ("+16:5", 0x90, 5),
            ("3:1000", 3, 1000),
            ("+3:1000", 0x83, 1000),
            ("127:0", 127, 0),
            ("+127:18446744073709551615", 255, u64::MAX),
        ] {
            let body = [vec![2, count], value.to_le_bytes().to_vec()].concat();
            assert_eq!(words(&format!("REQUEST B {word}")), Some([vec![12, 0, 2, 0], body].concat()), "{word}");
        }
    }

    #[test]
    fn a_record_alone() {
        assert_eq!(only_record("RECORDS 1\n1 0 EXPIRY\n"), Some(vec![2, 0, 5, 0]));
        for dump in
            ["", "REFUSED 8\n", "RECORDS 0\n", "RECORDS 1\n1 0 CUT-SHORT\n", "RECORDS 2\n1 0 EXPIRY\n2 4 EXPIRY\n"]
        {
            assert_eq!(only_record(dump), None, "{dump}");
        }
    }

    #[test]
    fn words_that_no_record_has() {
        for line in [
            "",
            "EXPIRY ",
            "EXPIRE",
            "TIME 060",
            "TIME 4294967296",
            "ACCESS 4 0",
            "ACCESS CLEAR",
            "REQUEST 3 -",
            "REQUEST B 0:0",
            "REQUEST B 7:5550123",
            "REQUEST B 1234567890123456",
            "REQUEST B +",
            "REQUEST B +-",
            "REQUEST B -5",
            "REQUEST B ++5",
            "REQUEST B 5+",
            "REQUEST B + 5",
            "REQUEST B +7:5550123",
            "REQUEST B 7:+5550123",
            "REQUEST B +16:+5",
            "REQUEST B +1234567890123456",
            "REQUEST B 128:0",
            "REQUEST B +128:0",
            "REQUEST B 255:1",
            "OPENING originating 8 -",
            "OPENING originating interaction,transfer -",
            "OPENING originating transfer,transfer -",
            "MESSAGE 5 0",
            "FAC 0 NONE 0",
            "FAC 0 REJECT 0",
            "FAC 0 INVOKE 3",
            "FAC 0 COMPONENT 4 0",
            "FAC 0 PARTIAL TRANSFER",
            "FAC 0 PART 64",
            "FAC 256",
            "SLOT",
            "SLOT 5",
            "SLOT 5 ",
            "SLOT EXPIRY",
            "SLOT 05 EXPIRY",
            "SLOT +5 EXPIRY",
            "SLOT -1 EXPIRY",
            "SLOT x EXPIRY",
            "SLOT 65536 EXPIRY",
            "SLOT 5  EXPIRY",
            "SLOT 5 SLOT 5 EXPIRY",
            "SLOT 5 5 EXPIRY",
            "SLOT 5 CUT-SHORT",
            "slot 5 EXPIRY",
            "EXPIRY SLOT 5",
        ] {
            assert_eq!(words(line), None, "{line}");
        }
    }

    /// The lines that tests/record.sh tries: their bytes; or 3 and an ordinal, and then the words are those of a record of which that
    /// field is the first out of range.
    #[test]
    fn lines_to_record() {
        let path = format!("{}/../../tests/record.txt", env!("CARGO_MANIFEST_DIR"));
        let text = std::fs::read_to_string(&path).unwrap_or_else(|error| panic!("{path}: {error}"));
        let mut count = 0;
        for line in text.lines().filter(|line| !line.is_empty() && !line.starts_with('#')) {
            let (said, answer) = line.split_once(" = ").expect("words and an answer");
            let record = words(said).unwrap_or_else(|| panic!("{line}: no record has these words"));
            let event = events::frame(&record).expect("right framing").record.event();
            if let Err(field) = event {
                assert_eq!(format!("3 {field}"), answer, "{line}");
            } else {
                let hex: Vec<String> = record.iter().map(|byte| format!("{byte:02X}")).collect();
                assert_eq!(hex.join(" "), answer, "{line}");
            }
            count += 1;
        }
        assert!(count > 0, "no lines in {path}");
    }

    #[test]
    fn dumps_are_compared() {
        let file = [2, 0, 5, 0, 6];
        assert_eq!(compare("REFUSED 8\n", &[0; 65_537]), Ok(()));
        assert_eq!(compare("RECORDS 2\n1 0 EXPIRY\n2 4 CUT-SHORT\n", &file), Ok(()));
        for dump in [
            "RECORDS 2\n1 0 EXPIRY\n2 4 CUT-SHORT",
            "RECORDS 1\n1 0 EXPIRY\n2 4 CUT-SHORT\n",
            "RECORDS 1\n1 0 EXPIRY\n",
            "RECORDS 2\n1 0 EXPIRY\n2 4 BAD-LENGTH\n",
            "RECORDS 2\n1 0 EXPIRY\n3 4 CUT-SHORT\n",
            "RECORDS 2\n1 0 TIME 0\n2 4 CUT-SHORT\n",
            "RECORDS 3\n1 0 EXPIRY\n2 4 CUT-SHORT\n3 5 EXPIRY\n",
        ] {
            assert!(compare(dump, &file).is_err(), "{dump}");
        }
    }
}
