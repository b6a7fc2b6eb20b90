//! Reads components and parameters. One pass from left to right, what holds before what is held: at each element 11, 12, 13 and 14 in
//! this order, and the first that is found is the answer.

use super::{kind, sequence, Component, Says, ERRORS, MODULE, NAME, NO_IDENTIFIER, PROFILE};
use crate::write::{part, Nature, Number};
use std::ops::Range;

/// 02 #105: "11 cut short, 12 bad length, 13 too deep, 14 not a REV component".
pub const CUT_SHORT: u8 = 11;
pub const BAD_LENGTH: u8 = 12;
pub const TOO_DEEP: u8 = 13;
pub const NOT_REV: u8 = 14;

/// A component is at depth 1. An element at depth 8 is read, one at depth 9 is not.
pub const DEEPEST: usize = 8;

#[derive(Clone, Copy, PartialEq, Eq, Debug)]
pub struct Refusal {
    pub number: u8,
    /// where the element begins that is refused; for one that is not there, where what should hold it ends
    pub place: usize,
    /// the depth of that element; 0 is the parameter itself
    pub depth: usize,
    /// why, in words that no other reason has: they name a class of inputs
    pub reason: &'static str,
}

/// What was met on the way that the components do not tell.
#[derive(Clone, PartialEq, Eq, Debug, Default)]
pub struct Met {
    pub notes: Vec<&'static str>,
    /// the most octets that a length had after its first
    pub length_octets: usize,
    pub depth: usize,
    /// how many components were read to their end
    pub components: usize,
    /// of the component that was reached last
    pub kind: u8,
}

/// The answer to a component: itself and the place after it.
pub fn component(bytes: &[u8]) -> Result<(Component, usize), Refusal> {
    let mut reader = Reader { bytes, met: Met::default() };
    let mut lent = Holder { at: 0, end: bytes.len(), depth: 1 };
    let component = reader.component(&mut lent)?;
    Ok((component, lent.at))
}

/// The components of a whole parameter, in order, and what was met, which is also told where it is refused.
pub fn parameter(bytes: &[u8]) -> (Result<Vec<Component>, Refusal>, Met) {
    let mut reader = Reader { bytes, met: Met::default() };
    (reader.parameter(), reader.met)
}

/// Elements one after another, from a place to the end of what holds them.
struct Holder {
    at: usize,
    end: usize,
    /// of the elements in it
    depth: usize,
}

struct Element {
    place: usize,
    depth: usize,
    identifier: Range<usize>,
    contents: Range<usize>,
}

impl Element {
    fn inside(&self) -> Holder {
        Holder { at: self.contents.start, end: self.contents.end, depth: self.depth + 1 }
    }

    fn refused(&self, reason: &'static str) -> Refusal {
        Refusal { number: NOT_REV, place: self.place, depth: self.depth, reason }
    }
}

struct Reader<'a> {
    bytes: &'a [u8],
    met: Met,
}

impl<'a> Reader<'a> {
    fn parameter(&mut self) -> Result<Vec<Component>, Refusal> {
        let refused = |number, place, reason| Err(Refusal { number, place, depth: 0, reason });
        let [name, length, contents @ ..] = self.bytes else {
            return refused(CUT_SHORT, 0, "a parameter without name and length");
        };
        let length = usize::from(*length);
        if contents.len() < length {
            return refused(CUT_SHORT, 0, "a parameter with too few bytes");
        }
        if contents.len() > length {
            return refused(BAD_LENGTH, 0, "a parameter with too many bytes");
        }
        let Some(profile) = contents.first() else {
            return refused(BAD_LENGTH, 0, "a parameter without a profile");
        };
        if *name != NAME {
            return refused(NOT_REV, 0, "another parameter");
        }
        if *profile != PROFILE {
            return refused(NOT_REV, 2, "another profile");
        }
        let mut holder = Holder { at: 3, end: self.bytes.len(), depth: 1 };
        let mut components = Vec::new();
        while holder.at < holder.end {
            components.push(self.component(&mut holder)?);
            self.met.components += 1;
        }
        Ok(components)
    }

    /// The element at the holder's place, which then is after it. What passes the end of a component's holder is cut short; what passes
    /// the end of a component, or of an element in it, has a bad length.
    fn element(&mut self, holder: &mut Holder) -> Result<Element, Refusal> {
        let (place, depth) = (holder.at, holder.depth);
        let refused = |number, reason| Refusal { number, place, depth, reason };
        let passes = if depth == 1 { CUT_SHORT } else { BAD_LENGTH };
        let mut octets = self.bytes[..holder.end].iter().copied().enumerate().skip(place);
        let mut next = |reason| octets.next().ok_or(refused(passes, reason));

        let (_, first) = next("no identifier octet")?;
        if first & 0x1F == 0x1F {
            while next("an end in the identifier octets")?.1 >= 0x80 {}
        }
        let (length_at, length) = next("an end before the length")?;
        let mut start = length_at + 1;
        let length = match length {
            0x00..=0x7F => usize::from(length),
            0x80 => return Err(refused(BAD_LENGTH, "an indefinite length")),
            0xFF => return Err(refused(BAD_LENGTH, "a reserved length")),
            0x81..=0xFE => {
                let mut value = 0_usize;
                for _ in 0..length & 0x7F {
                    let (at, octet) = next("an end in the length")?;
                    value = value.saturating_mul(256).saturating_add(usize::from(octet));
                    start = at + 1;
                }
                self.met.length_octets = self.met.length_octets.max(usize::from(length & 0x7F));
                value
            }
        };
        if length > holder.end - start {
            return Err(refused(passes, "an end in the contents"));
        }
        if depth > DEEPEST {
            return Err(refused(TOO_DEEP, "nested too deep"));
        }
        self.met.depth = self.met.depth.max(depth);
        holder.at = start + length;
        Ok(Element { place, depth, identifier: place..length_at, contents: start..holder.at })
    }

    /// The next element where the module wants one.
    fn wanted(&mut self, holder: &mut Holder, reason: &'static str) -> Result<Element, Refusal> {
        if holder.at == holder.end {
            return Err(Refusal { number: NOT_REV, place: holder.at, depth: holder.depth, reason });
        }
        self.element(holder)
    }

    /// The module has nothing more in the holder.
    fn end(&mut self, holder: &mut Holder, reason: &'static str) -> Result<(), Refusal> {
        if holder.at == holder.end {
            return Ok(());
        }
        Err(self.element(holder)?.refused(reason))
    }

    fn identifier(&self, element: &Element) -> &'a [u8] {
        &self.bytes[element.identifier.clone()]
    }

    fn contents(&self, element: &Element) -> &'a [u8] {
        &self.bytes[element.contents.clone()]
    }

    fn note(&mut self, note: &'static str) {
        self.met.notes.push(note);
    }

    fn component(&mut self, holder: &mut Holder) -> Result<Component, Refusal> {
        let element = self.element(holder)?;
        let kind = match self.identifier(&element) {
            [0xA1] => kind::INVOKE,
            [0xA2] => kind::RESULT,
            [0xA3] => kind::ERROR,
            [0xA4] => kind::REJECT,
            _ => return Err(element.refused("no component's tag")),
        };
        self.met.kind = kind;
        let mut inside = element.inside();
        let mut component = Component::bare(self.invoke_identifier(&mut inside, kind)?, kind, 0);
        match kind {
            kind::INVOKE => {
                let mut next = self.wanted(&mut inside, "an invoke without operation")?;
                if self.identifier(&next) == [0x80] {
                    if next.contents.len() != 1 {
                        return Err(next.refused("a linked identifier not of one octet"));
                    }
                    self.note("a linked identifier");
                    next = self.wanted(&mut inside, "an invoke without operation after the linked identifier")?;
                }
                component.item = self.operation(&next)?;
                let argument = self.wanted(&mut inside, "an invoke without SEQUENCE")?;
                self.parts(&argument, &mut component)?;
                self.end(&mut inside, "more in an invoke")?;
            }
            kind::RESULT => {
                let outer = self.wanted(&mut inside, "a result without SEQUENCE")?;
                if self.identifier(&outer) != [0x30] {
                    return Err(outer.refused("no SEQUENCE in a result"));
                }
                let mut both = outer.inside();
                let operation = self.wanted(&mut both, "a result without operation")?;
                component.item = self.operation(&operation)?;
                let result = self.wanted(&mut both, "a result without SEQUENCE of parts")?;
                self.parts(&result, &mut component)?;
                self.end(&mut both, "more in the SEQUENCE of a result")?;
                self.end(&mut inside, "more in a result")?;
            }
            kind::ERROR => {
                let error = self.wanted(&mut inside, "an error without number")?;
                component.item = self.of_the_module(&error)?;
                if !ERRORS.contains(&component.item) {
                    return Err(error.refused("no number of an error"));
                }
                self.end(&mut inside, "more in an error")?;
            }
            _ => {
                let problem = self.wanted(&mut inside, "a reject without problem")?;
                let note = match self.identifier(&problem) {
                    [0x80] => "problem 80",
                    [0x81] => "problem 81",
                    [0x82] => "problem 82",
                    [0x83] => "problem 83",
                    _ => return Err(problem.refused("no problem's tag")),
                };
                if problem.contents.len() != 1 {
                    return Err(problem.refused("a problem not of one octet"));
                }
                self.note(note);
                self.end(&mut inside, "more in a reject")?;
            }
        }
        Ok(component)
    }

    /// One octet; or in a reject NULL.
    fn invoke_identifier(&mut self, holder: &mut Holder, kind: u8) -> Result<u16, Refusal> {
        let element = self.wanted(holder, "no identifier")?;
        match (self.identifier(&element), self.contents(&element)) {
            ([0x02], [octet]) => Ok(u16::from(*octet)),
            ([0x02], _) => Err(element.refused("an identifier not of one octet")),
            ([0x05], []) if kind == kind::REJECT => Ok(NO_IDENTIFIER),
            ([0x05], _) if kind == kind::REJECT => Err(element.refused("a NULL with contents")),
            ([0x05], _) => Err(element.refused("a NULL identifier outside a reject")),
            _ => Err(element.refused("no identifier's tag")),
        }
    }

    /// The last octet of an object identifier of the module, whatever it is.
    fn of_the_module(&self, element: &Element) -> Result<u8, Refusal> {
        if self.identifier(element) != [0x06] {
            return Err(element.refused("no object identifier's tag"));
        }
        match self.contents(element) {
            [module @ .., number] if *module == MODULE => Ok(*number),
            other if other.len() == 7 => Err(element.refused("another object identifier of seven octets")),
            _ => Err(element.refused("an object identifier not of seven octets")),
        }
    }

    fn operation(&self, element: &Element) -> Result<u8, Refusal> {
        match self.of_the_module(element)? {
            operation @ 1..=3 => Ok(operation),
            _ => Err(element.refused("no number of an operation")),
        }
    }

    /// The SEQUENCE of an operation: the module's elements in their order, each at most once, then any that it does not know.
    fn parts(&mut self, element: &Element, component: &mut Component) -> Result<(), Refusal> {
        if self.identifier(element) != [0x30] {
            return Err(element.refused("no SEQUENCE of parts"));
        }
        let known = sequence(component.kind, component.item);
        let mut holder = element.inside();
        // how many of the module's elements can no longer come
        let mut passed = 0;
        let mut unknown = false;
        while holder.at < holder.end {
            let element = self.element(&mut holder)?;
            let place = match self.identifier(&element) {
                [tag @ (0x80..=0x9E | 0xA0..=0xBE)] => known.get(usize::from(tag & 0x1F)).map(|says| (*tag, *says)),
                _ => None,
            };
            let Some((tag, says)) = place else {
                unknown = true;
                self.unknown(&element)?;
                continue;
            };
            let number = usize::from(tag & 0x1F);
            if tag >= 0xA0 {
                return Err(element.refused("a part in constructed form"));
            }
            if unknown {
                return Err(element.refused("a part after an unknown element"));
            }
            if number + 1 == passed {
                return Err(element.refused("a part twice"));
            }
            if number < passed {
                return Err(element.refused("a part out of order"));
            }
            passed = number + 1;
            self.part(&element, says, component)?;
        }
        Ok(())
    }

    fn part(&mut self, element: &Element, says: Says, component: &mut Component) -> Result<(), Refusal> {
        match says {
            Says::Flag(part) => {
                if self.boolean(element)? {
                    component.parts |= part;
                } else {
                    self.note("FALSE, as absent");
                }
            }
            Says::Accepted => {
                let transfer = self.boolean(element)?;
                component.parts |= if transfer { says.parts() } else { super::flag::ACCEPTED };
            }
            Says::Number(part) => {
                let number = self.number(element)?;
                component.parts |= part;
                *(if part == part::CALLING { &mut component.calling } else { &mut component.called }) = number;
            }
            Says::Duration => {
                component.duration = self.duration(element)?;
                component.parts |= part::DURATION;
            }
        }
        Ok(())
    }

    fn boolean(&mut self, element: &Element) -> Result<bool, Refusal> {
        match self.contents(element) {
            [octet] => {
                if !matches!(octet, 0x00 | 0xFF) {
                    self.note("TRUE, not FF");
                }
                Ok(*octet != 0)
            }
            _ => Err(element.refused("a BOOLEAN not of one octet")),
        }
    }

    /// Octets as those of a calling party number: whether the count is odd, and the nature; the plan and more; two digits in each that
    /// follows, the first in the low half.
    fn number(&mut self, element: &Element) -> Result<Number, Refusal> {
        let [first, second, pairs @ ..] = self.contents(element) else {
            return Err(element.refused("a number of less than two octets"));
        };
        let nature = match first & 0x7F {
            3 => Nature::National,
            4 => Nature::International,
            _ => return Err(element.refused("another nature")),
        };
        if second >> 4 != 1 {
            return Err(element.refused("an incomplete number, or another plan"));
        }
        if *second != 0x13 {
            self.note("other presentation or screening");
        }
        let mut digits: Vec<u8> = pairs.iter().flat_map(|pair| [pair & 0x0F, pair >> 4]).collect();
        if digits.is_empty() {
            return Err(element.refused("a number without digits"));
        }
        if first & 0x80 != 0 && digits.pop() != Some(0) {
            return Err(element.refused("a filler other than 0"));
        }
        if digits.len() > 15 {
            return Err(element.refused("a number of more than fifteen digits"));
        }
        if digits.iter().any(|digit| *digit > 9) {
            return Err(element.refused("a digit above 9"));
        }
        let value = digits.iter().fold(0, |value, digit| value * 10 + u64::from(*digit));
        Ok(Number { nature, count: digits.len() as u8, value })
    }

    fn duration(&self, element: &Element) -> Result<u32, Refusal> {
        match self.contents(element) {
            [_, 60..=255, _] => Err(element.refused("more than 59 minutes")),
            [_, _, 60..=255] => Err(element.refused("more than 59 seconds")),
            [hours, minutes, seconds] => Ok((u32::from(*hours) * 60 + u32::from(*minutes)) * 60 + u32::from(*seconds)),
            _ => Err(element.refused("a duration not of three octets")),
        }
    }

    /// An element that is left out. What it holds has to be elements.
    fn unknown(&mut self, element: &Element) -> Result<(), Refusal> {
        let identifier = self.identifier(element);
        if identifier.len() > 1 {
            self.note("an unknown tag of several octets");
        }
        if identifier[0] & 0x20 == 0 {
            self.note("an unknown element, primitive");
            return Ok(());
        }
        self.note("an unknown element, constructed");
        if element.contents.is_empty() && element.depth == DEEPEST {
            self.note("an empty constructed element at the greatest depth");
        }
        let mut inside = element.inside();
        while inside.at < inside.end {
            let element = self.element(&mut inside)?;
            self.unknown(&element)?;
        }
        Ok(())
    }
}

#[cfg(test)]
mod tests {
    use super::*;
    use crate::wire::{cases, words};

    /// The bytes of the component cases, and the answer to each.
    fn components() -> Vec<(Vec<u8>, String)> {
        cases()
            .into_iter()
            .filter_map(|(input, answer)| Some((words::bytes(input.strip_prefix("C ")?).expect("hex"), answer)))
            .collect()
    }

    /// Every proper beginning of a readable component is 11 at place 0.
    #[test]
    fn beginnings_are_cut_short() {
        let mut tried = 0;
        for (bytes, _) in components() {
            let Ok((_, after)) = component(&bytes) else { continue };
            for length in 0..after {
                let refusal = component(&bytes[..length]).expect_err("a beginning");
                assert_eq!((refusal.number, refusal.place), (CUT_SHORT, 0), "{length} bytes of {bytes:02x?}");
                tried += 1;
            }
        }
        assert!(tried > 400, "{tried} beginnings");
    }

    /// Unless a component is cut short itself, its answer does not depend on what follows it.
    #[test]
    fn what_follows_does_not_matter() {
        for (bytes, _) in components() {
            let alone = component(&bytes);
            if alone.is_err_and(|refusal| refusal.number == CUT_SHORT) {
                continue;
            }
            for more in [&[0x00][..], &[0x30, 0x80], &[0xFF; 300]] {
                assert_eq!(component(&[&bytes, more].concat()), alone, "{bytes:02x?} and {more:02x?}");
            }
        }
    }

    /// In a whole parameter a component is answered to as alone, three places on; one that is cut short too.
    #[test]
    fn a_parameter_repeats_the_reader_of_a_component() {
        for (bytes, _) in components().into_iter().filter(|(bytes, _)| (1..255).contains(&bytes.len())) {
            let whole = [&[NAME, bytes.len() as u8 + 1, PROFILE], &bytes[..]].concat();
            let (got, _) = parameter(&whole);
            match component(&bytes) {
                Ok((component, after)) if after == bytes.len() => assert_eq!(got, Ok(vec![component])),
                Ok((_, after)) => {
                    let refusal = got.expect_err("bytes after the component");
                    assert_eq!((refusal.number, refusal.place), (CUT_SHORT, after + 3));
                }
                Err(refusal) => assert_eq!(got, Err(Refusal { place: refusal.place + 3, ..refusal })),
            }
        }
    }

    /// A length of 126 octets, the most that there are, and one whose value no machine holds.
    #[test]
    fn long_lengths() {
        let error = [0x02, 0x01, 0x07, 0x06, 0x07, 0x00, 0x11, 0x85, 0x60, 0x03, 0x01, 0x04];
        let long = [&[0xA3, 0xFE], &[0; 125][..], &[0x0C], &error].concat();
        assert_eq!(component(&long), Ok((Component::bare(7, kind::ERROR, 4), long.len())));
        let large = [&[0xA3, 0xFE], &[1; 126][..], &error].concat();
        assert_eq!(component(&large).map_err(|refusal| (refusal.number, refusal.place)), Err((CUT_SHORT, 0)));
    }

    /// What is missing in a holder is reached before what follows the holder at the same place.
    #[test]
    fn a_missing_element_is_reached_before_what_follows() {
        let mut bytes = vec![0xA2, 0x10, 0x02, 0x01, 0x01, 0x30, 0x09, 0x06, 0x07];
        bytes.extend(MODULE);
        bytes.extend([0x01, 0x30, 0x80]);
        let refusal = component(&bytes).expect_err("a result without parts");
        assert_eq!((refusal.number, refusal.place, refusal.depth), (NOT_REV, 16, 3));
    }
}
