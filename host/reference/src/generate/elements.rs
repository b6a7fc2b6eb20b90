//! Elements that are not encoded yet, right or wrong, for parameters from a seed.

use super::random::Random;

#[derive(Clone, PartialEq, Eq, Debug)]
pub enum Length {
    Shortest,
    /// so many octets after the first; leading ones are 0
    Octets(u8),
    Indefinite,
    Reserved,
    /// so many octets that are all 1: more than any bytes that there are
    Enormous(u8),
    /// more or fewer than there are
    Off(isize),
}

#[derive(Clone, PartialEq, Eq, Debug)]
pub struct Element {
    pub identifier: Vec<u8>,
    pub length: Length,
    pub inside: Vec<Element>,
    /// contents after the elements inside; a primitive element has these alone
    pub octets: Vec<u8>,
}

impl Element {
    pub fn primitive(identifier: &[u8], octets: &[u8]) -> Element {
        let (identifier, octets) = (identifier.to_vec(), octets.to_vec());
        Element { identifier, length: Length::Shortest, inside: vec![], octets }
    }

    pub fn constructed(identifier: &[u8], inside: Vec<Element>) -> Element {
        Element { inside, ..Element::primitive(identifier, &[]) }
    }

    /// The elements of octets that were written: each tag and each length is one octet.
    pub fn all_of(mut octets: &[u8]) -> Vec<Element> {
        let mut elements = Vec::new();
        while let [tag, length, rest @ ..] = octets {
            let (contents, after) = rest.split_at(usize::from(*length));
            elements.push(match tag & 0x20 {
                0 => Element::primitive(&[*tag], contents),
                _ => Element::constructed(&[*tag], Element::all_of(contents)),
            });
            octets = after;
        }
        elements
    }

    pub fn encode(&self) -> Vec<u8> {
        let mut contents: Vec<u8> = self.inside.iter().flat_map(Element::encode).collect();
        contents.extend(&self.octets);
        let length = match self.length {
            Length::Shortest => shortest(contents.len()),
            Length::Octets(count) => {
                let value = (contents.len() as u128).to_be_bytes();
                let count = usize::from(count);
                let zeros = vec![0; count.saturating_sub(value.len())];
                [vec![0x80 | count as u8], zeros, value[value.len() - count.min(value.len())..].to_vec()].concat()
            }
            Length::Indefinite => vec![0x80],
            Length::Reserved => vec![0xFF],
            Length::Enormous(count) => [vec![0x80 | count], vec![1; usize::from(count)]].concat(),
            Length::Off(by) => shortest(contents.len().saturating_add_signed(by)),
        };
        [self.identifier.clone(), length, contents].concat()
    }

    pub fn is_constructed(&self) -> bool {
        self.identifier[0] & 0x20 != 0
    }

    /// How many elements it is, with those inside.
    fn count(&self) -> usize {
        1 + self.inside.iter().map(Element::count).sum::<usize>()
    }

    /// One of them.
    fn at(&mut self, mut ordinal: usize) -> &mut Element {
        if ordinal == 0 {
            return self;
        }
        ordinal -= 1;
        for element in &mut self.inside {
            let count = element.count();
            if ordinal < count {
                return element.at(ordinal);
            }
            ordinal -= count;
        }
        unreachable!("an ordinal below the count")
    }

    /// Any of them.
    pub fn any(&mut self, random: &mut Random) -> &mut Element {
        let ordinal = random.below(self.count() as u64) as usize;
        self.at(ordinal)
    }

    /// Any of them that can hold others; this one, if none is found soon.
    pub fn any_holder(&mut self, random: &mut Random) -> &mut Element {
        for _ in 0..8 {
            let ordinal = random.below(self.count() as u64) as usize;
            if self.at(ordinal).is_constructed() {
                return self.at(ordinal);
            }
        }
        self
    }

    /// Each of them, the outer before those inside.
    pub fn each(&mut self, act: &mut impl FnMut(&mut Element)) {
        act(self);
        for element in &mut self.inside {
            element.each(act);
        }
    }
}

fn shortest(length: usize) -> Vec<u8> {
    match u8::try_from(length) {
        Ok(length @ ..=0x7F) => vec![length],
        Ok(length) => vec![0x81, length],
        Err(_) => [vec![0x82], (length as u16).to_be_bytes().to_vec()].concat(),
    }
}

#[cfg(test)]
mod tests {
    use super::*;

    #[test]
    fn lengths() {
        let long = |size, length| Element { length, ..Element::primitive(&[0x9F, 0x21], &vec![7; size]) };
        let head = |size, length| long(size, length).encode()[2..].iter().copied().take_while(|b| *b != 7).collect();
        let heads: [(usize, Length, Vec<u8>); 9] = [
            (0, Length::Shortest, vec![0]),
            (127, Length::Shortest, vec![127]),
            (128, Length::Shortest, vec![0x81, 128]),
            (256, Length::Shortest, vec![0x82, 1, 0]),
            (3, Length::Octets(2), vec![0x82, 0, 3]),
            (3, Length::Octets(20), [vec![0x94], vec![0; 19], vec![3]].concat()),
            (3, Length::Indefinite, vec![0x80]),
            (3, Length::Enormous(2), vec![0x82, 1, 1]),
            (3, Length::Off(-2), vec![1]),
        ];
        for (size, length, expected) in heads {
            let got: Vec<u8> = head(size, length.clone());
            assert_eq!(got, expected, "{length:?} of {size}");
        }
    }

    #[test]
    fn written_octets_are_taken_apart() {
        let octets = [0xA2, 10, 0x02, 1, 5, 0x30, 5, 0x81, 1, 9, 0x05, 0];
        let elements = Element::all_of(&octets);
        assert_eq!(elements.len(), 1);
        assert_eq!(elements[0].encode(), octets);
        assert_eq!(elements[0].count(), 5);
        assert_eq!(elements[0].inside[1].inside[0], Element::primitive(&[0x81], &[9]));
        assert_eq!(elements[0].clone().at(3), &Element::primitive(&[0x81], &[9]));
    }
}
