//! Writes components: every length in one octet, TRUE as FF, every number complete, of E.164, allowed and network provided, and the
//! problem of a reject as general problem 0. So a component that was written reads back as itself.

use super::{flag, kind, sequence, Component, Says, ERRORS, LONGEST_DURATION, MODULE, NAME, NO_IDENTIFIER, PROFILE};
use crate::write::{part, Faults, Nature, Number, Refusal};

impl Component {
    /// What keeps it from being written: the ordinal of each and its name. They are counted in a component: itself 1, its operation or
    /// error 2, its parts 3, then what the parts bring, as it is there, and the identifier last.
    fn out_of_range(&self) -> Faults {
        let operation = matches!(self.kind, kind::INVOKE | kind::RESULT);
        let item = match self.kind {
            kind::INVOKE | kind::RESULT => (1..=3).contains(&self.item),
            kind::ERROR => ERRORS.contains(&self.item),
            kind::REJECT => self.item == 0,
            // of a component that is none the kind is the bad field
            _ => true,
        };
        // Where the component or its number is not known, no more can be said of the parts than that they are none at all.
        let known = item && (operation || matches!(self.kind, kind::ERROR | kind::REJECT));
        let places = sequence(self.kind, self.item).iter().fold(0, |parts, says| parts | says.parts());
        let identifier = self.identifier < 256 || self.identifier == NO_IDENTIFIER && self.kind == kind::REJECT;
        // What is there and not named is a fault of the parts.
        let mut last = 3;
        let mut place = |named: bool| {
            last += u32::from(named);
            if named {
                last
            } else {
                3
            }
        };
        let (calling, called) = (place(self.names(part::CALLING)), place(self.names(part::CALLED)));
        let duration = place(self.names(part::DURATION));
        let fields = vec![
            (1, "kind", (kind::INVOKE..=kind::REJECT).contains(&self.kind)),
            (2, "item", item),
            (3, "part 128", !self.names(128)),
            (3, "part 4 without 2", !self.names(flag::AS_TRANSFER) || self.names(flag::ACCEPTED)),
            (3, "a part without a place", !known || self.parts & 127 & !places == 0),
            (calling, "calling number", fits(self.calling, self.names(part::CALLING))),
            (called, "called number", fits(self.called, self.names(part::CALLED))),
            (duration, "duration", self.duration <= if self.names(part::DURATION) { LONGEST_DURATION } else { 0 }),
            (last + 1, "identifier", identifier),
        ];
        Faults::among(fields)
    }

    /// What keeps it from being written, by name.
    pub fn bad_fields(&self) -> Vec<&'static str> {
        self.out_of_range().names()
    }

    /// The ordinals of these, the first first.
    pub fn bad_ordinals(&self) -> Vec<u32> {
        self.out_of_range().ordinals()
    }

    /// Its octets. Its fields are in range.
    pub fn octets(&self) -> Vec<u8> {
        let identifier = match u8::try_from(self.identifier) {
            Ok(octet) => element(0x02, &[octet]),
            Err(_) => element(0x05, &[]),
        };
        let number = element(0x06, &[&MODULE[..], &[self.item]].concat());
        let inside = match self.kind {
            kind::INVOKE => [identifier, number, self.sequence()],
            kind::RESULT => [identifier, element(0x30, &[number, self.sequence()].concat()), vec![]],
            kind::ERROR => [identifier, number, vec![]],
            _ => [identifier, element(0x80, &[0x00]), vec![]],
        };
        element(0xA0 | self.kind, &inside.concat())
    }

    fn sequence(&self) -> Vec<u8> {
        let mut inside = Vec::new();
        for (tag, says) in (0x80..).zip(sequence(self.kind, self.item)) {
            if self.parts & says.parts() == 0 {
                continue;
            }
            let contents = match *says {
                Says::Flag(_) => vec![0xFF],
                Says::Accepted => vec![if self.names(flag::AS_TRANSFER) { 0xFF } else { 0x00 }],
                Says::Number(part::CALLING) => number(self.calling),
                Says::Number(_) => number(self.called),
                Says::Duration => vec![self.duration / 3600, self.duration / 60 % 60, self.duration % 60]
                    .into_iter()
                    .map(|octet| octet as u8)
                    .collect(),
            };
            inside.extend(element(tag, &contents));
        }
        element(0x30, &inside)
    }

    /// The component, in a room of so many bytes.
    pub fn write(&self, room: usize) -> Result<Vec<u8>, Refusal> {
        self.write_as(room, Component::octets)
    }

    /// The whole parameter with this one component.
    pub fn write_parameter(&self, room: usize) -> Result<Vec<u8>, Refusal> {
        self.write_as(room, |component| {
            let octets = component.octets();
            [&[NAME, octets.len() as u8 + 1, PROFILE], &octets[..]].concat()
        })
    }

    fn write_as(&self, room: usize, octets: impl Fn(&Component) -> Vec<u8>) -> Result<Vec<u8>, Refusal> {
        if let [ordinal, ..] = self.bad_ordinals()[..] {
            return Err(Refusal::BadField { ordinal });
        }
        let octets = octets(self);
        if octets.len() > room {
            return Err(Refusal::NoRoom);
        }
        Ok(octets)
    }
}

/// In range where the parts name it, else absent.
fn fits(number: Number, named: bool) -> bool {
    if named {
        number.in_range()
    } else {
        number == Number::ABSENT
    }
}

/// No written contents have 128 octets: the length is one.
fn element(tag: u8, contents: &[u8]) -> Vec<u8> {
    [&[tag, contents.len() as u8], contents].concat()
}

fn number(number: Number) -> Vec<u8> {
    let (count, nature) = (usize::from(number.count), if number.nature == Nature::National { 0x03 } else { 0x04 });
    let digits = format!("{:0count$}", number.value);
    let odd = if digits.len() % 2 == 1 { 0x80 } else { 0x00 };
    let pairs = digits.as_bytes().chunks(2).map(|pair| match pair {
        [low, high] => (high - b'0') << 4 | (low - b'0'),
        last => last[0] - b'0',
    });
    [odd | nature, 0x13].into_iter().chain(pairs).collect()
}

#[cfg(test)]
mod tests {
    use super::*;
    use crate::wire::read;

    const HOME: Number = Number::national(7, 5_550_123);
    const MOST: Number = Number::international(15, 999_999_999_999_999);

    /// A component with every part that it has a place for.
    fn full(kind: u8, item: u8) -> Component {
        let parts = sequence(kind, item).iter().fold(0, |parts, says| parts | says.parts());
        let named = |part, number| if parts & part != 0 { number } else { Number::ABSENT };
        let duration = if parts & part::DURATION != 0 { LONGEST_DURATION } else { 0 };
        let (calling, called) = (named(part::CALLING, MOST), named(part::CALLED, MOST));
        Component { identifier: 3, kind, item, parts, calling, called, duration }
    }

    /// The table of lengths of 02 #105, from the shortest to the longest of each.
    #[test]
    fn lengths() {
        let bare = |kind, item| Component::bare(1, kind, item).octets().len();
        for (kind, item, shortest, longest) in
            [(1, 1, 16, 31), (1, 2, 16, 31), (1, 3, 16, 34), (2, 1, 18, 33), (2, 2, 18, 33), (2, 3, 18, 38)]
        {
            assert_eq!((bare(kind, item), full(kind, item).octets().len()), (shortest, longest));
        }
        assert_eq!((bare(3, 4), bare(3, 12), bare(4, 0)), (14, 14, 8));
        assert_eq!(Component::bare(NO_IDENTIFIER, 4, 0).octets().len(), 7);
    }

    /// All parts, and all counts of digits, read back as they were written: alone, and as the parameter.
    #[test]
    fn what_is_written_reads_back() {
        let reads_back = |component: Component| {
            let octets = component.write(usize::MAX).expect("a component in range");
            assert_eq!(read::component(&octets), Ok((component, octets.len())));
            let parameter = component.write_parameter(usize::MAX).expect("a component in range");
            assert_eq!(read::parameter(&parameter).0, Ok(vec![component]));
            assert_eq!(component.write(octets.len()), Ok(octets.clone()));
            assert_eq!(component.write(octets.len() - 1), Err(Refusal::NoRoom));
            assert_eq!(component.write_parameter(octets.len() + 3), Ok(parameter));
            assert_eq!(component.write_parameter(octets.len() + 2), Err(Refusal::NoRoom));
        };
        for (kind, item) in [(1, 1), (1, 2), (1, 3), (2, 1), (2, 2), (2, 3)] {
            let most = full(kind, item);
            for parts in (0..=255).filter(|parts| parts & !most.parts == 0 && parts & 6 != 4) {
                let named = |part, number| if parts & part != 0 { number } else { Number::ABSENT };
                let duration = if parts & part::DURATION != 0 { 12_345 } else { 0 };
                let (calling, called) = (named(part::CALLING, most.calling), named(part::CALLED, most.called));
                reads_back(Component { parts, calling, called, duration, ..most });
            }
        }
        for count in 1..=15 {
            for value in [0, 1, 10_u64.pow(u32::from(count)) / 7, 10_u64.pow(u32::from(count)) - 1] {
                for nature in Nature::ALL {
                    reads_back(Component { calling: Number { nature, count, value }, ..full(1, 1) });
                }
            }
        }
        for duration in [0, 1, 59, 60, 3599, 3600, 86_399, LONGEST_DURATION] {
            reads_back(Component { duration, ..full(2, 3) });
        }
        for identifier in 0..=NO_IDENTIFIER {
            reads_back(Component::bare(identifier, kind::REJECT, 0));
        }
        for item in ERRORS {
            reads_back(Component::bare(0x80, kind::ERROR, item));
        }
    }

    /// One bad field each: 3 in any room.
    #[test]
    fn bad_fields() {
        let with = |component: Component, change: fn(&mut Component)| {
            let mut component = component;
            change(&mut component);
            component
        };
        let (setup, called, error) = (Component::bare(1, 1, 1), full(2, 3), Component::bare(1, 3, 4));
        let reject = Component::bare(NO_IDENTIFIER, 4, 0);
        let cases = [
            (1, "kind", Component::bare(1, 0, 0)),
            (1, "kind", Component::bare(1, 5, 0)),
            (2, "item", with(setup, |c| c.item = 0)),
            (2, "item", with(setup, |c| c.item = 4)),
            (2, "item", with(error, |c| c.item = 3)),
            (2, "item", with(error, |c| c.item = 13)),
            (2, "item", with(reject, |c| c.item = 1)),
            (3, "part 128", with(setup, |c| c.parts = 128)),
            (3, "part 4 without 2", with(called, |c| c.parts &= !2)),
            (3, "a part without a place", with(setup, |c| c.parts = 8)),
            (3, "a part without a place", with(setup, |c| c.parts = 2)),
            (3, "a part without a place", with(setup, |c| (c.parts, c.called) = (part::CALLED, HOME))),
            (3, "a part without a place", with(error, |c| (c.parts, c.called) = (part::CALLED, HOME))),
            (3, "a part without a place", with(reject, |c| c.parts = 1)),
            (4, "calling number", with(called, |c| c.calling = Number::ABSENT)),
            (4, "calling number", with(called, |c| c.calling.count = 16)),
            (4, "calling number", with(called, |c| c.calling.value += 1)),
            (3, "calling number", with(setup, |c| c.calling = HOME)),
            (3, "called number", with(setup, |c| c.called = Number::international(0, 0))),
            (5, "duration", with(called, |c| c.duration = LONGEST_DURATION + 1)),
            (3, "duration", with(setup, |c| c.duration = 1)),
            (4, "identifier", with(setup, |c| c.identifier = NO_IDENTIFIER)),
            (4, "identifier", with(reject, |c| c.identifier = 257)),
            (4, "identifier", with(reject, |c| c.identifier = 65_535)),
            (5, "identifier", with(full(1, 1), |c| c.identifier = 300)),
            (5, "identifier", with(full(2, 2), |c| c.identifier = NO_IDENTIFIER)),
            (6, "identifier", with(called, |c| c.identifier = NO_IDENTIFIER)),
        ];
        for (ordinal, field, component) in cases {
            assert_eq!(component.bad_fields(), [field], "{component:?}");
            for room in [0, 38, 255] {
                assert_eq!(component.write(room), Err(Refusal::BadField { ordinal }), "{component:?}");
                assert_eq!(component.write_parameter(room), Err(Refusal::BadField { ordinal }), "{component:?}");
            }
        }
    }

    /// "first bad field first": a component in which all are bad, and then one after the other is not.
    #[test]
    fn the_first_bad_field() {
        let bad = Number::national(16, 0);
        let (calling, duration) = (bad, LONGEST_DURATION + 1);
        let mut component =
            Component { identifier: 300, kind: 0, item: 4, parts: 0xDC, calling, duration, ..full(2, 3) };
        let mut refused = |change: fn(&mut Component)| {
            change(&mut component);
            component.write(0).map_err(Refusal::ordinal)
        };
        assert_eq!(refused(|_| ()), Err(1));
        assert_eq!(refused(|c| c.kind = kind::RESULT), Err(2));
        assert_eq!(refused(|c| c.item = 3), Err(3));
        assert_eq!(refused(|c| c.parts = 0x54), Err(3));
        assert_eq!(refused(|c| c.parts = 0x56), Err(4));
        assert_eq!(refused(|c| c.calling = HOME), Err(5));
        assert_eq!(refused(|c| c.duration = LONGEST_DURATION), Err(6));
        assert_eq!(refused(|c| c.duration += 1), Err(5));
        assert_eq!(refused(|c| (c.parts, c.duration) = (0x16, 0)), Err(5));
        assert_eq!(refused(|c| c.duration = 1), Err(3));
        // 8: none is bad
        assert_eq!(refused(|c| (c.duration, c.identifier) = (0, 3)), Err(0));
    }
}
