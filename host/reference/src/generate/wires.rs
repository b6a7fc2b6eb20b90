//! Parameters for a reader and entries for a writer, in range or not, each with the buffer that it is lent.

use super::elements::{Element, Length};
use super::fields;
use super::lent::room;
use super::random::Random;
use crate::wire::{
    entries, flag, kind, read, sequence, Component, Says, ERRORS, LONGEST_DURATION, NAME, NO_IDENTIFIER, PROFILE,
};
use crate::write::{part, Message, Nature, Number};

/// What one of the two functions is asked.
#[derive(Clone, PartialEq, Eq, Debug)]
pub enum Question {
    Read { parameter: Vec<u8>, message: u8, cause: u8, before: Vec<u8> },
    Write { entry: Vec<u8>, before: Vec<u8> },
}

/// The question of a seed and an ordinal. Each can be made again without those before it.
pub fn question(seed: u64, ordinal: u64) -> Question {
    let mut random = Random::new(seed, ordinal);
    let random = &mut random;
    if random.below(5) < 3 {
        let parameter = parameter(random);
        let (message, cause) = message_and_cause(random);
        let size = match read::parameter(&parameter).0 {
            Ok(components) => {
                entries::events(&components).iter().map(|event| record(&event.in_message(1, 0)).len() + 2).sum()
            }
            Err(_) => 1 + random.below(60) as usize,
        };
        Question::Read { parameter, message, cause, before: buffer(random, size) }
    } else {
        let (entry, size) = entry(random);
        Question::Write { entry, before: buffer(random, size) }
    }
}

fn buffer(random: &mut Random, size: usize) -> Vec<u8> {
    let room = room(random, size);
    (0..room).map(|_| random.byte()).collect()
}

/// Mostly in range.
fn message_and_cause(random: &mut Random) -> (u8, u8) {
    let (mut message, mut cause) = (1 + random.below(5) as u8, random.cause());
    if random.below(12) == 0 {
        message = random.pick(&[0, 6, 7, 128, 255]);
    }
    if random.below(12) == 0 {
        cause = random.pick(&[128, 129, 255]);
    }
    (message, cause)
}

// ---- Components ----

/// A component in range, with any of the parts that it has a place for.
fn component(random: &mut Random) -> Component {
    match random.below(10) {
        0..=3 => operation(random, kind::INVOKE),
        4..=7 => operation(random, kind::RESULT),
        8 => {
            let error = ERRORS.start() + random.below(9) as u8;
            Component::bare(identifier(random), kind::ERROR, error)
        }
        _ => {
            let identifier = if random.below(3) == 0 { NO_IDENTIFIER } else { identifier(random) };
            Component::bare(identifier, kind::REJECT, 0)
        }
    }
}

fn identifier(random: &mut Random) -> u16 {
    match random.below(4) {
        0 => random.pick(&[0, 1, 127, 128, 255]),
        _ => random.below(256) as u16,
    }
}

/// An invoke or a result. Each of its parts is there two times of three.
fn operation(random: &mut Random, kind: u8) -> Component {
    let mut component = Component::bare(identifier(random), kind, 1 + random.below(3) as u8);
    for says in sequence(kind, component.item) {
        if random.below(3) > 0 {
            add(random, &mut component, *says);
        }
    }
    component
}

fn add(random: &mut Random, component: &mut Component, says: Says) {
    component.parts |= says.parts();
    match says {
        Says::Flag(_) => {}
        Says::Accepted if random.below(2) == 0 => component.parts &= !flag::AS_TRANSFER,
        Says::Accepted => {}
        Says::Number(part::CALLING) => component.calling = number(random),
        Says::Number(_) => component.called = number(random),
        Says::Duration => component.duration = duration(random),
    }
}

/// A number in range, mostly the least or the greatest of its count.
fn number(random: &mut Random) -> Number {
    let count = match random.below(6) {
        0 => 15,
        _ => 1 + random.below(15) as u8,
    };
    let value = match random.below(5) {
        0..=1 => 0,
        2..=3 => 10_u64.pow(u32::from(count)) - 1,
        _ => return random.number(),
    };
    Number { nature: random.pick(&Nature::ALL), count, value }
}

/// A duration that goes into three octets.
fn duration(random: &mut Random) -> u32 {
    match random.below(4) {
        0..=2 => random.pick(&[0, 1, 59, 60, 3599, 3600, LONGEST_DURATION - 1, LONGEST_DURATION]),
        _ => random.below(u64::from(LONGEST_DURATION) + 1) as u32,
    }
}

// ---- Parameters ----

fn tree(component: &Component) -> Element {
    Element::all_of(&component.octets()).remove(0)
}

fn parameter(random: &mut Random) -> Vec<u8> {
    let octets = match random.below(48) {
        0..=6 => return whole(&[tree(&component(random)).encode()]),
        7..=13 => {
            let mut tree = tree(&component(random));
            for _ in 0..1 + random.below(3) {
                loosen(random, &mut tree);
            }
            tree.encode()
        }
        14..=17 => return several(random),
        18 => return whole(&[]),
        19 => return filled(random),
        20..=21 => return another_head(random),
        22..=28 => {
            let mut tree = tree(&component(random));
            if random.below(4) == 0 {
                loosen(random, &mut tree);
            }
            spoil(random, &mut tree);
            tree.encode()
        }
        29..=33 => spoilt_value(random).encode(),
        34..=40 => deep(random).encode(),
        41..=42 => return mutated(random),
        43..=44 => return cut(random),
        45 => bad_header(random),
        46 => noise(random, 40),
        _ => return noise(random, 300),
    };
    among_others(random, octets)
}

/// A parameter with these components. The low byte of a length that is too large for one octet is as wrong as any.
fn whole(components: &[Vec<u8>]) -> Vec<u8> {
    let components = components.concat();
    [vec![NAME, (components.len() + 1) as u8, PROFILE], components].concat()
}

/// The octets of a component alone, or after others that are right, or before one.
fn among_others(random: &mut Random, octets: Vec<u8>) -> Vec<u8> {
    let mut good = || tree(&component(random)).encode();
    let (first, second) = (good(), good());
    match random.below(8) {
        0 => whole(&[first, octets]),
        1 => whole(&[first, second, octets]),
        2 => whole(&[octets, first]),
        _ => whole(&[octets]),
    }
}

/// As many as fit of those that were asked for.
fn several(random: &mut Random) -> Vec<u8> {
    let asked = random.pick(&[2, 2, 2, 3, 3, 4, 5, 6, 40]);
    let (mut components, mut length) = (Vec::new(), 0);
    for _ in 0..asked {
        let mut tree = tree(&component(random));
        if random.below(3) == 0 {
            loosen(random, &mut tree);
        }
        let octets = tree.encode();
        if length + octets.len() > 254 {
            break;
        }
        length += octets.len();
        components.push(octets);
    }
    whole(&components)
}

/// The longest parameter, of 257 bytes, with the most components or a few; or two bytes less, where no length takes them.
fn filled(random: &mut Random) -> Vec<u8> {
    let mut trees = Vec::new();
    let mut left: usize = 254;
    let smallest = random.below(2) == 0;
    loop {
        let component = match smallest {
            true => Component::bare(NO_IDENTIFIER, kind::REJECT, 0),
            false => component(random),
        };
        let tree = tree(&component);
        match left.checked_sub(tree.encode().len()) {
            Some(rest) => left = rest,
            None => break,
        }
        trees.push(tree);
    }
    // A length in more octets takes as many more.
    if random.below(3) > 0 {
        trees[0].length = if left == 0 { Length::Shortest } else { Length::Octets(left as u8) };
    }
    whole(&trees.iter().map(Element::encode).collect::<Vec<_>>())
}

fn another_head(random: &mut Random) -> Vec<u8> {
    let mut bytes = among_others_of_one(random);
    match random.below(8) {
        0 => bytes[0] = random.pick(&[0x00, 0x31, 0x33, 0xB2]),
        1 => bytes[2] = random.pick(&[0x11, 0x90, 0x92, 0xB1, 0xD1, 0xF1, 0x00]),
        2 => bytes[1] = bytes[1].wrapping_add(random.pick(&[1, 2, 128])),
        3 => bytes[1] = bytes[1].wrapping_sub(random.pick(&[1, 2, 5])),
        4 => bytes.truncate(random.below(3) as usize),
        5 => bytes = vec![NAME, 0],
        6 => bytes = [vec![NAME, 0], noise(random, 4)].concat(),
        _ => (bytes[0], bytes[2]) = (random.byte(), random.byte()),
    }
    bytes
}

fn among_others_of_one(random: &mut Random) -> Vec<u8> {
    let octets = tree(&component(random)).encode();
    among_others(random, octets)
}

fn noise(random: &mut Random, most: u64) -> Vec<u8> {
    let length = random.below(most + 1);
    // Small octets and those of the grammar are lengths and tags more often than any are.
    let known = [0x02, 0x01, 0x06, 0x07, 0x30, 0x80, 0x81, 0x82, 0xA1, 0xA2, 0xA3, 0xA4, 0x05, 0x00];
    let style = random.below(3);
    (0..length)
        .map(|_| match style {
            0 => random.byte(),
            1 => random.pick(&known),
            _ => random.below(12) as u8,
        })
        .collect()
}

/// A few octets changed, put in or left out; the parameter's own length mostly follows.
fn mutated(random: &mut Random) -> Vec<u8> {
    let mut bytes = match random.below(3) {
        0 => several(random),
        _ => among_others_of_one(random),
    };
    for _ in 0..1 + random.below(2) {
        let at = random.below(bytes.len() as u64) as usize;
        match random.below(6) {
            0 => bytes[at] = random.byte(),
            1 => bytes[at] ^= 1 << random.below(8),
            2 => bytes[at] = bytes[at].wrapping_add(random.pick(&[1, 255])),
            3 => bytes.insert(at, random.byte()),
            4 => {
                bytes.remove(at);
            }
            _ => bytes[at] = random.pick(&[0x00, 0x1F, 0x80, 0x81, 0x82, 0xFF, 0x30]),
        }
        if bytes.is_empty() {
            return bytes;
        }
    }
    if bytes.len() > 2 && random.below(4) > 0 {
        bytes[1] = (bytes.len() - 2) as u8;
    }
    bytes
}

/// A beginning: of the parameter, or of its contents in a parameter that is whole.
fn cut(random: &mut Random) -> Vec<u8> {
    let mut bytes = among_others_of_one(random);
    bytes.truncate(random.below(bytes.len() as u64) as usize);
    if bytes.len() > 2 && random.below(3) > 0 {
        bytes[1] = (bytes.len() - 2) as u8;
    }
    bytes
}

// ---- What a neighbour may do otherwise ----

/// The SEQUENCE of parts of an invoke or a result, which is whole.
fn parts_of(tree: &mut Element) -> Option<&mut Element> {
    match tree.identifier[..] {
        [0xA1] => tree.inside.last_mut(),
        [0xA2] => tree.inside.last_mut()?.inside.last_mut(),
        _ => None,
    }
}

fn loosen(random: &mut Random, tree: &mut Element) {
    match (random.below(8), tree.identifier[0]) {
        (0, _) => {
            let octets = match random.below(3) {
                0 => 126,
                1 => random.pick(&[1, 2, 3, 4]),
                _ => 1 + random.below(126) as u8,
            };
            tree.any(random).length = Length::Octets(octets);
        }
        (1, _) => tree.each(&mut |element| element.length = Length::Octets(1 + random.below(3) as u8)),
        (2, 0xA1) => {
            let linked = Element::primitive(&[0x80], &[random.byte()]);
            tree.inside.insert(1, linked);
        }
        (0..=3, 0xA4) => {
            let tag = 0x80 + random.below(4) as u8;
            tree.inside[1] = Element::primitive(&[tag], &[random.byte()]);
        }
        (4, 0xA1 | 0xA2) => flags(random, tree),
        (5, 0xA1 | 0xA2) => {
            if let Some(number) = parts_of(tree).and_then(|parts| find(parts, 0x81)) {
                number.octets[1] = 0x10 | random.below(16) as u8;
            }
        }
        (_, 0xA1 | 0xA2) => {
            let own = own_tags(tree);
            for _ in 0..1 + random.below(3) {
                let unknown = unknown(random, own, 3);
                parts_of(tree).expect("an operation's parts").inside.push(unknown);
            }
        }
        _ => tree.length = Length::Octets(1),
    }
}

fn find(parts: &mut Element, tag: u8) -> Option<&mut Element> {
    parts.inside.iter_mut().find(|part| part.identifier == [tag])
}

/// Each BOOLEAN TRUE by another octet than FF, or FALSE; [0] is put in where it is absent.
fn flags(random: &mut Random, tree: &mut Element) {
    let own = own_tags(tree);
    let partial = tree.identifier == [0xA1] && own == 3;
    let Some(parts) = parts_of(tree) else { return };
    if find(parts, 0x80).is_none() {
        parts.inside.insert(0, Element::primitive(&[0x80], &[0]));
    }
    if partial && find(parts, 0x82).is_none() {
        let behind = parts.inside.iter().take_while(|part| matches!(part.identifier[..], [0x80 | 0x81])).count();
        parts.inside.insert(behind, Element::primitive(&[0x82], &[0]));
    }
    for tag in [0x80, 0x82] {
        if let Some(boolean) = find(parts, tag).filter(|part| part.octets.len() == 1) {
            boolean.octets[0] = random.pick(&[0x00, 0x00, 0x01, 0x80, 0xFF]);
        }
    }
}

/// How many tags the module has in its SEQUENCE of parts, from [0] on.
fn own_tags(tree: &Element) -> u8 {
    let operation = match tree.identifier[..] {
        [0xA1] => tree.inside.iter().find(|element| element.identifier == [0x06]),
        _ => tree.inside.get(1).and_then(|outer| outer.inside.first()),
    };
    match operation.and_then(|operation| operation.octets.last()) {
        Some(1 | 2) => 2,
        _ => 3,
    }
}

/// A tag that a SEQUENCE with so many of its own does not know.
fn unknown_tag(random: &mut Random, own: u8, constructed: bool) -> Vec<u8> {
    let mut tag = match random.below(6) {
        0 => vec![0x80 | own],
        1 => vec![0x80 | (own + random.below(31 - u64::from(own)) as u8)],
        2 => vec![random.pick(&[0x00, 0x40, 0xC0]) | random.below(31) as u8],
        3 => vec![random.pick(&[0x1F, 0x9F]), random.below(128) as u8],
        4 => vec![random.pick(&[0x1F, 0x5F, 0x9F, 0xDF]), 0x80 | random.below(128) as u8, random.below(128) as u8],
        // [0] to [3] by its number, which the octets are not
        _ => vec![0x9F, random.below(4) as u8],
    };
    if constructed {
        tag[0] |= 0x20;
    }
    tag
}

/// An element that is left out, at most so many deep.
fn unknown(random: &mut Random, own: u8, depth: u32) -> Element {
    let constructed = depth > 1 && random.below(2) == 0;
    let tag = unknown_tag(random, own, constructed);
    if constructed {
        let inside = (0..random.below(3)).map(|_| unknown(random, 0, depth - 1)).collect();
        Element::constructed(&tag, inside)
    } else {
        let octets: Vec<u8> = (0..random.below(5)).map(|_| random.byte()).collect();
        Element::primitive(&tag, &octets)
    }
}

// ---- What is refused ----

/// Octets that are no element, wherever they end: a header that is cut, a length that is none or too much.
fn bad_header(random: &mut Random) -> Vec<u8> {
    let tag = random.pick(&[&[0x02][..], &[0x30], &[0x80], &[0x06], &[0x9F, 0x21], &[0xBF, 0x81, 0x00]]);
    let after: &[u8] = match random.below(8) {
        0 => return random.pick(&[&[0x1F][..], &[0xBF, 0x81], &[0x9F, 0x80, 0xFF]]).to_vec(),
        1 => &[],
        2 => &[0x80],
        3 => &[0xFF],
        4 => random.pick(&[&[0x81][..], &[0x82, 0x00], &[0xFE, 0x00, 0x00]]),
        5 => &[0x01],
        6 => random.pick(&[&[0x7F][..], &[0x84, 0xFF, 0xFF, 0xFF, 0xFF], &[0x81, 0x05, 0x00]]),
        _ => &[0x89, 0, 0, 0, 0, 0, 0, 0, 0, 3, 1, 2],
    };
    [tag, after].concat()
}

/// Makes one element of a component wrong, at any depth.
fn spoil(random: &mut Random, tree: &mut Element) {
    match random.below(13) {
        0 => {
            let length = match random.below(5) {
                0 => Length::Indefinite,
                1 => Length::Reserved,
                2 => Length::Enormous(random.pick(&[1, 2, 3, 4, 8, 9, 20, 126])),
                _ => Length::Off(random.pick(&[-3, -2, -1, 1, 2, 3, 100])),
            };
            tree.any(random).length = length;
        }
        1 => {
            let octets = bad_header(random);
            tree.any_holder(random).octets = octets;
        }
        // What is wanted lacks, and a bad header may stand in its place.
        2..=4 => {
            let bad = if random.below(3) == 0 { bad_header(random) } else { vec![] };
            let holder = tree.any_holder(random);
            holder.inside.truncate(random.below(holder.inside.len() as u64 + 1) as usize);
            holder.octets = bad;
        }
        5 => {
            let holder = tree.any_holder(random);
            if !holder.inside.is_empty() {
                holder.inside.remove(random.below(holder.inside.len() as u64) as usize);
            }
        }
        // One twice, side by side or not.
        6 => {
            let holder = tree.any_holder(random);
            if !holder.inside.is_empty() {
                let at = random.below(holder.inside.len() as u64) as usize;
                let element = holder.inside[at].clone();
                let to = random.below(holder.inside.len() as u64 + 1) as usize;
                holder.inside.insert(to, element);
            }
        }
        7 => tree.any_holder(random).inside.reverse(),
        // One more, in any place.
        8..=9 => {
            let more = random_other(random);
            let holder = tree.any_holder(random);
            let at = match random.below(3) {
                0 => random.below(holder.inside.len() as u64 + 1) as usize,
                _ => holder.inside.len(),
            };
            holder.inside.insert(at, more);
        }
        10 => {
            let element = tree.any(random);
            match random.below(4) {
                0 => element.identifier[0] ^= 0x20,
                1 => element.identifier[0] = random.byte() & 0xFE,
                2 => element.identifier[0] = element.identifier[0].wrapping_add(random.pick(&[1, 2, 255])),
                _ => element.identifier = unknown_tag(random, 0, true),
            }
        }
        // Contents of another length.
        11 => {
            let element = tree.any(random);
            match random.below(3) {
                0 => element.octets.clear(),
                1 => element.octets.push(random.byte()),
                _ => {
                    element.octets.pop();
                }
            }
        }
        _ => {
            tree.identifier =
                random.pick(&[&[0xA0][..], &[0xA5], &[0x81], &[0x30], &[0x61], &[0xBF, 0x01], &[0xE1]]).to_vec()
        }
    }
}

/// An element of the grammar, or one that it does not know.
fn random_other(random: &mut Random) -> Element {
    match random.below(8) {
        0 => Element::primitive(&[0x02], &[1]),
        1 => Element::primitive(&[0x05], &[]),
        2 => Element::primitive(&[0x80], &[0xFF]),
        3 => Element::primitive(&[0x81], &[0x83, 0x13, 0x00]),
        4 => Element::primitive(&[0x82], &[0xFF]),
        5 => Element::constructed(&[0x30], vec![]),
        6 => Element::primitive(&[0x00], &[]),
        _ => unknown(random, 0, 2),
    }
}

/// A component of which one value is not the module's.
fn spoilt_value(random: &mut Random) -> Element {
    let kind = random.pick(&[kind::INVOKE, kind::INVOKE, kind::RESULT, kind::RESULT, kind::ERROR, kind::REJECT]);
    let mut component = Component::bare(identifier(random), kind, 0);
    match kind {
        kind::REJECT => {}
        kind::ERROR => component.item = 4,
        _ => {
            component.item = random.pick(&[1, 2, 3, 3, 3]);
            for says in sequence(kind, component.item) {
                add(random, &mut component, *says);
            }
        }
    }
    let mut tree = tree(&component);
    match kind {
        kind::REJECT => match random.below(3) {
            0 => tree.inside[0] = Element::primitive(&[0x05], &[0]),
            1 => tree.inside[1].octets = random.pick(&[&[][..], &[0, 0]]).to_vec(),
            _ => tree.inside[1].identifier = random.pick(&[&[0x84][..], &[0xA0], &[0x02], &[0x9F, 0x00]]).to_vec(),
        },
        kind::ERROR => match random.below(3) {
            0 => tree.inside[0] = Element::primitive(&[0x05], &[]),
            _ => spoil_object(random, &mut tree.inside[1]),
        },
        _ => match random.below(4) {
            0 if kind == kind::INVOKE => match random.below(3) {
                0 => {
                    let linked = Element::primitive(&[0x80], random.pick(&[&[][..], &[1, 2]]));
                    tree.inside.insert(1, linked);
                }
                1 => {
                    tree.inside.truncate(1);
                    tree.inside.push(Element::primitive(&[0x80], &[2]));
                }
                _ => spoil_object(random, &mut tree.inside[1]),
            },
            0 => spoil_object(random, &mut tree.inside[1].inside[0]),
            _ => spoil_part(random, parts_of(&mut tree).expect("an operation's parts")),
        },
    }
    tree
}

fn spoil_object(random: &mut Random, object: &mut Element) {
    match random.below(4) {
        0 => {
            let at = random.below(6) as usize;
            object.octets[at] ^= 1 << random.below(8);
        }
        1 => {
            object.octets = random
                .pick(&[
                    &[0x00, 0x11, 0x85, 0x60, 0x03, 0x01][..],
                    &[0x00, 0x11, 0x85, 0x60, 0x03, 0x01, 0x81, 0x00],
                    &[],
                ])
                .to_vec()
        }
        _ => object.octets[6] = random.pick(&[0, 1, 3, 4, 5, 12, 13, 128, 129, 255]),
    }
}

/// All parts are there.
fn spoil_part(random: &mut Random, parts: &mut Element) {
    let at = random.below(parts.inside.len() as u64) as usize;
    let (tag, part) = (parts.inside[at].identifier[0], &mut parts.inside[at]);
    match (random.below(8), tag) {
        (0, _) => part.identifier[0] ^= 0x20,
        (1, _) => part.octets.push(0),
        (2, _) => {
            part.octets.pop();
        }
        (3, _) => parts.inside.insert(0, Element::primitive(&[0x83], &[])),
        (_, 0x81) => spoil_number(random, &mut part.octets),
        (4, 0x82) if part.octets.len() == 3 => part.octets[1] = random.pick(&[60, 61, 128, 255]),
        (5, 0x82) if part.octets.len() == 3 => part.octets[2] = random.pick(&[60, 61, 128, 255]),
        (4..=5, _) => part.octets = vec![0; random.pick(&[0, 2, 4])],
        (6, _) => {
            let twice = part.clone();
            parts.inside.push(twice);
        }
        _ => parts.inside.swap(0, 1),
    }
}

/// The octets of a number that is right.
fn spoil_number(random: &mut Random, octets: &mut Vec<u8>) {
    let (last, odd) = (octets.len() - 1, octets[0] & 0x80);
    match random.below(9) {
        0 => octets[0] = odd | random.pick(&[0, 1, 2, 5, 0x43, 0x44, 0x7F]),
        1 => octets[1] = random.pick(&[0x03, 0x23, 0x93, 0x91, 0x33, 0xF3, 0x00]),
        2 => octets.truncate(random.below(3) as usize),
        3 => {
            octets[0] &= 0x7F;
            octets[last] = octets[last] & 0x0F | random.pick(&[0xA0, 0xB0, 0xF0]);
        }
        4 => {
            let at = 2 + random.below(last as u64 - 1) as usize;
            octets[at] = octets[at] & 0xF0 | random.pick(&[0x0A, 0x0B, 0x0F]);
        }
        5 => {
            octets[0] |= 0x80;
            octets[last] |= random.pick(&[0x10, 0x20, 0x90, 0xF0]);
        }
        // Sixteen digits, or more.
        6 => *octets = [vec![octets[0] & 0x7F, 0x13], vec![0x21; 8]].concat(),
        7 => *octets = [vec![octets[0], 0x13], vec![0x21; 9 + random.below(3) as usize]].concat(),
        _ => octets.extend(std::iter::repeat_n(0, 10 - last)),
    }
}

/// Unknown elements one in another, to around the greatest depth, and in the last of them nothing, an element, or what is none.
fn deep(random: &mut Random) -> Element {
    let mut component = Component::bare(identifier(random), random.pick(&[kind::INVOKE, kind::RESULT]), 0);
    component.item = 1 + random.below(3) as u8;
    let mut tree = tree(&component);
    let mut innermost = match random.below(8) {
        0 => Element::constructed(&unknown_tag(random, 3, true), vec![]),
        1 => unknown(random, 3, 1),
        _ => Element { octets: bad_header(random), ..Element::constructed(&unknown_tag(random, 3, true), vec![]) },
    };
    let levels = match random.below(3) {
        0 => random.below(3),
        _ => 3 + random.below(5),
    };
    for _ in 0..levels {
        let mut inside = vec![innermost];
        if random.below(6) == 0 {
            inside.insert(0, unknown(random, 3, 1));
        }
        innermost = Element::constructed(&unknown_tag(random, 3, true), inside);
    }
    parts_of(&mut tree).expect("an operation's parts").inside.push(innermost);
    if random.below(8) == 0 {
        tree.any(random).length = Length::Octets(2);
    }
    tree
}

// ---- Entries ----

/// The record of a message, in range or not. Its numbers and its duration are those that its parts name.
fn record(message: &Message) -> Vec<u8> {
    let mut body = vec![message.message, message.cause, message.component, message.item, message.parts];
    for (part, bytes) in [
        (part::CALLING, message.calling.bytes()),
        (part::CALLED, message.called.bytes()),
        (part::DURATION, message.duration.to_le_bytes().to_vec()),
    ] {
        if message.names(part) {
            body.extend(bytes);
        }
    }
    [vec![2 + body.len() as u8, 0, 3, 0], body].concat()
}

fn entry_of(component: &Component, message: u8, cause: u8) -> Vec<u8> {
    [component.identifier.to_le_bytes().to_vec(), record(&component.in_message(message, cause))].concat()
}

/// An entry, and how many bytes its parameter has or might have.
fn entry(random: &mut Random) -> (Vec<u8>, usize) {
    let (message, cause) = (1 + random.below(5) as u8, random.cause());
    let good = component(random);
    let size = good.octets().len() + 3;
    let bytes = entry_of(&good, message, cause);
    let bytes = match random.below(20) {
        0..=7 => bytes,
        8..=12 => spoilt_entry(random, 1),
        13 => spoilt_in_places(random),
        14 => spoilt_entry(random, 2),
        15 => bytes[..random.below(bytes.len() as u64) as usize].to_vec(),
        16..=17 => badly_framed(random, bytes),
        18 => [good.identifier.to_le_bytes().to_vec(), fields::any(random)].concat(),
        _ => noise(random, 40),
    };
    if random.below(4) == 0 {
        return ([bytes, noise(random, 20)].concat(), size);
    }
    (bytes, size)
}

/// Bad fields, so many.
fn spoilt_entry(random: &mut Random, times: u32) -> Vec<u8> {
    let mut component = component(random);
    let (mut message, mut cause) = (1 + random.below(5) as u8, random.cause());
    for _ in 0..times {
        match random.below(14) {
            0 => message = random.pick(&[0, 6, 7, 255]),
            1 => cause = random.pick(&[128, 129, 255]),
            2 => component = Component::bare(identifier(random), random.pick(&[0, 5, 6, 128, 255]), 0),
            3 => {
                component = match random.below(4) {
                    0 => operation(random, kind::INVOKE),
                    1 => operation(random, kind::RESULT),
                    2 => Component::bare(identifier(random), kind::ERROR, 4),
                    _ => Component::bare(identifier(random), kind::REJECT, 0),
                };
                component.item = match component.kind {
                    kind::ERROR => random.pick(&[0, 3, 13, 255]),
                    kind::REJECT => random.pick(&[1, 2, 255]),
                    _ => random.pick(&[0, 4, 12, 255]),
                }
            }
            4 => component.parts |= 128,
            5 => {
                component = operation(random, kind::RESULT);
                component.parts = component.parts & !flag::ACCEPTED | flag::AS_TRANSFER;
            }
            6..=7 => unplaced(random, &mut component),
            8..=10 => spoil_a_number(random, &mut component),
            11 => {
                component = Component::bare(identifier(random), kind::RESULT, 3);
                for says in sequence(kind::RESULT, 3) {
                    add(random, &mut component, *says);
                }
                component.duration = random.pick(&[LONGEST_DURATION + 1, LONGEST_DURATION + 2, 1 << 24, u32::MAX]);
            }
            _ => {
                component = match random.below(6) {
                    0 => operation(random, kind::INVOKE),
                    1 => operation(random, kind::RESULT),
                    2 => Component::bare(0, kind::ERROR, 4),
                    _ => Component::bare(0, kind::REJECT, 0),
                };
                component.identifier = match component.kind {
                    kind::REJECT => random.pick(&[257, 512, 65_535]),
                    _ => random.pick(&[NO_IDENTIFIER, NO_IDENTIFIER, 257, 512, 65_535]),
                };
            }
        }
    }
    entry_of(&component, message, cause)
}

/// A result CALLED with a number, a Duration or both, in which two fields are bad: the first of them is to be told.
fn spoilt_in_places(random: &mut Random) -> Vec<u8> {
    let mut component = Component::bare(identifier(random), kind::RESULT, 3);
    let places = sequence(kind::RESULT, 3);
    for says in random.pick(&[places, places, places, &places[..2], &places[2..]]) {
        add(random, &mut component, *says);
    }
    let (mut message, mut cause) = (1 + random.below(5) as u8, random.cause());
    for _ in 0..2 {
        match random.below(8) {
            0 => message = random.pick(&[0, 6, 255]),
            1 => cause = random.pick(&[128, 255]),
            2 => component.kind = random.pick(&[0, 5, 255]),
            3 => component.item = random.pick(&[0, 4, 255]),
            4 => component.parts |= random.pick(&[1, 8, 128]),
            5 if component.names(part::CALLING) => component.calling.count = random.pick(&[0, 16, 127]),
            6 if component.names(part::DURATION) => component.duration = random.pick(&[LONGEST_DURATION + 1, u32::MAX]),
            _ => component.identifier = random.pick(&[NO_IDENTIFIER, 257, 65_535]),
        }
    }
    entry_of(&component, message, cause)
}

/// A part that the component has no place for, in range itself.
fn unplaced(random: &mut Random, component: &mut Component) {
    let places = sequence(component.kind, component.item).iter().fold(0, |parts, says| parts | says.parts());
    let parts: Vec<u8> = [1, 2, 8, 16, 32, 64].into_iter().filter(|part| places & part == 0).collect();
    let part = random.pick(&parts);
    component.parts |= part;
    match part {
        part::CALLING => component.calling = number(random),
        part::CALLED => component.called = number(random),
        part::DURATION => component.duration = duration(random),
        flag::ACCEPTED if random.below(2) == 0 => component.parts |= flag::AS_TRANSFER,
        _ => {}
    }
}

/// A component with a number, which is out of its range: no digits, too many, or a value that has more than the count says.
fn spoil_a_number(random: &mut Random, component: &mut Component) {
    let kind = random.pick(&[kind::INVOKE, kind::RESULT]);
    *component = operation(random, kind);
    let digits = 1 + random.below(15) as u8;
    let ten_to_it = 10_u64.pow(u32::from(digits));
    let (count, value) = match random.below(8) {
        0 => (0, 0),
        1 => (0, 1),
        2 => (16, 0),
        3 => (random.pick(&[17, 127, 127]), 0),
        4 => (1, 10),
        5 => (15, 1_000_000_000_000_000),
        6 => (digits, u64::MAX),
        _ => (digits, ten_to_it + random.below(3)),
    };
    let bad = Number { nature: random.pick(&Nature::ALL), count, value };
    for says in sequence(kind, component.item) {
        if let Says::Number(part) = says {
            component.parts |= part;
            *(if *part == part::CALLING { &mut component.calling } else { &mut component.called }) = bad;
        }
    }
}

/// Another length or another kind in the record.
fn badly_framed(random: &mut Random, mut entry: Vec<u8>) -> Vec<u8> {
    match random.below(8) {
        0 => entry[2] = random.pick(&[0, 1, 30, 31, 255]),
        1 => entry[2] = entry[2].wrapping_add(random.pick(&[1, 4, 9, 255, 252, 247])),
        2 => entry[3] = random.pick(&[1, 128, 255]),
        3 => entry[4] = random.pick(&[0, 7, 8, 255]),
        4 => entry[5] = random.pick(&[1, 128, 255]),
        5 => entry[4] = random.pick(&[1, 2, 4, 5, 6]),
        // The length no longer follows the parts.
        6 => entry[10] ^= random.pick(&[16, 32, 64, 48]),
        // Two to six bytes of kind 3, of which the parts would be past the end: of the record, or of the entry too.
        _ => {
            entry[2] = 2 + random.below(5) as u8;
            if random.below(2) == 0 {
                entry.truncate(4 + usize::from(entry[2]));
                return entry;
            }
        }
    }
    // Bytes that the length may ask for.
    if random.below(2) == 0 {
        entry.extend(noise(random, 30));
    }
    entry
}

#[cfg(test)]
mod tests {
    use super::*;

    #[test]
    fn a_seed_gives_the_same_questions() {
        let questions = |seed| (0..300).map(|ordinal| question(seed, ordinal)).collect::<Vec<_>>();
        assert_eq!(questions(5), questions(5));
        assert_ne!(questions(5), questions(6));
        assert_eq!(question(5, 299), questions(5)[299]);
    }

    #[test]
    fn components_are_in_range() {
        let mut random = Random::new(3, 0);
        for _ in 0..3000 {
            let component = component(&mut random);
            assert_eq!(component.bad_fields(), Vec::<&str>::new(), "{component:?}");
            assert_eq!(read::component(&tree(&component).encode()).map(|(read, _)| read), Ok(component));
        }
    }

    /// What a neighbour may do otherwise is read; of the flags it may read otherwise.
    #[test]
    fn looser_components_are_read() {
        let mut random = Random::new(3, 1);
        for _ in 0..3000 {
            let component = component(&mut random);
            let mut tree = tree(&component);
            loosen(&mut random, &mut tree);
            let octets = tree.encode();
            let (read, after) = read::component(&octets).unwrap_or_else(|refusal| panic!("{octets:02x?}: {refusal:?}"));
            let flags = 1 | 2 | 4 | 8;
            assert_eq!(
                (read.parts & !flags, read.calling, after),
                (component.parts & !flags, component.calling, octets.len())
            );
        }
    }
}
