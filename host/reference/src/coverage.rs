//! Counts how often each row and each number was reached, each place and event without a row, each form of a telephone
//! number, each way in which the total and the sum of the meters stand to the limit and to each other, and what a board adds
//! (`boards`).

mod boards;

use crate::listing::{rev_name, Listing, Reached};
use crate::model::{self, events, states, Digits, Framed, Given, Phase, Rev, Role, Row, YEAR};
use crate::table::{self, event_name, phase_name, role_name, ROLES};
use crate::write::{part, Event, Nature, Number};
use boards::Boards;
use std::cmp::Ordering;
use std::collections::{BTreeMap, BTreeSet};
use std::fmt::Write;

const GENERAL: usize = 5;
const ORIGINATING: usize = 40;
const DESTINATION: usize = 60;
const ROWS: usize = GENERAL + ORIGINATING + DESTINATION;

/// The numbers that a history's listing can give. Number 9 judges calls that a host made up.
const NUMBERS: [usize; 14] = [0, 1, 2, 3, 4, 5, 6, 7, 8, 15, 16, 17, 19, 20];

/// The rows that need a part (4), and the rows that add or take seconds (2).
const NEEDING: [Row; 8] =
    [Row::O(7), Row::O(24), Row::O(26), Row::D(8), Row::D(19), Row::D(29), Row::D(46), Row::D(47)];
const SUMMING: [Row; 2] = [Row::G(3), Row::D(47)];

/// The rows that end a wait in WAIT-CALLED. That "the wait goes on" (02 #101) is seen only where one of them comes
/// after a second press.
const ENDING: [Row; 14] = [
    Row::G(4),
    Row::G(5),
    Row::D(18),
    Row::D(19),
    Row::D(20),
    Row::D(21),
    Row::D(45),
    Row::D(46),
    Row::D(47),
    Row::D(48),
    Row::D(49),
    Row::D(50),
    Row::D(51),
    Row::D(52),
];

/// The telephone numbers that a record can have.
const FIELDS: [&str; 5] =
    ["own number", "called number of a request", "number of a request B or C", "calling number", "called number"];

/// What such a number can be, as a dump shows it: in range; absent; and out of range, of either nature.
const FORMS: [&str; 8] = ["digits", "+digits", "-", "+0:0", "16:5", "+16:5", "3:1000", "+3:1000"];

fn form(number: Number) -> &'static str {
    let (of_national, of_international) = match (number.count, number.value) {
        _ if number.in_range() => ("digits", "+digits"),
        (0, 0) => ("-", "+0:0"),
        (16.., _) => ("16:5", "+16:5"),
        _ => ("3:1000", "+3:1000"),
    };
    match number.nature {
        Nature::National => of_national,
        Nature::International => of_international,
    }
}

/// The numbers of a record, each by what it is. An event has no more of them than its parts name.
fn numbers(event: &Event) -> Vec<(&'static str, Number)> {
    match *event {
        Event::Opening { own, .. } => vec![(FIELDS[0], own)],
        Event::Request { request: 0..=1, called } => vec![(FIELDS[1], called)],
        Event::Request { called, .. } => vec![(FIELDS[2], called)],
        Event::Message(message) => {
            [(part::CALLING, FIELDS[3], message.calling), (part::CALLED, FIELDS[4], message.called)]
                .into_iter()
                .filter(|(part, _, _)| message.names(*part))
                .map(|(_, name, number)| (name, number))
                .collect()
        }
        _ => vec![],
    }
}

/// Time that is refused with 2, or after which nothing more fits, by what is full; and in case C the Duration that the
/// meters are set to. That the total is kept apart from the meters (02 #104) is seen only where one of the two is full
/// alone.
const TOTALS: [&str; 9] = [
    "G3 gives 2 by sum and total",
    "G3 gives 2 by the sum alone",
    "G3 gives 2 by the total alone",
    "G3 leaves sum and total full",
    "G3 leaves the sum alone full",
    "G3 leaves the total alone full",
    "D47 with less than the total",
    "D47 with the total",
    "D47 with more than the total",
];

/// The place in `TOTALS` of what a record reached.
fn of_totals(reached: &Reached) -> Option<usize> {
    let (sum, total) = (reached.sum, reached.total);
    let by = |of_sum: bool, of_total: bool| match (of_sum, of_total) {
        (true, true) => Some(0),
        (true, false) => Some(1),
        (false, true) => Some(2),
        (false, false) => None,
    };
    let year = u64::from(YEAR);
    match (reached.row?, reached.given) {
        (Row::G(3), Given::TooMuch) => by(sum > year, total > year),
        (Row::G(3), Given::Applied) => by(sum == year, total == year).map(|place| 3 + place),
        (Row::D(47), Given::Applied) => Some(match sum.cmp(&total) {
            Ordering::Less => 6,
            Ordering::Equal => 7,
            Ordering::Greater => 8,
        }),
        _ => None,
    }
}

/// The number of an event without a row and what it came to; after the opening this is a place, with the role.
fn no_row_name(given: Given, at: Option<(Role, Phase, Rev)>, event: &str) -> String {
    let place = match at {
        None => "before the opening".into(),
        Some((role, phase, rev)) => format!("{}, {} {}", role_name(role), phase_name(phase), rev_name(rev)),
    };
    format!("{} {place}, {event}", given as u8)
}

/// The kinds of plain records, for those whose fields are out of range.
const KINDS: [&str; 6] = ["opening", "request", "message", "access", "expiry", "time"];

/// The kind of a plain record, or of the one inside.
fn kind_name(framed: &Framed) -> &'static str {
    KINDS[usize::from(framed.record.bytes()[2]) - 1]
}

/// All that has no row: each event in each place of each role, openings among them but where the call has cleared; and 17 and 20 with a
/// bad field, of which an expiry has none.
fn without_rows() -> Vec<String> {
    let mut names = Vec::new();
    for role in ROLES {
        for &(phase, rev) in states(role) {
            let at = Some((role, phase, rev));
            for event in table::events() {
                let number = table::number(role, phase, rev, &event);
                names.extend(number.map(|given| no_row_name(given, at, &event_name(&event))));
            }
            if phase != Phase::Cleared {
                names.extend(["opening", "bad opening"].map(|event| no_row_name(Given::InUse, at, event)));
            }
        }
    }
    names.extend(table::events().iter().map(|event| no_row_name(Given::BeforeOpening, None, &event_name(event))));
    let bad = KINDS.iter().filter(|kind| !["opening", "expiry"].contains(kind));
    names.extend(bad.map(|kind| no_row_name(Given::BeforeOpening, None, &format!("bad {kind}"))));
    names
}

/// The records of a file, as far as their framing is right.
fn records(file: &[u8]) -> Vec<Framed<'_>> {
    let mut records = Vec::new();
    let mut rest = file;
    while let Some(framed) = Some(rest).filter(|rest| !rest.is_empty()).and_then(|rest| events::frame(rest).ok()) {
        records.push(framed);
        rest = &rest[framed.size()..];
    }
    records
}

pub struct Coverage {
    applied: [u64; ROWS],
    absent: [u64; ROWS],
    too_much: [u64; ROWS],
    after_second_press: [u64; ROWS],
    numbers: [u64; 21],
    without_rows: BTreeMap<String, u64>,
    totals: [u64; TOTALS.len()],
    /// by what the number is, and by its form
    forms: BTreeMap<(&'static str, &'static str), u64>,
    /// by the place of the row, by the part, and by whether it is international; what a row sends is sent with both natures
    sent: BTreeMap<(usize, &'static str), [u64; 2]>,
    boards: Boards,
    files: u64,
}

fn place(row: Row) -> usize {
    match row {
        Row::G(n) => usize::from(n) - 1,
        Row::O(n) => GENERAL + usize::from(n) - 1,
        Row::D(n) => GENERAL + ORIGINATING + usize::from(n) - 1,
    }
}

fn label(place: usize) -> String {
    if place < GENERAL {
        format!("G{}", place + 1)
    } else if place < GENERAL + ORIGINATING {
        format!("O{}", place - GENERAL + 1)
    } else {
        format!("D{}", place - GENERAL - ORIGINATING + 1)
    }
}

impl Coverage {
    pub fn new() -> Coverage {
        Coverage {
            applied: [0; ROWS],
            absent: [0; ROWS],
            too_much: [0; ROWS],
            after_second_press: [0; ROWS],
            numbers: [0; 21],
            without_rows: without_rows().into_iter().map(|name| (name, 0)).collect(),
            totals: [0; TOTALS.len()],
            forms: FIELDS.iter().flat_map(|field| FORMS.map(|form| ((*field, form), 0))).collect(),
            sent: BTreeMap::new(),
            boards: Boards::new(),
            files: 0,
        }
    }

    /// Counts one file and its listing. Of a file that is refused only the 8 counts: nothing else of it is seen.
    pub fn count(&mut self, file: &[u8], listing: Option<&Listing>) {
        self.files += 1;
        let Some(listing) = listing else {
            self.numbers[8] += 1;
            self.boards.count_refused(file);
            return;
        };
        self.count_forms(file);
        self.count_without_rows(file, listing);
        self.boards.count(file, listing);
        let mut pressed = BTreeSet::new();
        for reached in &listing.reached {
            let given = reached.given;
            self.numbers[given as usize] += 1;
            let Some(row) = reached.row else { continue };
            self.count_sent(row, reached);
            if let Some(place) = of_totals(reached) {
                self.totals[place] += 1;
            }
            match given {
                Given::Applied => {
                    self.applied[place(row)] += 1;
                    if ENDING.contains(&row) && pressed.remove(&reached.slot) {
                        self.after_second_press[place(row)] += 1;
                    }
                    if matches!(row, Row::D(57..=60)) {
                        pressed.insert(reached.slot);
                    }
                }
                Given::PartAbsent => self.absent[place(row)] += 1,
                Given::TooMuch => self.too_much[place(row)] += 1,
                _ => {}
            }
        }
    }

    /// The telephone numbers of the records, read or refused.
    fn count_forms(&mut self, file: &[u8]) {
        for framed in records(file) {
            for (field, number) in numbers(&Event::of_record(framed.record.bytes())) {
                *self.forms.entry((field, form(number))).or_default() += 1;
            }
        }
    }

    fn count_without_rows(&mut self, file: &[u8], listing: &Listing) {
        for (framed, reached) in records(file).into_iter().zip(&listing.reached) {
            let Reached { given, call, event, .. } = reached;
            if !Given::NO_ROW.contains(given) {
                continue;
            }
            let name = match event {
                Some(event) => event_name(event),
                None => format!("bad {}", kind_name(&framed)),
            };
            // What a state remembers is no part of a place.
            let at = states(call.role)
                .iter()
                .find(|(phase, rev)| *phase == call.phase && rev_name(*rev) == rev_name(call.rev))
                .map(|&(phase, rev)| (call.role, phase, rev));
            *self.without_rows.entry(no_row_name(*given, at, &name)).or_default() += 1;
        }
    }

    fn count_sent(&mut self, row: Row, reached: &Reached) {
        for (part, number) in [("CALLING", reached.calling), ("CALLED", reached.called)] {
            let Some(Digits { nature, .. }) = number else { continue };
            self.sent.entry((place(row), part)).or_default()[usize::from(nature == model::Nature::International)] += 1;
        }
    }

    /// Everything that histories can reach, with its count: rows, numbers, rows with the number they can give, the total
    /// beside the sum of the meters, telephone numbers as they are read and as they are sent, and what has no row.
    fn all(&self) -> Vec<(String, u64)> {
        let rows = self.applied.iter().enumerate().map(|(place, &count)| (label(place), count));
        let numbers = NUMBERS.map(|number| (format!("number {number}"), self.numbers[number]));
        let absent = NEEDING.map(|row| (format!("{} gives 4", label(place(row))), self.absent[place(row)]));
        let too_much = SUMMING.map(|row| (format!("{} gives 2", label(place(row))), self.too_much[place(row)]));
        let ended = ENDING
            .map(|row| (format!("{} after a second press", label(place(row))), self.after_second_press[place(row)]));
        let totals = TOTALS.into_iter().zip(self.totals).map(|(name, count)| (name.to_string(), count));
        let forms = self.forms.iter().map(|((field, form), &count)| (format!("{field} {form}"), count));
        let sent = self.sent.iter().flat_map(|((place, part), counts)| {
            ["digits", "+digits"].into_iter().zip(counts).map(move |(form, &count)| {
                let row = label(*place);
                (format!("{row} sends {part} {form}"), count)
            })
        });
        let mut all: Vec<(String, u64)> = rows.chain(numbers).chain(absent).chain(too_much).collect();
        all.extend(totals.chain(ended).chain(forms).chain(sent));
        all.extend(self.without_rows.iter().map(|(name, &count)| (name.clone(), count)));
        all.extend(self.boards.all());
        all
    }

    /// What was never reached.
    pub fn missing(&self) -> Vec<String> {
        self.all().into_iter().filter(|(_, count)| *count == 0).map(|(name, _)| name).collect()
    }

    pub fn report(&self) -> String {
        let all = self.all();
        let (rows, others) = all.split_at(ROWS);
        let (others, boards) = others.split_at(others.len() - self.boards.all().len());
        let (others, without_rows) = others.split_at(others.len() - self.without_rows.len());
        let mut text = format!("coverage of {} files, {} of them listed with slots\n", self.files, self.boards.files());
        for row in rows.chunks(8) {
            let cells: Vec<String> = row.iter().map(|(name, count)| format!("{name:>3} {count:<9}")).collect();
            let _ = writeln!(text, "{}", cells.join(" ").trim_end());
        }
        for (name, count) in others {
            let _ = writeln!(text, "{name}: {count}");
        }
        for (name, count) in boards {
            let _ = writeln!(text, "{name}: {count}");
        }
        let _ = writeln!(text, "events without a row, by number, role and place: {}", without_rows.len());
        let _ = writeln!(text, "classes of a board: {}", boards.len());
        for (what, part) in
            [("row", rows), ("other", others), ("event without a row", without_rows), ("class of a board", boards)]
        {
            let least = part.iter().min_by_key(|(_, count)| count);
            let (name, count) = least.expect("no part is empty");
            let _ = writeln!(text, "least reached {what}: {name}, {count} times");
        }
        let missing = self.missing();
        if !missing.is_empty() {
            let _ = writeln!(text, "not reached: {}", missing.join(", "));
        }
        text
    }
}

#[cfg(test)]
mod tests {
    use super::*;
    use crate::{generate, listing};

    #[test]
    fn labels_follow_places() {
        for (row, name) in
            [(Row::G(1), "G1"), (Row::G(5), "G5"), (Row::O(1), "O1"), (Row::D(1), "D1"), (Row::D(60), "D60")]
        {
            assert_eq!(label(place(row)), name);
        }
        assert_eq!(place(Row::D(60)), ROWS - 1);
    }

    /// Some thousand files reach everything that histories can reach.
    #[test]
    fn everything_is_reached() {
        let mut coverage = Coverage::new();
        for ordinal in 0..10_000 {
            let file = generate::file(7, ordinal);
            coverage.count(&file, listing::listing(&file, listing::ROOM).as_ref());
        }
        assert_eq!(coverage.missing(), Vec::<String>::new());
    }
}
