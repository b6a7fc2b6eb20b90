//! 02 #106, "Tell me why there was no row": for each role and event the places in which there is a row, and the number where there is
//! none. docs/ROWS.md has the same table.

use crate::model::events::{Access, Ask, Component, Digits, Event, Message, Name, Operation, Parts, Role};
use crate::model::{states, Call, Given, Payer, Phase, Rev};

pub const ROLES: [Role; 2] = [Role::Originating, Role::Destination];

const PHASES: [(Phase, &str); 4] =
    [(Phase::Null, "NULL"), (Phase::Setup, "SETUP"), (Phase::Answered, "ANSWERED"), (Phase::Cleared, "CLEARED")];

const NAMES: [(Name, &str); 5] =
    [(Name::Iam, "IAM"), (Name::Anm, "ANM"), (Name::Con, "CON"), (Name::Rel, "REL"), (Name::Fac, "FAC")];

/// One of each event that the rows tell apart, in the table's order. An opening is none of them: 17 and 20 need no table.
pub fn events() -> Vec<Event> {
    let operations = [Operation::Setup, Operation::Active, Operation::Called];
    let mut components = vec![Component::None];
    components.extend(operations.map(Component::Invoke));
    components.extend(operations.map(Component::Result));
    components.extend([Component::Error(4), Component::Reject]);
    let mut events: Vec<Event> = [Ask::Basic, Ask::A, Ask::B, Ask::C].map(Event::Ask).to_vec();
    for (name, _) in NAMES {
        let parts = Parts::default();
        events.extend(components.iter().map(|&component| Event::Message(Message { name, cause: 0, component, parts })));
    }
    let access = [Access::Accept, Access::Error(4), Access::Reject, Access::Clear, Access::Answer];
    events.extend(access.map(Event::Access));
    events.extend([Event::Expiry, Event::Time(0)]);
    events
}

/// What of an event decides whether there is a row, in the table's words.
pub fn event_name(event: &Event) -> String {
    match event {
        Event::Opening { .. } => "opening".into(),
        Event::Ask(Ask::Basic) => "request 0".into(),
        Event::Ask(ask) => format!("request {ask:?}"),
        Event::Message(Message { name, component, .. }) => {
            let message = NAMES.iter().find(|(known, _)| known == name).map_or("", |(_, word)| word);
            let carried = match component {
                Component::None => "no component".into(),
                Component::Invoke(operation) => format!("invoke {}", format!("{operation:?}").to_uppercase()),
                Component::Result(operation) => format!("result {}", format!("{operation:?}").to_uppercase()),
                Component::Error(_) => "error (any)".into(),
                Component::Reject => "reject".into(),
            };
            format!("{message} {carried}")
        }
        Event::Access(Access::Error(_)) => "access error (any)".into(),
        Event::Access(access) => format!("access {}", format!("{access:?}").to_lowercase()),
        Event::Expiry => "expiry".into(),
        Event::Time(_) => "time".into(),
    }
}

pub fn role_name(role: Role) -> &'static str {
    match role {
        Role::Originating => "originating",
        Role::Destination => "destination",
    }
}

pub fn phase_name(phase: Phase) -> &'static str {
    PHASES.iter().find(|(known, _)| *known == phase).map_or("NONE", |(_, word)| word)
}

/// A call in a place. In ANSWERED somebody pays, else it would be no call state (02 #108); the far exchange may in either role.
fn call(role: Role, phase: Phase, rev: Rev, flags: u8) -> Call {
    let own = Digits { count: 1, ..Digits::ABSENT };
    let payer = if phase == Phase::Answered { Payer::Far } else { Payer::Nobody };
    Call { role, flags, own, phase, rev, payer, ..Call::before_opening() }
}

/// The number that an event without a row gets in a place, or nothing where there is a row.
pub fn number(role: Role, phase: Phase, rev: Rev, event: &Event) -> Option<Given> {
    let answer = call(role, phase, rev, 0).answer(event);
    answer.row.is_none().then_some(answer.given)
}

fn cell(role: Role, phase: Phase, event: &Event) -> String {
    let words = |wanted: Option<Given>| {
        let here = states(role).iter().filter(|(of, rev)| *of == phase && number(role, phase, *rev, event) == wanted);
        here.map(|(_, rev)| crate::listing::rev_name(*rev)).collect::<Vec<_>>().join(", ")
    };
    let of_rows = Some(words(None)).filter(|words| !words.is_empty()).map(|words| format!("row: {words}"));
    let of_numbers = Given::NO_ROW.into_iter().filter_map(|given| {
        let words = words(Some(given));
        match (&of_rows, words.is_empty()) {
            (_, true) => None,
            (None, _) => Some(format!("{}", given as u8)),
            (Some(_), _) => Some(format!("{}: {words}", given as u8)),
        }
    });
    let of_numbers: Vec<String> = of_numbers.collect();
    of_rows.into_iter().chain(of_numbers).collect::<Vec<_>>().join("; ")
}

/// The whole table, a line for each role and event.
pub fn table() -> String {
    let phases: Vec<&str> = PHASES.iter().map(|(_, word)| *word).collect();
    let mut text = format!("| role | event | {} |\n|---|---|---|---|---|---|\n", phases.join(" | "));
    for role in ROLES {
        for event in events() {
            let cells: Vec<String> = PHASES.iter().map(|(phase, _)| cell(role, *phase, &event)).collect();
            text += &format!("| {} | {} | {} |\n", role_name(role), event_name(&event), cells.join(" | "));
        }
    }
    text
}

#[cfg(test)]
mod tests {
    use super::*;
    use crate::model::{Case, Nature, Row};

    #[test]
    fn the_table_of_the_page() {
        let path = format!("{}/../../docs/ROWS.md", env!("CARGO_MANIFEST_DIR"));
        let page = std::fs::read_to_string(&path).unwrap_or_else(|error| panic!("{path}: {error}"));
        let (_, after) = page.split_once("\n| role | event |").expect("the table");
        let there = format!("| role | event |{}\n", after.split("\n\n").next().unwrap_or_default().trim_end());
        for (there, model) in there.lines().zip(table().lines()) {
            assert_eq!(there, model);
        }
        assert_eq!(there.lines().count(), table().lines().count());
        assert_eq!(table().lines().count(), 2 + 2 * 56);
    }

    #[test]
    fn names_are_of_one_event() {
        let mut names: Vec<String> = events().iter().map(event_name).collect();
        names.sort();
        names.dedup();
        assert_eq!(names.len(), 56);
    }

    /// The places with what the REV state may remember.
    fn all_states(role: Role) -> Vec<(Phase, Rev, Rev)> {
        let mut all = Vec::new();
        for &(phase, rev) in states(role) {
            let others = match rev {
                Rev::WaitSetupConf { .. } => vec![rev, Rev::WaitSetupConf { transfer: true }],
                Rev::WaitAnswer { .. } => vec![rev, Rev::WaitAnswer { transfer: true }],
                Rev::WaitActiveConf { .. } => vec![rev, Rev::WaitActiveConf { transfer: true }],
                Rev::WaitCalled(Case::B) => vec![rev, Rev::WaitCalled(Case::C)],
                _ => vec![rev],
            };
            all.extend(others.into_iter().map(|other| (phase, rev, other)));
        }
        all
    }

    /// The same event with other parts, another cause, another error number, other seconds.
    fn others(event: &Event) -> Vec<Event> {
        let number = Some(Digits { nature: Nature::International, count: 2, value: 7 });
        match *event {
            Event::Message(message) => {
                let components = match message.component {
                    Component::Error(_) => [0, 3, 4, 12, 13, 255].map(Component::Error).to_vec(),
                    component => vec![component],
                };
                let parts = (0..128_u8).filter(|bits| bits & 6 != 4).map(|bits| Parts {
                    transfer_requested: bits & 1 != 0,
                    transfer_accepted: bits & 2 != 0,
                    as_transfer: bits & 4 != 0,
                    partial: bits & 8 != 0,
                    calling: number.filter(|_| bits & 16 != 0),
                    called: number.filter(|_| bits & 32 != 0),
                    duration: Some(u32::MAX).filter(|_| bits & 64 != 0),
                });
                let all = parts.flat_map(|parts| components.iter().map(move |component| (parts, *component)));
                all.map(|(parts, component)| Event::Message(Message { cause: 127, component, parts, ..message }))
                    .collect()
            }
            Event::Access(Access::Error(_)) => [0, 3, 4, 12, 13, 255].map(|n| Event::Access(Access::Error(n))).to_vec(),
            Event::Time(_) => vec![Event::Time(1), Event::Time(86_400)],
            event => vec![event],
        }
    }

    /// "flags, parts, cause, error number, numbers, seconds and what is pending never decide it"
    #[test]
    fn nothing_else_decides() {
        for role in ROLES {
            for (phase, rev, other) in all_states(role) {
                for event in events() {
                    let wanted = number(role, phase, rev, &event);
                    for (flags, event) in (0..32).flat_map(|f| others(&event).into_iter().map(move |event| (f, event)))
                    {
                        let answer = call(role, phase, other, flags).answer(&event);
                        let got = answer.row.is_none().then_some(answer.given);
                        assert_eq!(got, wanted, "{role:?} {phase:?} {other:?} flags {flags} {event:?}");
                    }
                }
            }
        }
    }

    /// 17 whatever the event is, and 20 where a call is open, whatever the fields are. An opening at a call that has cleared has
    /// a row (02 #107).
    #[test]
    fn before_and_after_the_opening() {
        use crate::model::events::plain;
        let records: [&[u8]; 10] = [
            &[12, 0, 2, 0, 0, 1, 5, 0, 0, 0, 0, 0, 0, 0],
            &[12, 0, 2, 0, 9, 1, 5, 0, 0, 0, 0, 0, 0, 0],
            &[7, 0, 3, 0, 1, 0, 0, 0, 0],
            &[7, 0, 3, 0, 0, 255, 9, 9, 128],
            &[4, 0, 4, 0, 4, 0],
            &[4, 0, 4, 0, 0, 0],
            &[2, 0, 5, 0],
            &[6, 0, 6, 0, 1, 0, 0, 0],
            &[6, 0, 6, 0, 255, 255, 255, 255],
            &[16, 0, 3, 0, 1, 0, 0, 0, 16, 0, 0, 0, 0, 0, 0, 0, 0, 0],
        ];
        for bytes in records {
            let (_, answer) = Call::before_opening().take(&plain(bytes).expect("right framing"));
            assert_eq!((answer.given, answer.call), (Given::BeforeOpening, Call::before_opening()), "{bytes:?}");
        }
        let good = [13, 0, 1, 0, 1, 8, 1, 5, 0, 0, 0, 0, 0, 0, 0];
        let bad = [13, 0, 1, 0, 9, 99, 16, 5, 0, 0, 0, 0, 0, 0, 0];
        let taken = |call: Call, opening: &[u8]| call.take(&plain(opening).expect("right framing")).1;
        let anew = taken(Call::before_opening(), &good).call;
        for role in ROLES {
            for &(phase, rev) in states(role) {
                let call = call(role, phase, rev, 0);
                for opening in [&good, &bad] {
                    let answer = taken(call, opening);
                    let wanted = match (phase, opening == &good) {
                        (Phase::Cleared, true) => (Given::Applied, anew, Some(Row::G(1))),
                        (Phase::Cleared, false) => (Given::OutOfRange, call, None),
                        _ => (Given::InUse, call, None),
                    };
                    assert_eq!((answer.given, answer.call, answer.row), wanted);
                }
            }
        }
        assert_eq!(taken(Call::before_opening(), &bad).given, Given::OutOfRange);
    }
}
