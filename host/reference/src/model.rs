//! The rules of document 01 for a call at one exchange, as the requests of document 02 change them, and the clause
//! (ITU-T Q.736 clause 3, document 001) behind them; and the board of 02 #107, on which there are many. Comments cite 01 by
//! its headings or words, 02 by its requests' numbers, and the clause by its own.
//!
//! The model covers histories: the calls that come from an event file, one record after another. Number 9 (a call
//! that a host made up) is therefore left out, and of the numbers a call holds only its own is kept, since it alone
//! is ever sent.

mod destination;
pub mod events;
mod originating;

pub use events::{
    Access, Ask, Component, Digits, Event, Framed, Message, Name, Nature, Operation, Parts, Record, Role,
};

/// 01, "Numbers given back", 2: what the sum of the meters, or a Duration that a row uses, may not pass; and 02 #104:
/// "2 also where the total would pass that limit".
pub const YEAR: u32 = 31_536_000;

/// 01, "The event file", kind 1: the flags of an opening.
pub mod flag {
    pub const TRANSFER: u8 = 1;
    pub const OPTION: u8 = 2;
    pub const SUBSCRIBED: u8 = 4;
    pub const INTERACTION: u8 = 8;
    pub const CASE_D: u8 = 16;
}

/// The error values that the exchange itself sends (3.4.2, error values).
pub mod error {
    pub const NOT_SUBSCRIBED: u8 = 4;
    pub const NOT_AVAILABLE: u8 = 7;
    pub const INTERACTION: u8 = 8;
    pub const BASIC_SERVICE: u8 = 9;
    pub const IGNORED: u8 = 11;
    pub const RUNNING: u8 = 12;

    /// "A valid error is one listed in 001's module": 4 to 12 in 3.4.2.
    pub fn valid(number: u8) -> bool {
        (4..=12).contains(&number)
    }

    /// The error that is passed on: the same if it is valid, else Not Available.
    pub fn passed_on(number: u8) -> u8 {
        if valid(number) {
            number
        } else {
            NOT_AVAILABLE
        }
    }
}

/// The causes that the exchange itself sends (Q.850).
pub mod cause {
    pub const NORMAL: u8 = 16;
    pub const REJECTED: u8 = 29;
    pub const TIMER: u8 = 102;
}

/// 01, "Numbers given back", and 02 #106: "1 stays for an event that has no row in this role at any time; 15 is for the
/// wrong phase (the role has a row only in another phase); 16 for the wrong REV state (the role has a row in this phase).
/// An event before the opening gets 17". And 02 #107: "19 no such slot", "20 slot in use", which takes 18's place. Number 8
/// belongs to the listing, 9 to hosts, and so does 21, for one that asks for a free slot.
#[derive(Clone, Copy, PartialEq, Eq, Debug)]
#[repr(u8)]
pub enum Given {
    Applied = 0,
    NoRow = 1,
    TooMuch = 2,
    OutOfRange = 3,
    PartAbsent = 4,
    CutShort = 5,
    BadLength = 6,
    UnknownKind = 7,
    WrongPhase = 15,
    WrongState = 16,
    BeforeOpening = 17,
    NoSuchSlot = 19,
    InUse = 20,
}

impl Given {
    /// The five that tell why there was no row (02 #106, and 02 #107 for the last).
    pub const NO_ROW: [Given; 5] =
        [Given::NoRow, Given::WrongPhase, Given::WrongState, Given::BeforeOpening, Given::InUse];
}

/// 01, "States and payers". NONE is the phase before the opening.
#[derive(Clone, Copy, PartialEq, Eq, Debug)]
pub enum Phase {
    None,
    Null,
    Setup,
    Answered,
    Cleared,
}

/// The case that the destination's own invoke CALLED was sent for.
#[derive(Clone, Copy, PartialEq, Eq, Debug)]
pub enum Case {
    B,
    C,
    D,
}

/// The REV state, with what it has to remember. `transfer`: transfer mode was agreed on.
#[derive(Clone, Copy, PartialEq, Eq, Debug)]
pub enum Rev {
    Idle,
    WaitSetup,
    WaitSetupConf { transfer: bool },
    WaitCalled(Case),
    WaitAnswer { transfer: bool },
    WaitActive,
    WaitActiveConf { transfer: bool },
    Active,
}

/// Whose meter runs.
#[derive(Clone, Copy, PartialEq, Eq, Debug)]
pub enum Payer {
    Nobody,
    Caller,
    Called,
    Far,
}

/// A call. Meters and total are in seconds.
#[derive(Clone, Copy, PartialEq, Eq, Debug)]
pub struct Call {
    pub role: Role,
    pub flags: u8,
    pub own: Digits,
    pub phase: Phase,
    pub rev: Rev,
    pub payer: Payer,
    pub caller: u32,
    pub called: u32,
    pub far: u32,
    /// 02 #104, "Store the answered seconds in the call": at the originating exchange "it equals the three meters'
    /// sum", at the destination "it is that exchange's own answered seconds, whatever Duration arrived".
    pub total: u32,
}

/// A line of the table of rows: G in both roles, O at the originating, D at the destination exchange.
#[derive(Clone, Copy, PartialEq, Eq, Debug)]
pub enum Row {
    G(u8),
    O(u8),
    D(u8),
}

/// 01, "The listing": what an action can be.
#[derive(Clone, Copy, PartialEq, Eq, Debug)]
pub enum Action {
    NotifyAccepted,
    AccessSetup,
    AccessAsk,
    AccessError(u8),
    AccessRel(u8),
    ChargeCalling,
    ChargeCalled,
    Stop,
    Send(Message),
}

/// What an event does: the number given back, the row it was judged by (if one fits), the call that follows and the
/// actions in order.
#[derive(Clone, PartialEq, Eq, Debug)]
pub struct Answer {
    pub given: Given,
    pub row: Option<Row>,
    pub call: Call,
    pub actions: Vec<Action>,
}

/// Why a well-formed event is refused. The order is 17 or 20; 1, 15 or 16; 4, 2: a row is found first, then its parts are
/// looked for, then the sums.
#[derive(Clone, Copy, PartialEq, Eq, Debug)]
enum Refusal {
    NoRow,
    PartAbsent(Row),
    TooMuch(Row),
}

type Found = Result<Step, Refusal>;

/// A row being applied: the call as it becomes, the actions as they come.
#[derive(Clone, PartialEq, Eq, Debug)]
struct Step {
    row: Row,
    call: Call,
    actions: Vec<Action>,
}

impl Step {
    fn act(mut self, action: Action) -> Step {
        self.actions.push(action);
        self
    }

    /// Sends a message with no cause to the other exchange.
    fn send(self, name: Name, component: Component, parts: Parts) -> Step {
        self.act(Action::Send(Message { name, cause: 0, component, parts }))
    }

    fn release(self, cause: u8, component: Component) -> Step {
        self.act(Action::Send(Message { name: Name::Rel, cause, component, parts: Parts::default() }))
    }

    fn state(mut self, phase: Phase, rev: Rev) -> Step {
        self.call.phase = phase;
        self.call.rev = rev;
        self
    }

    /// "A change from a payer charged at this exchange gives STOP": the STOP stands where this is called.
    fn payer(mut self, payer: Payer) -> Step {
        let stop = self.call.charges() && self.call.payer != payer;
        self.call.payer = payer;
        if stop {
            self.actions.push(Action::Stop);
        }
        self
    }

    /// The call clears; a STOP, if one is due, stands where this is called.
    fn clear(self) -> Step {
        self.payer(Payer::Nobody).state(Phase::Cleared, Rev::Idle)
    }
}

impl Call {
    /// The call before its opening: NONE and IDLE.
    pub fn before_opening() -> Call {
        Call {
            role: Role::Originating,
            flags: 0,
            own: Digits::ABSENT,
            phase: Phase::None,
            rev: Rev::Idle,
            payer: Payer::Nobody,
            caller: 0,
            called: 0,
            far: 0,
            total: 0,
        }
    }

    /// What is wrong with the payer or the total of a call in whose history so many seconds were answered: no event leads to a
    /// call that would get 9. So "no history from an opening reaches an ANSWERED originating call with nobody as payer" (02
    /// #108), nor such a call at a destination; and of the total, "Every event keeps it true" (02 #104).
    fn wrong(&self, answered: u64) -> Option<&'static str> {
        let total = u64::from(self.total);
        if self.phase == Phase::Answered && self.payer == Payer::Nobody {
            Some("nobody pays in ANSWERED")
        } else if self.phase != Phase::Answered && self.payer != Payer::Nobody {
            Some("somebody pays outside ANSWERED")
        } else if self.role == Role::Destination && self.payer == Payer::Caller {
            Some("the caller pays at a destination")
        } else if total != answered {
            Some("the total is not the answered seconds")
        } else if self.role == Role::Originating && total != self.sum() {
            Some("the total is not the sum of the originating meters")
        } else if total > u64::from(YEAR) {
            Some("the total is above a year")
        } else if total > 0 && !matches!(self.phase, Phase::Answered | Phase::Cleared) {
            Some("the total is above 0 before the answer")
        } else {
            None
        }
    }

    pub fn has(&self, flag: u8) -> bool {
        self.flags & flag != 0
    }

    /// The called user passes the validation check: "not subscribed (judged only under flag 2)".
    fn subscription_ok(&self) -> bool {
        !self.has(flag::OPTION) || self.has(flag::SUBSCRIBED)
    }

    /// Whether a meter of this exchange is charging. "Far" is charged at the other exchange in either role.
    fn charges(&self) -> bool {
        match self.role {
            Role::Originating => matches!(self.payer, Payer::Caller | Payer::Called),
            Role::Destination => self.payer == Payer::Called,
        }
    }

    /// An invoke is performed in transfer mode if it asks for it and this exchange's flag takes it.
    fn takes_transfer(&self, invoke: &Parts) -> bool {
        invoke.transfer_requested && self.has(flag::TRANSFER)
    }

    /// A result means transfer mode if this exchange asked for it (it does when its flag says so) and the result has
    /// Transfer Accepted with transfer as its answer.
    fn granted_transfer(&self, result: &Parts) -> bool {
        self.has(flag::TRANSFER) && result.transfer_accepted && result.as_transfer
    }

    fn row(self, row: Row) -> Step {
        Step { row, call: self, actions: Vec::new() }
    }

    /// The three meters' sum.
    pub fn sum(&self) -> u64 {
        u64::from(self.caller) + u64::from(self.called) + u64::from(self.far)
    }

    /// The call that follows an event, with the number and the actions.
    pub fn answer(self, event: &Event) -> Answer {
        let refused = |given, row| Answer { given, row, call: self, actions: Vec::new() };
        match self.find(event) {
            Ok(step) => Answer { given: Given::Applied, row: Some(step.row), call: step.call, actions: step.actions },
            Err(Refusal::NoRow) => {
                refused(self.misplaced(event.is_opening()).unwrap_or_else(|| self.why_no_row(event)), None)
            }
            Err(Refusal::PartAbsent(row)) => refused(Given::PartAbsent, Some(row)),
            Err(Refusal::TooMuch(row)) => refused(Given::TooMuch, Some(row)),
        }
    }

    /// "An opening takes the slot it names if that was never opened or has cleared, so freed slots are used."
    pub fn is_free(&self) -> bool {
        matches!(self.phase, Phase::None | Phase::Cleared)
    }

    /// 17 and 20, which hang on the record's kind alone, and so come before 3.
    fn misplaced(&self, opening: bool) -> Option<Given> {
        match (self.phase, opening) {
            (Phase::None, false) => Some(Given::BeforeOpening),
            (_, true) if !self.is_free() => Some(Given::InUse),
            _ => None,
        }
    }

    /// The call that follows a record whose framing is right, with its event where all fields are in range: 17 or 20,
    /// then 3, then what the event gets.
    pub fn take(self, record: &Record) -> (Option<Event>, Answer) {
        let refused = |given| Answer { given, row: None, call: self, actions: Vec::new() };
        let event = record.event();
        match (self.misplaced(record.is_opening()), &event) {
            (Some(given), _) => (event.ok(), refused(given)),
            (None, Err(_)) => (None, refused(Given::OutOfRange)),
            (None, Ok(event)) => (Some(*event), self.answer(event)),
        }
    }

    /// Why an opened call has no row for an event: the rows are asked again, first in every REV state of its phase, then
    /// in every phase.
    fn why_no_row(&self, event: &Event) -> Given {
        let found = |of_phase: &dyn Fn(Phase) -> bool| {
            states(self.role)
                .iter()
                .filter(|(phase, _)| of_phase(*phase))
                .any(|&(phase, rev)| Call { phase, rev, ..*self }.find(event) != Err(Refusal::NoRow))
        };
        if found(&|phase| phase == self.phase) {
            Given::WrongState
        } else if found(&|_| true) {
            Given::WrongPhase
        } else {
            Given::NoRow
        }
    }

    fn find(self, event: &Event) -> Found {
        match (self.phase, event) {
            // A call begins anew: nothing of the one that has cleared is left.
            (Phase::None | Phase::Cleared, Event::Opening { role, flags, own }) => {
                let opened = Call { role: *role, flags: *flags, own: *own, ..Call::before_opening() };
                Ok(opened.row(Row::G(1)).state(Phase::Null, Rev::Idle))
            }
            (Phase::None | Phase::Cleared, _) | (_, Event::Opening { .. }) => Err(Refusal::NoRow),
            _ => {
                let own_row = match self.role {
                    Role::Originating => originating::find(self, event),
                    Role::Destination => destination::find(self, event),
                };
                match own_row {
                    Err(Refusal::NoRow) => self.find_default(event),
                    found => found,
                }
            }
        }
    }

    /// The rows of both roles, "where the event has no row of its own" (01, "States and payers").
    fn find_default(self, event: &Event) -> Found {
        match (self.phase, event) {
            // "Time is accepted in SETUP and ANSWERED; only ANSWERED counts."
            (Phase::Setup, Event::Time(_)) => Ok(self.row(Row::G(2))),
            (Phase::Answered, Event::Time(seconds)) => self.pass(*seconds),
            // "own access clearing gives STOP if a meter of this exchange is charging, then REL with cause 16"
            (Phase::Setup | Phase::Answered, Event::Access(Access::Clear)) => {
                Ok(self.row(Row::G(4)).clear().release(cause::NORMAL, Component::None))
            }
            // "a REL from the other exchange gives STOP likewise, then the REL and its cause to the access"
            (Phase::Setup | Phase::Answered, Event::Message(Message { name: Name::Rel, cause, .. })) => {
                Ok(self.row(Row::G(5)).clear().act(Action::AccessRel(*cause)))
            }
            _ => Err(Refusal::NoRow),
        }
    }

    /// Time in ANSWERED: one meter "runs and takes all seconds of a time event", and they are answered seconds.
    fn pass(self, seconds: u32) -> Found {
        let mut step = self.row(Row::G(3));
        let sum = self.sum() + u64::from(seconds);
        let total = u64::from(self.total) + u64::from(seconds);
        let meter = match self.payer {
            // No meter runs, so nothing is counted. No call of a history is such a one (`wrong`).
            Payer::Nobody => return Ok(step),
            Payer::Caller => &mut step.call.caller,
            Payer::Called => &mut step.call.called,
            Payer::Far => &mut step.call.far,
        };
        // After a Duration the two differ at a destination, either way.
        if sum > u64::from(YEAR) || total > u64::from(YEAR) {
            return Err(Refusal::TooMuch(Row::G(3)));
        }
        *meter += seconds;
        step.call.total += seconds;
        Ok(step)
    }
}

/// The REV states of a role in each phase. What a state remembers decides what a row does, and not whether there is one.
pub fn states(role: Role) -> &'static [(Phase, Rev)] {
    use Phase::{Answered, Cleared, Null, Setup};
    match role {
        Role::Originating => &[
            (Null, Rev::Idle),
            (Setup, Rev::Idle),
            (Setup, Rev::WaitSetup),
            (Setup, Rev::WaitAnswer { transfer: false }),
            (Answered, Rev::Idle),
            (Answered, Rev::WaitActive),
            (Answered, Rev::Active),
            (Cleared, Rev::Idle),
        ],
        Role::Destination => &[
            (Null, Rev::Idle),
            (Setup, Rev::Idle),
            (Setup, Rev::WaitSetupConf { transfer: false }),
            (Setup, Rev::WaitCalled(Case::D)),
            (Setup, Rev::WaitAnswer { transfer: false }),
            (Answered, Rev::Idle),
            (Answered, Rev::WaitActiveConf { transfer: false }),
            (Answered, Rev::WaitCalled(Case::B)),
            (Answered, Rev::Active),
            (Cleared, Rev::Idle),
        ],
    }
}

/// 02 #107: "The program's row has 64 slots."
pub const SLOTS: usize = 64;

/// The calls of a row, by their slots.
#[derive(Clone, PartialEq, Eq, Debug)]
pub struct Board([Call; SLOTS]);

impl Board {
    pub fn new() -> Board {
        Board([Call::before_opening(); SLOTS])
    }

    /// The call of a slot; of one that is not there, a call that was never opened, as a listing shows it.
    pub fn call(&self, slot: u16) -> Call {
        self.0.get(usize::from(slot)).copied().unwrap_or_else(Call::before_opening)
    }

    /// What a record does: "An event at one slot changes nothing at another, and its answer depends on that slot's call and the
    /// event alone." 19 is "before the inner record's field checks", and before 17 and 20.
    pub fn take(&mut self, framed: &Framed) -> (Option<Event>, Answer) {
        let Some(call) = self.0.get_mut(usize::from(framed.slot())) else {
            let call = Call::before_opening();
            return (
                framed.record.event().ok(),
                Answer { given: Given::NoSuchSlot, row: None, call, actions: Vec::new() },
            );
        };
        let (event, answer) = call.take(&framed.record);
        *call = answer.call;
        (event, answer)
    }
}

/// One record of a file with what it did, at a slot and to the call there. There is no event where the framing or a field is
/// bad.
#[derive(Clone, PartialEq, Eq, Debug)]
pub struct Shown {
    pub ordinal: u32,
    pub slot: u16,
    /// whether it is a record of kind 7
    pub in_slot: bool,
    /// the phase of the call that it came to
    pub from: Phase,
    pub event: Option<Event>,
    pub answer: Answer,
}

/// Goes through a file record by record.
pub struct History<'a> {
    file: &'a [u8],
    board: Board,
    shown: u32,
    /// Of each slot the answered seconds by the records, the numbers given back and the phases: those of the time events
    /// accepted in ANSWERED since "its latest accepted opening".
    answered: [u64; SLOTS],
}

impl<'a> History<'a> {
    pub fn new(file: &'a [u8]) -> History<'a> {
        History { file, board: Board::new(), shown: 0, answered: [0; SLOTS] }
    }

    /// Counts the answered seconds of a slot, without a look at the call's meters and total.
    fn count(&mut self, slot: u16, from: Phase, event: &Event, answer: &Answer) {
        if answer.given != Given::Applied {
            return;
        }
        let answered = &mut self.answered[usize::from(slot)];
        match event {
            Event::Opening { .. } => *answered = 0,
            Event::Time(seconds) if from == Phase::Answered => *answered += u64::from(*seconds),
            _ => {}
        }
    }

    /// No listing shows the payer or the total, so nothing else would tell.
    fn check(&self, slot: u16) {
        let answered = self.answered.get(usize::from(slot)).copied().unwrap_or(0);
        let call = self.board.call(slot);
        if let Some(wrong) = call.wrong(answered) {
            panic!("record {}, slot {slot}: {wrong}: {call:?}", self.shown);
        }
    }
}

impl Iterator for History<'_> {
    type Item = Shown;

    fn next(&mut self) -> Option<Shown> {
        if self.file.is_empty() {
            return None;
        }
        self.shown += 1;
        let ordinal = self.shown;
        let framed = match events::frame(self.file) {
            Ok(framed) => framed,
            // 5, and 6 and 7 as 5: "reading stops here". "after 5, 6 or 7, slot 0 and its call".
            Err(given) => {
                self.file = &[];
                let call = self.board.call(0);
                let answer = Answer { given, row: None, call, actions: Vec::new() };
                return Some(Shown { ordinal, slot: 0, in_slot: false, from: call.phase, event: None, answer });
            }
        };
        self.file = &self.file[framed.size()..];
        let (slot, in_slot) = (framed.slot(), framed.named.is_some());
        let from = self.board.call(slot).phase;
        let (event, answer) = self.board.take(&framed);
        if let Some(event) = &event {
            self.count(slot, from, event, &answer);
        }
        self.check(slot);
        Some(Shown { ordinal, slot, in_slot, from, event, answer })
    }
}

#[cfg(test)]
mod tests {
    use super::*;

    fn opened(role: Role, flags: u8) -> Call {
        let own = Digits { nature: Nature::National, count: 3, value: 42 };
        Call::before_opening().answer(&Event::Opening { role, flags, own }).call
    }

    fn plain(name: Name) -> Event {
        message(name, Component::None, Parts::default())
    }

    fn message(name: Name, component: Component, parts: Parts) -> Event {
        Event::Message(Message { name, cause: 31, component, parts })
    }

    /// Applies events that all have rows.
    fn after(call: Call, events: &[Event]) -> Call {
        events.iter().fold(call, |call, event| {
            let answer = call.answer(event);
            assert_eq!(answer.given, Given::Applied, "{event:?} at {call:?}");
            answer.call
        })
    }

    fn meters(call: Call) -> (u32, u32, u32) {
        (call.caller, call.called, call.far)
    }

    /// 01, "Calls to try": 40 s paid by the caller, then C or B, then 20 s.
    #[test]
    fn forty_then_twenty() {
        let called = Some(Digits { nature: Nature::National, count: 1, value: 7 });
        let cases = [
            (8, Parts { called, ..Parts::default() }, (0, 60, 0)),
            (9, Parts { transfer_requested: true, ..Parts::default() }, (0, 0, 60)),
            (8, Parts { called, partial: true, ..Parts::default() }, (40, 20, 0)),
            (9, Parts { transfer_requested: true, partial: true, ..Parts::default() }, (40, 0, 20)),
        ];
        for (flags, parts, expected) in cases {
            let call = opened(Role::Originating, flags);
            let start = after(call, &[Event::Ask(Ask::Basic), plain(Name::Anm), Event::Time(40)]);
            let asked = start.answer(&message(Name::Fac, Component::Invoke(Operation::Called), parts));
            let sent = asked.actions[0];
            let Action::Send(result) = sent else { panic!("{sent:?}") };
            let carries = parts.transfer_requested && !parts.partial;
            assert_eq!(result.parts.duration, carries.then_some(40), "the duration before the meter is emptied");
            let call = after(asked.call, &[Event::Time(20)]);
            assert_eq!((meters(call), call.total), (expected, 60));
        }
    }

    /// 01, "Calls to try": WAIT-SETUP, ANM with no component.
    #[test]
    fn answer_without_component() {
        let waiting = after(opened(Role::Originating, 8), &[Event::Ask(Ask::A)]);
        let answer = waiting.answer(&plain(Name::Anm));
        assert_eq!((answer.call.phase, answer.call.rev), (Phase::Cleared, Rev::Idle));
        assert_eq!(meters(answer.call), (0, 0, 0));
        assert_eq!(answer.actions[..2], [Action::AccessError(7), Action::AccessRel(29)]);
        assert_eq!(answer.row, Some(Row::O(14)));
    }

    /// 01, "Calls to try": the last second that fits; 2 for one more; no row for an expiry in IDLE.
    #[test]
    fn a_year_of_seconds() {
        let mut call = after(opened(Role::Originating, 0), &[Event::Ask(Ask::Basic), plain(Name::Con)]);
        for _ in 0..365 {
            call = after(call, &[Event::Time(86_400)]);
        }
        assert_eq!((call.caller, call.total), (YEAR, YEAR));
        assert_eq!(call.answer(&Event::Time(0)).given, Given::Applied);
        let past = call.answer(&Event::Time(1));
        assert_eq!((past.given, past.call), (Given::TooMuch, call));
        assert_eq!(call.answer(&Event::Expiry).given, Given::WrongState);
    }

    /// 4 comes before 2: a result to CALLED in case C with a Duration that is too long, and no calling number.
    #[test]
    fn absent_before_too_much() {
        let call = after(opened(Role::Destination, 9), &[plain(Name::Iam), Event::Access(Access::Answer)]);
        let waiting = after(call, &[Event::Time(5), Event::Ask(Ask::C)]);
        let result = |calling, duration| {
            let parts = Parts { transfer_accepted: true, as_transfer: true, calling, duration, ..Parts::default() };
            waiting.answer(&message(Name::Fac, Component::Result(Operation::Called), parts))
        };
        let number = Some(Digits { nature: Nature::International, count: 2, value: 1 });
        assert_eq!(result(None, Some(YEAR + 1)).given, Given::PartAbsent);
        assert_eq!(result(number, None).given, Given::PartAbsent);
        assert_eq!(result(number, Some(YEAR + 1)).given, Given::TooMuch);
        let taken = result(number, Some(YEAR));
        assert_eq!(meters(taken.call), (0, YEAR, 0));
        assert_eq!(taken.actions, [Action::ChargeCalled, Action::NotifyAccepted]);
    }

    /// 02 #101: whatever comes again is answered alike, with any flags and without parts, and the wait goes on with
    /// all that is pending: B asked and C pressed stays B.
    #[test]
    fn the_second_press() {
        let requests = [Ask::A, Ask::B, Ask::C].map(Event::Ask);
        let operations = [Operation::Setup, Operation::Active, Operation::Called];
        let said = Message { name: Name::Fac, cause: 0, component: Component::Error(12), parts: Parts::default() };
        let plain_call = [plain(Name::Iam), Event::Access(Access::Answer)];
        for (flags, rows, before) in [
            (24, [Row::D(57), Row::D(58)], vec![plain(Name::Iam)]),
            (27, [Row::D(57), Row::D(58)], vec![plain(Name::Iam)]),
            (8, [Row::D(59), Row::D(60)], [&plain_call[..], &[Event::Ask(Ask::B)]].concat()),
            (15, [Row::D(59), Row::D(60)], [&plain_call[..], &[Event::Ask(Ask::C)]].concat()),
        ] {
            let waiting = after(opened(Role::Destination, flags), &before);
            let goes_on =
                |row, action| Answer { given: Given::Applied, row: Some(row), call: waiting, actions: vec![action] };
            for request in &requests {
                assert_eq!(waiting.answer(request), goes_on(rows[0], Action::AccessError(12)));
            }
            for operation in operations {
                let invoke = |name| message(name, Component::Invoke(operation), Parts::default());
                assert_eq!(waiting.answer(&invoke(Name::Fac)), goes_on(rows[1], Action::Send(said)));
                assert_eq!(waiting.answer(&invoke(Name::Rel)).call.phase, Phase::Cleared);
                assert_eq!(waiting.answer(&invoke(Name::Anm)).given, Given::NoRow);
            }
            assert_eq!(waiting.answer(&Event::Ask(Ask::Basic)).given, Given::NoRow);
        }
    }

    /// A destination's call in WAIT-CALLED of case C with transfer, after so many seconds in ANSWERED.
    fn asked_after(seconds: u32) -> Call {
        let mut call = after(opened(Role::Destination, 9), &[plain(Name::Iam), Event::Access(Access::Answer)]);
        for _ in 0..seconds / 86_400 {
            call = after(call, &[Event::Time(86_400)]);
        }
        after(call, &[Event::Time(seconds % 86_400), Event::Ask(Ask::C)])
    }

    /// The result that such a call waits for.
    fn result_with(duration: u32) -> Event {
        let calling = Some(Digits { nature: Nature::National, count: 2, value: 1 });
        let duration = Some(duration);
        let parts = Parts { transfer_accepted: true, as_transfer: true, calling, duration, ..Parts::default() };
        message(Name::Fac, Component::Result(Operation::Called), parts)
    }

    /// 02 #104: the answered seconds alone, "whatever Duration arrived"; a cleared call keeps them.
    #[test]
    fn the_total_is_what_was_answered() {
        let early = [plain(Name::Iam), Event::Time(86_400), Event::Access(Access::Answer), Event::Time(5)];
        assert_eq!(after(opened(Role::Destination, 9), &early).total, 5);
        for duration in [0, 99, 100, 101, YEAR - 7, YEAR] {
            let call = after(asked_after(100), &[result_with(duration)]);
            assert_eq!((meters(call), call.total), ((0, duration, 0), 100));
            let seconds = if duration == YEAR { 0 } else { 7 };
            let call = after(call, &[Event::Time(seconds), Event::Access(Access::Clear)]);
            assert_eq!((meters(call), call.total), ((0, duration + seconds, 0), 100 + seconds));
        }
    }

    /// 02 #104: "2 also where the total would pass that limit", with meters that a Duration has all but emptied; and
    /// still by the sum, where a Duration has filled the meters. A refusal changes nothing.
    #[test]
    fn a_year_by_the_total_or_by_the_sum() {
        for (before, duration, left) in [
            (YEAR, 0, 0),
            (YEAR, 40, 0),
            (YEAR - 1, 0, 1),
            (YEAR - 86_399, 5, 86_399),
            (YEAR - 6, YEAR - 5, 5),
            (0, YEAR, 0),
            (40, YEAR - 3, 3),
        ] {
            let call = after(asked_after(before), &[result_with(duration)]);
            let past = call.answer(&Event::Time(left + 1));
            assert_eq!((past.given, past.call), (Given::TooMuch, call), "{before} seconds and Duration {duration}");
            let full = after(call, &[Event::Time(left)]);
            assert_eq!((meters(full), full.total), ((0, duration + left, 0), before + left));
            assert_eq!(full.answer(&Event::Time(1)).given, Given::TooMuch);
            assert_eq!(full.answer(&Event::Time(0)).given, Given::Applied);
        }
    }

    /// Each total that is another than it should be is told, also one that the seconds seem to bear out.
    #[test]
    fn wrong_totals() {
        let basic = [Event::Ask(Ask::Basic), plain(Name::Anm), Event::Time(5), Event::Access(Access::Clear)];
        let originating = after(opened(Role::Originating, 0), &basic);
        let destination = after(asked_after(5), &[result_with(3)]);
        let ringing = after(opened(Role::Destination, 0), &[plain(Name::Iam)]);
        let wrong = |call: Call, total: u32, answered: u32| Call { total, ..call }.wrong(u64::from(answered));
        assert_eq!([wrong(originating, 5, 5), wrong(destination, 5, 5), wrong(ringing, 0, 0)], [None; 3]);
        assert_eq!([wrong(destination, YEAR, YEAR), wrong(destination, 3, 3)], [None; 2], "the meters play no part");
        assert_eq!(wrong(originating, 5, 6), Some("the total is not the answered seconds"));
        assert_eq!(wrong(destination, 3, 5), Some("the total is not the answered seconds"));
        assert_eq!(wrong(originating, 6, 6), Some("the total is not the sum of the originating meters"));
        assert_eq!(wrong(destination, YEAR + 1, YEAR + 1), Some("the total is above a year"));
        assert_eq!(wrong(ringing, 1, 1), Some("the total is above 0 before the answer"));
    }

    /// All that rows tell apart: openings by role and flags, messages by component, transfer and partial, errors by whether they
    /// are valid. Numbers and a Duration are always there: where one lacks, it is 4 or plays no part.
    fn all_events() -> Vec<Event> {
        let own = Digits { nature: Nature::National, count: 3, value: 42 };
        let parts = [0, 1, 2, 3, 4, 5, 6, 7].map(|bits| Parts {
            transfer_requested: bits & 1 != 0,
            transfer_accepted: bits & 2 != 0,
            as_transfer: bits & 2 != 0,
            partial: bits & 4 != 0,
            calling: Some(own),
            called: Some(own),
            duration: Some(0),
        });
        let operations = [Operation::Setup, Operation::Active, Operation::Called];
        let mut components = vec![Component::None, Component::Error(0), Component::Error(4), Component::Reject];
        components.extend(operations.map(Component::Invoke));
        components.extend(operations.map(Component::Result));
        let access =
            [Access::Accept, Access::Error(0), Access::Error(4), Access::Reject, Access::Clear, Access::Answer];
        let mut all = vec![Event::Expiry, Event::Time(0)];
        all.extend([Ask::Basic, Ask::A, Ask::B, Ask::C].map(Event::Ask));
        all.extend(access.map(Event::Access));
        for role in [Role::Originating, Role::Destination] {
            all.extend((0..32).map(|flags| Event::Opening { role, flags, own }));
        }
        for name in [Name::Iam, Name::Anm, Name::Con, Name::Rel, Name::Fac] {
            for &component in &components {
                all.extend(parts.map(|parts| message(name, component, parts)));
            }
        }
        all
    }

    /// 02 #108: "no history from an opening reaches an ANSWERED originating call with nobody as payer". Every call that
    /// histories without seconds reach is tried with every event, by all rows. Seconds decide nothing but 2.
    #[test]
    fn somebody_pays() {
        let events = all_events();
        let (mut calls, mut rows) = (vec![Call::before_opening()], Vec::new());
        let mut tried = 0;
        while let Some(&call) = calls.get(tried) {
            tried += 1;
            assert_eq!(call.wrong(0), None, "{call:?}");
            let answers = events.iter().map(|event| call.answer(event));
            for answer in answers.filter(|answer| answer.given == Given::Applied) {
                if !calls.contains(&answer.call) {
                    calls.push(answer.call);
                }
                rows.extend(answer.row.filter(|row| !rows.contains(row)));
            }
        }
        assert_eq!(rows.len(), 5 + 40 + 60, "G, O and D");
    }

    /// Each payer that a phase or a role has not is told.
    #[test]
    fn wrong_payers() {
        let answered = after(opened(Role::Originating, 0), &[Event::Ask(Ask::Basic), plain(Name::Anm)]);
        let cleared = after(answered, &[Event::Access(Access::Clear)]);
        let wrong = |call: Call, payer: Payer| Call { payer, ..call }.wrong(0);
        for call in [opened(Role::Originating, 0), opened(Role::Destination, 0), cleared] {
            assert_eq!(wrong(call, Payer::Nobody), None);
            assert_eq!(wrong(call, Payer::Far), Some("somebody pays outside ANSWERED"));
        }
        for call in [answered, asked_after(0)] {
            assert_eq!(wrong(call, Payer::Far), None);
            assert_eq!(wrong(call, Payer::Nobody), Some("nobody pays in ANSWERED"));
        }
        assert_eq!(wrong(answered, Payer::Caller), None);
        assert_eq!(wrong(asked_after(0), Payer::Caller), Some("the caller pays at a destination"));
    }

    /// 02 #107: an opening begins anew where a call has cleared, in either role and with nothing of it left, and is 20 where one
    /// is open, whatever its fields; a bad field at a call that has cleared leaves it.
    #[test]
    fn freed_slots_are_used() {
        let own = Digits { nature: Nature::International, count: 2, value: 9 };
        let opening = Event::Opening { role: Role::Destination, flags: 16, own };
        let anew = Call::before_opening().answer(&opening).call;
        let basic = [Event::Ask(Ask::Basic), plain(Name::Anm), Event::Time(5), Event::Access(Access::Clear)];
        let mut call = opened(Role::Originating, 9);
        for event in basic {
            let refused = call.answer(&opening);
            assert_eq!((refused.given, refused.call, refused.row), (Given::InUse, call, None));
            call = after(call, &[event]);
        }
        assert_eq!((call.total, meters(call)), (5, (5, 0, 0)));
        let answer = call.answer(&opening);
        assert_eq!((answer.given, answer.row, answer.call), (Given::Applied, Some(Row::G(1)), anew));
        let bad = [13, 0, 1, 0, 0, 32, 1, 5, 0, 0, 0, 0, 0, 0, 0];
        let (event, answer) = call.take(&events::plain(&bad).expect("right framing"));
        assert_eq!((event, answer.given, answer.call), (None, Given::OutOfRange, call));
    }

    /// A record at a slot, whose inner record is plain.
    fn at(slot: u16, inner: &[u8]) -> Vec<u8> {
        [&[inner.len() as u8 + 4, 0, 7, 0], &slot.to_le_bytes()[..], inner].concat()
    }

    const OPENING: [u8; 15] = [13, 0, 1, 0, 0, 8, 1, 5, 0, 0, 0, 0, 0, 0, 0];
    const BASIC: [u8; 14] = [12, 0, 2, 0, 0, 1, 5, 0, 0, 0, 0, 0, 0, 0];

    /// "Two events at different slots give the same row of calls in either order, openings included."
    #[test]
    fn slots_do_not_meet() {
        let (first, second) = ([at(3, &OPENING), at(3, &BASIC)].concat(), [at(63, &OPENING), at(63, &BASIC)].concat());
        let after = |records: [&[u8]; 2]| {
            let file = records.concat();
            let mut history = History::new(&file);
            let given: Vec<Given> = history.by_ref().map(|shown| shown.answer.given).collect();
            assert_eq!(given, [Given::Applied; 4]);
            history.board
        };
        assert_eq!(after([&first, &second]), after([&second, &first]));
        let board = after([&first, &second]);
        assert_eq!([0, 3, 62, 63].map(|slot| board.call(slot).phase), {
            use Phase::{None, Setup};
            [None, Setup, None, Setup]
        });
    }

    /// A slot past 63 is 19 before all but the framing, and the row stays.
    #[test]
    fn no_such_slot() {
        let bad = [13, 0, 1, 0, 2, 32, 1, 5, 0, 0, 0, 0, 0, 0, 0];
        for slot in [64, 65, 255, 256, 16_128, u16::MAX] {
            for inner in [OPENING.as_slice(), &bad, &BASIC, &[6, 0, 6, 0, 255, 255, 255, 255]] {
                let file = [OPENING.to_vec(), at(slot, inner), BASIC.to_vec()].concat();
                let mut history = History::new(&file);
                let shown: Vec<Shown> = history.by_ref().collect();
                assert_eq!((shown[1].slot, shown[1].answer.given), (slot, Given::NoSuchSlot));
                assert_eq!(shown[1].answer.call, Call::before_opening());
                assert_eq!(shown[2].answer.given, Given::Applied);
                assert!((1..64).all(|other| history.board.call(other) == Call::before_opening()));
            }
        }
    }
}
