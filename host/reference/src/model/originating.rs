//! The rows of an originating exchange: the clause's 3.5.2.1.1, 3.5.2.2.1, 3.5.2.3.1, 3.5.2.4.1 and 3.5.2.5.1.

use super::{cause, error, flag};
use super::{Access, Action, Ask, Component, Event, Message, Name, Operation, Parts, Payer, Phase, Rev, Row};
use super::{Call, Found, Refusal, Step};

pub(super) fn find(call: Call, event: &Event) -> Found {
    match (call.phase, call.rev) {
        (Phase::Null, Rev::Idle) => null(call, event),
        (Phase::Setup, Rev::Idle) => setup(call, event),
        (Phase::Setup, Rev::WaitSetup) => wait_setup(call, event),
        (Phase::Setup, Rev::WaitAnswer { transfer }) => wait_answer(call, event, transfer),
        (Phase::Answered, Rev::Idle) => answered(call, event),
        (Phase::Answered, Rev::WaitActive) => wait_active(call, event),
        (Phase::Answered, Rev::Active) => active(call, event),
        _ => Err(Refusal::NoRow),
    }
}

/// The parts of an invoke of this exchange (3.5.2.1.1.1, 3.5.2.2.1.1): nothing, or in transfer mode "Transfer
/// Requested" and "Calling User Number".
fn invoke_parts(call: &Call) -> Parts {
    if call.has(flag::TRANSFER) {
        Parts { transfer_requested: true, calling: Some(call.own), ..Parts::default() }
    } else {
        Parts::default()
    }
}

/// The parts of a result that grants transfer mode: Transfer Accepted "is sent only as parts 2 and 4 together".
fn grant(call: &Call, duration: Option<u32>) -> Parts {
    Parts { transfer_accepted: true, as_transfer: true, calling: Some(call.own), duration, ..Parts::default() }
}

fn null(call: Call, event: &Event) -> Found {
    let interaction = call.has(flag::INTERACTION);
    match event {
        // "Basic call: request 0 gives IAM"
        Event::Ask(Ask::Basic) => {
            Ok(call.row(Row::O(1)).send(Name::Iam, Component::None, Parts::default()).state(Phase::Setup, Rev::Idle))
        }
        // 3.5.2.1.1.2, first sentence. No IAM has passed, so no REL goes out.
        Event::Ask(Ask::A) if !interaction => Ok(call
            .row(Row::O(2))
            .act(Action::AccessError(error::INTERACTION))
            .act(Action::AccessRel(cause::REJECTED))
            .clear()),
        // 3.5.2.1.1.1 i and ii
        Event::Ask(Ask::A) => Ok(call
            .row(if call.has(flag::TRANSFER) { Row::O(4) } else { Row::O(3) })
            .send(Name::Iam, Component::Invoke(Operation::Setup), invoke_parts(&call))
            .state(Phase::Setup, Rev::WaitSetup)),
        _ => Err(Refusal::NoRow),
    }
}

fn setup(call: Call, event: &Event) -> Found {
    let Event::Message(message) = event else { return Err(Refusal::NoRow) };
    match (message.name, message.component) {
        // "A basic answer at the originating exchange gives CHARGE CALLING."
        (Name::Anm | Name::Con, Component::None) => {
            Ok(call.row(Row::O(5)).payer(Payer::Caller).act(Action::ChargeCalling).state(Phase::Answered, Rev::Idle))
        }
        // Case D, 3.5.2.5.1.2, first sentence
        (Name::Fac, Component::Invoke(Operation::Called)) if !call.has(flag::INTERACTION) => {
            Ok(interaction_error(call.row(Row::O(6))))
        }
        // Case D, 3.5.2.5.1.1: the result now; notice and charging only at ANM or CON
        (Name::Fac, Component::Invoke(Operation::Called)) => {
            let transfer = call.takes_transfer(&message.parts);
            let waiting = Rev::WaitAnswer { transfer };
            if transfer {
                Ok(call
                    .row(Row::O(8))
                    .send(Name::Fac, called_result(), grant(&call, None))
                    .state(Phase::Setup, waiting))
            } else {
                called_number_there(message, Row::O(7))?;
                Ok(call.row(Row::O(7)).send(Name::Fac, called_result(), Parts::default()).state(Phase::Setup, waiting))
            }
        }
        _ => Err(Refusal::NoRow),
    }
}

fn called_result() -> Component {
    Component::Result(Operation::Called)
}

/// A FAC back with Supplementary Service Interaction Not Allowed; the call stays as it is.
fn interaction_error(step: Step) -> Step {
    step.send(Name::Fac, Component::Error(error::INTERACTION), Parts::default())
}

/// Needed: "the called number with an invoke CALLED that doesn't ask for transfer".
fn called_number_there(invoke: &Message, row: Row) -> Result<(), Refusal> {
    if !invoke.parts.transfer_requested && invoke.parts.called.is_none() {
        Err(Refusal::PartAbsent(row))
    } else {
        Ok(())
    }
}

fn wait_setup(call: Call, event: &Event) -> Found {
    let failed = |row| {
        call.row(row).act(Action::AccessError(error::NOT_AVAILABLE)).act(Action::AccessRel(cause::REJECTED)).clear()
    };
    // "REL with the same cause goes there last" where no REL has come from the other exchange.
    let failed_here = |row| failed(row).release(cause::REJECTED, Component::None);
    match event {
        // 3.5.2.1.1.2 iv
        Event::Expiry => Ok(failed_here(Row::O(15))),
        Event::Message(message) => match (message.name, message.component) {
            // 3.5.2.1.1.1 a and b
            (Name::Anm | Name::Con, Component::Result(Operation::Setup)) => {
                if call.granted_transfer(&message.parts) {
                    let step = call.row(Row::O(10)).act(Action::NotifyAccepted).payer(Payer::Far);
                    Ok(step.state(Phase::Answered, Rev::Active))
                } else {
                    let step = call.row(Row::O(9)).act(Action::NotifyAccepted).payer(Payer::Called);
                    Ok(step.act(Action::ChargeCalled).state(Phase::Answered, Rev::Active))
                }
            }
            // 3.5.2.1.1.2 i
            (Name::Rel, Component::Error(number)) if error::valid(number) => {
                Ok(call.row(Row::O(11)).act(Action::AccessError(number)).act(Action::AccessRel(message.cause)).clear())
            }
            (Name::Rel, Component::Error(_)) => Ok(failed(Row::O(12))),
            // 3.5.2.1.1.2 ii
            (Name::Rel, Component::Reject | Component::None) => Ok(failed(Row::O(13))),
            // 3.5.2.1.1.2 iii
            (Name::Anm | Name::Con, Component::None) => Ok(failed_here(Row::O(14))),
            _ => Err(Refusal::NoRow),
        },
        _ => Err(Refusal::NoRow),
    }
}

/// Case D: the state "wait for basic call response".
fn wait_answer(call: Call, event: &Event, transfer: bool) -> Found {
    match event {
        Event::Message(message) => match (message.name, message.component) {
            // 3.5.2.5.1.1 i and ii, on the answer
            (Name::Anm | Name::Con, Component::None) if transfer => Ok(call
                .row(Row::O(17))
                .act(Action::NotifyAccepted)
                .payer(Payer::Far)
                .state(Phase::Answered, Rev::Active)),
            (Name::Anm | Name::Con, Component::None) => Ok(call
                .row(Row::O(16))
                .act(Action::NotifyAccepted)
                .payer(Payer::Called)
                .act(Action::ChargeCalled)
                .state(Phase::Answered, Rev::Active)),
            // 3.5.2.5.1.2, second sentence
            (Name::Rel, _) => Ok(call.row(Row::O(18)).clear().act(Action::AccessRel(message.cause))),
            _ => Err(Refusal::NoRow),
        },
        Event::Access(Access::Clear) => Ok(call.row(Row::O(19)).clear().release(cause::NORMAL, Component::None)),
        _ => Err(Refusal::NoRow),
    }
}

fn answered(call: Call, event: &Event) -> Found {
    let interaction = call.has(flag::INTERACTION);
    match event {
        // 3.5.2.2.1.2, first sentence
        Event::Ask(Ask::B) if !interaction => Ok(call.row(Row::O(20)).act(Action::AccessError(error::INTERACTION))),
        // 3.5.2.2.1.1 i and ii
        Event::Ask(Ask::B) => Ok(call
            .row(if call.has(flag::TRANSFER) { Row::O(22) } else { Row::O(21) })
            .send(Name::Fac, Component::Invoke(Operation::Active), invoke_parts(&call))
            .state(Phase::Answered, Rev::WaitActive)),
        Event::Message(message) if is_called_invoke(message) => {
            if interaction {
                called_request(call, message)
            } else {
                // 3.5.2.3.1.2 and 3.5.2.4.1.2, first sentences
                Ok(interaction_error(call.row(Row::O(23))))
            }
        }
        _ => Err(Refusal::NoRow),
    }
}

fn is_called_invoke(message: &Message) -> bool {
    message.name == Name::Fac && message.component == Component::Invoke(Operation::Called)
}

/// Cases B and C asked by the called user: they differ by "partial call only" in the invoke. Case C moves the
/// caller's seconds, and the Duration sent is taken before they are moved.
fn called_request(call: Call, invoke: &Message) -> Found {
    let entire = !invoke.parts.partial;
    let mut step = if call.takes_transfer(&invoke.parts) {
        // 3.5.2.3.1.1 ii, 3.5.2.4.1.1 ii
        let (row, duration) = if entire { (Row::O(27), Some(call.caller)) } else { (Row::O(25), None) };
        call.row(row)
            .send(Name::Fac, called_result(), grant(&call, duration))
            .act(Action::NotifyAccepted)
            .payer(Payer::Far)
    } else {
        // 3.5.2.3.1.1 i, 3.5.2.4.1.1 i
        let row = if entire { Row::O(26) } else { Row::O(24) };
        called_number_there(invoke, row)?;
        call.row(row)
            .send(Name::Fac, called_result(), Parts::default())
            .act(Action::NotifyAccepted)
            .payer(Payer::Called)
            .act(Action::ChargeCalled)
    };
    if entire {
        let moved = std::mem::take(&mut step.call.caller);
        match step.call.payer {
            Payer::Far => step.call.far += moved,
            _ => step.call.called += moved,
        }
    }
    Ok(step.state(Phase::Answered, Rev::Active))
}

fn wait_active(call: Call, event: &Event) -> Found {
    let rejected = |row, number| Ok(call.row(row).act(Action::AccessError(number)).state(Phase::Answered, Rev::Idle));
    match event {
        // 3.5.2.2.1.2 iii
        Event::Expiry => rejected(Row::O(33), error::NOT_AVAILABLE),
        // 3.5.2.2.1.2, last sentence
        Event::Ask(Ask::A | Ask::B | Ask::C) => Ok(call.row(Row::O(35)).act(Action::AccessError(error::RUNNING))),
        Event::Message(message) => match (message.name, message.component) {
            // 3.5.2.2.1.1 a and b
            (Name::Fac, Component::Result(Operation::Active)) => {
                if call.granted_transfer(&message.parts) {
                    let step = call.row(Row::O(29)).act(Action::NotifyAccepted).payer(Payer::Far);
                    Ok(step.state(Phase::Answered, Rev::Active))
                } else {
                    let step = call.row(Row::O(28)).act(Action::NotifyAccepted).payer(Payer::Called);
                    Ok(step.act(Action::ChargeCalled).state(Phase::Answered, Rev::Active))
                }
            }
            // 3.5.2.2.1.2 i
            (Name::Fac, Component::Error(number)) => {
                let row = if error::valid(number) { Row::O(30) } else { Row::O(31) };
                rejected(row, error::passed_on(number))
            }
            // 3.5.2.2.1.2 ii
            (Name::Fac, Component::Reject | Component::None) => rejected(Row::O(32), error::NOT_AVAILABLE),
            // 3.5.2.2.1.2, last sentence
            (Name::Fac, Component::Invoke(_)) => Ok(running(call.row(Row::O(36)))),
            // 3.5.2.2.1.2, "on receipt of a Release Message". The sentence sets no place for STOP: last.
            (Name::Rel, _) => Ok(call
                .row(Row::O(34))
                .act(Action::AccessError(error::BASIC_SERVICE))
                .act(Action::AccessRel(message.cause))
                .clear()),
            _ => Err(Refusal::NoRow),
        },
        _ => Err(Refusal::NoRow),
    }
}

/// A FAC back with REV Is Already Running.
fn running(step: Step) -> Step {
    step.send(Name::Fac, Component::Error(error::RUNNING), Parts::default())
}

/// The last sentences of 3.5.2.n.1.1 ("When the basic call is cleared") and of 3.5.2.n.1.2 ("Whenever the state is
/// active reverse charging"), n from 1 to 5.
fn active(call: Call, event: &Event) -> Found {
    match event {
        Event::Ask(Ask::A | Ask::B | Ask::C) => Ok(call.row(Row::O(37)).act(Action::AccessError(error::RUNNING))),
        Event::Message(message) => match (message.name, message.component) {
            (Name::Fac, Component::Invoke(_)) => Ok(running(call.row(Row::O(38)))),
            (Name::Rel, _) => Ok(call.row(Row::O(40)).clear().act(Action::AccessRel(message.cause))),
            _ => Err(Refusal::NoRow),
        },
        Event::Access(Access::Clear) => Ok(call.row(Row::O(39)).clear().release(cause::NORMAL, Component::None)),
        _ => Err(Refusal::NoRow),
    }
}
