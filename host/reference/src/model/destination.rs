//! The rows of a destination exchange: the clause's 3.5.2.1.5, 3.5.2.2.5, 3.5.2.3.5, 3.5.2.4.5 and 3.5.2.5.5.

use super::{cause, error, flag, YEAR};
use super::{Access, Action, Ask, Case, Component, Event, Message, Name, Operation, Parts, Payer, Phase, Rev, Row};
use super::{Call, Found, Refusal, Step};

pub(super) fn find(call: Call, event: &Event) -> Found {
    match (call.phase, call.rev) {
        (Phase::Null, Rev::Idle) => null(call, event),
        (Phase::Setup, Rev::Idle) => setup(call, event),
        (Phase::Setup, Rev::WaitSetupConf { transfer }) => wait_setup_conf(call, event, transfer),
        (Phase::Setup, Rev::WaitCalled(_)) => wait_called_setup(call, event),
        (Phase::Setup, Rev::WaitAnswer { transfer }) => wait_answer(call, event, transfer),
        (Phase::Answered, Rev::Idle) => answered(call, event),
        (Phase::Answered, Rev::WaitActiveConf { transfer }) => wait_active_conf(call, event, transfer),
        (Phase::Answered, Rev::WaitCalled(case)) => wait_called(call, event, case),
        (Phase::Answered, Rev::Active) => active(call, event),
        _ => Err(Refusal::NoRow),
    }
}

/// The parts of a result of this exchange: without transfer "Called User Number", with it "Transfer Accepted", which
/// "is sent only as parts 2 and 4 together".
fn result_parts(call: &Call, transfer: bool) -> Parts {
    if transfer {
        Parts { transfer_accepted: true, as_transfer: true, ..Parts::default() }
    } else {
        Parts { called: Some(call.own), ..Parts::default() }
    }
}

/// Sends the invoke CALLED of cases B, C and D: with Called User Number, or with Transfer Requested where this
/// exchange's flag says so.
fn ask_origin(step: Step, partial: bool) -> Step {
    let parts = if step.call.has(flag::TRANSFER) {
        Parts { transfer_requested: true, partial, ..Parts::default() }
    } else {
        Parts { called: Some(step.call.own), partial, ..Parts::default() }
    };
    step.send(Name::Fac, Component::Invoke(Operation::Called), parts)
}

/// Judges an invoke SETUP or ACTIVE that has passed the checks: whether it is taken in transfer mode. Needed then:
/// the calling number.
fn invoke_mode(call: &Call, invoke: &Message, transfer_row: Row) -> Result<bool, Refusal> {
    let transfer = call.takes_transfer(&invoke.parts);
    if transfer && invoke.parts.calling.is_none() {
        return Err(Refusal::PartAbsent(transfer_row));
    }
    Ok(transfer)
}

fn null(call: Call, event: &Event) -> Found {
    let Event::Message(message @ Message { name: Name::Iam, component, .. }) = event else {
        return Err(Refusal::NoRow);
    };
    // A REL in answer to the IAM; the sentence names nothing that goes to this exchange's own access.
    let refused = |row, component| Ok(call.row(row).clear().release(cause::REJECTED, component));
    match component {
        // "an IAM gives ACCESS SETUP (or the REV row)"
        Component::None if !call.has(flag::CASE_D) => {
            Ok(call.row(Row::D(1)).act(Action::AccessSetup).state(Phase::Setup, Rev::Idle))
        }
        // Case D, 3.5.2.5.5.2, first sentence
        Component::None if !call.has(flag::INTERACTION) => refused(Row::D(2), Component::None),
        // Case D, 3.5.2.5.5.1 i and ii
        Component::None => {
            let row = if call.has(flag::TRANSFER) { Row::D(4) } else { Row::D(3) };
            Ok(ask_origin(call.row(row), false).state(Phase::Setup, Rev::WaitCalled(Case::D)))
        }
        // "An IAM with invoke SETUP follows A even under flag 16." 3.5.2.1.5.2, the first two paragraphs
        Component::Invoke(Operation::Setup) if !call.subscription_ok() => {
            refused(Row::D(5), Component::Error(error::NOT_SUBSCRIBED))
        }
        Component::Invoke(Operation::Setup) if !call.has(flag::INTERACTION) => {
            refused(Row::D(6), Component::Error(error::INTERACTION))
        }
        // 3.5.2.1.5.1 ii and iii
        Component::Invoke(Operation::Setup) => {
            let transfer = invoke_mode(&call, message, Row::D(8))?;
            let row = if transfer { Row::D(8) } else { Row::D(7) };
            Ok(call.row(row).act(Action::AccessAsk).state(Phase::Setup, Rev::WaitSetupConf { transfer }))
        }
        _ => Err(Refusal::NoRow),
    }
}

fn setup(call: Call, event: &Event) -> Found {
    match event {
        // "answer without REV gives ANM"; the meter far runs "until this exchange charges".
        Event::Access(Access::Answer) => Ok(call
            .row(Row::D(9))
            .payer(Payer::Far)
            .send(Name::Anm, Component::None, Parts::default())
            .state(Phase::Answered, Rev::Idle)),
        _ => Err(Refusal::NoRow),
    }
}

fn wait_setup_conf(call: Call, event: &Event, transfer: bool) -> Found {
    let clears = |row, cause, number| Ok(call.row(row).clear().release(cause, Component::Error(number)));
    match event {
        // 3.5.2.1.5.1 a and b: with transfer the charging starts first.
        Event::Access(Access::Accept) => {
            let step = if transfer {
                call.row(Row::D(11)).payer(Payer::Called).act(Action::ChargeCalled)
            } else {
                call.row(Row::D(10)).payer(Payer::Far)
            };
            Ok(step
                .send(Name::Anm, Component::Result(Operation::Setup), result_parts(&call, transfer))
                .state(Phase::Answered, Rev::Active))
        }
        // 3.5.2.1.5.2 i: the access item has no cause of its own, so 16.
        Event::Access(Access::Error(number)) if error::valid(*number) => clears(Row::D(12), cause::NORMAL, *number),
        Event::Access(Access::Error(_)) => clears(Row::D(13), cause::REJECTED, error::NOT_AVAILABLE),
        // 3.5.2.1.5.2 ii
        Event::Access(Access::Reject) => clears(Row::D(14), cause::REJECTED, error::NOT_AVAILABLE),
        // 3.5.2.1.5.2 iii: left to DSS 1 by the clause, REL with cause 16 by 01.
        Event::Access(Access::Clear) => Ok(call.row(Row::D(15)).clear().release(cause::NORMAL, Component::None)),
        // 3.5.2.1.5.2 iv
        Event::Access(Access::Answer) => clears(Row::D(16), cause::REJECTED, error::IGNORED),
        // 3.5.2.1.5.2 v
        Event::Expiry => clears(Row::D(17), cause::TIMER, error::BASIC_SERVICE),
        _ => Err(Refusal::NoRow),
    }
}

/// Case D: waiting for the response to this exchange's invoke CALLED, before the answer. "A, B or C from her, or any
/// invoke in FAC, in WAIT-CALLED now gets REV Is Already Running and the wait goes on" (02 #101).
fn wait_called_setup(call: Call, event: &Event) -> Found {
    let failed = |row| Ok(call.row(row).clear().release(cause::REJECTED, Component::None));
    let second_press = || already_running(call, event, Row::D(57), Row::D(58));
    match event {
        // 3.5.2.5.5.2 ii
        Event::Expiry => failed(Row::D(21)),
        Event::Message(message @ Message { name: Name::Fac, component, .. }) => match component {
            // 3.5.2.5.5.1, "When the state is wait for REVCalledRequest response", b and a
            Component::Result(Operation::Called) if call.granted_transfer(&message.parts) => {
                if message.parts.calling.is_none() {
                    return Err(Refusal::PartAbsent(Row::D(19)));
                }
                Ok(call.row(Row::D(19)).state(Phase::Setup, Rev::WaitAnswer { transfer: true }))
            }
            Component::Result(Operation::Called) => Ok(call
                .row(Row::D(18))
                .act(Action::NotifyAccepted)
                .state(Phase::Setup, Rev::WaitAnswer { transfer: false })),
            // 3.5.2.5.5.2 i
            Component::Error(_) | Component::Reject => failed(Row::D(20)),
            _ => second_press(),
        },
        _ => second_press(),
    }
}

/// Case D: the state "wait for basic call confirmation".
fn wait_answer(call: Call, event: &Event, transfer: bool) -> Found {
    match event {
        // 3.5.2.5.5.1 a and b; "answer without REV gives ANM, in WAIT-ANSWER too"
        Event::Access(Access::Answer) => {
            let step = if transfer {
                call.row(Row::D(23)).payer(Payer::Called).act(Action::ChargeCalled)
            } else {
                call.row(Row::D(22)).payer(Payer::Far)
            };
            Ok(step.send(Name::Anm, Component::None, Parts::default()).state(Phase::Answered, Rev::Active))
        }
        // 3.5.2.5.5.2, "When the state is wait for basic call confirmation"
        Event::Message(Message { name: Name::Rel, cause, .. }) => {
            Ok(call.row(Row::D(24)).clear().act(Action::AccessRel(*cause)))
        }
        Event::Access(Access::Clear) => Ok(call.row(Row::D(25)).clear().release(cause::NORMAL, Component::None)),
        _ => Err(Refusal::NoRow),
    }
}

fn answered(call: Call, event: &Event) -> Found {
    let send_error = |row, number| Ok(call.row(row).send(Name::Fac, Component::Error(number), Parts::default()));
    let access_error = |row, number| Ok(call.row(row).act(Action::AccessError(number)));
    match event {
        // Case B asked by the caller
        Event::Message(message @ Message { name: Name::Fac, component: Component::Invoke(Operation::Active), .. }) => {
            if !call.subscription_ok() {
                // 3.5.2.2.5.2, first sentence
                return send_error(Row::D(26), error::NOT_SUBSCRIBED);
            }
            if !call.has(flag::INTERACTION) {
                // 3.5.2.2.5.2, second sentence
                return send_error(Row::D(27), error::INTERACTION);
            }
            // 3.5.2.2.5.1 ii and iii
            let transfer = invoke_mode(&call, message, Row::D(29))?;
            let row = if transfer { Row::D(29) } else { Row::D(28) };
            Ok(call.row(row).act(Action::AccessAsk).state(Phase::Answered, Rev::WaitActiveConf { transfer }))
        }
        // Cases B and C asked by the called user
        Event::Ask(ask @ (Ask::B | Ask::C)) => {
            if !call.subscription_ok() {
                // 3.5.2.3.5.2 i, 3.5.2.4.5.2 i
                return access_error(Row::D(30), error::NOT_SUBSCRIBED);
            }
            if !call.has(flag::INTERACTION) {
                // 3.5.2.3.5.2 ii, 3.5.2.4.5.2 ii
                return access_error(Row::D(31), error::INTERACTION);
            }
            // 3.5.2.3.5.1 ii and iii, 3.5.2.4.5.1 ii and iii
            let (row, case) = match (ask, call.has(flag::TRANSFER)) {
                (Ask::B, false) => (Row::D(32), Case::B),
                (Ask::B, true) => (Row::D(33), Case::B),
                (_, false) => (Row::D(34), Case::C),
                (_, true) => (Row::D(35), Case::C),
            };
            Ok(ask_origin(call.row(row), case == Case::B).state(Phase::Answered, Rev::WaitCalled(case)))
        }
        _ => Err(Refusal::NoRow),
    }
}

fn wait_active_conf(call: Call, event: &Event, transfer: bool) -> Found {
    let back = |row, number| {
        let step = call.row(row).send(Name::Fac, Component::Error(number), Parts::default());
        Ok(step.state(Phase::Answered, Rev::Idle))
    };
    match event {
        // 3.5.2.2.5.1 a and b: with transfer "first charge, then result".
        Event::Access(Access::Accept) => {
            let step = if transfer {
                call.row(Row::D(37)).payer(Payer::Called).act(Action::ChargeCalled)
            } else {
                call.row(Row::D(36))
            };
            Ok(step
                .send(Name::Fac, Component::Result(Operation::Active), result_parts(&call, transfer))
                .state(Phase::Answered, Rev::Active))
        }
        // 3.5.2.2.5.2 i
        Event::Access(Access::Error(number)) => {
            let row = if error::valid(*number) { Row::D(38) } else { Row::D(39) };
            back(row, error::passed_on(*number))
        }
        // 3.5.2.2.5.2 ii and iii
        Event::Access(Access::Reject) => back(Row::D(40), error::NOT_AVAILABLE),
        Event::Expiry => back(Row::D(41), error::IGNORED),
        // 3.5.2.2.5.2, "call clearing message": "one REL 16 with Basic Service Not Provided"
        Event::Access(Access::Clear) => {
            Ok(call.row(Row::D(42)).clear().release(cause::NORMAL, Component::Error(error::BASIC_SERVICE)))
        }
        // 3.5.2.2.5.2, last sentence
        _ => already_running(call, event, Row::D(43), Row::D(44)),
    }
}

/// "own request A, B or C, or any invoke in FAC, gets REV Is Already Running"
fn already_running(call: Call, event: &Event, asked: Row, invoked: Row) -> Found {
    match event {
        Event::Ask(Ask::A | Ask::B | Ask::C) => Ok(call.row(asked).act(Action::AccessError(error::RUNNING))),
        Event::Message(Message { name: Name::Fac, component: Component::Invoke(_), .. }) => {
            Ok(call.row(invoked).send(Name::Fac, Component::Error(error::RUNNING), Parts::default()))
        }
        _ => Err(Refusal::NoRow),
    }
}

/// Cases B and C: waiting for the response to this exchange's invoke CALLED. "A, B or C from her, or any invoke in FAC,
/// in WAIT-CALLED now gets REV Is Already Running and the wait goes on" (02 #101): the case stays the one first asked.
fn wait_called(call: Call, event: &Event, case: Case) -> Found {
    let rejected = |row, number| Ok(call.row(row).act(Action::AccessError(number)).state(Phase::Answered, Rev::Idle));
    let second_press = || already_running(call, event, Row::D(59), Row::D(60));
    match event {
        // 3.5.2.3.5.2 c, 3.5.2.4.5.2 c
        Event::Expiry => rejected(Row::D(51), error::NOT_AVAILABLE),
        Event::Message(message) => match (message.name, message.component) {
            (Name::Fac, Component::Result(Operation::Called)) => called_result(call, message, case),
            // 3.5.2.3.5.2 a, 3.5.2.4.5.2 a
            (Name::Fac, Component::Error(number)) => {
                let row = if error::valid(number) { Row::D(48) } else { Row::D(49) };
                rejected(row, error::passed_on(number))
            }
            // 3.5.2.3.5.2 b, 3.5.2.4.5.2 b (the reject "comes from the preceding exchange")
            (Name::Fac, Component::Reject) => rejected(Row::D(50), error::NOT_AVAILABLE),
            // 3.5.2.3.5.2 and 3.5.2.4.5.2, "on receipt of a Release Message"
            (Name::Rel, _) => Ok(call
                .row(Row::D(52))
                .act(Action::AccessError(error::BASIC_SERVICE))
                .act(Action::AccessRel(message.cause))
                .clear()),
            _ => second_press(),
        },
        _ => second_press(),
    }
}

/// 3.5.2.3.5.1 and 3.5.2.4.5.1, a and b: the result to this exchange's invoke CALLED.
fn called_result(call: Call, result: &Message, case: Case) -> Found {
    if !call.granted_transfer(&result.parts) {
        return Ok(call.row(Row::D(45)).act(Action::NotifyAccepted).state(Phase::Answered, Rev::Active));
    }
    let entire = case == Case::C;
    let row = if entire { Row::D(47) } else { Row::D(46) };
    // Needed: the calling number, "and in case C the duration too".
    if result.parts.calling.is_none() {
        return Err(Refusal::PartAbsent(row));
    }
    let mut step = call.row(row).payer(Payer::Called).act(Action::ChargeCalled).act(Action::NotifyAccepted);
    if entire {
        // "Case C in transfer mode sets called to the Duration received and far to 0."
        let duration = result.parts.duration.ok_or(Refusal::PartAbsent(row))?;
        if duration > YEAR {
            return Err(Refusal::TooMuch(row));
        }
        step.call.called = duration;
        step.call.far = 0;
    }
    Ok(step.state(Phase::Answered, Rev::Active))
}

/// The last sentences of 3.5.2.n.5.1 ("When the basic call is cleared") and of 3.5.2.n.5.2 ("Whenever the state is
/// active reverse charging"), n from 1 to 5.
fn active(call: Call, event: &Event) -> Found {
    match event {
        Event::Access(Access::Clear) => Ok(call.row(Row::D(55)).clear().release(cause::NORMAL, Component::None)),
        Event::Message(Message { name: Name::Rel, cause, .. }) => {
            Ok(call.row(Row::D(56)).clear().act(Action::AccessRel(*cause)))
        }
        _ => already_running(call, event, Row::D(53), Row::D(54)),
    }
}
