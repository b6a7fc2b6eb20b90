//! The records that matter in each state, with weights. Clearings are rare, so that histories go on.

use super::fields;
use super::random::Random;
use crate::model::{Call, Phase, Rev, Role};

/// A record but for the fields that are drawn: numbers, causes, parts, error numbers, seconds.
#[derive(Clone, Copy)]
enum Want {
    Ask(u8),
    /// A message's number, its component's number and the operation (0 if it has none).
    Say(u8, u8, u8),
    Access(u8),
    Expiry,
    Time,
}

use Want::{Access, Ask, Expiry, Say, Time};

const IAM: u8 = 1;
const ANM: u8 = 2;
const CON: u8 = 3;
const REL: u8 = 4;
const FAC: u8 = 5;

const PLAIN: u8 = 0;
const INVOKE: u8 = 1;
const RESULT: u8 = 2;
const ERROR: u8 = 3;
const REJECT: u8 = 4;

const SETUP: u8 = 1;
const ACTIVE: u8 = 2;
const CALLED: u8 = 3;

const ACCEPT: u8 = 1;
const ACCESS_ERROR: u8 = 2;
const ACCESS_REJECT: u8 = 3;
const CLEAR: u8 = 4;
const ANSWER: u8 = 5;

type Wants = &'static [(u64, Want)];

/// What clears a call: its own access, and a REL with each component.
const CLEARINGS: Wants = &[
    (5, Access(CLEAR)),
    (2, Say(REL, PLAIN, 0)),
    (1, Say(REL, INVOKE, CALLED)),
    (1, Say(REL, RESULT, ACTIVE)),
    (1, Say(REL, ERROR, 0)),
    (1, Say(REL, REJECT, 0)),
];

/// What a destination in WAIT-CALLED answers with REV Is Already Running (02 #101).
const SECOND_PRESSES: Wants = &[
    (2, Ask(1)),
    (4, Ask(2)),
    (4, Ask(3)),
    (1, Say(FAC, INVOKE, SETUP)),
    (1, Say(FAC, INVOKE, ACTIVE)),
    (4, Say(FAC, INVOKE, CALLED)),
];

/// Each state's records, and how often in a hundred a clearing comes instead.
fn wants(call: &Call) -> (Wants, u64) {
    use {Role::Destination, Role::Originating};
    match (call.role, call.phase, call.rev) {
        (_, Phase::None, _) | (_, Phase::Cleared, _) => (&[(1, Time), (1, Expiry), (1, Ask(0)), (1, Ask(2))], 20),
        (Originating, Phase::Null, _) => (&[(10, Ask(0)), (12, Ask(1)), (1, Ask(2)), (1, Ask(3))], 1),
        (Originating, Phase::Setup, Rev::Idle) => (
            &[
                (30, Say(ANM, PLAIN, 0)),
                (20, Say(CON, PLAIN, 0)),
                (25, Say(FAC, INVOKE, CALLED)),
                (3, Say(FAC, INVOKE, ACTIVE)),
                (2, Say(ANM, RESULT, SETUP)),
                (2, Expiry),
            ],
            4,
        ),
        (Originating, Phase::Setup, Rev::WaitAnswer { .. }) => (
            &[
                (30, Say(ANM, PLAIN, 0)),
                (20, Say(CON, PLAIN, 0)),
                (3, Say(ANM, RESULT, CALLED)),
                (3, Say(FAC, INVOKE, CALLED)),
                (5, Expiry),
                (5, Ask(1)),
            ],
            24,
        ),
        (Originating, Phase::Setup, _) => (
            &[
                (30, Say(ANM, RESULT, SETUP)),
                (20, Say(CON, RESULT, SETUP)),
                (3, Say(ANM, RESULT, ACTIVE)),
                (3, Say(FAC, RESULT, SETUP)),
                (5, Say(ANM, PLAIN, 0)),
                (5, Say(CON, PLAIN, 0)),
                (14, Say(REL, ERROR, 0)),
                (4, Say(REL, REJECT, 0)),
                (4, Say(REL, PLAIN, 0)),
                (3, Say(FAC, INVOKE, CALLED)),
                (6, Expiry),
            ],
            8,
        ),
        (Originating, Phase::Answered, Rev::Idle) => (
            &[
                (40, Ask(2)),
                (45, Say(FAC, INVOKE, CALLED)),
                (3, Say(FAC, INVOKE, ACTIVE)),
                (3, Say(FAC, RESULT, ACTIVE)),
                (2, Ask(1)),
                (2, Ask(3)),
                (2, Expiry),
            ],
            5,
        ),
        (Originating, Phase::Answered, Rev::WaitActive) => (
            &[
                (32, Say(FAC, RESULT, ACTIVE)),
                (24, Say(FAC, ERROR, 0)),
                (6, Say(FAC, REJECT, 0)),
                (6, Say(FAC, PLAIN, 0)),
                (9, Expiry),
                (3, Ask(1)),
                (4, Ask(2)),
                (3, Ask(3)),
                (2, Ask(0)),
                (3, Say(FAC, INVOKE, SETUP)),
                (3, Say(FAC, INVOKE, ACTIVE)),
                (4, Say(FAC, INVOKE, CALLED)),
                (3, Say(FAC, RESULT, CALLED)),
            ],
            10,
        ),
        (Destination, Phase::Null, _) => {
            (&[(12, Say(IAM, PLAIN, 0)), (10, Say(IAM, INVOKE, SETUP)), (1, Say(IAM, INVOKE, CALLED)), (1, Ask(0))], 1)
        }
        (Destination, Phase::Setup, Rev::Idle) => {
            (&[(30, Access(ANSWER)), (2, Access(ACCEPT)), (2, Say(FAC, INVOKE, ACTIVE)), (2, Say(ANM, PLAIN, 0))], 5)
        }
        (Destination, Phase::Setup, Rev::WaitSetupConf { .. }) => (
            &[
                (40, Access(ACCEPT)),
                (20, Access(ACCESS_ERROR)),
                (6, Access(ACCESS_REJECT)),
                (6, Access(ANSWER)),
                (6, Expiry),
                (3, Ask(2)),
                (3, Say(FAC, INVOKE, ACTIVE)),
            ],
            12,
        ),
        (Destination, Phase::Setup, Rev::WaitAnswer { .. }) => {
            (&[(40, Access(ANSWER)), (3, Access(ACCEPT)), (3, Expiry), (3, Say(FAC, RESULT, CALLED)), (3, Ask(3))], 16)
        }
        (Destination, Phase::Setup, _) => (
            &[
                (60, Say(FAC, RESULT, CALLED)),
                (4, Say(FAC, ERROR, 0)),
                (4, Say(FAC, REJECT, 0)),
                (6, Expiry),
                (3, Say(FAC, RESULT, ACTIVE)),
                (3, Say(FAC, PLAIN, 0)),
                (3, Access(ANSWER)),
                (2, Ask(0)),
                (4, Ask(1)),
                (4, Ask(2)),
                (4, Ask(3)),
                (4, Say(FAC, INVOKE, SETUP)),
                (4, Say(FAC, INVOKE, ACTIVE)),
                (4, Say(FAC, INVOKE, CALLED)),
            ],
            10,
        ),
        (Destination, Phase::Answered, Rev::Idle) => (
            &[
                (40, Say(FAC, INVOKE, ACTIVE)),
                (24, Ask(2)),
                (36, Ask(3)),
                (2, Ask(1)),
                (3, Say(FAC, INVOKE, CALLED)),
                (2, Say(FAC, RESULT, CALLED)),
                (2, Access(ANSWER)),
            ],
            4,
        ),
        (Destination, Phase::Answered, Rev::WaitActiveConf { .. }) => (
            &[
                (26, Access(ACCEPT)),
                (24, Access(ACCESS_ERROR)),
                (8, Access(ACCESS_REJECT)),
                (8, Expiry),
                (3, Ask(1)),
                (3, Ask(2)),
                (3, Ask(3)),
                (2, Ask(0)),
                (3, Say(FAC, INVOKE, SETUP)),
                (3, Say(FAC, INVOKE, ACTIVE)),
                (3, Say(FAC, INVOKE, CALLED)),
                (2, Access(ANSWER)),
            ],
            16,
        ),
        (Destination, Phase::Answered, Rev::WaitCalled(_)) => (
            &[
                (44, Say(FAC, RESULT, CALLED)),
                (20, Say(FAC, ERROR, 0)),
                (8, Say(FAC, REJECT, 0)),
                (8, Expiry),
                (3, Say(FAC, RESULT, ACTIVE)),
                (3, Say(FAC, PLAIN, 0)),
                (2, Ask(0)),
                (4, Ask(1)),
                (8, Ask(2)),
                (8, Ask(3)),
                (4, Say(FAC, INVOKE, SETUP)),
                (4, Say(FAC, INVOKE, ACTIVE)),
                (4, Say(FAC, INVOKE, CALLED)),
            ],
            8,
        ),
        // ACTIVE in either role
        _ => (
            &[
                (10, Time),
                (2, Ask(0)),
                (3, Ask(1)),
                (4, Ask(2)),
                (3, Ask(3)),
                (3, Say(FAC, INVOKE, SETUP)),
                (3, Say(FAC, INVOKE, ACTIVE)),
                (4, Say(FAC, INVOKE, CALLED)),
                (2, Say(FAC, RESULT, CALLED)),
                (2, Say(FAC, ERROR, 0)),
                (2, Expiry),
            ],
            20,
        ),
    }
}

/// The parts that a component is mostly met with: all that a row uses or needs, and some that lack one.
fn usual_parts(component: u8, operation: u8) -> &'static [u8] {
    match (component, operation) {
        (INVOKE, CALLED) => &[32, 32, 1, 1, 32 | 8, 32 | 8, 1 | 8, 1 | 8, 1 | 32, 0, 8],
        (INVOKE, _) => &[0, 1 | 16, 1 | 16, 1 | 16, 1 | 16, 16, 1],
        (RESULT, CALLED) => &[
            0,
            2,
            2 | 4 | 16,
            2 | 4 | 16,
            2 | 4 | 16 | 64,
            2 | 4 | 16 | 64,
            2 | 4 | 16 | 64,
            2 | 4 | 16 | 64,
            2 | 4 | 64,
            2 | 4,
        ],
        (RESULT, _) => &[0, 32, 2, 2 | 32, 2 | 4, 2 | 4, 2 | 4 | 32],
        _ => &[0],
    }
}

fn parts(random: &mut Random, component: u8, operation: u8) -> u8 {
    let usual = random.pick(usual_parts(component, operation));
    match random.below(10) {
        0 => fields::good_parts(random.byte()),
        1..=2 => fields::good_parts(usual ^ (1 << random.below(7))),
        _ => usual,
    }
}

fn draw(random: &mut Random, wants: Wants) -> Want {
    let mut left = random.below(wants.iter().map(|(weight, _)| weight).sum());
    for &(weight, want) in wants {
        if left < weight {
            return want;
        }
        left -= weight;
    }
    unreachable!("what is left is below the sum of the weights")
}

/// A record that matters at a call.
pub fn record(random: &mut Random, call: &Call) -> Vec<u8> {
    let (wants, clearings) = wants(call);
    let wants = if random.below(100) < clearings { CLEARINGS } else { wants };
    let want = draw(random, wants);
    make(random, want)
}

/// What may clear a call.
pub fn clearing(random: &mut Random) -> Vec<u8> {
    let want = draw(random, CLEARINGS);
    make(random, want)
}

/// Any event but an opening: each that has rows of its own, or none, as often as every other.
pub fn any(random: &mut Random) -> Vec<u8> {
    const CARRIED: [(u8, u8); 9] = [
        (PLAIN, 0),
        (INVOKE, SETUP),
        (INVOKE, ACTIVE),
        (INVOKE, CALLED),
        (RESULT, SETUP),
        (RESULT, ACTIVE),
        (RESULT, CALLED),
        (ERROR, 0),
        (REJECT, 0),
    ];
    let want = match random.below(56) as u8 {
        request @ 0..=3 => Ask(request),
        item @ 4..=8 => Access(item - 3),
        9 => Expiry,
        10 => Time,
        message => {
            let (component, operation) = CARRIED[usize::from(message - 11) % 9];
            Say(1 + (message - 11) / 9, component, operation)
        }
    };
    make(random, want)
}

/// An IAM with no component.
pub fn plain_iam(random: &mut Random) -> Vec<u8> {
    make(random, Say(IAM, PLAIN, 0))
}

/// The called user's answer without REV.
pub fn answer(random: &mut Random) -> Vec<u8> {
    make(random, Access(ANSWER))
}

pub fn time(random: &mut Random) -> Vec<u8> {
    make(random, Time)
}

/// The called user's request C.
pub fn entire_call(random: &mut Random) -> Vec<u8> {
    make(random, Ask(3))
}

/// The result that such a request in transfer mode waits for, with this Duration.
pub fn entire_call_accepted(random: &mut Random, duration: u32) -> Vec<u8> {
    let mut record = fields::message(random, FAC, RESULT, CALLED, 2 | 4 | 16 | 64);
    let place = record.len() - 4;
    record[place..].copy_from_slice(&duration.to_le_bytes());
    record
}

/// The called user's request B or C.
pub fn first_press(random: &mut Random) -> Vec<u8> {
    let want = random.pick(&[Ask(2), Ask(3)]);
    make(random, want)
}

/// What comes again, from either side, while such a request waits.
pub fn second_press(random: &mut Random) -> Vec<u8> {
    let want = draw(random, SECOND_PRESSES);
    make(random, want)
}

fn make(random: &mut Random, want: Want) -> Vec<u8> {
    match want {
        Ask(request) => fields::good_ask(random, request),
        Say(name, component, operation) => {
            let parts = parts(random, component, operation);
            let detail = if component == ERROR { random.error() } else { operation };
            fields::message(random, name, component, detail, parts)
        }
        Access(item) => fields::good_access(random, item),
        Expiry => fields::expiry(),
        Time => fields::time(random.seconds()),
    }
}
