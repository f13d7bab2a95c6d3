//! Steps as requests in bytes, with random values, and damage.

use crate::days::Step;
use crate::encoded::{ValueKind, REQUEST};
use crate::random::Random;

const LISTED: [u16; 6] = [840, 978, 826, 191, 392, 414];
const MOST_UNITS: i64 = 999_999_999_999;

/// Any units: mostly in range, often at an edge.
pub fn any_units(random: &mut Random) -> i64 {
    match random.below(12) {
        0 => random.pick(&[MOST_UNITS, -MOST_UNITS, 0, -1, 1]),
        1 => random.pick(&[MOST_UNITS + 1, -MOST_UNITS - 1, i64::MAX, i64::MIN]),
        2 => random.next() as i64,
        _ => random.below(2 * MOST_UNITS as u64 + 1) as i64 - MOST_UNITS,
    }
}

/// Any currency number: mostly a listed one.
pub fn any_currency(random: &mut Random) -> u16 {
    match random.below(12) {
        0 => random.next() as u16,
        1 => random
            .pick(&LISTED)
            .wrapping_add(random.pick(&[1, 256, 65_535])),
        _ => random.pick(&LISTED),
    }
}

/// The bytes of any amount, good or bad.
pub fn any_amount(random: &mut Random) -> [u8; 10] {
    let mut bytes = [0; 10];
    bytes[..2].copy_from_slice(&any_currency(random).to_le_bytes());
    bytes[2..].copy_from_slice(&any_units(random).to_le_bytes());
    bytes
}

/// The bytes of any standing, good or bad.
pub fn any_standing(random: &mut Random) -> [u8; 5] {
    let state = match random.below(12) {
        0 => random.next() as u8,
        _ => random.from_to(1, 3) as u8,
    };
    let number = match random.below(6) {
        0 => random.next() as u32,
        1 => random.pick(&[0, 99, 100, u32::MAX, 256, 65_536 + 5]),
        _ => random.below(100) as u32,
    };
    let [a, b, c, d] = number.to_le_bytes();
    [state, a, b, c, d]
}

/// A value for a write. One in thirty is as bad as it may be.
fn put_value(random: &mut Random, kind: ValueKind, place: &mut [u8]) {
    let good = !random.chance(33);
    match kind {
        ValueKind::Amounts if good => {
            let units = random.below(2 * MOST_UNITS as u64 + 1) as i64 - MOST_UNITS;
            place[..2].copy_from_slice(&random.pick(&LISTED).to_le_bytes());
            place[2..10].copy_from_slice(&units.to_le_bytes());
        }
        ValueKind::Standings if good => {
            place[0] = random.from_to(1, 3) as u8;
            place[1] = random.below(100) as u8;
        }
        ValueKind::Amounts => place[..10].copy_from_slice(&any_amount(random)),
        ValueKind::Standings => place[..5].copy_from_slice(&any_standing(random)),
    }
}

/// The number of a step, and the two numbers that it has.
fn numbers(step: Step) -> (u8, u64, u64) {
    match step {
        Step::OpenAmendment { job } => (0, job, 0),
        Step::OpenInspection { job } => (1, job, 0),
        Step::Read { job, record } => (2, job, record),
        Step::Write { job, record } => (3, job, record),
        Step::HandIn { job } => (4, job, 0),
        Step::Deliver { job, office } => (5, job, office),
        Step::Collect { job } => (6, job, 0),
        Step::Close { job } => (7, job, 0),
        Step::Withdraw { job } => (8, job, 0),
        Step::Archive { size } => (9, 0, size),
        Step::JobState { job } => (10, job, 0),
        Step::NewestVersion { record } => (11, 0, record),
        Step::AnsweredCount => (12, 0, 0),
        Step::AnsweredAt { n } => (13, 0, n),
        Step::Inspect { job, record } => (14, job, record),
    }
}

/// Adds the request of a step.
pub fn push(bytes: &mut Vec<u8>, random: &mut Random, kind: ValueKind, step: Step) {
    let (number, job, other) = numbers(step);
    let mut request = [0; REQUEST];
    request[0] = number;
    if number == 3 {
        put_value(random, kind, &mut request[1..11]);
    }
    request[16..24].copy_from_slice(&job.to_le_bytes());
    request[24..32].copy_from_slice(&other.to_le_bytes());
    bytes.extend_from_slice(&request);
}

/// Changes random bytes of random requests.
pub fn damage(bytes: &mut [u8], random: &mut Random) {
    let requests = (bytes.len() / REQUEST) as u64;
    for _ in 0..random.from_to(1, 1 + requests / 10) {
        let start = random.below(requests) as usize * REQUEST;
        // The parts that mean something: which request, the value, the lowest bytes of the numbers, and any byte.
        let at = match random.below(5) {
            0 => 0,
            1 => random.from_to(1, 10),
            2 => random.from_to(16, 17),
            3 => random.from_to(24, 25),
            _ => random.below(REQUEST as u64),
        };
        bytes[start + at as usize] = match random.below(3) {
            0 => random.below(16) as u8,
            1 => bytes[start + at as usize] ^ (1 << random.below(8)),
            _ => random.next() as u8,
        };
    }
}

/// A request in words, for a report.
pub fn show(request: &[u8]) -> String {
    let names = NAMES.get(usize::from(request[0]));
    let job = u64::from_le_bytes(request[16..24].try_into().expect("eight bytes"));
    let other = u64::from_le_bytes(request[24..32].try_into().expect("eight bytes"));
    let name = names.copied().unwrap_or("unknown");
    format!("{name} {job} {other} {:02X?}", &request[1..11])
}

pub const NAMES: [&str; 15] = [
    "open amendment",
    "open inspection",
    "read",
    "write",
    "hand in",
    "deliver",
    "collect",
    "close",
    "withdraw",
    "archive",
    "job state",
    "newest version",
    "answered count",
    "answered at",
    "inspect by slip",
];
