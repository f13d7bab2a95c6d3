//! Random day sheets: valid ones, damaged ones, and bytes that are no day sheet at all.

use crate::days::{any_number, day, Profile, Step};
use crate::random::Random;
use crate::requests::{any_currency, any_units};
use std::io::Write;

/// What a day sheet is like.
#[derive(Clone, Copy, Debug, PartialEq, Eq)]
pub enum Sort {
    Valid,
    Damaged,
    RandomBytes,
    RandomText,
    LongLines,
    HugeNumbers,
    CarriageReturns,
    LongInput,
}

pub const SORTS: [Sort; 8] = [
    Sort::Valid,
    Sort::Damaged,
    Sort::RandomBytes,
    Sort::RandomText,
    Sort::LongLines,
    Sort::HugeNumbers,
    Sort::CarriageReturns,
    Sort::LongInput,
];

const OFFICES: u64 = 2;
const LETTERS: &[u8] = b"airwhdceu";

/// Writes to a vector, which never fails.
macro_rules! put {
    ($out:expr, $($format:tt)*) => {
        write!($out, $($format)*).expect("writing to a vector never fails")
    };
}

fn put_step(sheet: &mut Vec<u8>, random: &mut Random, step: Step) {
    match step {
        Step::OpenAmendment { job } => put!(sheet, "a {job}"),
        Step::OpenInspection { job } => put!(sheet, "i {job}"),
        Step::Read { job, record } => put!(sheet, "r {job} {record}"),
        Step::Write { job, record } => {
            let units = any_units(random) % 2_000_000_000_000;
            put!(sheet, "w {job} {record} {} {units}", any_currency(random));
        }
        Step::HandIn { job } => put!(sheet, "h {job}"),
        Step::Deliver { job, office } => put!(sheet, "d {job} {office}"),
        Step::Collect { job } => put!(sheet, "c {job}"),
        Step::Close { job } => put!(sheet, "e {job}"),
        Step::Withdraw { job } => put!(sheet, "u {job}"),
        // The sheet has no line for the other requests.
        _ => return,
    }
    sheet.push(b'\n');
}

fn valid(random: &mut Random) -> Vec<u8> {
    let profile = Profile::random(random, OFFICES);
    let mut sheet = Vec::new();
    for step in day(random, &profile) {
        put_step(&mut sheet, random, step);
    }
    // The last line may lack its newline.
    if random.chance(200) {
        sheet.pop();
    }
    sheet
}

/// Changes, inserts or takes out a byte here and there.
fn damage(sheet: &mut Vec<u8>, random: &mut Random, times: u64) {
    for _ in 0..times {
        if sheet.is_empty() {
            return;
        }
        let at = random.below(sheet.len() as u64) as usize;
        let byte = match random.below(4) {
            0 => random.next() as u8,
            1 => random.pick(b" -0\n\r\t"),
            2 => random.pick(LETTERS),
            _ => random.pick(b"0123456789"),
        };
        match random.below(3) {
            0 => sheet[at] = byte,
            1 => sheet.insert(at, byte),
            _ => drop(sheet.remove(at)),
        }
    }
}

fn damaged(random: &mut Random) -> Vec<u8> {
    let mut sheet = valid(random);
    let times = random.from_to(1, 2 + sheet.len() as u64 / 20);
    damage(&mut sheet, random, times);
    sheet
}

fn random_bytes(random: &mut Random) -> Vec<u8> {
    let count = random.below(600);
    (0..count).map(|_| random.next() as u8).collect()
}

/// Bytes of the grammar in random order.
fn random_text(random: &mut Random) -> Vec<u8> {
    let count = random.below(400);
    let byte = |random: &mut Random| match random.below(6) {
        0 => random.pick(LETTERS),
        1 => b'\n',
        2 | 3 => b' ',
        _ => random.pick(b"0123456789-"),
    };
    (0..count).map(|_| byte(random)).collect()
}

/// Lines about as long as they may be, among valid ones.
fn long_lines(random: &mut Random) -> Vec<u8> {
    let mut sheet = Vec::new();
    for line in valid(random).split(|byte| *byte == b'\n') {
        sheet.extend_from_slice(line);
        if random.chance(200) {
            let wanted = random.pick(&[13, 57, 58, 79, 80, 81, 82, 200, 5000]);
            let filler = random.pick(b" 0 x9");
            sheet.extend(std::iter::repeat_n(filler, wanted - line.len().min(wanted)));
        }
        sheet.push(b'\n');
    }
    sheet
}

/// A field of digits: leading zeros, as many digits as allowed, one more, or none.
fn put_field(sheet: &mut Vec<u8>, random: &mut Random, used: u64) {
    sheet.push(b' ');
    if random.chance(100) {
        sheet.push(b'-');
    }
    match random.below(8) {
        0 => put!(sheet, "{}", random.below(20_000_000_000_000)),
        1 => put!(
            sheet,
            "{}",
            random.pick(&[9_999_999_999_999, 10_000_000_000_000, u64::MAX])
        ),
        2 => put!(sheet, "{:013}", random.below(used)),
        3 => put!(sheet, "{:014}", random.below(used)),
        4 => put!(sheet, "{}", any_number(random, used)),
        5 => put!(sheet, "{}", random.pick(&[840, 978, 826, 191, 392, 414])),
        _ => put!(sheet, "{}", random.below(used)),
    }
}

fn huge_numbers(random: &mut Random) -> Vec<u8> {
    let mut sheet = Vec::new();
    for _ in 0..random.from_to(1, 60) {
        let letter = random.pick(LETTERS);
        sheet.push(letter);
        let fields = match letter {
            b'w' => 4,
            b'r' | b'd' => 2,
            _ => 1,
        };
        let more = if random.chance(50) { 1 } else { 0 };
        for _ in 0..fields + more {
            put_field(&mut sheet, random, 6);
        }
        sheet.push(b'\n');
    }
    sheet
}

fn carriage_returns(random: &mut Random) -> Vec<u8> {
    let mut sheet = Vec::new();
    for line in valid(random).split(|byte| *byte == b'\n') {
        sheet.extend_from_slice(line);
        if random.chance(500) {
            sheet.push(b'\r');
        }
        sheet.push(b'\n');
    }
    sheet
}

/// More than is read, so that the last line is cut; sometimes exactly as much.
fn long_input(random: &mut Random) -> Vec<u8> {
    let wanted = random.pick(&[65_535, 65_536, 65_537, 70_000]);
    let mut sheet = Vec::new();
    while sheet.len() < wanted {
        match random.below(4) {
            0 => sheet.extend(valid(random)),
            1 => sheet.extend(damaged(random)),
            2 => sheet.extend(random_bytes(random)),
            _ => sheet.extend(std::iter::repeat_n(b'\n', random.below(300) as usize)),
        }
    }
    sheet.truncate(wanted);
    sheet
}

pub fn sheet(random: &mut Random, sort: Sort) -> Vec<u8> {
    match sort {
        Sort::Valid => valid(random),
        Sort::Damaged => damaged(random),
        Sort::RandomBytes => random_bytes(random),
        Sort::RandomText => random_text(random),
        Sort::LongLines => long_lines(random),
        Sort::HugeNumbers => huge_numbers(random),
        Sort::CarriageReturns => carriage_returns(random),
        Sort::LongInput => long_input(random),
    }
}
