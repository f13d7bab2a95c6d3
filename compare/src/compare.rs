//! The comparison: random inputs to the verified and the plain code, and a count of all answers.

use crate::days::{self, Profile, Step};
use crate::encoded::{self, House, Run, Shelf, ValueKind, ANSWER, REQUEST};
use crate::plain;
use crate::plain::values::{Amount, Standing, Value, ValueFault};
use crate::random::Random;
use crate::requests::{self, NAMES};
use crate::sheets::{self, SORTS};
use crate::verified;
use std::collections::BTreeMap;

/// How often each answer was given, by who gave it and what it was.
#[derive(Default)]
pub struct Tally {
    counts: BTreeMap<(usize, String), u64>,
}

impl Tally {
    fn note(&mut self, group: usize, answer: String) {
        *self.counts.entry((group, answer)).or_insert(0) += 1;
    }

    fn count(&self, group: usize, answer: &str) -> u64 {
        let key = (group, answer.to_string());
        self.counts.get(&key).copied().unwrap_or(0)
    }

    fn print(&self, names: &[&str]) {
        for (group, name) in names.iter().enumerate() {
            let of_group = self.counts.iter().filter(|((of, _), _)| *of == group);
            let cells: Vec<String> = of_group
                .map(|((_, answer), count)| format!("{answer}: {count}"))
                .collect();
            println!("  {name:<16} {}", cells.join(", "));
        }
    }

    /// Prints what was expected and never came, and tells whether there was any.
    fn print_missed(&self, names: &[&str], expected: &[(usize, &[&str])]) -> bool {
        let mut missed = false;
        for (group, answers) in expected {
            for answer in *answers {
                if self.count(*group, answer) == 0 {
                    println!("  never seen: {} {answer}", names[*group]);
                    missed = true;
                }
            }
        }
        missed
    }
}

/// The answers that the documents name for each request. 21 is left out: no run of calls meets it.
const EXPECTED: [(usize, &[&str]); 15] = [
    (0, &["ok", "refused 1", "refused 2"]),
    (1, &["ok", "refused 1", "refused 2"]),
    (
        2,
        &[
            "blank",
            "own",
            "version",
            "refused 1",
            "refused 3",
            "refused 5",
            "refused 7",
            "refused 8",
        ],
    ),
    (
        3,
        &[
            "ok",
            "refused 1",
            "refused 3",
            "refused 5",
            "refused 6",
            "refused 7",
            "refused 9",
            "refused 13",
            "refused 16",
        ],
    ),
    (
        4,
        &["ok", "refused 1", "refused 5", "refused 6", "refused 7"],
    ),
    (
        5,
        &[
            "ok",
            "refused 1",
            "refused 4",
            "refused 5",
            "refused 6",
            "refused 10",
        ],
    ),
    (
        6,
        &[
            "answered",
            "dropped 1",
            "dropped 2",
            "dropped 3",
            "refused 1",
            "refused 5",
            "refused 6",
            "refused 7",
            "refused 11",
            "refused 12",
        ],
    ),
    (
        7,
        &["ok", "refused 1", "refused 5", "refused 6", "refused 7"],
    ),
    (
        8,
        &["ok", "refused 1", "refused 5", "refused 6", "refused 7"],
    ),
    (9, &["size", "refused 14"]),
    (
        10,
        &[
            "state 1",
            "state 2",
            "state 3",
            "state 4 mark 1",
            "state 4 mark 2",
            "state 4 mark 3",
            "state 5",
            "state 6",
            "refused 1",
            "refused 5",
        ],
    ),
    (11, &["number", "refused 3"]),
    (12, &["number"]),
    (13, &["number", "refused 22"]),
    (
        14,
        &["blank", "version", "refused 1", "refused 2", "refused 3"],
    ),
];

/// An answer in words, without the numbers that only tell sizes and values.
fn answer_name(request: u8, answer: &[u8]) -> String {
    match (answer[0], answer[1]) {
        (0, 0) => "ok".to_string(),
        (0, 1) => "blank".to_string(),
        (0, 2) => "own".to_string(),
        (0, 3) => "version".to_string(),
        (0, 4) => "answered".to_string(),
        (0, 5) => format!("dropped {}", answer[2]),
        (0, 6) => "size".to_string(),
        (0, 7) if request == 10 && answer[2] > 0 => {
            format!("state {} mark {}", answer[8], answer[2])
        }
        (0, 7) if request == 10 => format!("state {}", answer[8]),
        (0, 7) => "number".to_string(),
        (0, _) => "unknown".to_string(),
        (refusal, _) => format!("refused {refusal}"),
    }
}

/// One sequence of requests, with the house to build and the memory to lend.
struct Sequence {
    house: House,
    memory: Vec<u8>,
    requests: Vec<u8>,
    buffer_len: usize,
}

/// All that a run gives.
#[derive(PartialEq, Eq)]
struct Outputs {
    answers: Vec<u8>,
    buffer: Vec<u8>,
    memory: Vec<u8>,
}

impl Sequence {
    fn outputs(&self, run: fn(House, Run<'_>)) -> Outputs {
        let mut outputs = Outputs {
            answers: vec![0xAA; self.requests.len() / REQUEST * ANSWER],
            buffer: vec![0xEE; self.buffer_len],
            memory: self.memory.clone(),
        };
        let lent = Run {
            memory: &mut outputs.memory,
            requests: &self.requests,
            answers: &mut outputs.answers,
            buffer: &mut outputs.buffer,
        };
        run(self.house, lent);
        outputs
    }
}

/// A shelf that is often too small for the day.
fn any_shelf(random: &mut Random, in_bytes: bool) -> (Shelf, Vec<u8>) {
    let capacity = match random.below(10) {
        0 => random.below(4),
        1..=3 => random.below(40),
        4 => 4200,
        _ => random.from_to(40, 1000),
    };
    if !in_bytes {
        return (Shelf::Cells { capacity }, Vec::new());
    }
    let len = capacity * random.pick(&[11, 16]) + random.below(16);
    let filler = random.next() as u8;
    (Shelf::Bytes, vec![filler; len as usize])
}

fn random_sequence(random: &mut Random, kind: ValueKind, in_bytes: bool) -> Sequence {
    // The documents say what 0 offices and more than 8 mean.
    let offices = match random.below(20) {
        0 => random.pick(&[0, 9, u64::MAX]),
        _ => random.from_to(1, 8),
    };
    let profile = Profile::random(random, offices);
    let (shelf, memory) = any_shelf(random, in_bytes);
    let mut bytes = Vec::new();
    for step in days::day(random, &profile) {
        requests::push(&mut bytes, random, kind, step);
    }
    if random.chance(200) {
        requests::damage(&mut bytes, random);
    }
    let house = House {
        offices,
        kind,
        shelf,
    };
    let mut sequence = Sequence {
        house,
        memory,
        requests: bytes,
        buffer_len: 0,
    };
    push_questions(&mut sequence, random);
    push_archive(&mut sequence, random);
    sequence
}

/// More writes than any shelf has places.
fn overfull_sequence(random: &mut Random, kind: ValueKind, in_bytes: bool) -> Sequence {
    let (shelf, len) = if in_bytes {
        (Shelf::Bytes, 70_000)
    } else {
        (Shelf::Cells { capacity: 4200 }, 0)
    };
    let mut bytes = Vec::new();
    requests::push(&mut bytes, random, kind, Step::OpenAmendment { job: 7 });
    for record in 0..4300 {
        requests::push(
            &mut bytes,
            random,
            kind,
            Step::Write {
                job: 7,
                record: record % 8,
            },
        );
    }
    requests::push(&mut bytes, random, kind, Step::Read { job: 7, record: 3 });
    let house = House {
        offices: 3,
        kind,
        shelf,
    };
    Sequence {
        house,
        memory: vec![0; len],
        requests: bytes,
        buffer_len: 12,
    }
}

/// All questions at the end of the day.
fn push_questions(sequence: &mut Sequence, random: &mut Random) {
    let kind = sequence.house.kind;
    let mut push = |step| requests::push(&mut sequence.requests, random, kind, step);
    push(Step::AnsweredCount);
    for n in 0..8 {
        push(Step::AnsweredAt { n });
        push(Step::JobState { job: n * 37 % 256 });
        push(Step::NewestVersion { record: n });
    }
}

/// The archive at the end of the day: into a buffer that is long enough, or one byte too short.
fn push_archive(sequence: &mut Sequence, random: &mut Random) {
    let kind = sequence.house.kind;
    requests::push(
        &mut sequence.requests,
        random,
        kind,
        Step::Archive { size: 0 },
    );
    let answers = sequence.outputs(encoded::run).answers;
    let last = &answers[answers.len() - ANSWER..];
    let needed = u64::from_le_bytes(last[8..16].try_into().expect("eight bytes"));
    sequence.buffer_len = needed as usize + random.below(4) as usize;
    // A short buffer last would show a byte that is written in spite of the refusal.
    let size = if random.chance(500) {
        needed
    } else {
        needed - 1
    };
    requests::push(&mut sequence.requests, random, kind, Step::Archive { size });
}

fn report_sequence(sequence: &Sequence, verified: &Outputs, plain: &Outputs) {
    println!(
        "DIFFERENCE in {:?}, {} bytes of memory",
        sequence.house,
        sequence.memory.len()
    );
    let answers = verified
        .answers
        .chunks(ANSWER)
        .zip(plain.answers.chunks(ANSWER));
    for (request, (a, b)) in sequence.requests.chunks(REQUEST).zip(answers) {
        let mark = if a == b { "" } else { "   <== here" };
        println!(
            "  {}: verified {a:02X?}, plain {b:02X?}{mark}",
            requests::show(request)
        );
        if a != b {
            break;
        }
    }
    if verified.buffer != plain.buffer {
        println!("  archive, verified: {:02X?}", verified.buffer);
        println!("  archive, plain:    {:02X?}", plain.buffer);
    }
    if verified.memory != plain.memory {
        println!("  shelf, verified: {:02X?}", verified.memory);
        println!("  shelf, plain:    {:02X?}", plain.memory);
    }
}

/// Compares one sequence; tells whether the two agree.
fn compare_sequence(sequence: &Sequence, tally: &mut Tally) -> bool {
    let verified = sequence.outputs(verified::run);
    let plain = sequence.outputs(encoded::run);
    if verified != plain {
        report_sequence(sequence, &verified, &plain);
        return false;
    }
    let answers = plain.answers.chunks(ANSWER);
    for (request, answer) in sequence.requests.chunks(REQUEST).zip(answers) {
        let group = usize::from(request[0]).min(NAMES.len());
        tally.note(group, answer_name(request[0], answer));
    }
    true
}

fn compare_sequences(seed: u64, inputs: u64) -> bool {
    let houses = [
        (ValueKind::Amounts, false),
        (ValueKind::Amounts, true),
        (ValueKind::Standings, false),
        (ValueKind::Standings, true),
    ];
    let mut tally = Tally::default();
    let mut requests = 0;
    for (sort, (kind, in_bytes)) in houses.into_iter().enumerate() {
        for n in 0..inputs {
            let mut random = Random::for_input(seed, sort as u64, n);
            let sequence = match n {
                0 => overfull_sequence(&mut random, kind, in_bytes),
                _ => random_sequence(&mut random, kind, in_bytes),
            };
            requests += sequence.requests.len() / REQUEST;
            if !compare_sequence(&sequence, &mut tally) {
                println!("input {n} of {kind:?}, in bytes: {in_bytes}, seed {seed}");
                return false;
            }
        }
        println!(
            "{inputs} sequences of {kind:?}, {}: no difference",
            if in_bytes { "in bytes" } else { "in cells" }
        );
    }
    println!("{requests} requests, with their answers:");
    let mut names = NAMES.to_vec();
    names.push("unknown");
    tally.print(&names);
    !tally.print_missed(&names, &EXPECTED)
}

/// The answers that the documents name for each command of a day sheet.
const EXPECTED_LINES: [(usize, &[&str]); 10] = [
    (0, &["ok", "no H 1", "no H 2", "no L 20"]),
    (1, &["ok", "no H 1", "no H 2", "no L 20"]),
    (
        2,
        &[
            "ok 0",
            "ok own",
            "ok VERSION",
            "no H 1",
            "no H 3",
            "no H 5",
            "no H 7",
            "no H 8",
            "no L 20",
        ],
    ),
    (
        3,
        &[
            "ok", "no H 1", "no H 3", "no H 5", "no H 6", "no H 7", "no H 9", "no S 13", "no V 15",
            "no V 17", "no L 18", "no L 20",
        ],
    ),
    (
        4,
        &["ok", "no H 1", "no H 5", "no H 6", "no H 7", "no L 20"],
    ),
    (
        5,
        &[
            "ok", "no H 1", "no H 4", "no H 5", "no H 6", "no H 10", "no L 20",
        ],
    ),
    (
        6,
        &[
            "ok answered",
            "ok dropped 1",
            "ok dropped 2",
            "ok dropped 3",
            "no H 1",
            "no H 5",
            "no H 6",
            "no H 7",
            "no H 11",
            "no H 12",
            "no L 20",
        ],
    ),
    (
        7,
        &["ok", "no H 1", "no H 5", "no H 6", "no H 7", "no L 20"],
    ),
    (
        8,
        &["ok", "no H 1", "no H 5", "no H 6", "no H 7", "no L 20"],
    ),
    (9, &["no L 18", "no L 19"]),
];

/// Notes the answers of a sheet, by the letter of each line.
fn note_lines(tally: &mut Tally, sheet: &[u8], text: &[u8]) {
    let read = &sheet[..sheet.len().min(65_536)];
    let answers = text.split(|byte| *byte == b'\n');
    for (line, answer) in read.split(|byte| *byte == b'\n').zip(answers) {
        let answer = String::from_utf8_lossy(answer);
        let Some((_, told)) = answer.split_once(' ') else {
            continue;
        };
        if answer.starts_with("end") {
            continue;
        }
        let letter = line
            .first()
            .and_then(|letter| LETTERS.find(char::from(*letter)));
        let name = match told.split(' ').collect::<Vec<_>>()[..] {
            ["ok", "own", ..] => "ok own",
            ["ok", _, _, _] => "ok VERSION",
            _ => told,
        };
        tally.note(letter.unwrap_or(9), name.to_string());
    }
}

const LETTERS: &str = "airwhdceu";
const LINE_NAMES: [&str; 10] = ["a", "i", "r", "w", "h", "d", "c", "e", "u", "other"];

/// Longer than any text of a day: a line for each byte of input, and the answered jobs.
const LONGEST_TEXT: usize = 65_536 * 40;

fn compare_sheets(seed: u64, inputs: u64) -> bool {
    let mut tally = Tally::default();
    let mut buffer = vec![0; LONGEST_TEXT];
    let mut lines = 0;
    for (number, sort) in SORTS.into_iter().enumerate() {
        // A long input has a thousand times the lines of another.
        let count = if sort == sheets::Sort::LongInput {
            inputs / 100
        } else {
            inputs
        };
        for n in 0..count {
            let mut random = Random::for_input(seed, 100 + number as u64, n);
            let sheet = sheets::sheet(&mut random, sort);
            let text = verified::day(&sheet, &mut buffer);
            let plain = plain::sheet::day(&sheet);
            if text != plain {
                println!("DIFFERENCE in sheet {n} of {sort:?}, seed {seed}");
                report_sheet(&sheet, text, &plain);
                return false;
            }
            lines += text.iter().filter(|byte| **byte == b'\n').count() - 1;
            note_lines(&mut tally, &sheet, text);
        }
        println!("{count} day sheets, {sort:?}: no difference");
    }
    println!("{lines} lines, with their answers:");
    tally.print(&LINE_NAMES);
    !tally.print_missed(&LINE_NAMES, &EXPECTED_LINES)
}

fn report_sheet(sheet: &[u8], verified: &[u8], plain: &[u8]) {
    let inputs = sheet.split(|byte| *byte == b'\n');
    let outputs = verified
        .split(|b| *b == b'\n')
        .zip(plain.split(|b| *b == b'\n'));
    for (line, (a, b)) in inputs.chain(std::iter::repeat(&[][..])).zip(outputs) {
        let [line, a, b] = [line, a, b].map(|text| text.escape_ascii().to_string());
        let mark = if a == b { "" } else { "   <== here" };
        println!("  {line:<30} verified {a:?}, plain {b:?}{mark}");
        if a != b {
            return;
        }
    }
}

/// Encodes a value as the bridge does: 0 and the bytes, or the refusal.
fn encoded_value<V: Value>(made: Result<V, ValueFault>, out: &mut [u8]) -> u8 {
    match made {
        Ok(value) => {
            // A place of another length stays as it was.
            if out.len() == V::WIDTH {
                value.encode(out);
            }
            0
        }
        Err(fault) => fault.number(),
    }
}

const VALUE_NAMES: [&str; 6] = [
    "decode amount",
    "decode standing",
    "amount numbers",
    "reason",
    "amount cell",
    "standing cell",
];

const EXPECTED_VALUES: [(usize, &[&str]); 6] = [
    (0, &["ok", "refused 16"]),
    (1, &["ok", "refused 16"]),
    (2, &["ok", "refused 15", "refused 17"]),
    (3, &["ok", "refused 17"]),
    (4, &["ok", "refused 16"]),
    (5, &["ok", "refused 16"]),
];

/// One input of a way to make values, to both sides: the two refusals, with the two places.
type Made = (u8, u8);

fn make_value(random: &mut Random, way: usize, a: &mut [u8], b: &mut [u8]) -> Made {
    match way {
        0 => {
            let bytes = any_bytes(random, |random| requests::any_amount(random).to_vec());
            (
                verified::decode_amount(&bytes, a),
                encoded_value(Amount::decode(&bytes), b),
            )
        }
        1 => {
            let bytes = any_bytes(random, |random| requests::any_standing(random).to_vec());
            (
                verified::decode_standing(&bytes, a),
                encoded_value(Standing::decode(&bytes), b),
            )
        }
        2 => {
            let currency = match random.below(4) {
                0 => any_currency_number(random),
                _ => requests::any_currency(random).into(),
            };
            let units = requests::any_units(random);
            let plain = Amount::from_numbers(currency, units);
            (
                verified::amount_from_numbers(currency, units, a),
                encoded_value(plain, b),
            )
        }
        3 => {
            let reason = days::any_number(random, 100);
            (
                verified::stopped(reason, a),
                encoded_value(Standing::stopped(reason), b),
            )
        }
        4 => {
            let (currency, units) = (requests::any_currency(random), requests::any_units(random));
            let plain =
                Amount::from_numbers(currency.into(), units).map_err(|_| ValueFault::NotAValue);
            (
                verified::amount_from_cell(currency, units, a),
                encoded_value(plain, b),
            )
        }
        _ => {
            let bytes = requests::any_standing(random);
            let number = u32::from_le_bytes([bytes[1], bytes[2], bytes[3], bytes[4]]);
            // A standing's cell has the numbers of its bytes.
            let plain = Standing::decode(&bytes);
            (
                verified::standing_from_cell(bytes[0], number, a),
                encoded_value(plain, b),
            )
        }
    }
}

/// A number that agrees with a listed one in its lowest bytes alone.
fn any_currency_number(random: &mut Random) -> u64 {
    u64::from(requests::any_currency(random)) + random.pick(&[1 << 16, 1 << 32, 1 << 63])
}

/// The bytes of a value, some cut, longer, or quite random.
fn any_bytes(random: &mut Random, good: fn(&mut Random) -> Vec<u8>) -> Vec<u8> {
    let mut bytes = good(random);
    match random.below(10) {
        0 => bytes.truncate(random.below(11) as usize),
        1 => bytes.push(0),
        2 => bytes.fill_with(|| random.next() as u8),
        _ => {}
    }
    bytes
}

fn compare_values(seed: u64, inputs: u64) -> bool {
    let mut tally = Tally::default();
    for (way, name) in VALUE_NAMES.iter().enumerate() {
        for n in 0..inputs {
            let mut random = Random::for_input(seed, 200 + way as u64, n);
            let width = if matches!(way, 0 | 2 | 4) { 10 } else { 5 };
            let len = if random.chance(50) {
                random.below(12) as usize
            } else {
                width
            };
            let (mut a, mut b) = (vec![0xEE; len], vec![0xEE; len]);
            let (verified, plain) = make_value(&mut random, way, &mut a, &mut b);
            if verified != plain || a != b {
                println!("DIFFERENCE in {name} {n}, seed {seed}");
                println!("  verified {verified} {a:02X?}, plain {plain} {b:02X?}");
                return false;
            }
            let answer = if plain == 0 {
                "ok".to_string()
            } else {
                format!("refused {plain}")
            };
            tally.note(way, answer);
        }
    }
    println!("{inputs} values made in each way: no difference");
    tally.print(&VALUE_NAMES);
    !tally.print_missed(&VALUE_NAMES, &EXPECTED_VALUES)
}

/// Compares all; tells whether there was no difference and no answer was missed.
pub fn compare(seed: u64, inputs: u64) -> bool {
    println!("seed {seed}");
    compare_values(seed, inputs) && compare_sequences(seed, inputs) && compare_sheets(seed, inputs)
}
