//! Measurements: the same requests to the verified and the plain house, in turn.

use crate::days::{self, Profile, Step};
use crate::encoded::{self, Repeated, ValueKind, REQUEST};
use crate::plain;
use crate::random::Random;
use crate::requests;
use crate::verified;
use std::hint::black_box;
use std::time::Instant;

const OFFICES: u64 = 2;
const SHELF_BYTES: usize = 4096 * 16;
/// The longest archive has 31,244 bytes.
const BUFFER: usize = 32_000;
/// How many rounds a short run, of some microseconds, is timed.
const SHORT: usize = 600;
/// How many rounds a long run, of some milliseconds, is timed.
const LONG: usize = 20;
/// How many runs of one side follow each other in a round, so that caches and branch predictors are its own.
const IN_A_ROW: usize = 5;

/// A time in nanoseconds, taken twice over: the least of the even rounds, and the least of the odd ones.
///
/// Others use the machine too, so the least time counts. How far the two halves differ tells how far
/// the figure can be trusted, which matters most where it is the difference of two times.
#[derive(Clone, Copy)]
struct Time {
    halves: [f64; 2],
}

impl Time {
    const UNKNOWN: Time = Time {
        halves: [f64::INFINITY; 2],
    };

    fn note(&mut self, round: usize, nanoseconds: f64) {
        let half = &mut self.halves[round % 2];
        *half = half.min(nanoseconds);
    }

    fn per(self, count: usize) -> Time {
        Time {
            halves: self.halves.map(|half| half / count as f64),
        }
    }

    fn minus(self, other: Time) -> Time {
        let [a, b] = self.halves;
        Time {
            halves: [a - other.halves[0], b - other.halves[1]],
        }
    }

    fn value(self) -> f64 {
        (self.halves[0] + self.halves[1]) / 2.0
    }

    fn spread(self) -> f64 {
        (self.halves[0] - self.halves[1]).abs()
    }

    /// Is the figure well above its own uncertainty?
    fn is_clear(self) -> bool {
        self.value() > 4.0 * self.spread() && self.value() > 0.0
    }

    fn show(self) -> String {
        if self.is_clear() {
            format!("{:.1} ± {:.1}", self.value(), self.spread())
        } else {
            "not clear".to_string()
        }
    }
}

/// The times of both sides.
#[derive(Clone, Copy)]
struct Times {
    verified: Time,
    plain: Time,
}

impl Times {
    fn per(self, count: usize) -> Times {
        Times {
            verified: self.verified.per(count),
            plain: self.plain.per(count),
        }
    }

    fn minus(self, other: Times) -> Times {
        Times {
            verified: self.verified.minus(other.verified),
            plain: self.plain.minus(other.plain),
        }
    }

    fn print(self, name: &str) {
        let (verified, plain) = (self.verified, self.plain);
        let ratio = if verified.is_clear() && plain.is_clear() {
            format!("{:.2}", verified.value() / plain.value())
        } else {
            "".to_string()
        };
        println!(
            "| {name} | {} | {} | {ratio} |",
            verified.show(),
            plain.show()
        );
    }
}

fn print_head(title: &str, unit: &str) {
    println!("\n{title}\n");
    println!("| | verified, {unit} | plain, {unit} | ratio |");
    println!("|---|---|---|---|");
}

/// The nanoseconds of one run, and what it gave.
fn time_of(work: &mut dyn FnMut() -> u64) -> (f64, u64) {
    let start = Instant::now();
    let sum = black_box(work());
    (start.elapsed().as_nanos() as f64, sum)
}

/// Runs one side some times in a row, each timed alone, and gives what it gave.
fn time_row(time: &mut Time, round: usize, row: usize, work: &mut dyn FnMut() -> u64) -> u64 {
    let mut last = 0;
    for _ in 0..row {
        let (nanoseconds, sum) = time_of(work);
        time.note(round, nanoseconds);
        last = sum;
    }
    last
}

/// Measures both in turn, so many runs in a row. They give the same sum, so that both have done the same work.
fn least_in_rows(
    rounds: usize,
    row: usize,
    verified: &mut dyn FnMut() -> u64,
    plain: &mut dyn FnMut() -> u64,
) -> Times {
    let mut times = Times {
        verified: Time::UNKNOWN,
        plain: Time::UNKNOWN,
    };
    for round in 0..rounds {
        let verified_sum = time_row(&mut times.verified, round, row, verified);
        let plain_sum = time_row(&mut times.plain, round, row, plain);
        assert_eq!(verified_sum, plain_sum, "the two have to agree");
    }
    times
}

fn least(
    rounds: usize,
    verified: &mut dyn FnMut() -> u64,
    plain: &mut dyn FnMut() -> u64,
) -> Times {
    least_in_rows(rounds, IN_A_ROW, verified, plain)
}

fn encode(steps: &[Step]) -> Vec<u8> {
    let mut random = Random::new(5);
    let mut bytes = Vec::new();
    for step in steps {
        requests::push(&mut bytes, &mut random, ValueKind::Amounts, *step);
    }
    bytes
}

/// Memory for a shelf and an archive, for one side.
struct Memory {
    shelf: Vec<u8>,
    buffer: Vec<u8>,
}

impl Memory {
    fn new() -> Memory {
        Memory {
            shelf: vec![0; SHELF_BYTES],
            buffer: vec![0; BUFFER],
        }
    }
}

/// The time of a new house over a byte shelf with some requests once, and others again and again.
fn in_bytes(rounds: usize, first: &[u8], again: &[u8], times: u64) -> Times {
    in_bytes_in_rows(rounds, IN_A_ROW, first, again, times)
}

fn in_bytes_in_rows(rounds: usize, row: usize, first: &[u8], again: &[u8], times: u64) -> Times {
    let (mut a, mut b) = (Memory::new(), Memory::new());
    let verified = &mut || {
        let buffer = &mut a.buffer[..];
        let work = Repeated {
            first,
            again,
            times,
            buffer,
        };
        verified::repeat_in_bytes(OFFICES, &mut a.shelf, work)
    };
    let plain = &mut || {
        let buffer = &mut b.buffer[..];
        let work = Repeated {
            first,
            again,
            times,
            buffer,
        };
        encoded::repeat_in_bytes(OFFICES, &mut b.shelf, work)
    };
    least_in_rows(rounds, row, verified, plain)
}

/// The same over a cell shelf.
fn in_cells(rounds: usize, first: &[u8], again: &[u8], times: u64) -> Times {
    let (mut a, mut b) = (Memory::new(), Memory::new());
    let verified = &mut || {
        let buffer = &mut a.buffer[..];
        verified::repeat_in_cells(
            OFFICES,
            4096,
            Repeated {
                first,
                again,
                times,
                buffer,
            },
        )
    };
    let plain = &mut || {
        let buffer = &mut b.buffer[..];
        encoded::repeat_in_cells(
            OFFICES,
            4096,
            Repeated {
                first,
                again,
                times,
                buffer,
            },
        )
    };
    least(rounds, verified, plain)
}

/// The time of one of the requests that are done again and again.
fn each_again(first: &[Step], again: &[Step]) -> Times {
    let times = 2000;
    let (first, again) = (encode(first), encode(again));
    let once = in_bytes(LONG, &first, &[], 0);
    let all = in_bytes(LONG, &first, &again, times);
    all.minus(once).per(times as usize * again.len() / REQUEST)
}

fn measure_memory() {
    let (verified, plain) = (verified::house_bytes(), encoded::house_bytes());
    println!(
        "\nMemory of a house, without what is lent: verified {verified} bytes, plain {plain} bytes"
    );
}

fn measure_building() {
    print_head("Building a house", "ns");
    in_bytes(SHORT, &[], &[], 0).print("2 offices over a byte shelf");
}

/// The phases of 64 amendments that go on at once, each with so many records of its own.
fn phases(jobs: u64, records: u64) -> Vec<(&'static str, Vec<Step>)> {
    let record = |job: u64, n: u64| job * records + n;
    let each = |steps: &dyn Fn(u64) -> Vec<Step>| (0..jobs).flat_map(steps).collect::<Vec<Step>>();
    let listed = |step: fn(u64, u64) -> Step| {
        each(&move |job| (0..records).map(|n| step(job, record(job, n))).collect())
    };
    // One record belongs to one office; more of them to both.
    let deliver = || {
        each(&|job| {
            let offices = (0..records.min(OFFICES)).map(|n| record(job, n) % OFFICES);
            offices
                .map(|office| Step::Deliver { job, office })
                .collect()
        })
    };
    vec![
        ("open", each(&|job| vec![Step::OpenAmendment { job }])),
        (
            "read, first",
            listed(|job, record| Step::Read { job, record }),
        ),
        (
            "read, listed",
            listed(|job, record| Step::Read { job, record }),
        ),
        (
            "write, first",
            listed(|job, record| Step::Write { job, record }),
        ),
        (
            "write, again",
            listed(|job, record| Step::Write { job, record }),
        ),
        (
            "read, own",
            listed(|job, record| Step::Read { job, record }),
        ),
        ("hand in", each(&|job| vec![Step::HandIn { job }])),
        ("deliver a prepare", deliver()),
        ("deliver a vote", deliver()),
        ("deliver a decision", deliver()),
        ("collect", each(&|job| vec![Step::Collect { job }])),
        ("job state", each(&|job| vec![Step::JobState { job }])),
    ]
}

/// Each phase as the difference of the day up to it and the day up to the one before.
fn measure_phases(jobs: u64, records: u64) {
    let title = format!("Each call, {jobs} amendments at once with {records} records each");
    print_head(&title, "ns a call");
    let mut first = Vec::new();
    let mut before = in_bytes(SHORT, &[], &[], 0);
    for (name, steps) in phases(jobs, records) {
        first.extend(encode(&steps));
        let now = in_bytes(SHORT, &first, &[], 0);
        now.minus(before).per(steps.len()).print(name);
        before = now;
    }
}

/// 256 jobs, one after another or many at once, a quarter of them inspections.
fn day_of_256(at_once: u64) -> Vec<Step> {
    let profile = Profile {
        offices: OFFICES,
        jobs: 256,
        at_once,
        records: 64,
        noise: 0,
        inspections: 250,
    };
    days::day(&mut Random::new(11), &profile)
}

fn measure_days() {
    print_head("A day of 256 jobs in a new house", "ns a call");
    for at_once in [1, 8, 64] {
        let steps = day_of_256(at_once);
        let (count, first) = (steps.len(), encode(&steps));
        let building = in_bytes(SHORT, &[], &[], 0);
        let day = in_bytes(SHORT, &first, &[], 0);
        let calls = day.minus(building).per(count);
        day.per(count).print(&format!(
            "{at_once} at once, {count} calls, byte shelf, with building"
        ));
        calls.print(&format!("{at_once} at once, byte shelf, the calls alone"));
        let building = in_cells(SHORT, &[], &[], 0);
        let calls = in_cells(SHORT, &first, &[], 0).minus(building).per(count);
        calls.print(&format!("{at_once} at once, cell shelf, the calls alone"));
        // After each run of the other side: what caches and branch predictors hold is not its own.
        let building = in_bytes_in_rows(SHORT, 1, &[], &[], 0);
        let day = in_bytes_in_rows(SHORT, 1, &first, &[], 0);
        let calls = day.minus(building).per(count);
        calls.print(&format!(
            "{at_once} at once, byte shelf, the calls alone, after other work"
        ));
    }
}

/// An accepted amendment, so many inspections that do not hold it, and one, the last, that does.
fn held_amendment(inspections: u64, reads: u64) -> Vec<Step> {
    let mut steps = Vec::new();
    for job in 1..=inspections {
        steps.push(Step::OpenInspection { job });
        steps.extend((0..reads).map(|n| Step::Read { job, record: 8 + n }));
    }
    steps.push(Step::OpenInspection { job: 255 });
    steps.push(Step::Read {
        job: 255,
        record: 0,
    });
    steps.push(Step::OpenAmendment { job: 0 });
    steps.extend((0..4).map(|record| Step::Write { job: 0, record }));
    steps.push(Step::HandIn { job: 0 });
    for _ in 0..3 {
        steps.push(Step::Deliver { job: 0, office: 0 });
        steps.push(Step::Deliver { job: 0, office: 1 });
    }
    steps
}

fn measure_collect() {
    print_head(
        "Collect of a held amendment of 4 writes, all jobs looked at",
        "ns a call",
    );
    for reads in [1, 8] {
        for inspections in [0, 50, 100, 200] {
            let first = held_amendment(inspections, reads);
            let times = each_again(&first, &[Step::Collect { job: 0 }]);
            times.print(&format!("{inspections} open inspections of {reads} reads"));
        }
    }
}

/// 256 answered amendments that each read and wrote 8 records; every record has its 32 versions.
fn full_house() -> Vec<Step> {
    let mut steps = Vec::new();
    for job in 0..256 {
        steps.push(Step::OpenAmendment { job });
        for n in 0..8 {
            let record = job % 8 * 8 + n;
            steps.push(Step::Read { job, record });
            steps.push(Step::Write { job, record });
        }
        steps.push(Step::HandIn { job });
        for _ in 0..3 {
            steps.push(Step::Deliver { job, office: 0 });
            steps.push(Step::Deliver { job, office: 1 });
        }
        steps.push(Step::Collect { job });
    }
    steps
}

fn measure_archive() {
    print_head("The archive of a full house, 31,244 bytes", "ns a call");
    let full = full_house();
    let archive = Step::Archive {
        size: BUFFER as u64,
    };
    each_again(&full, &[archive]).print("written, byte shelf");
    let (first, again) = (encode(&full), encode(&[archive]));
    let once = in_cells(LONG, &first, &[], 0);
    let all = in_cells(LONG, &first, &again, 200);
    all.minus(once).per(200).print("written, cell shelf");
    each_again(&full, &[Step::Archive { size: 0 }]).print("refused with 14");
    let (count, first) = (full.len(), encode(&full));
    let building = in_bytes(SHORT, &[], &[], 0);
    let calls = in_bytes(SHORT, &first, &[], 0).minus(building).per(count);
    calls.print(&format!("the {count} calls that fill the house, each"));
}

/// The day of 256 jobs as text.
fn sheet_of(steps: &[Step]) -> Vec<u8> {
    let mut lines = String::new();
    for step in steps {
        lines += &match *step {
            Step::OpenAmendment { job } => format!("a {job}\n"),
            Step::OpenInspection { job } => format!("i {job}\n"),
            Step::Read { job, record } => format!("r {job} {record}\n"),
            Step::Write { job, record } => {
                format!("w {job} {record} 840 {}\n", job * 1234 + record)
            }
            Step::HandIn { job } => format!("h {job}\n"),
            Step::Deliver { job, office } => format!("d {job} {office}\n"),
            Step::Collect { job } => format!("c {job}\n"),
            Step::Close { job } => format!("e {job}\n"),
            Step::Withdraw { job } => format!("u {job}\n"),
            _ => String::new(),
        };
    }
    lines.into_bytes()
}

fn measure_sheet() {
    let steps = day_of_256(8);
    let sheet = sheet_of(&steps);
    let mut buffer = vec![0; 1 << 20];
    let title = format!(
        "The day sheet of 256 jobs, {} lines, text in and text out",
        steps.len()
    );
    print_head(&title, "ns a line");
    let verified = &mut || verified::day(&sheet, &mut buffer).len() as u64;
    let plain = &mut || plain::sheet::day(&sheet).len() as u64;
    least(SHORT, verified, plain).per(steps.len()).print("all");
}

/// Takes all measurements, or those of one section.
pub fn measure(section: Option<&str>) {
    let sections: [(&str, fn()); 7] = [
        ("memory", measure_memory),
        ("building", measure_building),
        ("days", measure_days),
        ("calls", measure_calls),
        ("collect", measure_collect),
        ("archive", measure_archive),
        ("sheet", measure_sheet),
    ];
    for (name, measure) in sections {
        if section.is_none_or(|wanted| wanted == name) {
            measure();
        }
    }
}

/// What it costs to take a request apart and to make up an answer, with nothing done between.
fn measure_decoding() {
    print_head("The interface alone", "ns a request");
    let again = [0xFF; REQUEST];
    let once = in_bytes(SHORT, &[], &[], 0);
    let all = in_bytes(SHORT, &[], &again, 2000);
    all.minus(once)
        .per(2000)
        .print("a request of an unknown number");
}

fn measure_calls() {
    measure_decoding();
    measure_phases(64, 1);
    measure_phases(8, 8);
}
