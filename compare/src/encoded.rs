//! The plain house through the same bytes as the verified one: `crates/bridge/src/requests.rt` and `answers.rt` have the layout.

use crate::plain::house::{Fault, House as PlainHouse, Kind, Outcome, Seen, State};
use crate::plain::shelf::{ByteShelf, CellShelf, Shelf as PlainShelf};
use crate::plain::values::{Amount, Standing, Value, ValueFault};

pub const REQUEST: usize = 32;
pub const ANSWER: usize = 32;

/// More cells than a shelf uses, so that its limit can be met.
pub const CELLS: usize = 4200;

#[derive(Clone, Copy, Debug, PartialEq, Eq)]
pub enum ValueKind {
    Amounts,
    Standings,
}

#[derive(Clone, Copy, Debug, PartialEq, Eq)]
pub enum Shelf {
    Cells { capacity: u64 },
    Bytes,
}

/// Which house to build.
#[derive(Clone, Copy, Debug)]
pub struct House {
    pub offices: u64,
    pub kind: ValueKind,
    pub shelf: Shelf,
}

/// What a run is given, and where it writes. The memory is that of a byte shelf.
pub struct Run<'a> {
    pub memory: &'a mut [u8],
    pub requests: &'a [u8],
    pub answers: &'a mut [u8],
    pub buffer: &'a mut [u8],
}

/// Requests that are done once, and others that are done again and again.
pub struct Repeated<'a> {
    pub first: &'a [u8],
    pub again: &'a [u8],
    pub times: u64,
    pub buffer: &'a mut [u8],
}

type Answer = [u8; ANSWER];

fn plain_answer(refusal: u8, told: u8, small: u8, number: u64) -> Answer {
    let mut answer = [0; ANSWER];
    answer[0] = refusal;
    answer[1] = told;
    answer[2] = small;
    answer[8..16].copy_from_slice(&number.to_le_bytes());
    answer
}

fn value_answer<V: Value>(told: u8, version: u8, value: V) -> Answer {
    let mut answer = plain_answer(0, told, version, 0);
    value.encode(&mut answer[16..16 + V::WIDTH]);
    answer
}

fn refused(fault: Fault) -> Answer {
    let needed = match fault {
        Fault::ShortBuffer { needed } => needed as u64,
        _ => 0,
    };
    plain_answer(fault.number(), 0, 0, needed)
}

fn done(result: Result<(), Fault>) -> Answer {
    match result {
        Ok(()) => plain_answer(0, 0, 0, 0),
        Err(fault) => refused(fault),
    }
}

fn seen<V: Value>(result: Result<Seen<V>, Fault>) -> Answer {
    match result {
        Ok(Seen::Blank) => plain_answer(0, 1, 0, 0),
        Ok(Seen::Own(value)) => value_answer(2, 0, value),
        Ok(Seen::Version { number, value }) => value_answer(3, number, value),
        Err(fault) => refused(fault),
    }
}

fn collected(result: Result<Outcome, Fault>) -> Answer {
    match result {
        Ok(Outcome::Answered) => plain_answer(0, 4, 0, 0),
        Ok(Outcome::Dropped(mark)) => plain_answer(0, 5, mark as u8, 0),
        Err(fault) => refused(fault),
    }
}

fn archived(result: Result<usize, Fault>) -> Answer {
    match result {
        Ok(size) => plain_answer(0, 6, 0, size as u64),
        Err(fault) => refused(fault),
    }
}

fn asked(result: Result<u64, Fault>) -> Answer {
    match result {
        Ok(number) => plain_answer(0, 7, 0, number),
        Err(fault) => refused(fault),
    }
}

fn state_asked(result: Result<State, Fault>) -> Answer {
    match result {
        Ok(State::Dropped(mark)) => plain_answer(0, 7, mark as u8, 4),
        Ok(state) => plain_answer(0, 7, 0, state.number().into()),
        Err(fault) => refused(fault),
    }
}

fn written<V: Value>(request: &[u8; REQUEST]) -> Result<V, ValueFault> {
    V::decode(&request[1..1 + V::WIDTH])
}

/// Opens an inspection, reads one record, and closes it.
fn inspect<S: PlainShelf>(
    house: &mut PlainHouse<S>,
    job: u64,
    record: u64,
) -> Result<Seen<S::Item>, Fault> {
    house.open(job, Kind::Inspection)?;
    let seen = house.read(job, record);
    house.close(job)?;
    seen
}

/// Does one request and gives its answer. An archive goes into the buffer.
fn answer<S: PlainShelf>(
    house: &mut PlainHouse<S>,
    request: &[u8; REQUEST],
    buffer: &mut [u8],
) -> Answer {
    let job = u64::from_le_bytes(request[16..24].try_into().expect("eight bytes"));
    let number = u64::from_le_bytes(request[24..32].try_into().expect("eight bytes"));
    match request[0] {
        0 => done(house.open(job, Kind::Amendment)),
        1 => done(house.open(job, Kind::Inspection)),
        2 => seen(house.read(job, number)),
        3 => match written(request) {
            Ok(value) => done(house.write(job, number, value)),
            Err(fault) => plain_answer(fault.number(), 0, 0, 0),
        },
        4 => done(house.hand_in(job)),
        5 => done(house.deliver(job, number)),
        6 => collected(house.collect(job)),
        7 => done(house.close(job)),
        8 => done(house.withdraw(job)),
        9 => {
            let size = number.min(buffer.len() as u64) as usize;
            archived(house.archive(&mut buffer[..size]))
        }
        10 => state_asked(house.job_state(job)),
        11 => asked(house.newest_version(number).map(u64::from)),
        12 => asked(Ok(house.answered_count())),
        13 => asked(house.answered_at(number).map(u64::from)),
        14 => seen(inspect(house, job, number)),
        _ => plain_answer(0, 8, 0, 0),
    }
}

fn requests_of(bytes: &[u8]) -> impl Iterator<Item = &[u8; REQUEST]> {
    let chunks = bytes.chunks_exact(REQUEST);
    chunks.map(|chunk| chunk.try_into().expect("a whole request"))
}

fn run_in<S: PlainShelf>(
    mut house: PlainHouse<S>,
    requests: &[u8],
    answers: &mut [u8],
    buffer: &mut [u8],
) {
    let places = answers.chunks_exact_mut(ANSWER);
    for (request, place) in requests_of(requests).zip(places) {
        place.copy_from_slice(&answer(&mut house, request, buffer));
    }
}

/// Builds a house and does all requests in it.
pub fn run(house: House, run: Run<'_>) {
    let Run {
        memory,
        requests,
        answers,
        buffer,
    } = run;
    let offices = house.offices;
    match (house.kind, house.shelf) {
        (ValueKind::Amounts, Shelf::Cells { capacity }) => {
            let mut cells = [Amount::SPARE; CELLS];
            let shelf = CellShelf::new(lent(&mut cells, capacity));
            run_in(PlainHouse::new(offices, shelf), requests, answers, buffer);
        }
        (ValueKind::Standings, Shelf::Cells { capacity }) => {
            let mut cells = [Standing::SPARE; CELLS];
            let shelf = CellShelf::new(lent(&mut cells, capacity));
            run_in(PlainHouse::new(offices, shelf), requests, answers, buffer);
        }
        (ValueKind::Amounts, Shelf::Bytes) => {
            let shelf = ByteShelf::<Amount>::new(memory);
            run_in(PlainHouse::new(offices, shelf), requests, answers, buffer);
        }
        (ValueKind::Standings, Shelf::Bytes) => {
            let shelf = ByteShelf::<Standing>::new(memory);
            run_in(PlainHouse::new(offices, shelf), requests, answers, buffer);
        }
    }
}

/// The first cells, or all if there are not so many.
fn lent<T>(cells: &mut [T], capacity: u64) -> &mut [T] {
    let count = capacity.min(cells.len() as u64) as usize;
    &mut cells[..count]
}

/// Does all requests and gives a sum over the answers, so that none of the work can be left out.
fn sum<S: PlainShelf>(house: &mut PlainHouse<S>, requests: &[u8], buffer: &mut [u8]) -> u64 {
    let mut sum: u64 = 0;
    for request in requests_of(requests) {
        let told = answer(house, request, buffer);
        sum = sum
            .wrapping_mul(31)
            .wrapping_add(told[0].into())
            .wrapping_add(told[1].into())
            .wrapping_add(told[2].into())
            .wrapping_add(told[18].into());
    }
    sum
}

fn repeat<S: PlainShelf>(mut house: PlainHouse<S>, work: Repeated<'_>) -> u64 {
    let mut total = sum(&mut house, work.first, work.buffer);
    for _ in 0..work.times {
        total = total.wrapping_add(sum(&mut house, work.again, work.buffer));
    }
    total
}

/// Builds a house of amounts over cells, does the first requests once and the others again and again.
#[inline(never)]
pub fn repeat_in_cells(offices: u64, capacity: u64, work: Repeated<'_>) -> u64 {
    let mut cells = [Amount::SPARE; CELLS];
    let shelf = CellShelf::new(lent(&mut cells, capacity));
    repeat(PlainHouse::new(offices, shelf), work)
}

/// The same over bytes.
#[inline(never)]
pub fn repeat_in_bytes(offices: u64, memory: &mut [u8], work: Repeated<'_>) -> u64 {
    let shelf = ByteShelf::<Amount>::new(memory);
    repeat(PlainHouse::new(offices, shelf), work)
}

/// How many bytes a house of amounts over cells takes, without the lent memory.
pub fn house_bytes() -> usize {
    size_of::<PlainHouse<CellShelf<'static, Amount>>>()
}
