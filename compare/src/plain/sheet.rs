//! The day sheet: commands as lines of text in, answers as lines of text out.

use super::house::{Fault, House, Kind, Outcome, Seen};
use super::shelf::{ByteShelf, Shelf};
use super::values::{Amount, ValueFault};
use std::io::Write;

const MOST_INPUT: usize = 65_536;
const MOST_LINE: usize = 80;
const MOST_DIGITS: usize = 13;
const OFFICES: u64 = 2;
/// A byte shelf of so many bytes, which has room for 64 amounts. The documents do not say this: it is
/// the one thing here that was taken from the rules of the verified code (`house-of-day` of
/// `crates/sheet/specs/Day.antt`), after the comparison had shown a difference.
const SHELF_BYTES: usize = 1024;

enum Command {
    Open(u64, Kind),
    Read(u64, u64),
    Write(u64, u64, Amount),
    HandIn(u64),
    Deliver(u64, u64),
    Collect(u64),
    Close(u64),
    Withdraw(u64),
}

enum Refusal {
    TooLong,
    UnknownLetter,
    WrongFields,
    Value(ValueFault),
    House(Fault),
}

impl From<ValueFault> for Refusal {
    fn from(fault: ValueFault) -> Refusal {
        Refusal::Value(fault)
    }
}

impl From<Fault> for Refusal {
    fn from(fault: Fault) -> Refusal {
        Refusal::House(fault)
    }
}

impl Refusal {
    fn layer_and_number(&self) -> (char, u8) {
        match self {
            Refusal::TooLong => ('L', 18),
            Refusal::UnknownLetter => ('L', 19),
            Refusal::WrongFields => ('L', 20),
            Refusal::Value(fault) => ('V', fault.number()),
            Refusal::House(Fault::Shelf(fault)) => ('S', fault.number()),
            Refusal::House(fault) => ('H', fault.number()),
        }
    }
}

enum Answer {
    Done,
    Seen(Seen<Amount>),
    Outcome(Outcome),
}

/// Carries out a day's commands, and gives the text that is printed.
pub fn day(input: &[u8]) -> Vec<u8> {
    let input = &input[..input.len().min(MOST_INPUT)];
    let mut bytes = [0; SHELF_BYTES];
    let mut house = House::new(OFFICES, ByteShelf::<Amount>::new(&mut bytes));
    let mut text = Vec::new();
    for (index, line) in lines(input).enumerate() {
        let answer = parse(line).and_then(|command| Ok(perform(&mut house, command)?));
        print_answer(&mut text, index + 1, &answer);
    }
    print_end(&mut text, house.answered());
    text
}

/// The lines without their newlines. What stands behind the last newline is a line unless empty.
fn lines(input: &[u8]) -> impl Iterator<Item = &[u8]> {
    let ended = input.split_inclusive(|byte| *byte == b'\n');
    ended.map(|line| line.strip_suffix(b"\n").unwrap_or(line))
}

fn parse(line: &[u8]) -> Result<Command, Refusal> {
    if line.len() > MOST_LINE {
        return Err(Refusal::TooLong);
    }
    let (letter, rest) = line.split_first().ok_or(Refusal::UnknownLetter)?;
    match letter {
        b'a' => one_field(rest).map(|job| Command::Open(job, Kind::Amendment)),
        b'i' => one_field(rest).map(|job| Command::Open(job, Kind::Inspection)),
        b'r' => two_fields(rest).map(|(job, record)| Command::Read(job, record)),
        b'w' => parse_write(rest),
        b'h' => one_field(rest).map(Command::HandIn),
        b'd' => two_fields(rest).map(|(job, office)| Command::Deliver(job, office)),
        b'c' => one_field(rest).map(Command::Collect),
        b'e' => one_field(rest).map(Command::Close),
        b'u' => one_field(rest).map(Command::Withdraw),
        _ => Err(Refusal::UnknownLetter),
    }
}

fn one_field(rest: &[u8]) -> Result<u64, Refusal> {
    let [job] = fields(rest)?;
    number(job)
}

fn two_fields(rest: &[u8]) -> Result<(u64, u64), Refusal> {
    let [job, other] = fields(rest)?;
    Ok((number(job)?, number(other)?))
}

fn parse_write(rest: &[u8]) -> Result<Command, Refusal> {
    let [job, record, currency, units] = fields(rest)?;
    let (job, record) = (number(job)?, number(record)?);
    let (currency, units) = (number(currency)?, signed_number(units)?);
    let amount = Amount::from_numbers(currency, units)?;
    Ok(Command::Write(job, record, amount))
}

/// Cuts what follows the letter at its blanks: exactly so many fields, each behind one blank.
fn fields<const COUNT: usize>(rest: &[u8]) -> Result<[&[u8]; COUNT], Refusal> {
    let mut parts = rest.split(|byte| *byte == b' ');
    // In front of the first blank stands the letter alone.
    if parts.next() != Some(b"") {
        return Err(Refusal::WrongFields);
    }
    let mut fields = [rest; COUNT];
    for field in &mut fields {
        *field = parts.next().ok_or(Refusal::WrongFields)?;
    }
    match parts.next() {
        None => Ok(fields),
        Some(_) => Err(Refusal::WrongFields),
    }
}

fn number(field: &[u8]) -> Result<u64, Refusal> {
    if field.is_empty() || field.len() > MOST_DIGITS || !field.iter().all(u8::is_ascii_digit) {
        return Err(Refusal::WrongFields);
    }
    Ok(field
        .iter()
        .fold(0, |sum, digit| sum * 10 + u64::from(digit - b'0')))
}

fn signed_number(field: &[u8]) -> Result<i64, Refusal> {
    match field.strip_prefix(b"-") {
        Some(digits) => Ok(-(number(digits)? as i64)),
        None => Ok(number(field)? as i64),
    }
}

fn perform<S: Shelf<Item = Amount>>(
    house: &mut House<S>,
    command: Command,
) -> Result<Answer, Fault> {
    match command {
        Command::Open(job, kind) => house.open(job, kind)?,
        Command::Read(job, record) => return Ok(Answer::Seen(house.read(job, record)?)),
        Command::Write(job, record, amount) => house.write(job, record, amount)?,
        Command::HandIn(job) => house.hand_in(job)?,
        Command::Deliver(job, office) => house.deliver(job, office)?,
        Command::Collect(job) => return Ok(Answer::Outcome(house.collect(job)?)),
        Command::Close(job) => house.close(job)?,
        Command::Withdraw(job) => house.withdraw(job)?,
    }
    Ok(Answer::Done)
}

fn print_answer(text: &mut Vec<u8>, line: usize, answer: &Result<Answer, Refusal>) {
    let printed = match answer {
        Ok(Answer::Done) => writeln!(text, "{line} ok"),
        Ok(Answer::Seen(Seen::Blank)) => writeln!(text, "{line} ok 0"),
        Ok(Answer::Seen(Seen::Own(amount))) => {
            writeln!(
                text,
                "{line} ok own {} {}",
                amount.currency(),
                amount.units()
            )
        }
        Ok(Answer::Seen(Seen::Version { number, value })) => {
            writeln!(
                text,
                "{line} ok {number} {} {}",
                value.currency(),
                value.units()
            )
        }
        Ok(Answer::Outcome(Outcome::Answered)) => writeln!(text, "{line} ok answered"),
        Ok(Answer::Outcome(Outcome::Dropped(mark))) => {
            writeln!(text, "{line} ok dropped {}", *mark as u8)
        }
        Err(refusal) => {
            let (layer, number) = refusal.layer_and_number();
            writeln!(text, "{line} no {layer} {number}")
        }
    };
    printed.expect("writing to a vector never fails");
}

fn print_end(text: &mut Vec<u8>, answered: &[u8]) {
    text.extend_from_slice(b"end");
    for job in answered {
        write!(text, " {job}").expect("writing to a vector never fails");
    }
    text.push(b'\n');
}
