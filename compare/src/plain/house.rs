//! The house: jobs, records and offices, and the calls on them.

use super::list::List;
use super::shelf::{Shelf, ShelfFault};

pub const JOBS: usize = 256;
pub const RECORDS: usize = 64;
pub const MOST_OFFICES: usize = 8;
const MOST_VERSIONS: usize = 32;
const MOST_LISTED: usize = 8;

#[derive(Clone, Copy, Debug, PartialEq, Eq)]
pub enum Fault {
    JobNumber,
    JobTaken,
    RecordNumber,
    OfficeNumber,
    NeverOpened,
    WrongKind,
    WrongState,
    TooManyReads,
    TooManyWrites,
    NoMessage,
    Undecided,
    Held,
    NoSuchAnswer,
    ShortBuffer { needed: usize },
    Shelf(ShelfFault),
}

impl Fault {
    pub fn number(self) -> u8 {
        match self {
            Fault::JobNumber => 1,
            Fault::JobTaken => 2,
            Fault::RecordNumber => 3,
            Fault::OfficeNumber => 4,
            Fault::NeverOpened => 5,
            Fault::WrongKind => 6,
            Fault::WrongState => 7,
            Fault::TooManyReads => 8,
            Fault::TooManyWrites => 9,
            Fault::NoMessage => 10,
            Fault::Undecided => 11,
            Fault::Held => 12,
            Fault::ShortBuffer { .. } => 14,
            Fault::NoSuchAnswer => 22,
            Fault::Shelf(fault) => fault.number(),
        }
    }
}

impl From<ShelfFault> for Fault {
    fn from(fault: ShelfFault) -> Fault {
        Fault::Shelf(fault)
    }
}

#[derive(Clone, Copy, Debug, PartialEq, Eq)]
pub enum Kind {
    Amendment,
    Inspection,
}

/// Why a job was dropped.
#[derive(Clone, Copy, Debug, PartialEq, Eq)]
pub enum Mark {
    Conflict = 1,
    Stale = 2,
    Full = 3,
}

#[derive(Clone, Copy, Debug, PartialEq, Eq)]
pub enum State {
    NeverOpened,
    Open,
    Voting,
    Accepted,
    Dropped(Mark),
    Answered,
    Ended,
}

impl State {
    pub fn number(self) -> u8 {
        match self {
            State::NeverOpened => 0,
            State::Open => 1,
            State::Voting => 2,
            State::Accepted => 3,
            State::Dropped(_) => 4,
            State::Answered => 5,
            State::Ended => 6,
        }
    }
}

/// What a read tells.
#[derive(Clone, Copy, Debug, PartialEq, Eq)]
pub enum Seen<V> {
    Blank,
    Own(V),
    Version { number: u8, value: V },
}

/// What a collect tells.
#[derive(Clone, Copy, Debug, PartialEq, Eq)]
pub enum Outcome {
    Answered,
    Dropped(Mark),
}

#[derive(Clone, Copy, Debug, PartialEq, Eq)]
enum Vote {
    Yes,
    Refused(Mark),
}

/// The message that waits between a job and an office. The vote itself stands beside it.
#[derive(Clone, Copy, Debug, PartialEq, Eq)]
enum Message {
    Prepare,
    Vote,
    Decision,
}

/// A record that a job read, and the version that it was told.
#[derive(Clone, Copy, Debug)]
pub struct Read {
    pub record: u8,
    pub version: u8,
}

/// A record that a job wrote, the place of the value, and the version once installed (0 before).
#[derive(Clone, Copy, Debug)]
pub struct Write {
    pub record: u8,
    pub version: u8,
    pub place: u16,
}

#[derive(Clone, Copy, Debug)]
struct Job {
    kind: Kind,
    state: State,
    reads: List<Read, MOST_LISTED>,
    writes: List<Write, MOST_LISTED>,
    waiting: [Option<Message>; MOST_OFFICES],
    votes: [Option<Vote>; MOST_OFFICES],
}

impl Job {
    const fn new() -> Job {
        Job {
            kind: Kind::Amendment,
            state: State::NeverOpened,
            reads: List::new(Read {
                record: 0,
                version: 0,
            }),
            writes: List::new(Write {
                record: 0,
                version: 0,
                place: 0,
            }),
            waiting: [None; MOST_OFFICES],
            votes: [None; MOST_OFFICES],
        }
    }

    fn reads(&self) -> &[Read] {
        self.reads.as_slice()
    }

    fn writes(&self) -> &[Write] {
        self.writes.as_slice()
    }

    fn read_of(&self, record: u8) -> Option<&Read> {
        self.reads().iter().find(|read| read.record == record)
    }

    fn write_of(&self, record: u8) -> Option<&Write> {
        self.writes().iter().find(|write| write.record == record)
    }

    fn any_waits(&self) -> bool {
        self.waiting.iter().any(Option::is_some)
    }

    /// An unanswered job that others may have to wait for.
    fn holds_back(&self) -> bool {
        match self.state {
            State::Open => self.kind == Kind::Inspection,
            State::Accepted => true,
            _ => false,
        }
    }

    /// Does this job precede the other by a record of both?
    fn precedes(&self, other: &Job) -> bool {
        let installed = self.writes().iter().filter(|write| write.version > 0);
        for write in installed {
            let read_later = |read: &Read| write.version <= read.version;
            let written_later = |later: &Write| write.version < later.version;
            if other.read_of(write.record).is_some_and(read_later)
                || other.write_of(write.record).is_some_and(written_later)
            {
                return true;
            }
        }
        self.reads().iter().any(|read| {
            let overwritten = |write: &Write| read.version < write.version;
            other.write_of(read.record).is_some_and(overwritten)
        })
    }

    /// Does this job, which an office holds, exclude the other at that office?
    fn excludes(&self, other: &Job, office: Office) -> bool {
        let listed = |record| self.write_of(record).is_some() || self.read_of(record).is_some();
        let mut writes = other.writes().iter().filter(|w| office.owns(w.record));
        let mut reads = other.reads().iter().filter(|r| office.owns(r.record));
        writes.any(|write| listed(write.record))
            || reads.any(|read| self.write_of(read.record).is_some())
    }
}

/// An office of a house of so many.
#[derive(Clone, Copy)]
struct Office {
    number: usize,
    of: usize,
}

impl Office {
    fn owns(self, record: u8) -> bool {
        usize::from(record) % self.of == self.number
    }
}

/// One version of a record: the job that installed it, and the place of its value.
#[derive(Clone, Copy, Debug)]
struct Version {
    job: u8,
    place: u16,
}

type Record = List<Version, MOST_VERSIONS>;

pub struct House<S> {
    offices: usize,
    jobs: [Job; JOBS],
    records: [Record; RECORDS],
    answered: List<u8, JOBS>,
    pub(super) shelf: S,
}

impl<S: Shelf> House<S> {
    pub fn new(offices: u64, shelf: S) -> Self {
        House {
            offices: offices.clamp(1, MOST_OFFICES as u64) as usize,
            jobs: [const { Job::new() }; JOBS],
            records: [const { Record::new(Version { job: 0, place: 0 }) }; RECORDS],
            answered: List::new(0),
            shelf,
        }
    }

    pub fn open(&mut self, job: u64, kind: Kind) -> Result<(), Fault> {
        let job = &mut self.jobs[job_index(job)?];
        if job.state != State::NeverOpened {
            return Err(Fault::JobTaken);
        }
        job.kind = kind;
        job.state = State::Open;
        Ok(())
    }

    pub fn read(&mut self, job: u64, record: u64) -> Result<Seen<S::Item>, Fault> {
        let index = job_index(job)?;
        let record = record_index(record)?;
        let job = self.opened(index)?;
        if job.state != State::Open {
            return Err(Fault::WrongState);
        }
        if let Some(write) = job.write_of(record) {
            return Ok(Seen::Own(self.shelf.fetch(write.place)?));
        }
        if let Some(read) = job.read_of(record) {
            return self.seen(record, read.version);
        }
        if job.reads.is_full() {
            return Err(Fault::TooManyReads);
        }
        let version = match job.kind {
            Kind::Amendment => self.newest(record),
            Kind::Inspection => self.newest_answered(record),
        };
        // The value is fetched first, so that a refusal would list nothing.
        let seen = self.seen(record, version)?;
        self.jobs[index].reads.push(Read { record, version });
        Ok(seen)
    }

    pub fn write(&mut self, job: u64, record: u64, value: S::Item) -> Result<(), Fault> {
        let index = job_index(job)?;
        let record = record_index(record)?;
        self.open_amendment(index)?;
        let job = &mut self.jobs[index];
        if job.writes.is_full() && job.write_of(record).is_none() {
            return Err(Fault::TooManyWrites);
        }
        let place = self.shelf.add(value)?;
        let mut listed = job.writes.as_mut_slice().iter_mut();
        match listed.find(|write| write.record == record) {
            Some(write) => write.place = place,
            None => job.writes.push(Write {
                record,
                version: 0,
                place,
            }),
        }
        Ok(())
    }

    pub fn hand_in(&mut self, job: u64) -> Result<(), Fault> {
        let index = job_index(job)?;
        self.open_amendment(index)?;
        let offices = self.offices;
        let job = &mut self.jobs[index];
        for read in job.reads.as_slice() {
            job.waiting[usize::from(read.record) % offices] = Some(Message::Prepare);
        }
        for write in job.writes.as_slice() {
            job.waiting[usize::from(write.record) % offices] = Some(Message::Prepare);
        }
        // A job that lists no record has no vote to wait for.
        job.state = if job.any_waits() {
            State::Voting
        } else {
            State::Accepted
        };
        Ok(())
    }

    pub fn deliver(&mut self, job: u64, office: u64) -> Result<(), Fault> {
        let index = job_index(job)?;
        if office >= self.offices as u64 {
            return Err(Fault::OfficeNumber);
        }
        let office = office as usize;
        let job = self.opened_amendment(index)?;
        match job.waiting[office] {
            None => return Err(Fault::NoMessage),
            Some(Message::Prepare) => self.prepare(index, office),
            Some(Message::Vote) => self.note_vote(index, office),
            Some(Message::Decision) => self.decide_at(index, office),
        }
        Ok(())
    }

    pub fn collect(&mut self, job: u64) -> Result<Outcome, Fault> {
        let index = job_index(job)?;
        let job = self.opened_amendment(index)?;
        match job.state {
            State::Voting => Err(Fault::Undecided),
            State::Accepted | State::Dropped(_) if job.any_waits() => Err(Fault::Undecided),
            State::Dropped(mark) => {
                self.jobs[index].state = State::Ended;
                Ok(Outcome::Dropped(mark))
            }
            State::Accepted if self.is_held(index) => Err(Fault::Held),
            State::Accepted => {
                self.answer(index);
                Ok(Outcome::Answered)
            }
            _ => Err(Fault::WrongState),
        }
    }

    pub fn close(&mut self, job: u64) -> Result<(), Fault> {
        let index = job_index(job)?;
        let job = self.opened(index)?;
        if job.kind != Kind::Inspection {
            return Err(Fault::WrongKind);
        }
        if job.state != State::Open {
            return Err(Fault::WrongState);
        }
        self.answer(index);
        Ok(())
    }

    pub fn withdraw(&mut self, job: u64) -> Result<(), Fault> {
        let index = job_index(job)?;
        self.open_amendment(index)?;
        self.jobs[index].state = State::Ended;
        Ok(())
    }

    pub fn job_state(&self, job: u64) -> Result<State, Fault> {
        Ok(self.opened(job_index(job)?)?.state)
    }

    pub fn newest_version(&self, record: u64) -> Result<u8, Fault> {
        Ok(self.newest(record_index(record)?))
    }

    pub fn answered_count(&self) -> u64 {
        self.answered().len() as u64
    }

    pub fn answered_at(&self, n: u64) -> Result<u8, Fault> {
        let n = usize::try_from(n).map_err(|_| Fault::NoSuchAnswer)?;
        let job = self.answered().get(n).copied();
        job.ok_or(Fault::NoSuchAnswer)
    }

    pub fn answered(&self) -> &[u8] {
        self.answered.as_slice()
    }

    /// The answered jobs in rising number, with what they read and wrote.
    pub(super) fn leaves(&self) -> impl Iterator<Item = (usize, Kind, &[Read], &[Write])> {
        let numbered = self.jobs.iter().enumerate();
        numbered
            .filter(|(_, job)| job.state == State::Answered)
            .map(|(number, job)| (number, job.kind, job.reads(), job.writes()))
    }

    fn opened(&self, index: usize) -> Result<&Job, Fault> {
        let job = &self.jobs[index];
        if job.state == State::NeverOpened {
            return Err(Fault::NeverOpened);
        }
        Ok(job)
    }

    fn opened_amendment(&self, index: usize) -> Result<&Job, Fault> {
        let job = self.opened(index)?;
        if job.kind != Kind::Amendment {
            return Err(Fault::WrongKind);
        }
        Ok(job)
    }

    fn open_amendment(&self, index: usize) -> Result<&Job, Fault> {
        let job = self.opened_amendment(index)?;
        if job.state != State::Open {
            return Err(Fault::WrongState);
        }
        Ok(job)
    }

    fn versions(&self, record: u8) -> &[Version] {
        self.records[usize::from(record)].as_slice()
    }

    fn newest(&self, record: u8) -> u8 {
        self.versions(record).len() as u8
    }

    fn newest_answered(&self, record: u8) -> u8 {
        let versions = self.versions(record);
        let answered = |version: &Version| {
            let job = &self.jobs[usize::from(version.job)];
            job.state == State::Answered
        };
        versions.iter().rposition(answered).map_or(0, |at| at + 1) as u8
    }

    fn seen(&self, record: u8, version: u8) -> Result<Seen<S::Item>, Fault> {
        if version == 0 {
            return Ok(Seen::Blank);
        }
        let place = self.versions(record)[usize::from(version) - 1].place;
        let value = self.shelf.fetch(place)?;
        Ok(Seen::Version {
            number: version,
            value,
        })
    }

    /// The office votes on its own records, and the vote waits.
    fn prepare(&mut self, index: usize, office: usize) {
        let vote = self.vote(index, office);
        let job = &mut self.jobs[index];
        job.votes[office] = Some(vote);
        job.waiting[office] = Some(Message::Vote);
    }

    fn vote(&self, index: usize, number: usize) -> Vote {
        let job = &self.jobs[index];
        let office = Office {
            number,
            of: self.offices,
        };
        let mut held = self
            .jobs
            .iter()
            .enumerate()
            .filter(|(other, row)| *other != index && row.votes[number] == Some(Vote::Yes));
        if held.any(|(_, row)| row.excludes(job, office)) {
            return Vote::Refused(Mark::Conflict);
        }
        let mut reads = job.reads().iter().filter(|read| office.owns(read.record));
        if reads.any(|read| self.newest(read.record) != read.version) {
            return Vote::Refused(Mark::Stale);
        }
        let mut writes = job
            .writes()
            .iter()
            .filter(|write| office.owns(write.record));
        if writes.any(|write| self.records[usize::from(write.record)].is_full()) {
            return Vote::Refused(Mark::Full);
        }
        Vote::Yes
    }

    /// The job notes a vote. With the last one it is decided, and a decision waits at each office.
    fn note_vote(&mut self, index: usize, office: usize) {
        let job = &mut self.jobs[index];
        job.waiting[office] = None;
        if job.any_waits() {
            return;
        }
        let refused = job.votes.iter().find_map(|vote| match vote {
            Some(Vote::Refused(mark)) => Some(*mark),
            _ => None,
        });
        job.state = refused.map_or(State::Accepted, State::Dropped);
        for (waiting, vote) in job.waiting.iter_mut().zip(job.votes) {
            *waiting = vote.map(|_| Message::Decision);
        }
    }

    /// An office learns the decision: it installs the writes of an accepted job, and its holds end.
    fn decide_at(&mut self, index: usize, number: usize) {
        let office = Office {
            number,
            of: self.offices,
        };
        let job = &mut self.jobs[index];
        job.waiting[number] = None;
        job.votes[number] = None;
        if job.state != State::Accepted {
            return;
        }
        let writes = job.writes.as_mut_slice().iter_mut();
        for write in writes.filter(|write| office.owns(write.record)) {
            let record = &mut self.records[usize::from(write.record)];
            record.push(Version {
                job: index as u8,
                place: write.place,
            });
            write.version = record.as_slice().len() as u8;
        }
    }

    fn is_held(&self, index: usize) -> bool {
        let job = &self.jobs[index];
        let mut others = self.jobs.iter().enumerate().filter(|(n, _)| *n != index);
        others.any(|(_, other)| other.holds_back() && other.precedes(job))
    }

    fn answer(&mut self, index: usize) {
        self.jobs[index].state = State::Answered;
        self.answered.push(index as u8);
    }
}

fn job_index(job: u64) -> Result<usize, Fault> {
    if job >= JOBS as u64 {
        return Err(Fault::JobNumber);
    }
    Ok(job as usize)
}

fn record_index(record: u64) -> Result<u8, Fault> {
    if record >= RECORDS as u64 {
        return Err(Fault::RecordNumber);
    }
    Ok(record as u8)
}
