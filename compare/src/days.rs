//! Random days: many jobs at once, each with a course of its own, mixed into one sequence of steps.

use crate::random::Random;

/// One request, as numbers.
#[derive(Clone, Copy, Debug, PartialEq, Eq)]
pub enum Step {
    OpenAmendment { job: u64 },
    OpenInspection { job: u64 },
    Read { job: u64, record: u64 },
    Write { job: u64, record: u64 },
    HandIn { job: u64 },
    Deliver { job: u64, office: u64 },
    Collect { job: u64 },
    Close { job: u64 },
    Withdraw { job: u64 },
    Archive { size: u64 },
    JobState { job: u64 },
    NewestVersion { record: u64 },
    AnsweredCount,
    AnsweredAt { n: u64 },
    Inspect { job: u64, record: u64 },
}

/// What a day is like.
#[derive(Clone, Copy, Debug)]
pub struct Profile {
    pub offices: u64,
    /// how many jobs are begun
    pub jobs: u64,
    /// how many jobs go on at once
    pub at_once: u64,
    /// how many different records are used; few make conflicts and full records likely
    pub records: u64,
    /// how many steps in a thousand are random ones
    pub noise: u64,
    /// how many jobs in a thousand are inspections
    pub inspections: u64,
}

impl Profile {
    pub fn random(random: &mut Random, offices: u64) -> Profile {
        let jobs = match random.below(100) {
            0..70 => random.from_to(1, 5),
            70..95 => random.from_to(5, 30),
            _ => random.from_to(40, 256),
        };
        // The same few records again and again, one job at a time, fill a record with versions.
        let fills = jobs > 40 && random.chance(500);
        Profile {
            offices,
            jobs,
            at_once: if fills {
                1
            } else {
                random.pick(&[1, 2, 3, 5, 10, 30])
            },
            records: if fills {
                random.from_to(1, 3)
            } else {
                random.pick(&[1, 2, 3, 4, 8, 16, 64])
            },
            noise: random.pick(&[0, 0, 20, 100, 400]),
            inspections: random.pick(&[0, 100, 300, 600]),
        }
    }
}

/// Any number: mostly one that is in use, sometimes just outside, sometimes a huge one.
pub fn any_number(random: &mut Random, used: u64) -> u64 {
    match random.below(20) {
        0 => used,
        1 => random.from_to(0, 300),
        2 => match random.below(6) {
            0 => u64::MAX,
            1 => 1 << random.below(64),
            2 => (1 << 32) + random.below(used),
            3 => 256 + random.below(used),
            4 => 65_536 + random.below(used),
            _ => random.next(),
        },
        _ => random.below(used),
    }
}

fn noise(random: &mut Random, profile: &Profile) -> Step {
    let job = match random.below(3) {
        0 => any_number(random, 256),
        _ => any_number(random, profile.jobs),
    };
    let record = any_number(random, profile.records.min(64));
    let office = any_number(random, profile.offices.clamp(1, 8));
    match random.below(20) {
        0 => Step::OpenAmendment { job },
        1 => Step::OpenInspection { job },
        2 | 3 => Step::Read { job, record },
        4 | 5 => Step::Write { job, record },
        6 => Step::HandIn { job },
        7..=9 => Step::Deliver { job, office },
        10 | 11 => Step::Collect { job },
        12 => Step::Close { job },
        13 => Step::Withdraw { job },
        14 => Step::Archive {
            size: any_number(random, 40),
        },
        15 => Step::JobState { job },
        16 => Step::NewestVersion { record },
        17 => Step::AnsweredCount,
        18 => Step::AnsweredAt {
            n: any_number(random, profile.jobs),
        },
        _ => Step::Inspect { job, record },
    }
}

/// How many records a job uses: mostly few, sometimes more than it may list.
fn uses(random: &mut Random) -> u64 {
    match random.below(20) {
        0 => 0,
        1 => random.from_to(7, 12),
        _ => random.from_to(1, 4),
    }
}

fn inspection(random: &mut Random, profile: &Profile, job: u64) -> Vec<Step> {
    let mut course = vec![Step::OpenInspection { job }];
    for _ in 0..uses(random) {
        course.push(Step::Read {
            job,
            record: random.below(profile.records),
        });
    }
    if random.chance(800) {
        course.push(Step::Close { job });
    }
    course
}

/// The deliveries of a job to the offices of its records: a prepare, a vote and a decision for each.
fn deliveries(random: &mut Random, job: u64, offices: &[u64]) -> Vec<Step> {
    let mut order = offices.to_vec();
    let mut steps = Vec::new();
    for _ in 0..3 {
        random.shuffle(&mut order);
        steps.extend(order.iter().map(|office| Step::Deliver {
            job,
            office: *office,
        }));
    }
    // Votes may be noted while other offices still have their prepare.
    if random.chance(300) {
        random.shuffle(&mut steps);
    }
    // A message may be late, or never come.
    if random.chance(50) {
        steps.pop();
    }
    steps
}

fn amendment(random: &mut Random, profile: &Profile, job: u64) -> Vec<Step> {
    let mut course = vec![Step::OpenAmendment { job }];
    let mut offices = Vec::new();
    for _ in 0..uses(random) {
        let record = random.below(profile.records);
        let office = record % profile.offices.clamp(1, 8);
        if !offices.contains(&office) {
            offices.push(office);
        }
        if random.chance(400) {
            course.push(Step::Read { job, record });
        }
        if random.chance(700) {
            course.push(Step::Write { job, record });
        }
        if random.chance(100) {
            course.push(Step::Read { job, record });
        }
    }
    if random.chance(70) {
        course.push(Step::Withdraw { job });
        return course;
    }
    course.push(Step::HandIn { job });
    course.extend(deliveries(random, job, &offices));
    for _ in 0..random.from_to(1, 3) {
        course.push(Step::Collect { job });
    }
    course
}

fn course(random: &mut Random, profile: &Profile, job: u64) -> Vec<Step> {
    let mut course = if random.chance(profile.inspections) {
        inspection(random, profile, job)
    } else {
        amendment(random, profile, job)
    };
    course.reverse();
    course
}

/// A whole day of the profile.
pub fn day(random: &mut Random, profile: &Profile) -> Vec<Step> {
    let mut numbers: Vec<u64> = (0..256).collect();
    if random.chance(500) {
        random.shuffle(&mut numbers);
    }
    let mut waiting = numbers[..profile.jobs as usize].iter();
    let mut begun = Vec::new();
    // What is left of each job's course, the next step last.
    let mut courses: Vec<Vec<Step>> = Vec::new();
    let mut steps = Vec::new();
    loop {
        while courses.len() < profile.at_once as usize {
            let Some(job) = waiting.next() else { break };
            begun.push(*job);
            courses.push(course(random, profile, *job));
        }
        if courses.is_empty() {
            break;
        }
        let at = random.below(courses.len() as u64) as usize;
        steps.extend(courses[at].pop());
        if courses[at].is_empty() {
            courses.swap_remove(at);
        }
        while random.chance(profile.noise) {
            steps.push(noise(random, profile));
        }
    }
    if random.chance(500) {
        end_of_day(random, &begun, &mut steps);
    }
    steps
}

/// Closes and collects what was left.
fn end_of_day(random: &mut Random, begun: &[u64], steps: &mut Vec<Step>) {
    let mut jobs = begun.to_vec();
    random.shuffle(&mut jobs);
    for job in &jobs {
        steps.push(Step::Close { job: *job });
    }
    for job in &jobs {
        steps.push(Step::Collect { job: *job });
    }
}
