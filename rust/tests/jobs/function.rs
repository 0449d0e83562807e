//! The C function, through the safe wrapper, against the reference.
use crate::drawing::{any_job, damaged_job, shown, Draft, Numbers, DAMAGES};
use crate::reference::{outcome, Outcome};
use std::collections::BTreeMap;
use tdea::run;

const JOBS: usize = 60_000;
const SENTINELS: usize = 32;

/// Runs the job into the middle of random bytes, and holds everything that a caller can see to the reference: the answer, the bytes written,
/// the bytes beside them, and the job itself.
fn compare(job: &[u8], room: usize, numbers: &mut Numbers) -> Outcome {
    let expected = outcome(job, room);
    let mut wanted = numbers.bytes(SENTINELS + room + SENTINELS);
    let mut seen = wanted.clone();
    let lent = job.to_vec();
    let answer = run(&lent, &mut seen[SENTINELS..SENTINELS + room]);
    let due = expected.as_ref().map(|done| done.bytes.len()).map_err(|refused| refused.number);
    assert_eq!(answer.map_err(|refusal| refusal.number()), due, "the answer with room for {room} to {}", shown(job));
    if let Ok(done) = &expected {
        wanted[SENTINELS..SENTINELS + done.bytes.len()].copy_from_slice(&done.bytes);
    }
    if let Some(place) = (0..seen.len()).find(|&place| seen[place] != wanted[place]) {
        panic!("output byte {} with room for {room} of {}", place as isize - SENTINELS as isize, shown(job));
    }
    assert!(lent == job, "this job was changed: {}", shown(job));
    expected
}

/// The same job the other way over what came out, which must give back what went in.
fn restore(job: &[u8], written: &[u8]) {
    let (front, data) = job.split_at(job.len() - written.len());
    let mut back = front.to_vec();
    let direction = 3 + usize::from(front[2]) + 4 + 3;
    back[direction] = 3 - back[direction];
    back.extend(written);
    let mut out = vec![0; written.len()];
    assert_eq!(run(&back, &mut out), Ok(data.len()));
    assert!(out == data, "this job does not restore: {}", shown(job));
}

/// How often each thing happened: refusals by number, done jobs by key bytes, code and direction.
#[derive(Default)]
struct Tally {
    refused: BTreeMap<u64, usize>,
    done: BTreeMap<(u8, u8, u8), usize>,
}

impl Tally {
    fn count(&mut self, job: &[u8], outcome: &Outcome) {
        match outcome {
            Ok(_) => {
                let behind_keys = 3 + usize::from(job[2]);
                *self.done.entry((job[2], job[behind_keys + 3], job[behind_keys + 7])).or_default() += 1;
            }
            Err(refused) => *self.refused.entry(refused.number).or_default() += 1,
        }
    }

    /// Every refusal that a job can bring, and every mode both ways with both sizes of keys, at least so often.
    fn expect_all(&self, least: usize) {
        for number in (1..=7).chain(9..=15) {
            let count = self.refused.get(&number).copied().unwrap_or(0);
            assert!(count >= least, "refusal {number} came {count} times only");
        }
        for keys in [8, 24] {
            for code in 1..=11 {
                for direction in [1, 2] {
                    let count = self.done.get(&(keys, code, direction)).copied().unwrap_or(0);
                    assert!(count >= least, "{keys} key bytes, code {code}, direction {direction} came {count} times only");
                }
            }
        }
    }
}

#[test]
fn random_jobs() {
    let mut numbers = Numbers::new(2026);
    let mut tally = Tally::default();
    for _ in 0..JOBS {
        let (job, room) = any_job(&mut numbers);
        let outcome = compare(&job, room, &mut numbers);
        tally.count(&job, &outcome);
        if let Ok(done) = outcome {
            restore(&job, &done.bytes);
        }
    }
    tally.expect_all(200);
    println!("function: {JOBS} random jobs agree, {} of them done, refused {:?}", tally.done.values().sum::<usize>(), tally.refused);
}

/// Two reasons to refuse in one job, whichever they are: the first in the order is answered.
#[test]
fn every_pair_of_damages() {
    let mut numbers = Numbers::new(5);
    for first in 0..DAMAGES {
        for second in 0..DAMAGES {
            for _ in 0..10 {
                let (job, room) = damaged_job(&mut numbers, &[first, second]);
                let _ = compare(&job, room, &mut numbers);
            }
        }
    }
}

/// The most data that is taken, in every mode, both ways, with both sizes of keys; and one unit or byte more.
#[test]
fn longest_jobs() {
    let mut numbers = Numbers::new(7);
    let mut tally = Tally::default();
    for keys in [1, 3] {
        for code in 1..=11 {
            for direction in [1, 2] {
                let wide = !matches!(code, 5 | 6 | 8 | 9);
                let most = if wide { 4_096 } else { 32_768 };
                let job = Draft::sound(&mut numbers, keys, code, direction, most).bytes();
                let outcome = compare(&job, 32_768, &mut numbers);
                tally.count(&job, &outcome);
                restore(&job, &outcome.expect("the longest data is taken").bytes);
                let over = Draft::sound(&mut numbers, keys, code, direction, most + 1).bytes();
                assert_eq!(compare(&over, 40_000, &mut numbers).map_err(|refused| refused.number), Err(14));
            }
        }
    }
    assert_eq!(tally.done.len(), 44);
}

/// Every prefix of a job, and the job itself with each byte set to every value: no accident of drawing leaves one out.
#[test]
fn every_cut_and_every_byte() {
    let mut numbers = Numbers::new(11);
    for (keys, code) in [(1, 9), (3, 2)] {
        let draft = Draft::sound(&mut numbers, keys, code, 1, 2);
        let job = draft.bytes();
        for length in 0..job.len() {
            let refused = compare(&job[..length], draft.room, &mut numbers).expect_err("a prefix is refused");
            assert_eq!(refused.number, 9);
        }
        for place in 0..job.len() {
            for value in 0..=255 {
                let mut other = job.clone();
                other[place] = value;
                let _ = compare(&other, draft.room, &mut numbers);
            }
        }
    }
}

/// Every room from none to more than enough: less than the data is refused, in any mode.
#[test]
fn every_room() {
    let mut numbers = Numbers::new(13);
    for code in 1..=11 {
        let draft = Draft::sound(&mut numbers, 3, code, 1, 3);
        for room in 0..draft.data.len() + 10 {
            let outcome = compare(&draft.bytes(), room, &mut numbers);
            assert_eq!(outcome.is_ok(), room >= draft.data.len());
        }
    }
}

/// No data is fine in every mode, and needs no output.
#[test]
fn no_data() {
    let mut numbers = Numbers::new(17);
    for keys in [1, 3] {
        for code in 1..=11 {
            for direction in [1, 2] {
                let job = Draft::sound(&mut numbers, keys, code, direction, 0).bytes();
                assert_eq!(run(&job, &mut []), Ok(0));
                let done = compare(&job, 5, &mut numbers).expect("a job without data is sound");
                assert_eq!((done.units, done.cycles), (0, 0));
            }
        }
    }
    assert_eq!(run(&[], &mut []), Err(tdea::Refusal::FieldTruncated));
}
