//! A call with its lent stores, what the library leaves of it, and what must come of it.

use crate::maps::{Dice, Job, OUTSIDE};
use mosaic::{merge_words, Merged};
use oracle::{coloured_map, colours_of};

/// What is lent. The job's labels and colours are lent too, and need not have the right lengths.
#[derive(Clone, Debug)]
pub struct Call {
    pub job: Job,
    pub work: Vec<u32>,
    pub regions: Vec<u32>,
}

/// What is left.
#[derive(Clone, Debug, PartialEq, Eq)]
pub struct Left {
    pub answer: Merged,
    pub labels: Vec<u32>,
    pub colours: Vec<u8>,
    pub work: Vec<u32>,
    pub regions: Vec<u32>,
}

pub fn work_words(job: &Job) -> usize {
    8 * (job.width as usize + 1) * (job.height as usize + 1)
}

/// With stores of the right lengths, or a few words longer, that hold old words.
pub fn plain(job: Job, dice: &mut Dice) -> Call {
    let more = dice.pick(&[0, 0, 3]);
    let work = dice.words(work_words(&job) + more);
    let regions = dice.words(12 * job.paints as usize + more);
    Call { job, work, regions }
}

/// With something amiss, or several things.
pub fn odd(job: Job, dice: &mut Dice) -> Call {
    let mut call = plain(job, dice);
    for _ in 0..1 + dice.roll(2) {
        spoil(&mut call, dice);
    }
    call
}

fn spoil(call: &mut Call, dice: &mut Dice) {
    let job = &mut call.job;
    match dice.roll(9) {
        0 => job.labels.push(0),
        1 => drop(job.labels.pop()),
        2 => {
            if let Some(label) = job.labels.last_mut() {
                *label = dice.pick(&[job.paints, job.paints + 1, OUTSIDE - 1]);
            }
        }
        3 => {
            let words = work_words(job);
            call.work.truncate(words - dice.pick(&[1, words]));
        }
        4 => job.colours.push(7),
        5 => drop(job.colours.pop()),
        6 => {
            let words = 12 * job.paints as usize;
            call.regions
                .truncate(words - dice.pick(&[1, words]).min(words));
        }
        7 => job.limit = dice.pick(&[-1, -2, i32::MIN]),
        _ => match dice.roll(3) {
            0 => job.width = dice.pick(&[16_385, u32::MAX]),
            1 => job.height = dice.pick(&[16_385, u32::MAX]),
            _ => job.paints = dice.roll(2),
        },
    }
}

/// What must come of a call: the request's words, and where there is a merge the Rust's answer.
pub fn wanted(call: &Call) -> Left {
    let job = &call.job;
    let mut left = Left {
        answer: Merged::default(),
        labels: job.labels.clone(),
        colours: job.colours.clone(),
        work: call.work.clone(),
        regions: call.regions.clone(),
    };
    left.answer.number = number(call);
    if left.answer.number != 0 {
        return left;
    }
    left.work[..work_words(job)].fill(0);
    left.answer.paints = job.paints;
    if !merges(job) {
        return left;
    }
    let mut map = coloured_map(job.width, job.height, &job.labels, &job.colours);
    map.merge_similar(job.limit);
    let colours = colours_of(&map);
    left.answer.paints = (colours.len() / 3) as u32;
    left.colours[..colours.len()].copy_from_slice(&colours);
    left.labels = map.labels;
    left.regions[..12 * job.paints as usize].fill(0);
    left
}

fn merges(job: &Job) -> bool {
    job.limit >= 0 && job.paints >= 2
}

/// The refusals, in their order.
fn number(call: &Call) -> u32 {
    let job = &call.job;
    let stray = |&label: &u32| label != OUTSIDE && label >= job.paints;
    if job.width > 16_384 || job.height > 16_384 {
        1
    } else if job.labels.len() as u64 != u64::from(job.width) * u64::from(job.height) {
        2
    } else if merges(job) && job.labels.iter().any(stray) {
        12
    } else if call.work.len() < work_words(job) {
        3
    } else if merges(job)
        && (job.colours.len() as u64 != 3 * u64::from(job.paints)
            || (call.regions.len() as u64) < 12 * u64::from(job.paints))
    {
        17
    } else {
        0
    }
}

/// A word before and behind each lent store.
const GUARD: u32 = 0x5a5a_5a5a;

fn guarded(words: &[u32]) -> Vec<u32> {
    [&[GUARD][..], words, &[GUARD][..]].concat()
}

fn lent(words: &mut [u32]) -> &mut [u32] {
    let end = words.len() - 1;
    &mut words[1..end]
}

fn back(words: Vec<u32>) -> Vec<u32> {
    let whole = words.first() == Some(&GUARD) && words.last() == Some(&GUARD);
    assert!(whole, "a word beside a store was changed");
    words[1..words.len() - 1].to_vec()
}

/// What the library leaves.
pub fn found(call: &Call) -> Left {
    let job = &call.job;
    let mut labels = guarded(&job.labels);
    let mut colours = job.colours.clone();
    let mut work = guarded(&call.work);
    let mut regions = guarded(&call.regions);
    let answer = merge_words(
        job.width,
        job.height,
        job.paints,
        lent(&mut labels),
        &mut colours,
        job.limit,
        lent(&mut work),
        lent(&mut regions),
    );
    Left {
        answer,
        labels: back(labels),
        colours,
        work: back(work),
        regions: back(regions),
    }
}
