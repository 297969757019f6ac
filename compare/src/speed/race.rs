//! Times a workload: best of several, the runners in turn.

use super::runners::{Plain, Proved, Runner};
use super::workloads::{Job, Work};
use std::hint::black_box;
use std::time::{Duration, Instant};

/// The turns, and how many of them the clear program takes part in.
pub const TURNS: usize = 200;
const CLEAR_TURNS: usize = 3;

/// The best times of some work.
pub struct Best {
    pub proved: Duration,
    pub fast: Duration,
    pub clear: Duration,
    /// The work by hand.
    pub limit: Duration,
    pub positions: u64,
    pub drawings: u64,
}

/// A memory, and the best time of what worked on it.
struct Track {
    memory: Vec<u8>,
    best: Duration,
}

impl Track {
    fn new(work: &Work) -> Track {
        Track {
            memory: work.memory.clone(),
            best: Duration::MAX,
        }
    }

    /// Does something once, on the memory as it was at first.
    fn turn<T>(&mut self, work: &Work, act: impl FnOnce(&mut [u8]) -> T) -> T {
        self.memory.copy_from_slice(&work.memory);
        let begun = Instant::now();
        let answer = act(black_box(&mut self.memory));
        self.best = self.best.min(begun.elapsed());
        answer
    }
}

/// One runner at the work: its state and positions after the last turn.
struct Lane<R> {
    runner: R,
    track: Track,
    positions: u64,
}

impl<R: Runner> Lane<R> {
    fn new(work: &Work) -> Lane<R> {
        let first = work.jobs[0].state.as_ref().expect("a first state");
        Lane {
            runner: R::at(first),
            track: Track::new(work),
            positions: 0,
        }
    }

    fn turn(&mut self, work: &Work) {
        let runner = &mut self.runner;
        self.positions = self
            .track
            .turn(work, |memory| draw(runner, &work.jobs, memory));
    }
}

/// Every drawing to its end: the positions.
#[inline(never)]
fn draw<R: Runner>(runner: &mut R, jobs: &[Job], memory: &mut [u8]) -> u64 {
    let mut positions = 0;
    for job in jobs {
        if let Some(state) = &job.state {
            runner.take(state);
        }
        for write in &job.writes {
            assert_eq!(runner.write(*write), 0);
        }
        let (refusal, done) = runner.run(memory);
        assert_eq!(refusal, 0);
        positions += u64::from(done);
    }
    positions
}

/// The best times of all in so many turns; their memories are the same, and the runners' images and positions too.
pub fn best(work: &Work, turns: usize) -> Best {
    let mut proved: Lane<Proved> = Lane::new(work);
    let mut fast: Lane<Plain<true>> = Lane::new(work);
    let mut clear: Lane<Plain<false>> = Lane::new(work);
    let mut limit = Track::new(work);
    for turn in 0..turns {
        proved.turn(work);
        fast.turn(work);
        if turn < CLEAR_TURNS {
            clear.turn(work);
        }
        limit.turn(work, &work.limit);
    }
    assert_eq!(proved.positions, fast.positions);
    assert_eq!(proved.positions, clear.positions);
    let memory = &proved.track.memory;
    assert!(*memory == fast.track.memory, "the fast runner's bytes");
    assert!(*memory == clear.track.memory, "the clear program's bytes");
    assert!(*memory == limit.memory, "the bytes by hand");
    assert!(*memory != work.memory, "bytes that change");
    assert_eq!(proved.runner.image(), fast.runner.image());
    assert_eq!(proved.runner.image(), clear.runner.image());
    Best {
        proved: proved.track.best,
        fast: fast.track.best,
        clear: clear.track.best,
        limit: limit.best,
        positions: proved.positions,
        drawings: work.jobs.len() as u64,
    }
}

/// The proved library does the work once.
pub fn proved_once(work: &Work) {
    let mut proved: Lane<Proved> = Lane::new(work);
    proved.turn(work);
}
