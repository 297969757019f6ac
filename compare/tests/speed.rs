//! What `make speed` times: the work by hand leaves the bytes of the clear program, and a race finds where it does not.

use compare::speed::race;
use compare::speed::workloads::{self, Work};
use std::collections::HashSet;

/// The workloads whose times the documents tell by these names.
const TOLD: [&str; 10] = [
    "8-bit fill, 1024 by 1024",
    "8-bit copy, 512 by 512",
    "1-bit pattern to 8 bits, 512 by 512",
    "area fill, 512 by 512",
    "4-bit xor copy, mask map, 512 by 512",
    "lines of 4096",
    "mode 11 lines of 4096",
    "step codes, four of 16",
    "lines of ten, run only",
    "lines of ten, with writes",
];

/// The memory after all drawings of the clear program.
fn by_clear(work: &Work) -> Vec<u8> {
    let mut memory = work.memory.clone();
    let first = work.jobs[0].state.as_ref().expect("a first state");
    let mut record = first.record.clone();
    for job in &work.jobs {
        if let Some(state) = &job.state {
            record.clone_from(&state.record);
        }
        for (offset, length, value) in &job.writes {
            assert_eq!(record.write(*offset, *length, *value), 0);
        }
        assert_eq!(record.run(&mut memory, u32::MAX).0, 0);
        assert!(!record.drawing.is_unfinished());
    }
    memory
}

#[test]
fn the_work_by_hand_leaves_the_bytes_of_the_clear_program() {
    for workload in workloads::all() {
        let work = workload.work();
        let expected = by_clear(&work);
        let mut memory = work.memory.clone();
        assert!(memory != expected, "{}: nothing to do", workload.name);
        (work.limit)(&mut memory);
        let place = memory
            .iter()
            .zip(&expected)
            .position(|(one, other)| one != other);
        assert_eq!(place, None, "{}: the first other byte", workload.name);
    }
}

#[test]
fn every_name_is_one_workload_and_those_told_are_there() {
    let workloads = workloads::all();
    let names: HashSet<&str> = workloads.iter().map(|one| one.name.as_str()).collect();
    assert_eq!(names.len(), workloads.len());
    assert!(TOLD.iter().all(|name| names.contains(name)));
    let mut others = workloads.iter().filter_map(|workload| workload.other);
    assert!(others.all(|other| names.contains(other)));
}

fn lines_of_ten() -> Work {
    let mut workloads = workloads::all().into_iter();
    let found = workloads.find(|workload| workload.name == "lines of ten, run only");
    found.expect("that workload").work()
}

#[test]
fn a_race_counts_positions_and_drawings() {
    let best = race::best(&lines_of_ten(), 1);
    assert_eq!((best.positions, best.drawings), (2_560, 256));
}

#[test]
#[should_panic(expected = "the bytes by hand")]
fn a_race_finds_work_by_hand_that_is_not_done() {
    let work = Work {
        limit: Box::new(|_| ()),
        ..lines_of_ten()
    };
    race::best(&work, 1);
}

#[test]
#[should_panic(expected = "the bytes by hand")]
fn a_race_finds_a_bit_that_only_the_work_by_hand_turns() {
    let mut work = lines_of_ten();
    let right = work.limit;
    work.limit = Box::new(move |memory| {
        right(memory);
        memory[0] ^= 1;
    });
    race::best(&work, 1);
}
