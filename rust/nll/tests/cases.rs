//! The cases of document 01, and what a refusal and an exact fit leave.

mod common;

use common::job;
use nll::{analyse, sizes, Accepted, Fault, FaultKind, Place, Refusal, Sizes};

/// What an answer says: the points of each region, the faults as point, kind and operand, the grown regions.
#[derive(Debug, PartialEq)]
struct Said {
    regions: Vec<Vec<usize>>,
    faults: Vec<(usize, FaultKind, usize)>,
    grown: Vec<usize>,
}

fn said(answer: &Accepted) -> Said {
    Said {
        regions: (0..answer.regions()).map(|region| answer.region(region).collect()).collect(),
        faults: answer.faults().map(|fault| (fault.point, fault.kind, fault.operand)).collect(),
        grown: answer.grown().collect(),
    }
}

fn accepts(name: &str, regions: &[&[usize]], faults: &[(usize, FaultKind, usize)], grown: &[usize]) {
    let record = job(name);
    let Sizes { words, bytes } = sizes(&record).unwrap();
    // what the buffers have before the call is not in the answer
    let (mut words, mut bytes) = (vec![u32::MAX; words], vec![u8::MAX; bytes]);
    let answer = analyse(&record, &mut words, &mut bytes).unwrap();
    let regions = regions.iter().map(|points| points.to_vec()).collect();
    assert_eq!(answer.without_access_errors(), faults.is_empty());
    assert_eq!(said(&answer), Said { regions, faults: faults.to_vec(), grown: grown.to_vec() }, "{name}");
}

fn refuses(record: &[u8], refusal: Refusal) {
    let (mut words, mut bytes) = ([0xdead_beef; 8], [0x5a; 16]);
    assert_eq!(analyse(record, &mut words, &mut bytes).err(), Some(refusal));
    assert_eq!((words, bytes), ([0xdead_beef; 8], [0x5a; 16]));
    assert_eq!(sizes(record), Err(refusal));
}

#[test]
fn cases_1_to_4() {
    refuses(&job("case1"), Refusal::Version);
    refuses(&job("case2"), Refusal::Length);
    accepts("case3", &[], &[], &[]);
    refuses(&job("case4"), Refusal::Range);
}

#[test]
fn cases_5_to_7() {
    accepts("case5", &[&[1, 2], &[1, 2]], &[(1, FaultKind::Write, 0)], &[]);
    accepts("case6", &[&[1], &[1]], &[], &[]);
    refuses(&job("case7"), Refusal::Shape);
}

#[test]
fn cases_8_to_10() {
    accepts("case8a", &[&[0, 1, 2], &[1, 2], &[1, 2]], &[(1, FaultKind::Write, 0)], &[]);
    accepts("case8b", &[&[0, 1, 2], &[1, 2], &[1, 2]], &[], &[]);
    accepts("case9a", &[&[0, 1, 2, 3], &[0, 1, 2, 3, 4]], &[], &[1]);
    accepts("case9b", &[&[0, 1, 2, 3], &[0, 1, 2, 3, 4]], &[], &[]);
    accepts("case9c", &[&[0, 1, 2, 3], &[0, 1, 2, 3, 4, 5], &[0, 1, 2, 5]], &[], &[1]);
    accepts("case10a", &[&[0, 1, 3], &[0, 1, 3]], &[(0, FaultKind::Write, 0)], &[]);
}

#[test]
fn the_cases_that_are_run() {
    accepts("actions64", &[], &[], &[]);
    refuses(&job("actions65"), Refusal::Range);
    refuses(&job("length16385"), Refusal::Length);
}

#[test]
fn an_exact_fit_is_enough_and_what_is_beyond_is_left() {
    let record = job("case5");
    assert_eq!(sizes(&record), Ok(Sizes { words: 2, bytes: 8 }));
    for (words, bytes, fits) in [(2, 8, true), (3, 9, true), (1, 8, false), (2, 7, false), (0, 0, false)] {
        let (mut w, mut b) = (vec![0xdead_beef; words], vec![0x5a; bytes]);
        let refusal = analyse(&record, &mut w, &mut b).err();
        assert_eq!(refusal, (!fits).then_some(Refusal::Room));
        let (written_words, written_bytes) = if fits { (2, 8) } else { (0, 0) };
        assert!(w[written_words..].iter().all(|&word| word == 0xdead_beef));
        assert!(b[written_bytes..].iter().all(|&byte| byte == 0x5a));
        if fits {
            assert_eq!((&w[..2], &b[..8]), (&[6, 6][..], &[0, 0, 2, 0, 0, 0, 0, 0][..]));
        }
    }
}

#[test]
fn an_answer_has_no_more_than_it_says() {
    let record = job("case9a");
    let (mut words, mut bytes) = ([u32::MAX; nll::MAX_WORDS], [u8::MAX; nll::MAX_BYTES]);
    let answer = analyse(&record, &mut words, &mut bytes).unwrap();
    assert_eq!((answer.points(), answer.regions(), answer.declared()), (5, 2, 2));
    assert_eq!((answer.words().len(), answer.bytes().len()), (2, 12));
    assert_eq!(answer.region(2).count(), 0);
    assert_eq!(answer.region(usize::MAX).count(), 0);
    assert_eq!(answer.fault(4), None);
    assert_eq!(answer.fault(5), None);
    assert_eq!(answer.fault(usize::MAX), None);
    assert_eq!(answer.place(1), Some(Place::Action { block: 0, action: 1 }));
    assert_eq!(answer.place(2), Some(Place::BlockEnd { block: 0 }));
    assert_eq!(answer.place(4), Some(Place::RegionEnd { region: 1 }));
    assert_eq!(answer.place(5), None);
}

/// A job of Noops without variables: blocks of 62 actions, as many as the declared regions, and as many regions as there can be.
fn largest() -> Vec<u8> {
    let counts = [0, nll::MAX_REGIONS as u8, nll::MAX_DECLARED as u8, 0, 16];
    let block = [[0, 62].as_slice(), &[0; 62]].concat();
    let body = [counts.as_slice(), &[0; nll::MAX_DECLARED], &block.repeat(16)].concat();
    [&[1, (body.len() / 256) as u8, body.len() as u8], body.as_slice()].concat()
}

#[test]
fn the_largest_sizes_are_needed_and_enough() {
    let record = largest();
    assert_eq!(sizes(&record), Ok(Sizes { words: nll::MAX_WORDS, bytes: nll::MAX_BYTES }));
    let (mut words, mut bytes) = ([0; nll::MAX_WORDS], [0; nll::MAX_BYTES]);
    assert_eq!(analyse(&record, &mut words[1..], &mut bytes).err(), Some(Refusal::Room));
    assert_eq!(analyse(&record, &mut words, &mut bytes[1..]).err(), Some(Refusal::Room));
    let answer = analyse(&record, &mut words, &mut bytes).unwrap();
    assert_eq!((answer.points(), answer.faults().count(), answer.grown().count()), (nll::MAX_POINTS, 0, 0));
    // block 0 has no successor, so that it alone is walked
    assert!(answer.region(15).eq((0..63).chain([nll::MAX_POINTS - 1])));
    assert_eq!(answer.region(16).count(), 0);
}

#[test]
fn calls_from_several_threads_do_not_touch_each_other() {
    let records = ["case5", "case6", "case9a", "frames"].map(job);
    let call = |record: &[u8]| {
        let (mut words, mut bytes) = ([0; 64], [0; 64]);
        said(&analyse(record, &mut words, &mut bytes).unwrap())
    };
    let alone = records.each_ref().map(|record| call(record));
    std::thread::scope(|scope| {
        for (record, alone) in records.iter().zip(&alone) {
            scope.spawn(move || (0..20_000).for_each(|_| assert_eq!(call(record), *alone)));
        }
    });
}

#[test]
fn numbers_and_words() {
    for (number, refusal) in (1..).zip(Refusal::ALL) {
        assert_eq!(refusal.number(), number);
    }
    assert_eq!(Refusal::Version.to_string(), "this is no job of version 1");
    assert_eq!(Refusal::Room.to_string(), "the loader lent too little room for the answer");
    let boxed: Box<dyn std::error::Error> = Box::new(Refusal::Shape);
    assert_eq!(boxed.to_string(), "the job assigns or borrows between types that differ");
    let fault = Fault { point: 7, kind: FaultKind::StorageDead, operand: 0 };
    assert_eq!(fault.to_string(), "point 7: the storage's end of operand 0, which is still lent");
    assert_eq!(FaultKind::StorageDead.number(), 4);
    assert_eq!(Place::BlockEnd { block: 3 }.to_string(), "end of block 3");
}
