//! The wrapper against the model of document 01, on records from a seed and on those at the boundary of each refusal.

use model::decode::{most, MAX_LENGTH, MAX_POINTS};
use model::Job;
use nll::{analyse, sizes, Accepted, Place, Refusal, Sizes};

/// The wrapper's sizes, counts, places, points, faults and grown regions are the model's.
fn agree(record: &[u8]) {
    match model::accept(record) {
        Err(number) => {
            assert_eq!(sizes(record).map_err(Refusal::number), Err(number));
            let (mut words, mut bytes) = ([7; 8], [7; 8]);
            assert_eq!(analyse(record, &mut words, &mut bytes).err().map(Refusal::number), Some(number));
            assert_eq!((words, bytes), ([7; 8], [7; 8]));
        }
        Ok(job) => {
            let (words, bytes) = model::output::needs(&job);
            assert_eq!(sizes(record), Ok(Sizes { words, bytes }));
            let (mut words, mut bytes) = (vec![7; words], vec![7; bytes]);
            let answer = analyse(record, &mut words, &mut bytes).unwrap();
            agree_on_answer(&job, &answer);
            agree_on_places(&job, &answer);
        }
    }
}

fn agree_on_answer(job: &Job, answer: &Accepted) {
    let expected = model::answer(job);
    assert_eq!((answer.points(), answer.regions(), answer.declared()), (job.points(), job.regions, job.declared()));
    for (region, set) in expected.sets.iter().enumerate() {
        assert!(answer.region(region).eq((0..set.len()).filter(|&p| set[p])));
    }
    let verdicts: Vec<(u8, u8)> = (0..answer.points())
        .map(|p| answer.fault(p).map_or((0, 0), |fault| (fault.kind.number(), fault.operand as u8)))
        .collect();
    assert!(verdicts.iter().copied().eq(expected.verdicts.iter().map(|v| (v.kind, v.operand))));
    assert_eq!(answer.faults().count(), verdicts.iter().filter(|v| v.0 != 0).count());
    assert!(answer.grown().eq((0..expected.grown.len()).filter(|&r| expected.grown[r])));
}

fn agree_on_places(job: &Job, answer: &Accepted) {
    let mut places = vec![];
    for (block, part) in job.blocks.iter().enumerate() {
        places.extend((0..part.actions.len()).map(|action| Place::Action { block, action }));
        places.push(Place::BlockEnd { block });
    }
    places.extend((0..job.declared()).map(|region| Place::RegionEnd { region }));
    assert!((0..answer.points()).map(|p| answer.place(p)).eq(places.into_iter().map(Some)));
    assert_eq!(answer.place(answer.points()), None);
}

#[test]
fn limits() {
    assert_eq!((nll::MAX_RECORD, nll::MAX_POINTS), (3 + MAX_LENGTH, MAX_POINTS));
    assert_eq!((nll::MAX_REGIONS, nll::MAX_DECLARED), (most::REGIONS.into(), most::DECLARED.into()));
}

#[test]
fn accepted_records() {
    (0..4_000).for_each(|seed| agree(&generate::accepted(seed)));
}

#[test]
fn damaged_records() {
    (0..20_000).for_each(|seed| agree(&generate::damaged(seed)));
}

#[test]
fn records_at_the_boundary_of_each_refusal() {
    for case in generate::boundary::cases() {
        agree(&case.record);
    }
}
