//! The cases of document 01, for the model and for the original alike.

use compare::engine::{Answering, Engine, Model, Original, Outcome};
use compare::lent::Lent;
use compare::{bytes_of, hex};
use model::encode::encode;
use model::syntax::*;
use original::{Failure, Order};

/// What an answer says: the points of each region, the faults as point, kind and operand, the grown regions.
#[derive(Debug, PartialEq)]
struct Said {
    regions: Vec<Vec<usize>>,
    faults: Vec<(usize, u8, u8)>,
    grown: Vec<usize>,
}

fn said(regions: &[&[usize]], faults: &[(usize, u8, u8)], grown: &[usize]) -> Said {
    Said { regions: regions.iter().map(|set| set.to_vec()).collect(), faults: faults.to_vec(), grown: grown.to_vec() }
}

/// What an engine says of an accepted record, read off the buffers.
fn ask(engine: &mut dyn Engine, record: &[u8]) -> Said {
    let job = model::accept(record).unwrap_or_else(|n| panic!("{} is refused by {n}", hex(record)));
    let mut lent = Lent::exact(record);
    assert_eq!(engine.call(record, &mut lent.words, &mut lent.bytes), Outcome::Number(0), "{}", hex(record));
    let points = job.points();
    let row = points.div_ceil(32);
    let holds = |region: usize, p: usize| lent.words[region * row + p / 32] >> (p % 32) & 1 == 1;
    Said {
        regions: (0..job.regions).map(|region| (0..points).filter(|&p| holds(region, p)).collect()).collect(),
        faults: (0..points)
            .filter(|&p| lent.bytes[2 * p] != 0)
            .map(|p| (p, lent.bytes[2 * p], lent.bytes[2 * p + 1]))
            .collect(),
        grown: (0..job.declared()).filter(|region| lent.bytes[2 * points + region] == 1).collect(),
    }
}

fn all_say(record: &[u8], expected: &Said) {
    for engine in [&mut Model as &mut dyn Engine, &mut Original::new(), &mut Answering::new()] {
        assert_eq!(ask(engine, record), *expected, "{}", hex(record));
    }
}

fn number(record: &[u8]) -> u8 {
    model::analyse(record, &mut [0; 64], &mut [0; 64])
}

fn shared(region: usize) -> Ty {
    Ty::Ref(BorrowKind::Shared, Region::Free(region), Box::new(Ty::Unit))
}

fn unique(region: usize) -> Ty {
    Ty::Ref(BorrowKind::Mut, Region::Free(region), Box::new(Ty::Unit))
}

fn var(base: usize) -> Path {
    Path::variable(base)
}

fn star(base: usize) -> Path {
    Path { base, steps: vec![STAR] }
}

fn job(regions: usize, outlives: &[&[usize]], variables: &[Ty], blocks: &[(&[usize], &[Action])]) -> Vec<u8> {
    let blocks = blocks.iter().map(|(next, actions)| Block { successors: next.to_vec(), actions: actions.to_vec() });
    let outlives = outlives.iter().map(|outlived| outlived.to_vec()).collect();
    let job = Job { structs: vec![], regions, outlives, variables: variables.to_vec(), blocks: blocks.collect() };
    encode(&job).expect("a short record")
}

const CASE_5: &str = "01 00 1B 00 02 00 02 01 00 01 01 00 00 00 00 03 02 00 01 01 01 00 00 01 00 00 00 05 00 01";
const CASE_6: &str = "01 00 1B 00 02 00 02 01 00 01 01 00 00 00 00 03 02 00 01 01 01 00 00 05 00 01 01 00 00 00";
const CASE_7: &str = "01 00 1B 00 02 00 02 01 00 01 01 00 00 00 00 03 02 00 01 01 00 00 00 01 00 00 00 05 00 01";

#[test]
fn cases_1_to_4() {
    assert_eq!(number(&[]), 1);
    assert_eq!(number(&[1]), 2);
    all_say(&bytes_of("01 00 07 00 00 00 00 01 00 00").unwrap(), &said(&[], &[], &[]));
    assert_eq!(number(&bytes_of("01 00 05 00 00 00 00 00").unwrap()), 4);
}

#[test]
fn cases_5_to_7() {
    all_say(&bytes_of(CASE_5).unwrap(), &said(&[&[1, 2], &[1, 2]], &[(1, 2, 0)], &[]));
    all_say(&bytes_of(CASE_6).unwrap(), &said(&[&[1], &[1]], &[], &[]));
    assert_eq!(number(&bytes_of(CASE_7).unwrap()), 9);
}

#[test]
fn case_8() {
    let with = |written: Path| {
        let borrow = Action::Borrow(var(1), 2, BorrowKind::Mut, star(0));
        let actions = [borrow, Action::Init(written, vec![]), Action::Use(var(1))];
        job(3, &[], &[unique(0), unique(1)], &[(&[], &actions)])
    };
    all_say(&with(star(0)), &said(&[&[0, 1, 2], &[1, 2], &[1, 2]], &[(1, 2, 0)], &[]));
    all_say(&with(var(0)), &said(&[&[0, 1, 2], &[1, 2], &[1, 2]], &[], &[]));
}

#[test]
fn case_9() {
    let with = |outlives: &[&[usize]]| {
        let actions = [Action::Assign(var(0), var(1)), Action::Use(var(0))];
        job(outlives.len(), outlives, &[shared(0), shared(1)], &[(&[], &actions)])
    };
    all_say(&with(&[&[], &[]]), &said(&[&[0, 1, 2, 3], &[0, 1, 2, 3, 4]], &[], &[1]));
    all_say(&with(&[&[], &[0]]), &said(&[&[0, 1, 2, 3], &[0, 1, 2, 3, 4]], &[], &[]));
    // "a third declared region in the second half of 9 makes 1 grow"
    all_say(&with(&[&[], &[0], &[]]), &said(&[&[0, 1, 2, 3], &[0, 1, 2, 3, 4, 5], &[0, 1, 2, 5]], &[], &[1]));
}

#[test]
fn case_10() {
    let actions = [Action::Init(var(0), vec![]), Action::Use(var(1)), Action::Borrow(var(1), 1, BorrowKind::Mut, var(0))];
    let record = job(2, &[], &[Ty::Unit, unique(0)], &[(&[0], &actions)]);
    all_say(&record, &said(&[&[0, 1, 3], &[0, 1, 3]], &[(0, 2, 0)], &[]));
}

#[test]
fn a_constraint_at_action_0_grows_a_declared_region() {
    let record = job(2, &[&[], &[]], &[], &[(&[], &[Action::Constraint { sup: 0, sub: 1 }])]);
    let expected = said(&[&[0, 1, 2, 3], &[0, 1, 3]], &[], &[0]);
    assert_eq!(ask(&mut Model, &record), expected);
    assert_eq!(ask(&mut Answering::new(), &record), expected);
    let mut lent = Lent::exact(&record);
    match Original::new().call(&record, &mut lent.words, &mut lent.bytes) {
        Outcome::Panicked(message) => assert!(message.contains("constraint.point.action > 0"), "{message}"),
        other => panic!("{other:?}"),
    }
}

#[test]
fn the_order_of_the_blocks_decides_whether_the_assert_is_met() {
    let start = [Action::Constraint { sup: 0, sub: 1 }];
    let leaf = [Action::Noop, Action::Constraint { sup: 0, sub: 0 }];
    let record = job(2, &[&[], &[]], &[], &[(&[1], &start), (&[], &leaf)]);
    assert!(matches!(original::analyse(&record, Order::ReversePostOrder), Err(Failure::Panicked(_))));
    assert!(original::analyse(&record, Order::PostOrder).is_ok());
}

#[test]
fn a_reborrow_ends_with_its_own_destination() {
    let actions = [Action::Borrow(var(0), 1, BorrowKind::Mut, star(0)), Action::Init(star(0), vec![]), Action::Use(var(0))];
    let record = job(2, &[], &[unique(0)], &[(&[], &actions)]);
    all_say(&record, &said(&[&[0, 1, 2], &[1, 2]], &[], &[]));
}

#[test]
fn an_unreached_block_feeds_no_loan() {
    let start = [Action::Init(var(0), vec![]), Action::Use(var(1))];
    let dead = [Action::Borrow(var(1), 1, BorrowKind::Mut, var(0))];
    let record = job(2, &[], &[Ty::Unit, unique(0)], &[(&[], &start), (&[0], &dead)]);
    all_say(&record, &said(&[&[0, 1], &[]], &[], &[]));
}

#[test]
fn sixty_five_actions_are_refused() {
    let with = |count: usize| job(0, &[], &[], &[(&[], &vec![Action::Noop; count])]);
    assert_eq!(model::analyse(&with(64), &mut [], &mut [0; 130]), 0);
    assert_eq!(model::analyse(&with(65), &mut [], &mut [0; 132]), 4);
}

#[test]
fn a_refusal_for_room_changes_nothing_and_an_exact_fit_is_enough() {
    let record = bytes_of(CASE_5).unwrap();
    for engine in [&mut Model as &mut dyn Engine, &mut Original::new()] {
        for (words, bytes, number) in [(2, 8, 0), (1, 8, 10), (2, 7, 10), (0, 0, 10), (3, 9, 0)] {
            let (mut w, mut b) = (vec![0xdead_beef; words], vec![0x5a; bytes]);
            assert_eq!(engine.call(&record, &mut w, &mut b), Outcome::Number(number));
            let (written, said) = if number == 0 { (2, 8) } else { (0, 0) };
            assert!(w[written..].iter().all(|&word| word == 0xdead_beef));
            assert!(b[said..].iter().all(|&byte| byte == 0x5a));
            if number == 0 {
                assert_eq!((&w[..2], &b[..8]), (&[6, 6][..], &[0, 0, 2, 0, 0, 0, 0, 0][..]));
            }
        }
    }
}
