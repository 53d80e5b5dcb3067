//! From a record to what the original says of it, in the numbers of document 01.

use env::{Environment, Point};
use errors;
use graph::{BasicBlockIndex, FuncGraph};
use graph_algorithms::NodeIndex;
use nll_repr::repr::{self, ActionKind, BorrowKind, Path, RegionName};
use order::{self, Order};
use panics::caught;
use regionck;

/// A fault's kind and operand; 0 and 0 where there is none.
#[derive(Clone, Copy, Debug, Default, PartialEq, Eq)]
pub struct Verdict {
    pub kind: u8,
    pub operand: u8,
}

#[derive(Clone, Debug, PartialEq, Eq)]
pub struct Answer {
    pub points: usize,
    /// By region and point. A region that was never made is empty.
    pub regions: Vec<Vec<bool>>,
    /// By point, the declared ends too.
    pub verdicts: Vec<Verdict>,
    /// By declared region.
    pub grown: Vec<bool>,
}

#[derive(Clone, Debug, PartialEq, Eq)]
pub enum Failure {
    /// The bytes do not have a record's layout.
    Unread(String),
    /// The original panicked with this message.
    Panicked(String),
}

/// What the original says of a record, its blocks visited in the order given.
pub fn analyse(record: &[u8], order: Order) -> Result<Answer, Failure> {
    let parsed = parse(&text_of(record))?;
    let regions = record[4] as usize;
    order::ask(order);
    caught(|| answer(parsed.func, regions)).map_err(Failure::Panicked)
}

/// A record as the text that the parser's stand-in reads.
pub fn text_of(record: &[u8]) -> String {
    record.iter().map(|byte| format!("{:02x}", byte)).collect()
}

/// A function that was read, for `check`.
pub struct Parsed {
    func: repr::Func,
}

/// Reads the text of a record.
pub fn parse(text: &str) -> Result<Parsed, Failure> {
    repr::Func::parse(text).map(|func| Parsed { func: func }).map_err(Failure::Unread)
}

/// The original's own code alone, from the function to the last error that it reports; its answer is dropped. For the benchmark.
pub fn check(parsed: Parsed, order: Order) -> Result<(), Failure> {
    order::ask(order);
    let run = || {
        let graph = FuncGraph::new(parsed.func);
        let env = Environment::new(&graph);
        regionck::checked(&env);
    };
    caught(run).map_err(Failure::Panicked)
}

fn answer(func: repr::Func, regions: usize) -> Answer {
    let blocks = func.data.len();
    let declared = func.regions.len();
    let graph = FuncGraph::new(func);
    let points = points_of(&graph, blocks, declared);
    let env = Environment::new(&graph);
    let checked = regionck::checked(&env);

    let mut verdicts = vec![Verdict::default(); points.len()];
    let mut grown = vec![false; declared];
    for (point, message) in errors::take() {
        match reported(&message) {
            Reported::Grown(name) => grown[number_after("'", name)] = true,
            Reported::Fault(kind, path) => {
                let number = points.iter().position(|&p| p == point).expect("a fault is at a point");
                let action = &graph.block_data(point.block).actions()[point.action];
                verdicts[number] = Verdict { kind: kind, operand: operand(action, kind, path) };
            }
        }
    }

    let regions = (0..regions)
        .map(|region| {
            let made = checked.region_if_made(RegionName::from(&*format!("'{}", region)));
            points.iter().map(|&p| made.map_or(false, |region| region.may_contain(p))).collect()
        })
        .collect();
    Answer { points: points.len(), regions: regions, verdicts: verdicts, grown: grown }
}

/// The points in the order of document 01: block by block, actions first, then the block's end; then
/// the end of each declared region, which is action 0 of a block that `FuncGraph` adds.
fn points_of(graph: &FuncGraph, blocks: usize, declared: usize) -> Vec<Point> {
    let mut points = vec![];
    for index in 0..blocks {
        let block = BasicBlockIndex::from(index);
        for action in 0..graph.block_data(block).actions().len() + 1 {
            points.push(Point { block: block, action: action });
        }
    }
    for index in blocks..blocks + declared {
        points.push(Point { block: BasicBlockIndex::from(index), action: 0 });
    }
    points
}

enum Reported<'a> {
    /// The region's name.
    Grown(&'a str),
    /// The kind, and the path or variable as it is printed.
    Fault(u8, &'a str),
}

fn reported(message: &str) -> Reported {
    let named = message.split('`').nth(1).expect("a message names something");
    if message.starts_with("capped variable") {
        Reported::Grown(named)
    } else if message.contains(" cannot read ") {
        Reported::Fault(1, named)
    } else if message.contains(" cannot write ") {
        Reported::Fault(2, named)
    } else if message.contains(" cannot move ") {
        Reported::Fault(3, named)
    } else if message.contains(" cannot kill storage for ") {
        Reported::Fault(4, named)
    } else {
        panic!("a message of no known kind: {}", message)
    }
}

fn number_after(prefix: &str, name: &str) -> usize {
    name[prefix.len()..].parse().expect("a name ends with its number")
}

/// The first operand with this kind of access and this path. Of two alike the first is checked first.
fn operand(action: &repr::Action, kind: u8, path: &str) -> u8 {
    let found = operands(action).iter().position(|&(k, ref p)| k == kind && p == path);
    found.expect("a message names an operand") as u8
}

/// The operands in the order of the record: the kind of fault that each can have, and how it is printed.
fn operands(action: &repr::Action) -> Vec<(u8, String)> {
    let (read, write, moved, dead) = (1, 2, 3, 4);
    match action.kind {
        ActionKind::Init(ref dest, ref sources) => {
            let mut all = vec![(write, dest.to_string())];
            all.extend(sources.iter().map(|source| (read, source.to_string())));
            all
        }
        ActionKind::Borrow(ref dest, _, BorrowKind::Mut, ref source) => {
            vec![(write, dest.to_string()), (write, source.to_string())]
        }
        ActionKind::Borrow(ref dest, _, BorrowKind::Shared, ref source) | ActionKind::Assign(ref dest, ref source) => {
            vec![(write, dest.to_string()), (read, source.to_string())]
        }
        ActionKind::Use(ref path) => vec![(read, path.to_string())],
        ActionKind::Drop(ref path) => vec![(moved, path.to_string())],
        ActionKind::StorageDead(variable) => vec![(dead, variable.to_string())],
        ActionKind::Constraint(_) | ActionKind::SkolemizedEnd(_) | ActionKind::Noop => vec![],
    }
}
