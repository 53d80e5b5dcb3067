// Stand-in for `iterate`: the nodes reached from the start, in reverse post-order or in the order
// that is asked for.

use super::{Graph, NodeIndex};
use order::{self, Order};

pub fn reverse_post_order<G: Graph>(graph: &G, start: G::Node) -> Vec<G::Node> {
    let mut visited = vec![false; graph.num_nodes()];
    let mut nodes = vec![];
    post_order(graph, start, &mut visited, &mut nodes);
    nodes.reverse();
    match order::asked() {
        Order::ReversePostOrder => {}
        Order::PostOrder => nodes.reverse(),
        Order::ByIndex => nodes.sort(),
        Order::Shuffled(seed) => order::shuffle(seed, &mut nodes),
    }
    nodes
}

fn post_order<G: Graph>(graph: &G, node: G::Node, visited: &mut [bool], done: &mut Vec<G::Node>) {
    if visited[node.as_usize()] {
        return;
    }
    visited[node.as_usize()] = true;
    for successor in graph.successors(node) {
        post_order(graph, successor, visited, done);
    }
    done.push(node);
}
