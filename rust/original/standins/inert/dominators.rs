// Inert stand-in: the analysis makes dominators and does not look at them.

use super::Graph;

pub struct Dominators<G: Graph> {
    start: G::Node,
}

pub struct DominatorTree<G: Graph> {
    root: G::Node,
}

pub fn dominators_given_rpo<G: Graph>(graph: &G, _rpo: &[G::Node]) -> Dominators<G> {
    Dominators { start: graph.start_node() }
}

impl<G: Graph> Dominators<G> {
    pub fn dominator_tree(&self) -> DominatorTree<G> {
        DominatorTree { root: self.start }
    }
}

impl<G: Graph> DominatorTree<G> {
    pub fn root(&self) -> G::Node {
        self.root
    }

    pub fn children(&self, _node: G::Node) -> &[G::Node] {
        &[]
    }
}
