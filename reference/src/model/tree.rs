//! The binary tree over the ways of a set (document 02, L9): one bit a node, node n at bit n - 1,
//! node 1 at the top, 2n and 2n + 1 below n; 0 names the lower half.

/// A node and the ways below it.
#[derive(Clone, Copy)]
struct Span {
    node: u32,
    first: usize,
    width: usize,
}

impl Span {
    fn whole(ways: usize) -> Span {
        Span { node: 1, first: 0, width: ways }
    }

    fn lower(self) -> Span {
        Span { node: 2 * self.node, first: self.first, width: self.width / 2 }
    }

    fn upper(self) -> Span {
        let half = self.width / 2;
        Span { node: 2 * self.node + 1, first: self.first + half, width: half }
    }

    fn any(self, wanted: &[bool]) -> bool {
        wanted[self.first..self.first + self.width].contains(&true)
    }

    fn bit(self) -> u32 {
        1 << (self.node - 1)
    }
}

/// The candidate that a tree names, if there is one; `candidates` has a place for each way.
pub fn chosen(tree: u32, candidates: &[bool]) -> Option<usize> {
    let whole = Span::whole(candidates.len());
    whole.any(candidates).then(|| descend(tree, candidates, whole))
}

/// "go to the half that the bit names if it has a candidate, else to the other"
fn descend(tree: u32, candidates: &[bool], span: Span) -> usize {
    if span.width == 1 {
        return span.first;
    }
    let (named, other) = match tree & span.bit() {
        0 => (span.lower(), span.upper()),
        _ => (span.upper(), span.lower()),
    };
    descend(tree, candidates, if named.any(candidates) { named } else { other })
}

/// The tree after an access to a way: each node on its path points to the half not taken.
pub fn turned(tree: u32, ways: usize, way: usize) -> u32 {
    let mut tree = tree;
    let mut span = Span::whole(ways);
    while span.width > 1 {
        if way < span.upper().first {
            tree |= span.bit();
            span = span.lower();
        } else {
            tree &= !span.bit();
            span = span.upper();
        }
    }
    tree
}

/// The bits of the nodes in use.
pub fn node_bits(ways: usize) -> u32 {
    (1 << (ways - 1)) - 1
}
