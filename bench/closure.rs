//! Sorted vectors of pairs, and a role hierarchy of them: the edges, and the pairs of its closure.

use std::cmp::Ordering;

pub type Pair = (String, String);

pub fn compare(pair: &Pair, first: &str, second: &str) -> Ordering {
    let by_first = pair.0.as_str().cmp(first);
    by_first.then_with(|| pair.1.as_str().cmp(second))
}

pub fn contains(pairs: &[Pair], first: &str, second: &str) -> bool {
    pairs.binary_search_by(|pair| compare(pair, first, second)).is_ok()
}

/// The pairs with this first name.
pub fn with_first<'a>(pairs: &'a [Pair], first: &str) -> &'a [Pair] {
    let start = pairs.partition_point(|pair| pair.0.as_str() < first);
    let rest = &pairs[start..];
    &rest[..rest.partition_point(|pair| pair.0 == first)]
}

pub fn merge(entries: Vec<Pair>, others: Vec<Pair>) -> Vec<Pair> {
    let mut all = Vec::with_capacity(entries.len() + others.len());
    let mut entries = entries.into_iter().peekable();
    let mut others = others.into_iter().peekable();
    while let (Some(entry), Some(other)) = (entries.peek(), others.peek()) {
        let next = if entry < other { entries.next() } else { others.next() };
        all.extend(next);
    }
    all.extend(entries);
    all.extend(others);
    all
}

/// The pairs that are not among the others, in one pass.
pub fn without(pairs: &mut Vec<Pair>, others: &[Pair]) {
    let mut others = others.iter().peekable();
    pairs.retain(|pair| {
        while others.peek().is_some_and(|other| *other < pair) {
            others.next();
        }
        others.peek() != Some(&pair)
    });
}

/// Whether the second names of one run are among those of the other.
fn is_within(small: &[Pair], large: &[Pair]) -> bool {
    let mut small = small.iter().peekable();
    for pair in large {
        if small.peek().is_some_and(|next| next.1 == pair.1) {
            small.next();
        }
    }
    small.peek().is_none()
}

/// A hierarchy of roles: its edges, and the pairs of their closure.
pub struct Hierarchy<'a> {
    pub edges: &'a [Pair],
    pub pairs: &'a [Pair],
}

impl Hierarchy<'_> {
    pub fn geq(&self, a: &str, b: &str) -> bool {
        a == b || contains(self.pairs, a, b)
    }

    /// Whether the edges have no cycle, and the pairs are their closure.
    #[allow(dead_code)]
    pub fn is_closed(&self) -> bool {
        let apart = self.pairs.iter().all(|pair| pair.0 != pair.1);
        let goes_on = self.edges.iter().all(|(a, m)| {
            contains(self.pairs, a, m)
                && is_within(with_first(self.pairs, m), with_first(self.pairs, a))
        });
        let begins = self.pairs.iter().all(|(a, b)| {
            with_first(self.edges, a).iter().any(|edge| self.geq(&edge.1, b))
        });
        apart && goes_on && begins
    }

    fn at_or_above(&self, role: &str) -> Vec<String> {
        let seniors = self.pairs.iter().filter(|pair| pair.1 == role);
        let mut names: Vec<String> = seniors.map(|pair| pair.0.clone()).collect();
        names.push(role.to_string());
        names.sort();
        names
    }

    fn at_or_below(&self, role: &str) -> Vec<String> {
        let juniors = with_first(self.pairs, role).iter();
        let mut names: Vec<String> = juniors.map(|pair| pair.1.clone()).collect();
        names.push(role.to_string());
        names.sort();
        names
    }

    /// The pairs that this edge adds.
    pub fn gained(&self, asc: &str, desc: &str) -> Vec<Pair> {
        let (above, below) = (self.at_or_above(asc), self.at_or_below(desc));
        let mut puts = Vec::new();
        for a in &above {
            for b in &below {
                if !contains(self.pairs, a, b) {
                    puts.push((a.clone(), b.clone()));
                }
            }
        }
        puts
    }

    /// The pairs that are removed with this edge.
    pub fn lost(&self, asc: &str, desc: &str) -> Vec<Pair> {
        let mut left = self.edges.to_vec();
        left.retain(|edge| compare(edge, asc, desc) != Ordering::Equal);
        let (above, below) = (self.at_or_above(asc), self.at_or_below(desc));
        let count = |a: &String| with_first(self.pairs, a).len();
        let mut ranked: Vec<(usize, &String)> = above.iter().map(|a| (count(a), a)).collect();
        ranked.sort();
        let mut takes = Vec::new();
        for (_, a) in ranked {
            let mut lost = Vec::new();
            for b in &below {
                let leads = |edge: &Pair| {
                    edge.1 == *b
                        || contains(self.pairs, &edge.1, b) && !contains(&takes, &edge.1, b)
                };
                if !with_first(&left, a).iter().any(leads) {
                    lost.push((a.clone(), b.clone()));
                }
            }
            takes = merge(takes, lost);
        }
        takes
    }
}
