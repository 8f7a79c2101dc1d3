//! The plain Rust twin of `order.rt.bench`: the same work by the same rule over sorted vectors.
//! It prints the same lines.

mod closure;

use closure::{Hierarchy, Pair, compare, merge, without};
use std::cmp::Ordering;
use std::mem;
use std::time::Instant;

const ROLES: usize = 1_024;
const QUESTIONS: usize = 1_000_000;
const DIFFERENT: usize = 10_000;

fn name_of(number: usize) -> String {
    format!("name{number:06}")
}

fn pair_of(first: usize, second: usize) -> Pair {
    (name_of(first), name_of(second))
}

struct Order {
    edges: Vec<Pair>,
    pairs: Vec<Pair>,
}

impl Order {
    fn hierarchy(&self) -> Hierarchy<'_> {
        Hierarchy { edges: &self.edges, pairs: &self.pairs }
    }

    /// The order of these edges, if the pairs are their closure.
    fn of_rows(edges: Vec<Pair>, pairs: Vec<Pair>) -> Option<Order> {
        let order = Order { edges, pairs };
        order.hierarchy().is_closed().then_some(order)
    }
}

fn put_chain(pairs: &mut Vec<Pair>, from: usize, to: usize) {
    for first in from..to {
        pairs.extend((first + 1..to).map(|second| pair_of(first, second)));
    }
}

fn whole_chain() -> (Vec<Pair>, Vec<Pair>) {
    let mut edges = Vec::new();
    for first in 0..ROLES {
        for step in 1..6 {
            if first + step < ROLES && (step < 5 || first < 10) {
                edges.push(pair_of(first, first + step));
            }
        }
    }
    let mut pairs = Vec::new();
    put_chain(&mut pairs, 0, ROLES);
    (edges, pairs)
}

fn two_chains() -> (Vec<Pair>, Vec<Pair>) {
    let links = (0..ROLES - 1).filter(|first| first + 1 != 512);
    let edges = links.map(|first| pair_of(first, first + 1)).collect();
    let mut pairs = Vec::new();
    put_chain(&mut pairs, 0, 512);
    put_chain(&mut pairs, 512, ROLES);
    (edges, pairs)
}

fn time_geq(order: &Order) {
    let questions: Vec<Pair> = (0..DIFFERENT)
        .map(|number| pair_of(number * 7_919 % ROLES, number * 104_729 % ROLES))
        .collect();
    let start = Instant::now();
    let mut found = 0;
    for _ in 0..QUESTIONS / DIFFERENT {
        found += questions.iter().filter(|pair| order.hierarchy().geq(&pair.0, &pair.1)).count();
    }
    println!("geq {found} {}", start.elapsed().as_nanos());
}

fn main() {
    let (edges, pairs) = whole_chain();
    let start = Instant::now();
    let order = Order::of_rows(edges, pairs).expect("the closure of a chain");
    let nanos = start.elapsed().as_nanos();
    println!("of_rows {} {nanos}", order.pairs.len());
    time_geq(&order);

    let (edges, pairs) = two_chains();
    let mut order = Order::of_rows(edges, pairs).expect("the closure of two chains");
    let (asc, desc) = pair_of(511, 512);
    let start = Instant::now();
    let puts = order.hierarchy().gained(&asc, &desc);
    println!("plan_add {} {}", puts.len(), start.elapsed().as_nanos());
    let start = Instant::now();
    let pairs = mem::take(&mut order.pairs);
    order.pairs = merge(pairs, puts);
    let place = order.edges.partition_point(|edge| compare(edge, &asc, &desc) == Ordering::Less);
    order.edges.insert(place, (asc.clone(), desc.clone()));
    let nanos = start.elapsed().as_nanos();
    println!("commit-of-puts {} {nanos}", order.pairs.len());
    let start = Instant::now();
    let takes = order.hierarchy().lost(&asc, &desc);
    println!("plan_remove {} {}", takes.len(), start.elapsed().as_nanos());
    let start = Instant::now();
    without(&mut order.pairs, &takes);
    order.edges.retain(|edge| compare(edge, &asc, &desc) != Ordering::Equal);
    let nanos = start.elapsed().as_nanos();
    println!("commit-of-takes {} {nanos}", order.pairs.len());
}
