//! The peer: the reordering of document 000, its Algorithm 1, on the same pages after the same gate and the same
//! check for stale reads. Conflict graph, strongly connected components (Tarjan), all cycles (Johnson), greedy removal
//! of the transaction in most cycles, schedule.
#![forbid(unsafe_code)]

use crate::answer::Refusal;
use crate::second::{current, gate, Page, State, PAGE};

/// The most cycles that are listed in one component; the number of all cycles can grow beyond any bound of time.
/// Where it is hit, the listed cycles are broken and what remains is searched again, round by round.
pub const CYCLE_CAP: usize = 20_000;

/// Words of a bit vector over all keys.
const KEY_WORDS: usize = 1024 / 64;
type Keys = [u64; KEY_WORDS];

/// The kept pages in the order of the schedule, and whether the cap was hit.
#[derive(Debug, PartialEq, Eq)]
pub struct Reordered {
    pub order: Vec<usize>,
    pub cap_hit: bool,
}

/// Plans a batch in the peer's way: gate, stale reads, reordering; the kept pages go to the front of out.
pub fn plan(batch: &[u8], state: State<'_>, n: u32, out: &mut [u8]) -> Result<Reordered, Refusal> {
    let pages = gate(batch, state, n, |m| out.len() >= m * PAGE)?;
    let candidates: Vec<usize> = (0..pages.len())
        .filter(|&index| current(&pages[index], state))
        .collect();
    let chosen: Vec<Page<'_>> = candidates.iter().map(|&index| pages[index]).collect();
    let mut reordered = reorder(&chosen);
    for (slot, place) in reordered.order.iter_mut().zip(out.chunks_exact_mut(PAGE)) {
        *slot = candidates[*slot];
        place.copy_from_slice(pages[*slot].bytes);
    }
    Ok(reordered)
}

/// Algorithm 1 on the current transactions.
fn reorder(pages: &[Page<'_>]) -> Reordered {
    let graph = Graph::of_conflicts(pages);
    let mut remaining = full(pages.len());
    let mut cap_hit = false;
    loop {
        let (cycles, capped) = graph.cycles(remaining);
        cap_hit |= capped;
        remaining &= !greedy_removal(cycles, pages.len());
        if !capped {
            break;
        }
    }
    Reordered {
        order: graph.schedule(remaining),
        cap_hit,
    }
}

/// The set of the first `count` transactions.
fn full(count: usize) -> u64 {
    (0..count).fold(0, |set, one| set | 1 << one)
}

/// The members of a set, lowest first.
fn members(mut set: u64) -> impl Iterator<Item = usize> {
    std::iter::from_fn(move || {
        let lowest = (set != 0).then(|| set.trailing_zeros() as usize)?;
        set &= set - 1;
        Some(lowest)
    })
}

/// An edge leads from a transaction to each other one that reads a key which it writes: those must stand before it.
struct Graph {
    children: Vec<u64>,
    parents: Vec<u64>,
}

impl Graph {
    /// Step 1: bit vectors of the read and of the written keys, and an & for every pair.
    fn of_conflicts(pages: &[Page<'_>]) -> Self {
        let reads: Vec<Keys> = pages
            .iter()
            .map(|page| key_set(page.reads().map(|read| read.key)))
            .collect();
        let writes: Vec<Keys> = pages
            .iter()
            .map(|page| key_set(page.writes().map(|write| write.key)))
            .collect();
        let mut graph = Graph {
            children: vec![0; pages.len()],
            parents: vec![0; pages.len()],
        };
        for (writer, written) in writes.iter().enumerate() {
            for (reader, read) in reads.iter().enumerate() {
                if writer != reader && written.iter().zip(read).any(|(a, b)| a & b != 0) {
                    graph.children[writer] |= 1 << reader;
                    graph.parents[reader] |= 1 << writer;
                }
            }
        }
        graph
    }

    /// Step 2: the cycles within each component of more than one, as sets of their members; whether the cap was hit.
    fn cycles(&self, among: u64) -> (Vec<u64>, bool) {
        let mut cycles = Vec::new();
        let mut capped = false;
        for component in components(&self.children, among) {
            if component.count_ones() > 1 {
                let mut search = Johnson::new(&self.children);
                search.all_cycles(component);
                capped |= search.cycles.len() == CYCLE_CAP;
                cycles.append(&mut search.cycles);
            }
        }
        (cycles, capped)
    }

    /// Step 5: up to a source, schedule it, on to its children; the whole turned round at the end.
    fn schedule(&self, kept: u64) -> Vec<usize> {
        let mut open = kept;
        let mut order = Vec::with_capacity(kept.count_ones() as usize);
        let mut node = open.trailing_zeros() as usize;
        while open != 0 {
            if open >> node & 1 == 0 {
                node = open.trailing_zeros() as usize;
            }
            if let Some(parent) = members(self.parents[node] & open).next() {
                node = parent;
                continue;
            }
            open &= !(1 << node);
            order.push(node);
            if let Some(child) = members(self.children[node] & open).next() {
                node = child;
            }
        }
        order.reverse();
        order
    }
}

fn key_set(keys: impl Iterator<Item = u16>) -> Keys {
    let mut set = [0; KEY_WORDS];
    for key in keys {
        set[usize::from(key) / 64] |= 1 << (key % 64);
    }
    set
}

/// Tarjan's strongly connected components of the part of a graph.
fn components(children: &[u64], among: u64) -> Vec<u64> {
    let mut tarjan = Tarjan {
        children,
        among,
        index: vec![0; children.len()],
        low: vec![0; children.len()],
        next: 1,
        stack: Vec::new(),
        on_stack: 0,
        found: Vec::new(),
    };
    for node in members(among) {
        if tarjan.index[node] == 0 {
            tarjan.visit(node);
        }
    }
    tarjan.found
}

/// The state of Tarjan's search; index 0 is not yet visited.
struct Tarjan<'a> {
    children: &'a [u64],
    among: u64,
    index: Vec<usize>,
    low: Vec<usize>,
    next: usize,
    stack: Vec<usize>,
    on_stack: u64,
    found: Vec<u64>,
}

impl Tarjan<'_> {
    fn visit(&mut self, node: usize) {
        (self.index[node], self.low[node]) = (self.next, self.next);
        self.next += 1;
        self.stack.push(node);
        self.on_stack |= 1 << node;
        for child in members(self.children[node] & self.among) {
            if self.index[child] == 0 {
                self.visit(child);
                self.low[node] = self.low[node].min(self.low[child]);
            } else if self.on_stack >> child & 1 == 1 {
                self.low[node] = self.low[node].min(self.index[child]);
            }
        }
        if self.low[node] == self.index[node] {
            self.close(node);
        }
    }

    /// Takes the component of a root off the stack.
    fn close(&mut self, root: usize) {
        let mut component = 0;
        while let Some(node) = self.stack.pop() {
            component |= 1 << node;
            if node == root {
                break;
            }
        }
        self.on_stack &= !component;
        self.found.push(component);
    }
}

/// The state of Johnson's search for all cycles of a component, up to the cap.
struct Johnson<'a> {
    children: &'a [u64],
    within: u64,
    start: usize,
    path: u64,
    blocked: u64,
    waiting: Vec<u64>,
    cycles: Vec<u64>,
}

impl<'a> Johnson<'a> {
    fn new(children: &'a [u64]) -> Self {
        Johnson {
            children,
            within: 0,
            start: 0,
            path: 0,
            blocked: 0,
            waiting: vec![0; children.len()],
            cycles: Vec::new(),
        }
    }

    /// For each start in turn, the cycles through it and higher ones only.
    fn all_cycles(&mut self, component: u64) {
        let mut rest = component;
        while self.cycles.len() < CYCLE_CAP {
            let parts = components(self.children, rest);
            let cyclic = parts.into_iter().filter(|part| part.count_ones() > 1);
            let Some(part) = cyclic.min_by_key(|part| part.trailing_zeros()) else {
                return;
            };
            self.within = part;
            self.start = part.trailing_zeros() as usize;
            self.blocked = 0;
            self.waiting.fill(0);
            self.circuit(self.start);
            rest &= !1 << self.start;
        }
    }

    /// Extends the path by a node; whether a cycle was closed from it.
    fn circuit(&mut self, node: usize) -> bool {
        let mut closed = false;
        let next = self.children[node] & self.within;
        self.path |= 1 << node;
        self.blocked |= 1 << node;
        for child in members(next) {
            if self.cycles.len() == CYCLE_CAP {
                break;
            }
            if child == self.start {
                self.cycles.push(self.path);
                closed = true;
            } else if self.blocked >> child & 1 == 0 {
                closed |= self.circuit(child);
            }
        }
        if closed {
            self.unblock(node);
        } else {
            members(next).for_each(|child| self.waiting[child] |= 1 << node);
        }
        self.path &= !(1 << node);
        closed
    }

    /// Frees a node and those that waited for it.
    fn unblock(&mut self, node: usize) {
        self.blocked &= !(1 << node);
        for other in members(std::mem::take(&mut self.waiting[node])) {
            if self.blocked >> other & 1 == 1 {
                self.unblock(other);
            }
        }
    }
}

/// Steps 3 and 4: again and again the transaction in most cycles, of equals the lowest; the set of those removed.
fn greedy_removal(mut cycles: Vec<u64>, count: usize) -> u64 {
    let mut times = vec![0usize; count];
    for node in cycles.iter().flat_map(|&cycle| members(cycle)) {
        times[node] += 1;
    }
    let mut removed = 0;
    while !cycles.is_empty() {
        let worst = (0..count).rev().max_by_key(|&node| times[node]);
        let worst = worst.expect("a cycle has members");
        removed |= 1 << worst;
        cycles.retain(|&cycle| {
            let broken = cycle >> worst & 1 == 1;
            if broken {
                members(cycle).for_each(|node| times[node] -= 1);
            }
            !broken
        });
    }
    removed
}
