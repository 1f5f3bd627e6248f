//! Largest plans: who folds onto whom, by Hopcroft and Karp.

use crate::class::Class;
use crate::slots::Slots;
use std::collections::VecDeque;

/// For each abandoned group a row of bits: which owned groups of its class have no slot in common
/// with it.
pub struct Graph {
    rows: Vec<Vec<u64>>,
    owned: usize,
}

impl Graph {
    pub fn new(abandoned: &[(Class, Slots)], owned: &[(Class, Slots)]) -> Graph {
        let row = |(class, a): &(Class, Slots)| {
            let word = |chunk: &[(Class, Slots)]| {
                let bit = |(j, (other, b)): (usize, &(Class, Slots))| {
                    u64::from(class == other && a.is_disjoint(b)) << j
                };
                chunk.iter().enumerate().map(bit).sum()
            };
            owned.chunks(64).map(word).collect()
        };
        Graph {
            rows: abandoned.iter().map(row).collect(),
            owned: owned.len(),
        }
    }

    pub fn has(&self, a: usize, b: usize) -> bool {
        self.rows[a][b / 64] >> (b % 64) & 1 == 1
    }

    /// The owned groups that fit this abandoned one, ascending.
    fn partners(&self, a: usize) -> impl Iterator<Item = usize> + '_ {
        self.rows[a].iter().enumerate().flat_map(|(w, word)| {
            let mut rest = *word;
            std::iter::from_fn(move || {
                let bit = (rest != 0).then(|| rest.trailing_zeros() as usize)?;
                rest &= rest - 1;
                Some(w * 64 + bit)
            })
        })
    }
}

/// Who has whom, from both sides.
pub struct Matching {
    pub of_abandoned: Vec<Option<usize>>,
    of_owned: Vec<Option<usize>>,
}

const FAR: usize = usize::MAX;

/// A largest plan. Each phase finds shortest alternating paths that share no group, until there is
/// none.
pub fn largest(graph: &Graph) -> Matching {
    let mut matching = Matching {
        of_abandoned: vec![None; graph.rows.len()],
        of_owned: vec![None; graph.owned],
    };
    while let Some(mut depths) = layers(graph, &matching) {
        for a in 0..graph.rows.len() {
            if matching.of_abandoned[a].is_none() {
                extend(graph, &mut matching, &mut depths, a);
            }
        }
    }
    matching
}

/// How far each abandoned group is from one without a partner; none where no path leads to a free
/// owned group.
fn layers(graph: &Graph, matching: &Matching) -> Option<Vec<usize>> {
    let mut depths = vec![FAR; graph.rows.len()];
    let mut seen = vec![false; graph.owned];
    let mut queue = VecDeque::new();
    for (a, partner) in matching.of_abandoned.iter().enumerate() {
        if partner.is_none() {
            depths[a] = 0;
            queue.push_back(a);
        }
    }
    let mut found = false;
    while let Some(a) = queue.pop_front() {
        for b in graph.partners(a) {
            if std::mem::replace(&mut seen[b], true) {
                continue;
            }
            match matching.of_owned[b] {
                None => found = true,
                Some(next) if depths[next] == FAR => {
                    depths[next] = depths[a] + 1;
                    queue.push_back(next);
                }
                Some(_) => {}
            }
        }
    }
    found.then_some(depths)
}

/// Gives `a` a partner along a path that goes down the layers, if there is one, and turns the
/// path's pairs round.
fn extend(graph: &Graph, matching: &mut Matching, depths: &mut [usize], a: usize) -> bool {
    let depth = depths[a];
    // Whoever was tried in this phase is not tried again.
    depths[a] = FAR;
    for b in graph.partners(a) {
        let free = match matching.of_owned[b] {
            None => true,
            Some(next) => depths[next] == depth + 1 && extend(graph, matching, depths, next),
        };
        if free {
            matching.of_abandoned[a] = Some(b);
            matching.of_owned[b] = Some(a);
            return true;
        }
    }
    false
}

/// Checks that the pairs are a plan, whoever found them.
pub fn matching_of(graph: &Graph, pairs: &[(usize, usize)]) -> Option<Matching> {
    let mut matching = Matching {
        of_abandoned: vec![None; graph.rows.len()],
        of_owned: vec![None; graph.owned],
    };
    for (a, b) in pairs {
        let twice = matching.of_abandoned[*a].is_some() || matching.of_owned[*b].is_some();
        if twice || !graph.has(*a, *b) {
            return None;
        }
        matching.of_abandoned[*a] = Some(*b);
        matching.of_owned[*b] = Some(*a);
    }
    Some(matching)
}

/// The short set of a plan and its partners: what alternating paths reach from the abandoned groups
/// that have no partner. None where such a path ends at a free owned group: the plan is no largest
/// one.
pub fn short(graph: &Graph, matching: &Matching) -> Option<(Vec<usize>, Vec<usize>)> {
    let mut short: Vec<bool> = matching.of_abandoned.iter().map(Option::is_none).collect();
    let mut partners = vec![false; graph.owned];
    let mut stack: Vec<usize> = (0..short.len()).filter(|a| short[*a]).collect();
    while let Some(a) = stack.pop() {
        for b in graph.partners(a) {
            if std::mem::replace(&mut partners[b], true) {
                continue;
            }
            let next = matching.of_owned[b]?;
            if !std::mem::replace(&mut short[next], true) {
                stack.push(next);
            }
        }
    }
    let members = |set: &[bool]| (0..set.len()).filter(|i| set[*i]).collect();
    Some((members(&short), members(&partners)))
}
