// The triples of accepting paths of three tables, and the pairs of two, found by
// following arcs; and the accepting paths in the bytes of a result, led back to
// such triples. tests/cascade takes the pairs.
#![allow(dead_code)]

use crate::model::{self, Table};
use std::collections::HashMap;

/// Triples with so many arcs in all are compared where there are cycles.
pub const FEW: usize = 7;
/// More of them than this are not listed.
const MOST: usize = 3_000;

#[derive(Debug, PartialEq, Eq, PartialOrd, Ord, Clone)]
pub struct Triple {
    pub paths: [Vec<usize>; 3],
    pub input: Vec<u16>,
    pub output: Vec<u16>,
    pub cost: i64,
}

/// All triples, or those whose arcs are at most the budget where there is one;
/// none where they are too many to list.
pub struct Found {
    pub triples: Option<Vec<Triple>>,
    pub budget: Option<usize>,
}

/// An accepting path: its arcs, what it reads and writes, and its cost.
struct Way {
    arcs: Vec<usize>,
    input: Vec<u16>,
    output: Vec<u16>,
    cost: i64,
}

/// The accepting paths of a table of at most so many arcs that fit the word,
/// where one is given; none where there are too many.
fn ways(t: &Table, word: Option<&[u16]>, longest: usize) -> Option<Vec<Way>> {
    let leaving = t.leaving();
    let first = Way { arcs: vec![], input: vec![], output: vec![], cost: 0 };
    let (mut open, mut found, mut steps) = (vec![(t.start, first)], Vec::new(), 0);
    while let Some((state, way)) = open.pop() {
        steps += 1;
        if steps > 20 * MOST {
            return None;
        }
        for &i in leaving[state].iter().filter(|_| way.arcs.len() < longest) {
            let a = &t.arcs[i];
            // An arc for any symbol reads the next one of the word where no arc of its state names that, and may pass it on.
            let read = match word {
                Some(w) if a.input == 65_535 => match w.get(way.input.len()) {
                    Some(&symbol) if leaving[state].iter().all(|&k| t.arcs[k].input != symbol) => symbol,
                    _ => continue,
                },
                _ => a.input,
            };
            let wrote = if a.output == 65_535 { read } else { a.output };
            let mut next = Way {
                arcs: [&way.arcs[..], &[i]].concat(),
                input: way.input.clone(),
                output: way.output.clone(),
                cost: way.cost + a.weight,
            };
            next.input.extend(Some(read).filter(|&x| x != 0));
            next.output.extend(Some(wrote).filter(|&x| x != 0));
            if word.is_none_or(|w| w.starts_with(&next.input)) {
                open.push((a.target, next));
            }
        }
        if let (Some(weight), true) = (t.final_weight(state), word.is_none_or(|w| w == way.input)) {
            found.push(Way { cost: way.cost + weight, ..way });
        }
    }
    Some(found)
}

/// Whether some path comes back to a state.
fn cyclic(t: &Table) -> bool {
    let mut open: Vec<usize> = (0..t.states).collect();
    loop {
        let last = |s: &usize| !t.arcs.iter().any(|a| a.source == *s && open.contains(&a.target));
        match open.iter().position(last) {
            Some(i) => open.swap_remove(i),
            None => return !open.is_empty(),
        };
    }
}

pub fn triples(tables: &[Table; 3], string: Option<&[u16]>) -> Found {
    let budget = tables.iter().any(cyclic).then_some(FEW);
    Found { triples: listed(tables, string, budget.unwrap_or(usize::MAX)), budget }
}

/// Each left path, with each middle path that reads what it writes, with each
/// right path that fits what that one writes.
fn listed(tables: &[Table; 3], string: Option<&[u16]>, budget: usize) -> Option<Vec<Triple>> {
    let [a, b, c] = tables;
    let mut known: [HashMap<Vec<u16>, Vec<Way>>; 2] = Default::default();
    let mut found = Vec::new();
    for x in ways(a, string, budget)? {
        let [middle, right] = &mut known;
        if !middle.contains_key(&x.output) {
            middle.insert(x.output.clone(), ways(b, Some(&x.output), budget)?);
        }
        for y in &middle[&x.output] {
            if !right.contains_key(&y.output) {
                right.insert(y.output.clone(), ways(c, Some(&y.output), budget)?);
            }
            for z in &right[&y.output] {
                if x.arcs.len() + y.arcs.len() + z.arcs.len() > budget {
                    continue;
                }
                found.push(Triple {
                    paths: [x.arcs.clone(), y.arcs.clone(), z.arcs.clone()],
                    input: x.input.clone(),
                    output: z.output.clone(),
                    cost: x.cost + y.cost + z.cost,
                });
                if found.len() > MOST {
                    return None;
                }
            }
        }
    }
    Some(found)
}

/// The pairs of two tables and a string: each left path that fits the string,
/// with each right path that fits what that one then writes. A pair is a triple
/// whose third path is empty.
pub fn pairs(left: &Table, right: &Table, string: &[u16]) -> Found {
    let budget = (cyclic(left) || cyclic(right)).then_some(FEW);
    let most = budget.unwrap_or(usize::MAX);
    let listed = || {
        let (mut known, mut found) = (HashMap::new(), Vec::new());
        for x in ways(left, Some(string), most)? {
            if !known.contains_key(&x.output) {
                known.insert(x.output.clone(), ways(right, Some(&x.output), most)?);
            }
            for y in &known[&x.output] {
                if x.arcs.len() + y.arcs.len() > most {
                    continue;
                }
                let paths = [x.arcs.clone(), y.arcs.clone(), vec![]];
                found.push(Triple { paths, input: x.input.clone(), output: y.output.clone(), cost: x.cost + y.cost });
                if found.len() > MOST {
                    return None;
                }
            }
        }
        Some(found)
    };
    Found { triples: listed(), budget }
}

/// The accepting paths in some bytes, as triples by the arcs of the three
/// tables that each arc comes from; where there is a budget, those of at most
/// so many such arcs. More than are listed end the search, and None stands for
/// a search that takes too long.
pub fn in_bytes(bytes: &[u8], from: &[[Option<usize>; 3]], budget: Option<usize>) -> Option<Vec<Triple>> {
    let t = model::parse(bytes).expect("bytes that were handed on");
    let leaving = t.leaving();
    let nothing = Triple { paths: Default::default(), input: vec![], output: vec![], cost: 0 };
    let (mut open, mut found, mut steps) = (vec![(t.start, nothing)], Vec::new(), 0);
    while let Some((state, so_far)) = open.pop() {
        if found.len() > MOST {
            break;
        }
        steps += leaving[state].len();
        if steps > 100 * MOST {
            return None;
        }
        for &i in &leaving[state] {
            let (a, mut next) = (&t.arcs[i], so_far.clone());
            for (path, arc) in next.paths.iter_mut().zip(from[i]) {
                path.extend(arc);
            }
            next.input.extend(Some(a.input).filter(|&x| x != 0));
            next.output.extend(Some(a.output).filter(|&x| x != 0));
            next.cost += a.weight;
            if next.paths.iter().map(Vec::len).sum::<usize>() <= budget.unwrap_or(usize::MAX) {
                open.push((a.target, next));
            }
        }
        if let Some(weight) = t.final_weight(state) {
            found.push(Triple { cost: so_far.cost + weight, ..so_far });
        }
    }
    Some(found)
}

/// What is in one list and not in the other, each as often as it is there.
pub fn difference(paths: &[Triple], triples: &[Triple]) -> Option<String> {
    let (mut left, mut right) = (paths.to_vec(), triples.to_vec());
    left.sort();
    right.sort();
    if left == right {
        return None;
    }
    let at = (0..).find(|&i| left.get(i) != right.get(i))?;
    Some(format!("path {:?}, triple {:?}; {} and {} in all", left.get(at), right.get(at), left.len(), right.len()))
}
