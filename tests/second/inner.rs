// Checks within the model: the cases of the paper, and brute-force
// enumeration against count, path k, shortest path, trimming, the chain and
// the cascade.

use crate::cases::{self, Case};
use crate::model::*;
use std::collections::HashSet;

/// How often each check was carried through.
#[derive(Default, Debug)]
pub struct Done {
    pub tables: usize,
    pub paths: usize,
    pub cheapest: usize,
    pub below_zero: usize,
    pub cheapest_within: usize,
    pub trims: usize,
    pub pairs_finite: usize,
    pub pairs_endless: usize,
    pub cascades_finite: usize,
    pub cascades_endless: usize,
    pub skipped: usize,
}

type Check = Result<(), String>;

fn expect<A: PartialEq + std::fmt::Debug>(what: &str, got: A, wanted: A) -> Check {
    if got == wanted {
        return Ok(());
    }
    Err(format!("{what}: {got:?}, not {wanted:?}"))
}

/// The count by numbers of paths of each length, apart from trimming and
/// listing: None when infinitely many accept. A path of n arcs or more
/// repeats a state, and then one of n to 2n - 1 arcs accepts as well.
fn count_by_length(t: &Table) -> Option<u64> {
    let mut at = vec![0u64; t.states];
    at[t.start] = 1;
    let mut total = 0u64;
    for length in 0..2 * t.states {
        for (state, _) in &t.finals {
            if length >= t.states && at[*state] > 0 {
                return None;
            }
            total = total.saturating_add(at[*state]);
        }
        let mut next = vec![0u64; t.states];
        for a in &t.arcs {
            next[a.target] = next[a.target].saturating_add(at[a.source]);
        }
        at = next;
    }
    Some(total.min(99))
}

/// Whether a path passes some state twice with a lesser sum the second time.
fn ring_pays(t: &Table, path: &[u16]) -> bool {
    let (mut state, mut sum) = (t.start, 0);
    let mut met = vec![(state, sum)];
    for &i in path {
        let a = &t.arcs[i as usize];
        (state, sum) = (a.target, sum + a.weight);
        if met.iter().any(|&(s, before)| s == state && sum < before) {
            return true;
        }
        met.push((state, sum));
    }
    false
}

/// The cheapest by going through paths. A ring below zero on an accepting
/// path has a simple one, of at most n arcs, with fewer than n arcs before it
/// and behind; where there is none, the cheapest has fewer arcs than there
/// are states.
fn cheapest_by_paths(t: &Table, done: &mut Done) -> Check {
    let mut budget = 20_000;
    let Some(long) = all_paths(t, None, 3 * t.states, &mut budget) else {
        done.skipped += 1;
        return cheapest_within(t, done);
    };
    let found = cheapest(t);
    let pays = long.iter().any(|p| ring_pays(t, p));
    let wanted = if long.is_empty() { Err(16) } else if pays { Err(19) } else { best(t, long) };
    expect("cheapest", found, wanted)?;
    done.cheapest += 1;
    done.below_zero += usize::from(pays);
    Ok(())
}

fn best(t: &Table, paths: Vec<Vec<u16>>) -> Result<Vec<u16>, u32> {
    paths.into_iter().min_by_key(|p| (path_cost(t, p), path_writes(t, p).len(), p.len(), p.clone())).ok_or(16)
}

/// Where so many paths are too many: those of fewer arcs than states, with
/// which only an answer other than 19 is compared.
fn cheapest_within(t: &Table, done: &mut Done) -> Check {
    let mut budget = 20_000;
    if let Some(all) = all_paths(t, None, t.states - 1, &mut budget) {
        let found = cheapest(t);
        if found != Err(19) {
            expect("cheapest", found, best(t, all))?;
            done.cheapest_within += 1;
        }
    }
    Ok(())
}

/// Costs to come are those of the cheapest from each state in turn, and 19 is
/// given where it is from one of them. Of small tables, since that takes long.
fn costs_from_each_start(t: &Table) -> Check {
    if t.states > 8 {
        return Ok(());
    }
    let from = |s: usize| cheapest(&Table { start: s, ..t.clone() });
    let all: Vec<Result<Vec<u16>, u32>> = (0..t.states).map(from).collect();
    let falls = all.contains(&Err(19));
    let cost = |s: usize| all[s].as_ref().ok().map(|p| path_cost(&Table { start: s, ..t.clone() }, p));
    let wanted = if falls { Err(19) } else { Ok((0..t.states).map(cost).collect()) };
    expect("costs to come", costs_back(t), wanted)
}

fn table(t: &Table, done: &mut Done) -> Check {
    let bytes = bytes_of(t);
    expect("parsing what was written", parse(&bytes).as_ref(), Ok(t))?;
    let counted = count(&bytes);
    match count_by_length(t) {
        None => expect("count", counted, (14, 0))?,
        Some(n) => expect("count", counted, (0, n as u32))?,
    }
    done.tables += 1;

    // Path k by enumerating all paths; they come in path order.
    let mut budget = 20_000;
    if counted.0 == 0 {
        if let Some(all) = all_paths(t, None, t.states - 1, &mut budget) {
            expect("paths in order", all.windows(2).all(|x| x[0] < x[1]), true)?;
            expect("number of paths", all.len().min(99) as u32, counted.1)?;
            for k in 0..=(all.len().min(99) as u32) {
                let (mut arcs, mut labels) = (vec![9; PATH_ARCS], vec![9; PATH_ARCS]);
                let (r, told) = nth(&bytes, k, &mut arcs, &mut labels);
                if k == counted.1 {
                    expect("k at the count", (r, told), (15, (0, 0, 0)))?;
                    continue;
                }
                let path = &all[k as usize];
                expect("path k", &arcs[..told.1 as usize], &path[..])?;
                expect("cost of path k", told.0, path_cost(t, path))?;
                expect("labels of path k", &labels[..told.2 as usize], &path_writes(t, path)[..])?;
            }
            done.paths += 1;
        }
    }
    cheapest_by_paths(t, done)?;
    costs_from_each_start(t)?;
    // Each live arc lies on an accepting path of fewer than 2n arcs.
    let mut budget = 20_000;
    if let Some(all) = all_paths(t, None, 2 * t.states, &mut budget) {
        let used: HashSet<usize> = all.iter().flatten().map(|&i| i as usize).collect();
        let (small, kept) = trimmed(t);
        let mut wanted: Vec<usize> = used.into_iter().collect();
        wanted.sort();
        expect("kept arcs", kept, wanted)?;
        expect("trimming twice", &trimmed(&small).0, &small)?;
        let ends: HashSet<usize> = all.iter().map(|p| path_end(t, p)).collect();
        expect("kept finals", small.finals.len(), ends.len())?;
        done.trims += 1;
    }
    Ok(())
}

/// The pair of paths a lattice path leads to.
fn pair(path: &[u16], lattice: &[u16], joined: &[u16]) -> (Vec<u16>, Vec<u16>) {
    let (mut l, mut r) = (Vec::new(), Vec::new());
    for &i in path {
        let arc = lattice[i as usize] as usize;
        for (side, origin) in [(&mut l, joined[2 * arc]), (&mut r, joined[2 * arc + 1])] {
            if origin != STILL {
                side.push(origin);
            }
        }
    }
    (l, r)
}

/// The chain against pairs of paths of the two tables.
fn chain(case: &Case, left: &Table, right: &Table, done: &mut Done) -> Check {
    let mut joined = vec![0; TABLE_BYTES];
    let mut origins = vec![0; JOIN_ORIGINS];
    let mut work = vec![0; WORK_STATES];
    let mut lattice = vec![0; TABLE_BYTES];
    let mut from = vec![0; LATTICE_ORIGINS];
    let (r, n) = compose(&case.left, &case.right, &mut joined, &mut origins, &mut work);
    if let Some(wanted) = case.join_refusal {
        expect("compose", r, wanted)?;
    }
    if r != 0 {
        return Ok(());
    }
    let joined_table = parse(&joined[..n as usize]).map_err(|r| format!("joined table: {r}"))?;
    let plain = |t: &Table| !t.arcs.iter().any(|a| a.input == ANY || a.output == ANY);
    expect("no 65,535 in a joined table", plain(&joined_table), true)?;
    table(&joined_table, done)?;
    let (r, n) = apply(&case.code, &joined[..n as usize], &mut lattice, &mut from, &mut work);
    if r != 0 {
        return Ok(());
    }
    let lattice = &lattice[..n as usize];
    let t = parse(lattice).map_err(|r| format!("lattice: {r}"))?;
    expect("no 65,535 in a lattice", plain(&t), true)?;
    table(&t, done)?;
    let (refused, counted) = count(lattice);
    // Finitely many pairs: none has more than `states` arcs on a side.
    // Infinitely many: one has more on a side, and at most four times that.
    let mut budget = 60_000;
    let most = t.states;
    let Some(all) = all_pairs(left, right, &case.code, 4 * most, &mut budget) else {
        done.skipped += 1;
        return Ok(());
    };
    let long = all.iter().any(|p| p.0.len() > most || p.1.len() > most);
    expect("endless", refused, if long { 14 } else { 0 })?;
    if long {
        done.pairs_endless += 1;
        return Ok(());
    }
    expect("number of pairs", all.len().min(99) as u32, counted)?;
    let all: HashSet<_> = all.into_iter().collect();
    let mut met = HashSet::new();
    for k in 0..counted {
        let (mut arcs, mut labels) = (vec![0; PATH_ARCS], vec![0; PATH_ARCS]);
        let (_, told) = nth(lattice, k, &mut arcs, &mut labels);
        let p = pair(&arcs[..told.1 as usize], &from, &origins);
        expect("reading leads to a pair", all.contains(&p), true)?;
        let cost = path_cost(left, &p.0) + path_cost(right, &p.1);
        expect("cost of the pair", told.0, cost)?;
        let output = path_passes(right, &p.1, &path_writes(left, &p.0));
        expect("output", &labels[..told.2 as usize], &output[..])?;
        expect("pair met once", met.insert(p), true)?;
    }
    done.pairs_finite += 1;
    Ok(())
}

/// The pair of paths that a path of a cascade leads to.
fn pair_of(path: &[u16], origins: &[u16]) -> (Vec<u16>, Vec<u16>) {
    let side = |x: usize| path.iter().map(|&i| origins[2 * i as usize + x]).filter(|&o| o != STILL).collect();
    (side(0), side(1))
}

/// The cascade against pairs of paths, where the left table may have arcs for any symbol, and against the first chain where that is not refused.
fn cascade_pairs(case: &Case, left: &Table, right: &Table, done: &mut Done) -> Check {
    let (mut bytes, mut origins) = (vec![0; TABLE_BYTES], vec![0; JOIN_ORIGINS]);
    let (r, n) = cascade(&case.left, &case.right, &case.code, &mut bytes, &mut origins, &mut vec![0; WORK_STATES]);
    if r != 0 {
        return Ok(());
    }
    let bytes = &bytes[..n as usize];
    let t = parse(bytes).map_err(|r| format!("cascade: {r}"))?;
    let (refused, counted) = count(bytes);
    expect("the one call", cascade_readings(&case.left, &case.right, &case.code), (refused, counted))?;
    let first = readings(&case.left, &case.right, &case.code);
    if first.0 == 0 || first.0 == 14 {
        expect("the first chain's count", first, (refused, counted))?;
    }
    // As for the chain: finitely many pairs have at most as many arcs on a side as there are states.
    let mut budget = 60_000;
    let most = t.states;
    let Some(all) = all_pairs(left, right, &case.code, 4 * most, &mut budget) else {
        done.skipped += 1;
        return Ok(());
    };
    let long = all.iter().any(|p| p.0.len() > most || p.1.len() > most);
    expect("endless cascade", refused, if long { 14 } else { 0 })?;
    if long {
        done.cascades_endless += 1;
        return Ok(());
    }
    expect("number of pairs of a cascade", all.len().min(99) as u32, counted)?;
    let costs = all.iter().map(|p| path_cost(left, &p.0) + path_cost(right, &p.1));
    expect("least cost of a cascade", cheapest(&t).ok().map(|p| path_cost(&t, &p)), costs.min())?;
    let all: HashSet<_> = all.into_iter().collect();
    let mut met = HashSet::new();
    for k in 0..counted {
        let (mut arcs, mut labels) = (vec![0; PATH_ARCS], vec![0; PATH_ARCS]);
        let (_, told) = nth(bytes, k, &mut arcs, &mut labels);
        let p = pair_of(&arcs[..told.1 as usize], &origins);
        expect("path of a cascade leads to a pair", all.contains(&p), true)?;
        expect("cost of its pair", told.0, path_cost(left, &p.0) + path_cost(right, &p.1))?;
        let output = path_passes(right, &p.1, &path_passes(left, &p.0, &case.code));
        expect("output of its pair", &labels[..told.2 as usize], &output[..])?;
        expect("pair of a cascade met once", met.insert(p), true)?;
    }
    done.cascades_finite += 1;
    Ok(())
}

pub fn case(case: &Case, done: &mut Done) -> Check {
    if let Some(r) = case.left_refusal {
        expect("refusal of the left table", refusal(&case.left), r)?;
    }
    let (Ok(left), Ok(right)) = (parse(&case.left), parse(&case.right)) else {
        let any = parse(&case.left).is_ok_and(|t| t.arcs.iter().any(|a| a.input == ANY));
        let first = [refusal(&case.left), if any { 18 } else { 0 }, refusal(&case.right)].into_iter().find(|&r| r != 0);
        let (mut a, mut b, mut c) = (vec![], vec![], vec![]);
        let answer = compose(&case.left, &case.right, &mut a, &mut b, &mut c);
        return expect("compose", Some(answer.0), first);
    };
    expect("writing what was parsed", bytes_of(&left), case.left.clone())?;
    table(&left, done)?;
    table(&right, done)?;
    chain(case, &left, &right, done)?;
    cascade_pairs(case, &left, &right, done)
}

/// The cases the paper gives with their answers.
pub fn paper() -> Check {
    let whole = |l: &cases::Draft, r: &cases::Draft, code: &[u16]| {
        let (l, r) = (parse(&l.bytes()).unwrap(), parse(&r.bytes()).unwrap());
        let joined = join(&l, &r).map_err(|r| format!("compose: {r}"))?;
        let (t, _) = lattice(code, &joined.table).map_err(|r| format!("apply: {r}"))?;
        Ok::<_, String>((joined.table, trimmed(&t).0))
    };
    let refuses = |l: cases::Draft, r: cases::Draft| {
        join(&parse(&l.bytes()).unwrap(), &parse(&r.bytes()).unwrap()).err().unwrap_or(0)
    };
    expect("no bytes", refusal(&[]), 2)?;
    expect("three bytes", refusal(&[8, 0, 1]), 1)?;
    expect("weight", refusal(&cases::one_arc(1, 2, 1_000_000, 0).bytes()), 0)?;
    expect("weight", refusal(&cases::one_arc(1, 2, 1_000_001, 0).bytes()), 8)?;
    expect("weight", refusal(&cases::one_arc(1, 2, -1_000_000, 0).bytes()), 0)?;
    expect("weight", refusal(&cases::one_arc(1, 2, -1_000_001, 0).bytes()), 8)?;
    let sum = |w, v| refuses(cases::one_arc(1, 2, w, 0), cases::one_arc(2, 3, v, 0));
    expect("600,000 + 400,000", sum(600_000, 400_000), 0)?;
    expect("600,000 + 400,001", sum(600_000, 400_001), 13)?;
    expect("-600,000 - 400,000", sum(-600_000, -400_000), 0)?;
    expect("-600,000 - 400,001", sum(-600_000, -400_001), 13)?;
    // Two's complement, byte by byte: the weight is the last four.
    for (weight, four) in [(0, [0, 0, 0, 0]), (-1, [255; 4]), (-1_000_000, [0xC0, 0xBD, 0xF0, 0xFF]), (1_000_000, [0x40, 0x42, 0x0F, 0])] {
        let bytes = bytes_of(&Table { arcs: vec![Arc { source: 0, input: 1, output: 2, target: 0, weight }], states: 1, start: 0, finals: vec![] });
        expect("a weight's bytes", &bytes[bytes.len() - 4..], &four[..])?;
        expect("a weight read", parse(&bytes).map(|t| t.arcs[0].weight), Ok(weight))?;
    }
    for (n, wanted) in [(98, 98), (99, 99), (100, 99)] {
        expect("like arcs", count(&cases::like_arcs(n, 1, 2, 0).bytes()), (0, wanted))?;
    }
    let (t, _) = whole(&cases::line(512, 1, 0, 0), &cases::loops(1, 0, 7, 0), &[])?;
    expect("line of 512", (t.states, t.arcs.len()), (1_024, 1_535))?;
    expect("line of 513", refuses(cases::line(513, 1, 0, 0), cases::loops(1, 0, 7, 0)), 11)?;
    let (t, _) = whole(&cases::loops(48, 1, 2, 0), &cases::loops(64, 2, 3, 0), &[])?;
    expect("48 and 64 loops", t.arcs.len(), 3_072)?;
    expect("56 and 55 loops", refuses(cases::loops(56, 1, 2, 0), cases::loops(55, 2, 3, 0)), 12)?;
    for (w, refused) in [(2, 0), (0, 0), (-1, 19)] {
        let bytes = cases::loops(1, 0, 7, w).bytes();
        expect("loop 0:7", count(&bytes), (14, 0))?;
        let (mut a, mut b) = (vec![0; PATH_ARCS], vec![0; PATH_ARCS]);
        expect("loop 0:7", shortest(&bytes, &mut a, &mut b), (refused, (0, 0, 0)))?;
        expect("loop 0:7", distance(&bytes, &mut vec![0; COST_CELLS]), refused)?;
    }
    let twice = cases::like_arcs(2, 1, 2, 5);
    let (t, _) = lattice(&[1], &parse(&twice.bytes()).unwrap()).map_err(|r| r.to_string())?;
    let costs: Vec<i64> = first_paths(&t, 99).iter().map(|p| path_cost(&t, p)).collect();
    expect("arc twice", costs, vec![5, 5])?;
    let (l, r) = cases::worked();
    let (t, small) = whole(&l, &r, &[1, 3])?;
    let size = |t: &Table| (t.states, t.arcs.len(), t.finals.len(), bytes_of(t).len());
    expect("worked pair, joined", size(&t), (5, 4, 1, 86))?;
    expect("worked pair, lattice", size(&small), (4, 3, 1, 70))?;
    let text = listing(&l.bytes(), &r.bytes(), &[1, 0, 3, 0]);
    expect("listing", text.as_str(), "readings 1\n0 11 4 5\n")?;
    // String first, the lattice of the left table has 3 states and 2 arcs.
    let (l, r) = (parse(&l.bytes()).unwrap(), parse(&r.bytes()).unwrap());
    let made = cascaded(&l, &r, &[1, 3]).map_err(|r| format!("cascade: {r}"))?;
    expect("worked pair, cascade", size(&made.table), (5, 4, 1, 86))?;
    expect("worked pair, its origins", made.origins, vec![(0, 0), (1, STILL), (STILL, 1), (STILL, 1)])
}
