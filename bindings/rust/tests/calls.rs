//! Round trips, refusals, lent buffers one cell too short, and origins.
use forthwn::{ANY, Arc, Cost, Final, Head, Path, Refusal, Table, Weight, cascade_list, cascade_readings, lent, list, readings};

const LEFT: &[u8] = include_bytes!("../../../examples/keys/left.tab");
const RIGHT: &[u8] = include_bytes!("../../../examples/keys/right.tab");
const CODE: &[u8] = include_bytes!("../../../examples/keys/code.lab");

fn arc(source: u16, input: u16, output: u16, target: u16, weight: Weight) -> Arc {
    Arc { source, input, output, target, weight }
}

fn end(state: u16, weight: Weight) -> Final {
    Final { state, weight }
}

/// Numbers below a bound, the same in each run.
struct Dice(u64);

impl Dice {
    fn below(&mut self, bound: u64) -> u64 {
        self.0 = self.0.wrapping_mul(6364136223846793005).wrapping_add(1442695040888963407);
        (self.0 >> 33) % bound
    }
}

/// A table of up to 40 states whose arcs may lead anywhere.
fn random_table(dice: &mut Dice) -> Table {
    let states = 1 + dice.below(40);
    let near_an_end = |s: u64| (1_000_000 - s as Weight) * if s % 2 == 0 { 1 } else { -1 };
    let finals: Vec<Final> = (0..states).filter(|_| dice.below(3) == 0).map(|s| end(s as u16, near_an_end(s))).collect();
    let mut arcs: Vec<Arc> = (0..dice.below(90))
        .map(|_| {
            arc(
                dice.below(states) as u16,
                dice.below(4) as u16,
                65_534,
                dice.below(states) as u16,
                dice.below(2_000_001) as Weight - 1_000_000,
            )
        })
        .collect();
    arcs.sort_by_key(|x| x.source);
    Table::new(states as u32, dice.below(states) as u32, &finals, &arcs).expect("a table")
}

#[test]
fn words_are_those_of_the_file() {
    let said: Vec<(u32, &str, &str)> = Refusal::ALL.iter().map(|x| (x.number(), x.name(), x.words())).collect();
    let file = include_str!("../../refusals.txt").lines().skip(1).map(|line| {
        let mut parts = line.split('\t');
        let mut part = || parts.next().expect("three parts");
        (part().parse().expect("a number"), part(), part())
    });
    assert_eq!(said, file.collect::<Vec<_>>());
}

#[test]
fn lengths_are_those_of_the_header() {
    let header = include_str!("../../c/forthwn.h");
    for (name, number) in [
        ("TABLE_LEN", lent::TABLE),
        ("ORIGINS_LEN", lent::ORIGINS),
        ("LATTICE_ORIGINS_LEN", lent::LATTICE_ORIGINS),
        ("STATES_LEN", lent::STATES),
        ("PATH_LEN", lent::PATH),
        ("FINALS_LEN", lent::FINALS),
        ("FIELDS_LEN", lent::FIELDS),
        ("WEIGHTS_LEN", lent::WEIGHTS),
        ("TEXT_LEN", lent::TEXT),
        ("STACK", lent::STACK),
        ("MANY", forthwn::MANY as usize),
        ("ANY", ANY as usize),
    ] {
        let line = format!(" FORTHWN_{name} = {number}");
        let behind = header.split(&line).nth(1).and_then(|x| x.chars().next());
        assert!(behind.is_some_and(|x| !x.is_ascii_digit()), "the header says no {line}");
    }
}

#[test]
fn tables_go_there_and_back() {
    let mut dice = Dice(11);
    for _ in 0..200 {
        let table = random_table(&mut dice);
        let again = Table::read(&table.to_bytes()).expect("its bytes");
        assert_eq!(again, table);
        let head = table.head();
        assert_eq!(Table::new(head.states, head.start, table.finals(), table.arcs()).expect("its numbers"), table);
    }
}

#[test]
fn trimming_keeps_what_accepts() {
    let mut dice = Dice(12);
    for _ in 0..200 {
        let table = random_table(&mut dice);
        let trimmed = table.trim();
        assert_eq!(trimmed.table.trim().table, trimmed.table);
        assert_eq!(trimmed.table.count(), table.count());
        assert_eq!(trimmed.table.shortest().map(|x| (x.cost, x.labels)), table.shortest().map(|x| (x.cost, x.labels)));
        for (kept, &was) in trimmed.table.arcs().iter().zip(&trimmed.origins) {
            let was = table.arcs()[usize::from(was)];
            assert_eq!((kept.input, kept.output, kept.weight), (was.input, was.output, was.weight));
        }
    }
}

#[test]
fn bad_numbers_are_refused() {
    let table = |states, start, finals: &[Final], arcs: &[Arc]| Table::new(states, start, finals, arcs).map(|x| x.head());
    assert_eq!(table(1, 0, &[], &[]), Ok(Head { states: 1, arcs: 0, finals: 0, start: 0 }));
    assert_eq!(table(0, 0, &[], &[]), Err(Refusal::BAD_HEAD));
    assert_eq!(table(65_537, 0, &[], &[]), Err(Refusal::BAD_HEAD));
    assert_eq!(table(1, 1, &[], &[]), Err(Refusal::BAD_HEAD));
    assert_eq!(table(1, 0, &[end(1, 0)], &[]), Err(Refusal::BAD_STATE));
    assert_eq!(table(2, 0, &[end(1, 0), end(0, 0)], &[]), Err(Refusal::BAD_ORDER));
    assert_eq!(table(1, 0, &[], &[arc(0, 1, 65_535, 0, 0)]), Err(Refusal::BAD_LABEL));
    assert_eq!(table(1, 0, &[], &[arc(0, 0, 65_535, 0, 0)]), Err(Refusal::BAD_LABEL));
    for weight in [1_000_001, -1_000_001, Weight::MAX, Weight::MIN] {
        assert_eq!(table(1, 0, &[], &[arc(0, 1, 1, 0, weight)]), Err(Refusal::BAD_WEIGHT));
        assert_eq!(table(1, 0, &[end(0, weight)], &[]), Err(Refusal::BAD_WEIGHT));
    }
    for weight in [1_000_000, 0, -1, -1_000_000] {
        assert!(table(1, 0, &[end(0, weight)], &[arc(0, 1, 1, 0, weight)]).is_ok());
    }
}

#[test]
fn any_symbol() -> Result<(), Refusal> {
    let copy = Table::new(1, 0, &[end(0, 0)], &[arc(0, ANY, ANY, 0, 1)])?;
    let lattice = copy.apply(&[7, 3])?.table;
    assert_eq!(lattice.shortest()?.labels, [7, 3]);
    assert_eq!(lattice.arcs().iter().map(|a| (a.input, a.output)).collect::<Vec<_>>(), [(7, 7), (3, 3)]);
    let turn = Table::new(1, 0, &[end(0, 0)], &[arc(0, 7, 3, 0, 0)])?;
    assert_eq!(turn.compose(&copy)?.table.apply(&[7])?.table.shortest()?.labels, [3]);
    assert_eq!(copy.compose(&turn).map(|x| x.table), Err(Refusal::ANY_INPUT));
    // A symbol that its state names is not read by the arc for any symbol.
    let rest = Table::new(2, 0, &[end(1, 0)], &[arc(0, 6, 6, 1, 4), arc(0, ANY, ANY, 1, 1)])?;
    for (symbol, cost) in [(6, 4), (7, 1)] {
        let lattice = rest.apply(&[symbol])?.table;
        assert_eq!((lattice.head().arcs, lattice.shortest()?.cost), (1, cost));
    }
    Ok(())
}

#[test]
fn bad_bytes_are_refused() {
    let read = |bytes: &[u8]| Table::read(bytes).map(|x| x.head());
    assert_eq!(read(b""), Err(Refusal::BAD_RECORDS));
    assert_eq!(read(&LEFT[..3]), Err(Refusal::CUT_SHORT));
    assert_eq!(Table::try_from(&LEFT[..LEFT.len() - 16]), Err(Refusal::BAD_NUMBER));
    let mut heavy = LEFT.to_vec();
    *heavy.last_mut().expect("a byte") = 1;
    assert_eq!(read(&heavy), Err(Refusal::BAD_WEIGHT));
    let error: Box<dyn std::error::Error> = Refusal::BAD_WEIGHT.into();
    assert_eq!(error.to_string(), "refused 8: a weight below -1000000 or above 1000000");
}

#[test]
fn a_reading_leads_to_its_pair() {
    let (left, right) = (Table::read(LEFT).expect("left"), Table::read(RIGHT).expect("right"));
    let composed = left.compose(&right).expect("composition");
    let lattice = composed.table.apply(&[7, 3]).expect("lattice");
    let cost = |table: &Table, arcs: &[u16]| arcs.iter().map(|&x| Cost::from(table.arcs()[usize::from(x)].weight)).sum::<Cost>();
    let mut said = Vec::new();
    for path in lattice.table.paths().expect("paths") {
        let (l, r) = composed.pair(&lattice, &path);
        assert_eq!(cost(&left, &l) + cost(&right, &r), path.cost);
        assert_eq!(l.iter().map(|&x| left.arcs()[usize::from(x)].input).filter(|&x| x != 0).collect::<Vec<_>>(), [7, 3]);
        assert_eq!(r.iter().map(|&x| right.arcs()[usize::from(x)].output).filter(|&x| x != 0).collect::<Vec<_>>(), path.labels);
        said.push((path.cost, path.labels));
    }
    assert_eq!(said, [(3, vec![20, 22, 30]), (8, vec![20, 21])]);
    assert_eq!(readings(LEFT, RIGHT, &[7, 3]), Ok(2));
    assert_eq!(list(LEFT, RIGHT, CODE).text, "readings 2\n0 3 20 22 30\n1 8 20 21\n");
}

#[test]
fn a_path_of_a_cascade_leads_to_its_pair() -> Result<(), Refusal> {
    let (left, right) = (Table::read(LEFT)?, Table::read(RIGHT)?);
    let cascade = left.cascade(&right, &[7, 3])?;
    let composed = left.compose(&right)?;
    let lattice = composed.table.apply(&[7, 3])?;
    let mut chained: Vec<_> = lattice.table.paths()?.map(|path| (composed.pair(&lattice, &path), path.cost, path.labels)).collect();
    let mut cascaded: Vec<_> = cascade.table.paths()?.map(|path| (cascade.pair(&path), path.cost, path.labels)).collect();
    chained.sort();
    cascaded.sort();
    assert_eq!(cascaded, chained);
    assert_eq!(cascade.table.shortest()?.cost, 3);
    assert_eq!(cascade_readings(LEFT, RIGHT, &[7, 3]), Ok(2));
    assert_eq!(cascade_list(LEFT, RIGHT, CODE).text, list(LEFT, RIGHT, CODE).text);
    // The left table may have arcs for any symbol, which composing refuses.
    let any = Table::new(1, 0, &[end(0, 0)], &[arc(0, ANY, ANY, 0, 1)])?;
    assert_eq!(any.compose(&right).map(|x| x.table), Err(Refusal::ANY_INPUT));
    assert_eq!(any.cascade(&any, &[7, 3])?.table.shortest()?.labels, [7, 3]);
    Ok(())
}

#[test]
fn refusals_of_the_cascade_come_in_their_order() {
    let any = Table::new(1, 0, &[end(0, 0)], &[arc(0, ANY, ANY, 0, 1)]).expect("a table");
    assert_eq!(cascade_readings(b"", &LEFT[..3], &[0]), Err(Refusal::BAD_RECORDS));
    assert_eq!(cascade_readings(&any, &RIGHT[..3], &[0]), Err(Refusal::CUT_SHORT));
    assert_eq!(cascade_readings(&any, RIGHT, &[0]), Err(Refusal::BAD_CODE));
    let ring = Table::new(1, 0, &[end(0, 0)], &[arc(0, 0, 7, 0, 2)]).expect("a table");
    assert_eq!(cascade_readings(&ring, &any, &[]), Err(Refusal::ENDLESS));
    assert_eq!(cascade_list(&ring, &any, b"").text, "readings endless\n");
    assert_eq!(cascade_list(&any, RIGHT, b"\x07").said, Some(Refusal::BAD_CODE));
    let heavy = |weight| Table::new(1, 0, &[end(0, weight)], &[]).expect("a table");
    assert_eq!(heavy(600_000).cascade(&heavy(400_001), &[]).map(|_| ()), Err(Refusal::TOO_HEAVY));
    let mut b = sevens();
    let wide = Table::new(1, 0, &[end(0, 0)], &vec![arc(0, 7, 7, 0, 0); 56]).expect("a table");
    let short = lent::cascade(wide.as_bytes(), wide.as_bytes(), &[7], &mut b.table, &mut b.origins[1..], &mut b.states);
    assert_eq!(short.map(|_| ()), Err(Refusal::SHORT_BUFFER));
    let bad = lent::cascade(wide.as_bytes(), wide.as_bytes(), &[0], &mut b.table, &mut b.origins[1..], &mut b.states);
    assert_eq!(bad.map(|_| ()), Err(Refusal::BAD_CODE));
    assert!(b.table.iter().all(|&x| x == 7) && b.origins.iter().all(|&x| x == 7) && b.states.iter().all(|&x| x == 7));
    let full = lent::cascade(wide.as_bytes(), wide.as_bytes(), &[7], &mut b.table, &mut b.origins, &mut b.states);
    assert_eq!(full.map(|_| ()), Err(Refusal::TOO_MANY_ARCS));
    assert!(b.table.iter().all(|&x| x == 0) && b.origins.iter().all(|&x| x == 0) && b.states.iter().all(|&x| x == 0));
    let mut text = vec![7; lent::TEXT];
    assert_eq!(lent::cascade_list(LEFT, RIGHT, CODE, &mut text[1..]).map(|_| ()), Err(Refusal::SHORT_BUFFER));
    assert!(text.iter().all(|&x| x == 7));
}

#[test]
fn refusals_of_the_chain_come_in_their_order() {
    assert_eq!(readings(b"", &LEFT[..3], &[0]), Err(Refusal::BAD_RECORDS));
    assert_eq!(readings(LEFT, &RIGHT[..3], &[0]), Err(Refusal::CUT_SHORT));
    assert_eq!(readings(LEFT, RIGHT, &[0]), Err(Refusal::BAD_CODE));
    assert_eq!(readings(LEFT, RIGHT, &[7; 65]), Err(Refusal::BAD_CODE));
    let ring = Table::new(1, 0, &[end(0, 0)], &[arc(0, 0, 7, 0, 2)]).expect("a table");
    let one = Table::new(1, 0, &[end(0, 0)], &[arc(0, 7, 7, 0, 0)]).expect("a table");
    assert_eq!(readings(&ring, &one, &[]), Err(Refusal::ENDLESS));
    assert_eq!(list(&ring, &one, b"").text, "readings endless\n");
    assert_eq!(ring.shortest(), Ok(Path { cost: 0, arcs: vec![], labels: vec![] }));
    assert_eq!(Table::new(1, 0, &[], &[]).expect("a table").shortest(), Err(Refusal::NO_PATH));
    assert_eq!(one.path(0), Err(Refusal::ENDLESS));
    assert_eq!(Table::new(1, 0, &[end(0, 0)], &[]).expect("a table").path(1), Err(Refusal::NO_SUCH_PATH));
    let heavy = |weight| Table::new(1, 0, &[end(0, weight)], &[]).expect("a table");
    assert!(heavy(600_000).compose(&heavy(400_000)).is_ok());
    assert_eq!(heavy(600_000).compose(&heavy(400_001)), Err(Refusal::TOO_HEAVY));
    assert!(heavy(-600_000).compose(&heavy(-400_000)).is_ok());
    assert_eq!(heavy(-600_000).compose(&heavy(-400_001)), Err(Refusal::TOO_HEAVY));
    let loops = |count, input, output| Table::new(1, 0, &[], &vec![arc(0, input, output, 0, 0); count]).expect("a table");
    assert_eq!(loops(56, 1, 2).compose(&loops(55, 2, 3)), Err(Refusal::TOO_MANY_ARCS));
    let line: Vec<Arc> = (0..512).map(|s| arc(s, 1, 0, s + 1, 0)).collect();
    let (line, still) = (Table::new(513, 0, &[], &line).expect("a table"), loops(1, 0, 7));
    assert_eq!(line.compose(&still), Err(Refusal::TOO_MANY_STATES));
}

#[test]
fn costs_have_signs() {
    let table = Table::new(2, 0, &[end(1, -4)], &[arc(0, 1, 2, 1, 5), arc(0, 1, 3, 1, -3)]).expect("a table");
    assert_eq!(table.paths().expect("paths").map(|x| x.cost).collect::<Vec<_>>(), [1, -7]);
    assert_eq!(table.shortest(), Ok(Path { cost: -7, arcs: vec![1], labels: vec![3] }));
    let still = Table::new(1, 0, &[end(0, 0)], &[arc(0, 2, 2, 0, 0), arc(0, 3, 3, 0, -1)]).expect("a table");
    assert_eq!(list(&table, &still, &[1, 0]).text, "readings 2\n0 1 2\n1 -8 3\n");
    let least: Vec<Arc> = (0..1023).map(|s| arc(s, 1, 2, s + 1, -1_000_000)).collect();
    let least = Table::new(1024, 0, &[end(1023, -1_000_000)], &least).expect("a table");
    assert_eq!(least.shortest().map(|x| x.cost), Ok(-1_024_000_000));
}

#[test]
fn a_cycle_below_zero_refuses_where_a_path_has_it() {
    // 1 and 2 are a cycle; 3 is final.
    let table = |sum: Weight, into: bool, out: bool| {
        let mut arcs = vec![arc(0, 1, 2, 3, 3), arc(1, 0, 0, 2, -5), arc(2, 0, 0, 1, 5 + sum)];
        if into {
            arcs.insert(1, arc(0, 1, 2, 1, 0));
        }
        if out {
            arcs.push(arc(2, 0, 0, 3, 9));
        }
        Table::new(4, 0, &[end(3, 0)], &arcs).expect("a table")
    };
    assert_eq!(table(-1, true, true).shortest(), Err(Refusal::NEGATIVE_CYCLE));
    assert_eq!(table(-1, true, true).count(), Err(Refusal::ENDLESS));
    for (sum, into, out) in [(0, true, true), (-1, true, false), (-1, false, true), (-1, false, false)] {
        assert_eq!(table(sum, into, out).shortest().map(|x| x.cost), Ok(3));
    }
    // Costs to come are refused for the cycle that is not reached, too.
    for (sum, into, out) in [(-1, true, true), (-1, false, true)] {
        assert_eq!(table(sum, into, out).distance(), Err(Refusal::NEGATIVE_CYCLE));
    }
    assert_eq!(table(0, false, true).distance(), Ok(vec![Some(3), Some(4), Some(9), Some(0)]));
    assert_eq!(table(-1, true, false).distance(), Ok(vec![Some(3), None, None, Some(0)]));
    let mut b = sevens();
    let ring = Table::new(1, 0, &[end(0, 0)], &[arc(0, 1, 2, 0, -1)]).expect("a table");
    assert_eq!(lent::shortest(ring.as_bytes(), &mut b.path.0, &mut b.path.1), Err(Refusal::NEGATIVE_CYCLE));
    assert_eq!(lent::shortest(ring.as_bytes(), &mut b.path.0[1..], &mut b.path.1), Err(Refusal::SHORT_BUFFER));
    assert!(b.path.0.iter().chain(&b.path.1).all(|&x| x == 7));
    let mut cells = vec![7; lent::CELLS];
    assert_eq!(lent::distance(ring.as_bytes(), &mut cells), Err(Refusal::NEGATIVE_CYCLE));
    assert_eq!(lent::distance(ring.as_bytes(), &mut cells[1..]), Err(Refusal::SHORT_BUFFER));
    assert!(cells.iter().all(|&x| x == 7));
}

#[test]
fn of_many_paths_the_first_99() {
    for (arcs, count) in [(98, 98), (99, 99), (100, 99)] {
        let table = Table::new(2, 0, &[end(1, 0)], &vec![arc(0, 1, 2, 1, 5); arcs]).expect("a table");
        let paths = table.paths().expect("paths");
        assert_eq!((table.count(), paths.len()), (Ok(count), count as usize));
        assert!(paths.enumerate().all(|(k, path)| path == Path { cost: 5, arcs: vec![k as u16], labels: vec![2] }));
    }
}

/// Buffers of their least lengths, filled with sevens.
struct Buffers {
    table: Vec<u8>,
    origins: Vec<u16>,
    states: Vec<u32>,
    finals: (Vec<u16>, Vec<Weight>),
    arcs: (Vec<u16>, Vec<Weight>),
    path: (Vec<u16>, Vec<u16>),
}

fn sevens() -> Buffers {
    Buffers {
        table: vec![7; lent::TABLE],
        origins: vec![7; lent::ORIGINS],
        states: vec![7; lent::STATES],
        finals: (vec![7; lent::FINALS], vec![7; lent::FINALS]),
        arcs: (vec![7; lent::FIELDS], vec![7; lent::WEIGHTS]),
        path: (vec![7; lent::PATH], vec![7; lent::PATH]),
    }
}

#[test]
fn lent_buffers_are_written_to_their_ends() {
    let mut b = sevens();
    let head = lent::read(LEFT, &mut b.finals.0, &mut b.finals.1, &mut b.arcs.0, &mut b.arcs.1).expect("read");
    let len = lent::write(head, &b.finals.0, &b.finals.1, &b.arcs.0, &b.arcs.1, &mut b.table).expect("write");
    assert_eq!(&b.table[..len], LEFT);
    assert!(b.table[len..].iter().all(|&x| x == 0));
    lent::compose(LEFT, RIGHT, &mut b.table, &mut b.origins, &mut b.states).expect("compose");
    assert!(b.states.iter().all(|&x| x == 0));
}

#[test]
fn buffers_one_cell_short_are_refused_and_kept() {
    let mut b = sevens();
    let short = Err(Refusal::SHORT_BUFFER);
    let numbers = lent::read(LEFT, &mut b.finals.0, &mut b.finals.1, &mut b.arcs.0, &mut b.arcs.1[1..]);
    assert_eq!(numbers.map(|_| ()), short);
    assert_eq!(lent::compose(LEFT, RIGHT, &mut b.table, &mut b.origins, &mut b.states[1..]).map(|_| ()), short);
    assert_eq!(lent::apply(&[7], LEFT, &mut b.table, &mut b.origins[..lent::LATTICE_ORIGINS - 1], &mut b.states).map(|_| ()), short);
    assert_eq!(lent::trim(LEFT, &mut b.table[1..], &mut b.origins).map(|_| ()), short);
    assert_eq!(lent::nth(LEFT, 0, &mut b.path.0, &mut b.path.1[1..]).map(|_| ()), short);
    assert_eq!(lent::shortest(LEFT, &mut b.path.0[1..], &mut b.path.1).map(|_| ()), short);
    let head = Head { states: 1, ..Head::default() };
    assert_eq!(lent::write(head, &[], &[], &[], &[], &mut b.table[1..]).map(|_| ()), short);
    assert_eq!(lent::write(Head { arcs: 1, ..head }, &[], &[], &[], &[], &mut b.table), Err(Refusal::BAD_NUMBER));
    let kept = |cells: &[u16]| cells.iter().all(|&x| x == 7);
    assert!(b.table.iter().all(|&x| x == 7) && kept(&b.origins) && b.states.iter().all(|&x| x == 7));
    assert!(kept(&b.finals.0) && kept(&b.arcs.0) && kept(&b.path.0) && kept(&b.path.1));
    let mut text = vec![7; lent::TEXT];
    assert_eq!(lent::list(LEFT, RIGHT, CODE, &mut text[1..]).map(|_| ()), short);
    assert!(text.iter().all(|&x| x == 7));
    let listed = lent::list(&LEFT[..3], RIGHT, CODE, &mut text).expect("a text");
    assert_eq!((&text[..listed.len], listed.said), (&b"refused 1\n"[..], Some(Refusal::CUT_SHORT)));
}
