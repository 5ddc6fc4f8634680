// Times the calls of the static library on the workloads: one round, a line `WORKLOAD CALL NANOSECONDS` for each.
// A call added to `calls` is timed on every workload; bench/run says what it is set beside.
use std::hint::black_box;
use std::time::Instant;

mod reader {
    // Slices go as a pointer and a length.
    extern "C" {
        fn forthwn_refusal(bytes: *const u8, len: usize) -> u32;
        fn forthwn_read(
            bytes: *const u8,
            len: usize,
            final_states: *mut u16,
            final_states_len: usize,
            final_weights: *mut i32,
            final_weights_len: usize,
            fields: *mut u16,
            fields_len: usize,
            arc_weights: *mut i32,
            arc_weights_len: usize,
            head: *mut [u32; 4],
        ) -> u32;
        fn forthwn_write(
            n: u32,
            m: u32,
            f: u32,
            start: u32,
            final_states: *const u16,
            final_states_len: usize,
            final_weights: *const i32,
            final_weights_len: usize,
            fields: *const u16,
            fields_len: usize,
            arc_weights: *const i32,
            arc_weights_len: usize,
            out: *mut u8,
            out_len: usize,
            len: *mut u32,
        ) -> u32;
        fn forthwn_compose(
            left: *const u8,
            left_len: usize,
            right: *const u8,
            right_len: usize,
            table: *mut u8,
            table_len: usize,
            origins: *mut u16,
            origins_len: usize,
            states: *mut u32,
            states_len: usize,
            len: *mut u32,
        ) -> u32;
        fn forthwn_apply(
            string: *const u16,
            string_len: usize,
            table: *const u8,
            table_len: usize,
            lattice: *mut u8,
            lattice_len: usize,
            origins: *mut u16,
            origins_len: usize,
            pairs: *mut u32,
            pairs_len: usize,
            len: *mut u32,
        ) -> u32;
        fn forthwn_trim(
            table: *const u8,
            table_len: usize,
            out: *mut u8,
            out_len: usize,
            origins: *mut u16,
            origins_len: usize,
            len: *mut u32,
        ) -> u32;
        fn forthwn_count(table: *const u8, table_len: usize, count: *mut u32) -> u32;
        fn forthwn_nth(
            table: *const u8,
            table_len: usize,
            k: u32,
            arcs: *mut u16,
            arcs_len: usize,
            labels: *mut u16,
            labels_len: usize,
            told: *mut [i64; 3],
        ) -> u32;
        fn forthwn_shortest(
            table: *const u8,
            table_len: usize,
            arcs: *mut u16,
            arcs_len: usize,
            labels: *mut u16,
            labels_len: usize,
            told: *mut [i64; 3],
        ) -> u32;
        fn forthwn_distance(table: *const u8, table_len: usize, cells: *mut i64, cells_len: usize) -> u32;
        fn forthwn_readings(
            left: *const u8,
            left_len: usize,
            right: *const u8,
            right_len: usize,
            string: *const u16,
            string_len: usize,
            count: *mut u32,
        ) -> u32;
        fn forthwn_cascade(
            left: *const u8,
            left_len: usize,
            right: *const u8,
            right_len: usize,
            string: *const u16,
            string_len: usize,
            table: *mut u8,
            table_len: usize,
            origins: *mut u16,
            origins_len: usize,
            states: *mut u32,
            states_len: usize,
            len: *mut u32,
        ) -> u32;
        fn forthwn_cascade_readings(
            left: *const u8,
            left_len: usize,
            right: *const u8,
            right_len: usize,
            string: *const u16,
            string_len: usize,
            count: *mut u32,
        ) -> u32;
    }

    // What reading fills: the four buffers at their least lengths, and states, arcs, finals and start.
    #[derive(Clone)]
    pub struct Parts {
        pub final_states: Vec<u16>,
        pub final_weights: Vec<i32>,
        pub fields: Vec<u16>,
        pub arc_weights: Vec<i32>,
        pub head: [u32; 4],
    }

    impl Parts {
        pub fn new() -> Parts {
            Parts { final_states: vec![1; 1024], final_weights: vec![1; 1024], fields: vec![1; 12288], arc_weights: vec![1; 3072], head: [0; 4] }
        }

        // The plain clearing that reading is set beside.
        pub fn clear(&mut self) {
            self.final_states.fill(0);
            self.final_weights.fill(0);
            self.fields.fill(0);
            self.arc_weights.fill(0);
        }
    }

    // What composing fills: the bytes, the origins and the states to work in, at their least lengths.
    pub struct Composed {
        pub table: Vec<u8>,
        pub origins: Vec<u16>,
        pub states: Vec<u32>,
    }

    impl Composed {
        pub fn new() -> Composed {
            Composed { table: vec![1; 59404], origins: vec![1; 6144], states: vec![1; 1024] }
        }
    }

    pub fn refusal(bytes: &[u8]) -> u32 {
        unsafe { forthwn_refusal(bytes.as_ptr(), bytes.len()) }
    }

    pub fn read(bytes: &[u8], p: &mut Parts) -> u32 {
        let (a, b, c, d) = (&mut p.final_states, &mut p.final_weights, &mut p.fields, &mut p.arc_weights);
        unsafe {
            forthwn_read(
                bytes.as_ptr(), bytes.len(),
                a.as_mut_ptr(), a.len(), b.as_mut_ptr(), b.len(), c.as_mut_ptr(), c.len(), d.as_mut_ptr(), d.len(),
                &mut p.head,
            )
        }
    }

    // The refusal and the number of bytes.
    pub fn write(p: &Parts, out: &mut [u8]) -> (u32, u32) {
        let (a, b, c, d) = (&p.final_states, &p.final_weights, &p.fields, &p.arc_weights);
        let [n, m, f, start] = p.head;
        let mut len = 0;
        let refusal = unsafe {
            forthwn_write(
                n, m, f, start,
                a.as_ptr(), a.len(), b.as_ptr(), b.len(), c.as_ptr(), c.len(), d.as_ptr(), d.len(),
                out.as_mut_ptr(), out.len(), &mut len,
            )
        };
        (refusal, len)
    }

    // The refusal and the number of bytes.
    pub fn compose(left: &[u8], right: &[u8], c: &mut Composed) -> (u32, u32) {
        let (a, b, d) = (&mut c.table, &mut c.origins, &mut c.states);
        let mut len = 0;
        let refusal = unsafe {
            forthwn_compose(
                left.as_ptr(), left.len(), right.as_ptr(), right.len(),
                a.as_mut_ptr(), a.len(), b.as_mut_ptr(), b.len(), d.as_mut_ptr(), d.len(), &mut len,
            )
        };
        (refusal, len)
    }

    // The refusal and the number of bytes; the states are lent as pairs, and of the origins as many as are needed.
    pub fn apply(string: &[u16], table: &[u8], c: &mut Composed) -> (u32, u32) {
        let (a, b, d) = (&mut c.table, &mut c.origins[..3072], &mut c.states);
        let mut len = 0;
        let refusal = unsafe {
            forthwn_apply(
                string.as_ptr(), string.len(), table.as_ptr(), table.len(),
                a.as_mut_ptr(), a.len(), b.as_mut_ptr(), b.len(), d.as_mut_ptr(), d.len(), &mut len,
            )
        };
        (refusal, len)
    }

    // The refusal and the number of bytes.
    pub fn trim(table: &[u8], c: &mut Composed) -> (u32, u32) {
        let (a, b) = (&mut c.table, &mut c.origins[..3072]);
        let mut len = 0;
        let refusal = unsafe {
            forthwn_trim(table.as_ptr(), table.len(), a.as_mut_ptr(), a.len(), b.as_mut_ptr(), b.len(), &mut len)
        };
        (refusal, len)
    }

    // The refusal and the count.
    pub fn count(table: &[u8]) -> (u32, u32) {
        let mut count = 0;
        let refusal = unsafe { forthwn_count(table.as_ptr(), table.len(), &mut count) };
        (refusal, count)
    }

    // The arcs and labels of a path, at their least lengths.
    pub struct Path {
        pub arcs: Vec<u16>,
        pub labels: Vec<u16>,
    }

    impl Path {
        pub fn new() -> Path {
            Path { arcs: vec![1; 1023], labels: vec![1; 1023] }
        }
    }

    // The refusal and the cost.
    pub fn nth(table: &[u8], k: u32, p: &mut Path) -> (u32, i64) {
        let (a, b) = (&mut p.arcs, &mut p.labels);
        let mut told = [0; 3];
        let refusal = unsafe {
            forthwn_nth(table.as_ptr(), table.len(), k, a.as_mut_ptr(), a.len(), b.as_mut_ptr(), b.len(), &mut told)
        };
        (refusal, told[0])
    }

    // The refusal and the cost.
    pub fn shortest(table: &[u8], p: &mut Path) -> (u32, i64) {
        let (a, b) = (&mut p.arcs, &mut p.labels);
        let mut told = [0; 3];
        let refusal = unsafe {
            forthwn_shortest(table.as_ptr(), table.len(), a.as_mut_ptr(), a.len(), b.as_mut_ptr(), b.len(), &mut told)
        };
        (refusal, told[0])
    }

    // The refusal and the count, by both chains.
    pub fn readings(left: &[u8], right: &[u8], string: &[u16]) -> (u32, u32) {
        let mut count = 0;
        let refusal = unsafe {
            forthwn_readings(left.as_ptr(), left.len(), right.as_ptr(), right.len(), string.as_ptr(), string.len(), &mut count)
        };
        (refusal, count)
    }

    pub fn cascade_readings(left: &[u8], right: &[u8], string: &[u16]) -> (u32, u32) {
        let mut count = 0;
        let refusal = unsafe {
            forthwn_cascade_readings(left.as_ptr(), left.len(), right.as_ptr(), right.len(), string.as_ptr(), string.len(), &mut count)
        };
        (refusal, count)
    }

    // The refusal and the number of bytes.
    pub fn cascade(left: &[u8], right: &[u8], string: &[u16], c: &mut Composed) -> (u32, u32) {
        let (a, b, d) = (&mut c.table, &mut c.origins, &mut c.states);
        let mut len = 0;
        let refusal = unsafe {
            forthwn_cascade(
                left.as_ptr(), left.len(), right.as_ptr(), right.len(), string.as_ptr(), string.len(),
                a.as_mut_ptr(), a.len(), b.as_mut_ptr(), b.len(), d.as_mut_ptr(), d.len(), &mut len,
            )
        };
        (refusal, len)
    }

    pub fn distance(table: &[u8], cells: &mut [i64]) -> u32 {
        unsafe { forthwn_distance(table.as_ptr(), table.len(), cells.as_mut_ptr(), cells.len()) }
    }
}

// The median of samples of at least 20 microseconds each, as openfst.cc takes it.
fn median_ns(call: &mut dyn FnMut()) -> f64 {
    let begun = Instant::now();
    let mut count = 0.0;
    while begun.elapsed().as_nanos() < 5_000_000 {
        call();
        count += 1.0;
    }
    let each = begun.elapsed().as_nanos() as f64 / count;
    let batch = ((20_000.0 / each) as u32).max(1);
    let samples = if each > 200_000.0 { 51 } else { 301 };
    let mut times: Vec<f64> = (0..samples)
        .map(|_| {
            let begun = Instant::now();
            for _ in 0..batch {
                call();
            }
            begun.elapsed().as_nanos() as f64 / f64::from(batch)
        })
        .collect();
    times.sort_by(f64::total_cmp);
    times[times.len() / 2]
}

fn file(folder: &str, name: &str) -> Vec<u8> {
    let path = format!("{folder}/{name}");
    std::fs::read(&path).unwrap_or_else(|e| panic!("{path}: {e}"))
}

// A transducer's parts; stops where it is not read, or not written back as the same bytes.
fn parts_of(bytes: &[u8]) -> reader::Parts {
    let mut parts = reader::Parts::new();
    let mut out = vec![1; 59404];
    assert_eq!(reader::read(bytes, &mut parts), 0, "read");
    assert_eq!(reader::write(&parts, &mut out), (0, bytes.len() as u32), "write");
    assert!(out.starts_with(bytes) && out[bytes.len()..].iter().all(|&x| x == 0), "the bytes written");
    parts
}

// Buffers to compose into; stops where the composition is not what the workload has.
fn composed_of(left: &[u8], right: &[u8], joined: &[u8]) -> reader::Composed {
    let mut composed = reader::Composed::new();
    assert_eq!(reader::compose(left, right, &mut composed), (0, joined.len() as u32), "compose");
    let (bytes, behind) = composed.table.split_at(joined.len());
    assert!(bytes == joined && behind.iter().all(|&x| x == 0), "the bytes composed");
    assert!(composed.states.iter().all(|&x| x == 0), "the states");
    composed
}

// Buffers to apply into; stops where the lattice is not what the workload has.
fn lattice_of(string: &[u16], joined: &[u8], lattice: &[u8]) -> reader::Composed {
    let mut applied = reader::Composed::new();
    assert_eq!(reader::apply(string, joined, &mut applied), (0, lattice.len() as u32), "apply");
    let (bytes, behind) = applied.table.split_at(lattice.len());
    assert!(bytes == lattice && behind.iter().all(|&x| x == 0), "the bytes of the lattice");
    assert!(applied.states.iter().all(|&x| x == 0), "the pairs");
    applied
}

// A line of 1,024 states numbered backwards: each arc leads to the state before.
fn backwards() -> Vec<u8> {
    let mut fields: Vec<u16> = vec![8, 1, 1024, 1023, 1, 1023, 6, 2, 0, 0, 0];
    for s in 1..1024 {
        fields.extend([12, 3, s, 1, 2, s - 1, 1, 0]);
    }
    fields.into_iter().flat_map(u16::to_le_bytes).collect()
}

// The calls whose sweeps such a line makes long.
fn round_of_backwards() {
    let (line, mut trimmed, mut path, mut cells) = (backwards(), reader::Composed::new(), reader::Path::new(), vec![1; 1024]);
    assert_eq!(reader::trim(&line, &mut trimmed), (0, line.len() as u32), "trim");
    assert_eq!(reader::count(&line), (0, 1), "count");
    assert_eq!(reader::shortest(&line, &mut path), (0, 1023), "shortest");
    let mut calls: Vec<(&str, Box<dyn FnMut()>)> = vec![
        ("trim", Box::new(|| {
            black_box(reader::trim(black_box(&line), &mut trimmed));
        })),
        ("count", Box::new(|| {
            black_box(reader::count(black_box(&line)));
        })),
        ("shortest", Box::new(|| {
            black_box(reader::shortest(black_box(&line), &mut path));
        })),
        ("distance", Box::new(|| {
            black_box(reader::distance(black_box(&line), &mut cells));
        })),
    ];
    for (call, run) in &mut calls {
        println!("backwards {call} {:.1}", median_ns(run));
    }
}

// A table of 1,024 states and 3,072 arcs, which are given by source: (source, target, weight). State 1,023 is final, 0 the start.
fn largest(mut arcs: Vec<(u16, u16, i32)>) -> Vec<u8> {
    assert_eq!(arcs.len(), 3072);
    arcs.sort_by_key(|a| a.0);
    let mut out: Vec<u8> = [8u16, 1, 1024, 3072, 1, 0, 6, 2, 1023, 0, 0].into_iter().flat_map(u16::to_le_bytes).collect();
    for (source, target, weight) in arcs {
        out.extend([12, 3, source, 1, 2, target].into_iter().flat_map(u16::to_le_bytes));
        out.extend(weight.to_le_bytes());
    }
    out
}

// Three places from each of a line of states, in an order that no sweep by number follows.
fn line_of_three(last: (u16, u16, i32)) -> Vec<(u16, u16, i32)> {
    // A permutation of the states that keeps 0 first and 1,023 last.
    let at = |i: u16| if i == 0 || i == 1023 { i } else { (u32::from(i) * 5 % 1023) as u16 };
    let mut arcs: Vec<(u16, u16, i32)> = Vec::new();
    for i in 0..1023u16 {
        for step in 1..=3 {
            arcs.push((at(i), at((i + step).min(1023)), 1 + 51 * i32::from(step - 1)));
        }
    }
    arcs.truncate(3071);
    arcs.push(last);
    while arcs.len() < 3072 {
        arcs.push((0, at(1), 1000));
    }
    arcs
}

// Tables at both limits with a cycle below zero on an accepting path, which only the last of as many sweeps as states shows. In the first
// one every state gets cheaper in every sweep; in the second one the cycle has all the states; in the third one it is behind a long line.
fn round_of_cycles() {
    let spokes = (0..1023u16).map(|s| (s, 1023, 0)).chain((0..1023).map(|s| (s, s + 1, 0))).chain((0..1023).map(|s| (s, (s * 5 + 2) % 1023, 0)));
    let spokes: Vec<_> = spokes.chain([(1023, 1023, -1), (0, 1023, 0), (0, 1023, 0)]).collect();
    let around = (0..1023u16).flat_map(|s| [(s, s + 1, 1), (s, s + 1, 2), (s, s + 1, 3)]);
    let around: Vec<_> = around.chain([(1023, 0, -1024), (1023, 0, -1023), (1023, 0, -1022)]).collect();
    for (name, table) in [("spokes", largest(spokes)), ("around", largest(around)), ("behind", largest(line_of_three((1023, 1023, -1))))] {
        let mut path = reader::Path::new();
        assert_eq!(reader::shortest(&table, &mut path), (19, 0), "{name}");
        let ns = median_ns(&mut || {
            black_box(reader::shortest(black_box(&table), &mut path));
        });
        println!("cycles-{name} shortest {ns:.1}");
        let mut cells = vec![1; 1024];
        assert_eq!(reader::distance(&table, &mut cells), 19, "{name}");
        let ns = median_ns(&mut || {
            black_box(reader::distance(black_box(&table), &mut cells));
        });
        println!("cycles-{name} distance {ns:.1}");
    }
}

// One state with as many arcs onto itself as there may be.
fn loops(input: u16, output: u16) -> Vec<u8> {
    let head: [u16; 6] = [8, 1, 1, 3072, 0, 0];
    let arc: [u16; 8] = [12, 3, 0, input, output, 0, 0, 0];
    let fields = head.into_iter().chain(std::iter::repeat(arc).take(3072).flatten());
    fields.flat_map(u16::to_le_bytes).collect()
}

// Composing such a pair enumerates 3,072 times 3,072 steps and then ends in 12.
fn round_of_loops() {
    let (left, right, mut composed) = (loops(1, 2), loops(2, 3), reader::Composed::new());
    assert_eq!(reader::compose(&left, &right, &mut composed), (12, 0), "compose");
    let ns = median_ns(&mut || {
        black_box(reader::compose(black_box(&left), black_box(&right), &mut composed));
    });
    println!("loops compose {ns:.1}");
}

// A final state with an arc onto itself for each of these labels.
fn catalogue(labels: Vec<u16>) -> Vec<u8> {
    let head = [8, 1, 1, labels.len() as u16, 1, 0, 6, 2, 0, 0, 0];
    let arcs = labels.into_iter().flat_map(|label| [12, 3, 0, label, label, 0, 0, 0]);
    head.into_iter().chain(arcs).flat_map(u16::to_le_bytes).collect()
}

// 3,072 symbols by one arc for any symbol, written out, and all but the last written out with one for any symbol behind or in front of them. Each as the
// right table of a composition with 3,072 symbols, and with a string of 64 of them applied to it: the answers are the same but for origins. And with a string
// of 64 symbols that no arc names, where there is an arc for any symbol.
fn round_of_catalogues() {
    const ANY: u16 = 65_535;
    let left = catalogue((1..=3072).collect());
    let (named, other) = (Vec::from_iter((1..=64u16).map(|k| 48 * k)), Vec::from_iter(5001..=5064u16));
    for (name, labels, any) in [
        ("any", vec![ANY], true),
        ("written-out", (1..=3072).collect(), false),
        ("any-last", (1..=3071).chain([ANY]).collect(), true),
        ("any-first", [ANY].into_iter().chain(1..=3071).collect(), true),
    ] {
        let table = catalogue(labels);
        let mut made = reader::Composed::new();
        assert_eq!(reader::compose(&left, &table, &mut made), (0, 12 + 10 + 16 * 3072), "{name}");
        let ns = median_ns(&mut || {
            black_box(reader::compose(black_box(&left), black_box(&table), &mut made));
        });
        println!("catalogue-{name} compose {ns:.1}");
        for (call, string) in [("apply", &named), ("apply-other", &other)] {
            let want = if any || call == "apply" { 12 + 10 + 16 * 64 } else { 12 };
            assert_eq!(reader::apply(string, &table, &mut made), (0, want), "{name}");
            let ns = median_ns(&mut || {
                black_box(reader::apply(black_box(string), black_box(&table), &mut made));
            });
            println!("catalogue-{name} {call} {ns:.1}");
        }
    }
}

// Runs of labels, each with a 0 behind it.
fn runs(folder: &str, name: &str) -> Vec<Vec<u16>> {
    let labels: Vec<u16> = file(folder, name).chunks(2).map(|x| u16::from_le_bytes([x[0], x[1]])).collect();
    let mut runs: Vec<Vec<u16>> = labels.split(|&x| x == 0).map(<[u16]>::to_vec).collect();
    runs.pop();
    runs
}

// A catalogue of 280 codes behind a correction table for one slip (catalogue.py): for each code one that was typed with a slip, the time for one of them.
fn round_of_slips(folder: &str) {
    let (left, right, typed) = (file(folder, "left.tab"), file(folder, "right.tab"), runs(folder, "typed.lab"));
    let mut made = reader::Composed::new();
    assert_eq!(reader::compose(&left, &right, &mut made).0, 11, "composed first");
    for string in &typed {
        let (refusal, count) = reader::cascade_readings(&left, &right, string);
        assert!(refusal == 0 && count > 0, "{string:?}: refused {refusal}, {count} readings");
    }
    let each = typed.len() as f64;
    let ns = median_ns(&mut || {
        for string in &typed {
            black_box(reader::cascade(black_box(&left), black_box(&right), black_box(string), &mut made));
        }
    });
    println!("slips cascade {:.1}", ns / each);
    let ns = median_ns(&mut || {
        for string in &typed {
            black_box(reader::cascade_readings(black_box(&left), black_box(&right), black_box(string)));
        }
    });
    println!("slips cascade-readings {:.1}", ns / each);
}

fn round(folder: &str, name: &str) {
    let (left, right) = (file(folder, "left.tab"), file(folder, "right.tab"));
    let (joined, lattice) = (file(folder, "joined.tab"), file(folder, "lattice.tab"));
    let string: Vec<u16> = file(folder, "code.lab").chunks(2).map(|x| u16::from_le_bytes([x[0], x[1]])).collect();
    let mut composed = composed_of(&left, &right, &joined);
    let mut applied = lattice_of(&string, &joined, &lattice);
    let (mut trimmed, mut cascaded) = (reader::Composed::new(), reader::Composed::new());
    assert_eq!(reader::cascade_readings(&left, &right, &string), reader::readings(&left, &right, &string), "both chains");
    let (mut nth, mut shortest) = (reader::Path::new(), reader::Path::new());
    let last = reader::count(&lattice).1.max(1) - 1;
    let (mut cells, mut joined_cells) = (vec![1; 1024], vec![1; 1024]);
    let (left_parts, right_parts) = (parts_of(&left), parts_of(&right));
    let (mut read_left, mut read_right) = (left_parts.clone(), right_parts.clone());
    let (mut clear_left, mut clear_right) = (left_parts.clone(), right_parts.clone());
    let (mut out_left, mut out_right) = (vec![0u8; 59404], vec![0u8; 59404]);
    let (mut zero_left, mut zero_right) = (vec![0u8; 59404], vec![0u8; 59404]);
    let mut calls: Vec<(&str, Box<dyn FnMut()>)> = vec![
        ("refusal", Box::new(|| {
            black_box(reader::refusal(black_box(&left)) + reader::refusal(black_box(&right)));
        })),
        ("read", Box::new(|| {
            black_box(reader::read(black_box(&left), &mut read_left) + reader::read(black_box(&right), &mut read_right));
        })),
        ("clear-parts", Box::new(|| {
            black_box(&mut clear_left).clear();
            black_box(&mut clear_right).clear();
        })),
        ("write", Box::new(|| {
            black_box(reader::write(black_box(&left_parts), &mut out_left));
            black_box(reader::write(black_box(&right_parts), &mut out_right));
        })),
        ("clear-bytes", Box::new(|| {
            black_box(&mut zero_left).fill(0);
            black_box(&mut zero_right).fill(0);
        })),
        ("compose", Box::new(|| {
            black_box(reader::compose(black_box(&left), black_box(&right), &mut composed));
        })),
        ("apply", Box::new(|| {
            black_box(reader::apply(black_box(&string), black_box(&joined), &mut applied));
        })),
        ("trim", Box::new(|| {
            black_box(reader::trim(black_box(&joined), &mut trimmed));
        })),
        ("shortest", Box::new(|| {
            black_box(reader::shortest(black_box(&lattice), &mut shortest));
        })),
        ("count", Box::new(|| {
            black_box(reader::count(black_box(&lattice)));
        })),
        ("nth", Box::new(|| {
            black_box(reader::nth(black_box(&lattice), last, &mut nth));
        })),
        ("distance", Box::new(|| {
            black_box(reader::distance(black_box(&left), &mut cells) + reader::distance(black_box(&right), &mut cells));
        })),
        ("readings", Box::new(|| {
            black_box(reader::readings(black_box(&left), black_box(&right), black_box(&string)));
        })),
        ("cascade-readings", Box::new(|| {
            black_box(reader::cascade_readings(black_box(&left), black_box(&right), black_box(&string)));
        })),
        ("cascade", Box::new(|| {
            black_box(reader::cascade(black_box(&left), black_box(&right), black_box(&string), &mut cascaded));
        })),
        ("distance-joined", Box::new(|| {
            black_box(reader::distance(black_box(&joined), &mut joined_cells));
        })),
    ];
    for (call, run) in &mut calls {
        println!("{name} {call} {:.1}", median_ns(run));
    }
}

fn main() {
    let folder = std::env::args().nth(1).expect("usage: reader FOLDER_OF_WORKLOADS NAME..");
    for name in std::env::args().skip(2) {
        round(&format!("{folder}/{name}"), &name);
    }
    round_of_slips(&format!("{folder}/slips"));
    round_of_loops();
    round_of_catalogues();
    round_of_backwards();
    round_of_cycles();
}
