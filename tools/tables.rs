// Tables and codes as text, tables as pictures.
//
//   rustc -O --edition 2024 tools/tables.rs -o target/tables
//   target/tables --help
//
// docs/tables.md describes the text form.

use std::collections::HashMap;
use std::fmt::Write as _;
use std::io::{Read, Write};

const MAX_STATES: usize = 1_024;
const MAX_ARCS: usize = 3_072;
const MAX_CODE: usize = 64;
const MAX_LABEL: u16 = 65_534;
/// As an input it reads any symbol that its state does not name, as an output it passes on the symbol read; and how it is written.
const ANY: u16 = 65_535;
const ANY_WORD: &str = "<any>";

/// The weights that a table holds, and the four bytes of one, two's complement.
mod weights {
    pub const LEAST: i64 = -1_000_000;
    pub const MOST: i64 = 1_000_000;

    pub fn from_bytes(bytes: [u8; 4]) -> i64 {
        i64::from(i32::from_le_bytes(bytes))
    }

    pub fn to_bytes(weight: i64) -> [u8; 4] {
        (weight as i32).to_le_bytes()
    }

    pub fn fits(weight: i64) -> bool {
        (LEAST..=MOST).contains(&weight)
    }
}

#[derive(Clone, Debug, PartialEq)]
struct Arc {
    source: u16,
    input: u16,
    output: u16,
    target: u16,
    weight: i64,
}

#[derive(Clone, Debug, PartialEq)]
struct Table {
    states: usize,
    start: u16,
    finals: Vec<(u16, i64)>,
    arcs: Vec<Arc>,
}

// ---------------------------------------------------------------- bytes

fn to_bytes(t: &Table) -> Vec<u8> {
    let mut out = Vec::new();
    let mut two = |xs: &[u16], last: Option<i64>| {
        for x in xs {
            out.extend(x.to_le_bytes());
        }
        if let Some(w) = last {
            out.extend(weights::to_bytes(w));
        }
    };
    let (n, m, f) = (t.states as u16, t.arcs.len() as u16, t.finals.len() as u16);
    two(&[8, 1, n, m, f, t.start], None);
    for (state, weight) in &t.finals {
        two(&[6, 2, *state], Some(*weight));
    }
    for a in &t.arcs {
        two(&[12, 3, a.source, a.input, a.output, a.target], Some(a.weight));
    }
    out
}

/// Reads a table; an error names the refusal and the record.
fn from_bytes(bytes: &[u8]) -> Result<Table, String> {
    let two = |at: usize| u16::from_le_bytes([bytes[at], bytes[at + 1]]);
    let four = |at: usize| weights::from_bytes([bytes[at], bytes[at + 1], bytes[at + 2], bytes[at + 3]]);
    // Records as (kind, where the body begins, its length).
    let mut records = Vec::new();
    let mut at = 0;
    while at < bytes.len() {
        let length = if at + 4 <= bytes.len() { two(at) as usize } else { usize::MAX };
        if length == usize::MAX || at + 4 + length > bytes.len() {
            return Err(format!("refused 1: the record at byte {at} runs past the end"));
        }
        records.push((two(at + 2), at + 4, length));
        at += 4 + length;
    }
    if records.is_empty() {
        return Err("refused 2: no first record".into());
    }
    for (i, &(kind, at, length)) in records.iter().enumerate() {
        let wanted = match kind {
            1 => 8,
            2 => 6,
            3 => 12,
            _ => return Err(format!("refused 2: kind {kind} at byte {}", at - 4)),
        };
        if length != wanted {
            return Err(format!("refused 2: kind {kind} with length {length} at byte {}", at - 4));
        }
        if (kind == 1) != (i == 0) || i > 0 && kind < records[i - 1].0 {
            return Err(format!("refused 2: kind {kind} out of order at byte {}", at - 4));
        }
    }
    let head: Vec<usize> = (0..4).map(|i| two(4 + 2 * i) as usize).collect();
    let (n, m, f, start) = (head[0], head[1], head[2], head[3]);
    if n < 1 || n > MAX_STATES || m > MAX_ARCS || f > n || start >= n {
        return Err(format!("refused 3: {n} states, {m} arcs, {f} finals, start {start}"));
    }
    let of = |kind: u16| records.iter().filter(move |r| r.0 == kind).map(|r| r.1);
    let finals: Vec<(u16, i64)> = of(2).map(|at| (two(at), four(at + 2))).collect();
    let arcs: Vec<Arc> = of(3)
        .map(|at| Arc {
            source: two(at),
            input: two(at + 2),
            output: two(at + 4),
            target: two(at + 6),
            weight: four(at + 8),
        })
        .collect();
    if finals.len() != f || arcs.len() != m {
        let (x, y) = (finals.len(), arcs.len());
        return Err(format!("refused 4: {x} finals and {y} arcs, {f} and {m} announced"));
    }
    let high = |s: u16| s as usize >= n;
    if let Some(i) = finals.iter().position(|x| high(x.0)) {
        return Err(format!("refused 5: final {i} has state {}", finals[i].0));
    }
    if let Some(i) = arcs.iter().position(|a| high(a.source) || high(a.target)) {
        return Err(format!("refused 5: arc {i} goes from {} to {}", arcs[i].source, arcs[i].target));
    }
    if let Some(i) = (1..f).find(|&i| finals[i - 1].0 >= finals[i].0) {
        return Err(format!("refused 6: final {i} has state {} after {}", finals[i].0, finals[i - 1].0));
    }
    if let Some(i) = (1..m).find(|&i| arcs[i - 1].source > arcs[i].source) {
        return Err(format!("refused 6: arc {i} has source {} after {}", arcs[i].source, arcs[i - 1].source));
    }
    if let Some(i) = arcs.iter().position(|a| a.output == ANY && a.input != ANY) {
        return Err(format!("refused 7: arc {i} has output 65535 beside input {}", arcs[i].input));
    }
    if let Some(i) = finals.iter().position(|x| !weights::fits(x.1)) {
        return Err(format!("refused 8: final {i} has weight {}", finals[i].1));
    }
    if let Some(i) = arcs.iter().position(|a| !weights::fits(a.weight)) {
        return Err(format!("refused 8: arc {i} has weight {}", arcs[i].weight));
    }
    Ok(Table { states: n, start: start as u16, finals, arcs })
}

// -------------------------------------------------------------- symbols

/// The words of labels. Without a file each label is its number.
#[derive(Default)]
struct Symbols {
    file: Option<String>,
    label_of: HashMap<String, u16>,
    word_of: HashMap<u16, String>,
}

impl Symbols {
    /// Lines of a word and its label, as OpenFst's symbol files have them.
    fn read(file: &str, text: &str) -> Result<Symbols, String> {
        let mut symbols = Symbols { file: Some(file.to_string()), ..Symbols::default() };
        let mut line_of = HashMap::new();
        for (i, line) in text.lines().enumerate() {
            let number = i + 1;
            let at = |e: String| format!("{file}: line {number}: {e}");
            let fields: Vec<&str> = line.split_whitespace().collect();
            let (word, label) = match fields[..] {
                [] => continue,
                [word, label] => (word, number_label(label).map_err(at)?),
                _ => return Err(at(format!("{} fields; a symbol has 2, a word and its label", fields.len()))),
            };
            if word == ANY_WORD {
                return Err(at(format!("{ANY_WORD} stands for any symbol and is no word")));
            }
            if let Some(old) = symbols.label_of.insert(word.to_string(), label) {
                return Err(at(format!("{word} is label {old} already, see line {}", line_of[&old])));
            }
            if let Some(old) = symbols.word_of.insert(label, word.to_string()) {
                return Err(at(format!("label {label} is {old} already, see line {}", line_of[&label])));
            }
            line_of.insert(label, number);
        }
        Ok(symbols)
    }

    fn label(&self, text: &str) -> Result<u16, String> {
        if text == ANY_WORD {
            return Ok(ANY);
        }
        match &self.file {
            None => number_label(text),
            Some(file) => self.label_of.get(text).copied().ok_or_else(|| format!("{text} is no word of {file}")),
        }
    }

    fn word(&self, label: u16) -> Result<String, String> {
        if label == ANY {
            return Ok(ANY_WORD.to_string());
        }
        match &self.file {
            None => Ok(label.to_string()),
            Some(file) => self.word_of.get(&label).cloned().ok_or_else(|| format!("label {label} has no word in {file}")),
        }
    }
}

/// The words of input and of output labels.
#[derive(Default)]
struct Words {
    input: Symbols,
    output: Symbols,
}

// ----------------------------------------------------------------- text

fn to_text(t: &Table, words: &Words) -> Result<String, String> {
    let mut out = String::new();
    let others = (0..t.states as u16).filter(|&s| s != t.start);
    let last = t.states as u16 - 1;
    let mut mentioned = t.arcs.iter().any(|a| a.source == last || a.target == last);
    mentioned |= last == t.start || t.finals.iter().any(|x| x.0 == last);
    // The first line's source is the start, so its lines come first.
    for s in std::iter::once(t.start).chain(others) {
        let mut arcs = 0;
        for (i, a) in t.arcs.iter().enumerate().filter(|x| x.1.source == s) {
            let named = |e: String| format!("arc {i}: {e}");
            let (input, output) = (words.input.word(a.input).map_err(named)?, words.output.word(a.output).map_err(named)?);
            let _ = writeln!(out, "{}\t{}\t{input}\t{output}\t{}", a.source, a.target, a.weight);
            arcs += 1;
        }
        let weight = t.finals.iter().find(|x| x.0 == s);
        if let Some((_, w)) = weight {
            let _ = writeln!(out, "{s}\t{w}");
        } else if s == t.start && arcs == 0 || s == last && !mentioned {
            // A state no other line tells of: final with infinite weight,
            // which is to say not final.
            let _ = writeln!(out, "{s}\tInfinity");
        }
    }
    Ok(out)
}

fn state(text: &str) -> Result<u16, String> {
    match text.parse::<u64>() {
        Ok(x) if x < MAX_STATES as u64 => Ok(x as u16),
        Ok(x) => Err(format!("state {x} is not below {MAX_STATES}")),
        Err(_) => Err(format!("state {text} is not a number")),
    }
}

fn number_label(text: &str) -> Result<u16, String> {
    match text.parse::<u64>() {
        Ok(65_535) => Err(format!("label 65535 is no symbol; any symbol is {ANY_WORD}")),
        Ok(x) if x <= u64::from(MAX_LABEL) => Ok(x as u16),
        Ok(x) => Err(format!("label {x} is above {MAX_LABEL}")),
        Err(_) => Err(format!("label {text} is not a number")),
    }
}

/// The digits of a decimal number that is whole, its sign apart, as in 5, 5.0, -3 or 1e+06. Exact: nothing is rounded.
fn whole_digits(text: &str) -> Option<Result<(bool, String), ()>> {
    let (negative, rest) = match text.as_bytes().first()? {
        b'-' => (true, &text[1..]),
        b'+' => (false, &text[1..]),
        _ => (false, text),
    };
    let (mantissa, exponent) = rest.split_once(['e', 'E']).unwrap_or((rest, "0"));
    let (before, behind) = mantissa.split_once('.').unwrap_or((mantissa, ""));
    let mut digits = format!("{before}{behind}");
    if digits.is_empty() || !digits.bytes().all(|c| c.is_ascii_digit()) {
        return None;
    }
    let shift = exponent.parse::<i64>().ok()?.saturating_sub(behind.len() as i64);
    if digits.bytes().all(|c| c == b'0') {
        return Some(Ok((negative, "0".into())));
    }
    let cut = usize::try_from(shift.saturating_neg()).unwrap_or(0);
    if cut > 0 {
        if cut >= digits.len() || !digits[digits.len() - cut..].bytes().all(|c| c == b'0') {
            return Some(Err(()));
        }
        digits.truncate(digits.len() - cut);
    }
    // More zeros than any weight has digits say no more.
    digits.push_str(&"0".repeat(shift.clamp(0, 20) as usize));
    Some(Ok((negative, digits.trim_start_matches('0').to_string())))
}

/// A weight: a whole number within the bounds, also in the form of a float.
fn weight(text: &str) -> Result<i64, String> {
    let (negative, digits) = match whole_digits(text) {
        None => return Err(format!("weight {text} is not a number")),
        Some(Err(())) => return Err(format!("weight {text} is not a whole number")),
        Some(Ok(found)) => found,
    };
    let size = digits.parse::<i64>().unwrap_or(i64::MAX);
    match if negative { -size } else { size } {
        w if w < weights::LEAST => Err(format!("weight {text} is below {}", weights::LEAST)),
        w if w > weights::MOST => Err(format!("weight {text} is above {}", weights::MOST)),
        w => Ok(w),
    }
}

fn from_text(text: &str, words: &Words) -> Result<Table, String> {
    let mut start = None;
    let mut states = 0;
    let mut arcs: Vec<Arc> = Vec::new();
    let mut finals: Vec<(u16, i64, usize)> = Vec::new();
    for (i, line) in text.lines().enumerate() {
        let number = i + 1;
        let fields: Vec<&str> = line.split_whitespace().collect();
        if fields.is_empty() {
            continue;
        }
        let mut one = || -> Result<(), String> {
            let source = state(fields[0])?;
            start.get_or_insert(source);
            states = states.max(source as usize + 1);
            match fields.len() {
                1 | 2 if fields.get(1) == Some(&"Infinity") => {}
                1 | 2 => {
                    let w = fields.get(1).map_or(Ok(0), |x| weight(x))?;
                    if let Some(x) = finals.iter().find(|x| x.0 == source) {
                        return Err(format!("state {source} is final already, see line {}", x.2));
                    }
                    finals.push((source, w, number));
                }
                4 | 5 => {
                    let target = state(fields[1])?;
                    let (input, output) = (words.input.label(fields[2])?, words.output.label(fields[3])?);
                    if output == ANY && input != ANY {
                        return Err(format!("output {ANY_WORD} beside input {}", fields[2]));
                    }
                    let w = fields.get(4).map_or(Ok(0), |x| weight(x))?;
                    if arcs.len() == MAX_ARCS {
                        return Err(format!("more than {MAX_ARCS} arcs"));
                    }
                    states = states.max(target as usize + 1);
                    arcs.push(Arc { source, input, output, target, weight: w });
                }
                n => {
                    return Err(format!("{n} fields; an arc has 4 or 5, a final state 1 or 2"));
                }
            }
            Ok(())
        };
        one().map_err(|e| format!("line {number}: {e}"))?;
    }
    let Some(start) = start else {
        return Err("line 1: no start state, the text is empty".into());
    };
    // A stable sort: arcs of one source keep the order of their lines.
    arcs.sort_by_key(|a| a.source);
    finals.sort();
    let finals = finals.into_iter().map(|x| (x.0, x.1)).collect();
    Ok(Table { states, start, finals, arcs })
}

// ----------------------------------------------------------------- code

/// The bytes of a code: a label for each field, none of them 0. Fields come with what an error calls their place.
fn code_of(fields: &[(String, &str)], symbols: &Symbols) -> Result<Vec<u8>, String> {
    let mut out = Vec::new();
    for (place, field) in fields {
        let at = |e: String| format!("{place}: {e}");
        match symbols.label(field).map_err(at)? {
            0 => return Err(at(format!("{field} is label 0, and a code has none"))),
            ANY => return Err(at(format!("{field} is no symbol, and a code has none but symbols"))),
            _ if out.len() == 2 * MAX_CODE => return Err(at(format!("more than {MAX_CODE} labels"))),
            label => out.extend(label.to_le_bytes()),
        }
    }
    Ok(out)
}

fn fields_of(text: &str) -> Vec<(String, &str)> {
    text.lines().enumerate().flat_map(|(i, x)| x.split_whitespace().map(move |field| (format!("line {}", i + 1), field))).collect()
}

/// The labels of a code on one line.
fn code_to_text(bytes: &[u8], symbols: &Symbols) -> Result<String, String> {
    if bytes.len() % 2 != 0 {
        return Err(format!("refused 9: {} bytes, and a label has two", bytes.len()));
    }
    let labels: Vec<u16> = bytes.chunks(2).map(|x| u16::from_le_bytes([x[0], x[1]])).collect();
    if labels.len() > MAX_CODE {
        return Err(format!("refused 9: {} labels, more than {MAX_CODE}", labels.len()));
    }
    if let Some(i) = labels.iter().position(|&x| x == 0 || x > MAX_LABEL) {
        return Err(format!("refused 9: label {i} is {}", labels[i]));
    }
    let words: Vec<String> = labels.iter().map(|&x| symbols.word(x)).collect::<Result<_, _>>()?;
    Ok(words.join(" ") + "\n")
}

// ------------------------------------------------------------------ dot

fn to_dot(t: &Table, words: &Words) -> Result<String, String> {
    let mut out = String::from("digraph table {\n  rankdir = LR;\n  node [shape = circle];\n");
    let _ = writeln!(out, "  begin [shape = point];\n  begin -> {};", t.start);
    for s in 0..t.states as u16 {
        let _ = match t.finals.iter().find(|x| x.0 == s) {
            Some((_, w)) => writeln!(out, "  {s} [label = \"{s}/{w}\", shape = doublecircle];"),
            None => writeln!(out, "  {s} [label = \"{s}\"];"),
        };
    }
    for (i, a) in t.arcs.iter().enumerate() {
        let named = |e: String| format!("arc {i}: {e}");
        let (input, output) = (words.input.word(a.input).map_err(named)?, words.output.word(a.output).map_err(named)?);
        let text = format!("{input}:{output}/{}", a.weight).replace('\\', "\\\\").replace('"', "\\\"");
        let _ = writeln!(out, "  {} -> {} [label = \"{text}\"];", a.source, a.target);
    }
    Ok(out + "}\n")
}

// ------------------------------------------------------------- selftest

/// Words for the labels of a table.
fn named(t: &Table) -> Result<Words, String> {
    let file = |letter: char, mut labels: Vec<u16>| {
        labels.sort();
        labels.dedup();
        labels.retain(|&x| x != ANY);
        let lines: Vec<String> = labels.iter().map(|x| format!("{letter}{x}\t{x}\n")).collect();
        Symbols::read("words", &lines.concat())
    };
    let (inputs, outputs) = (t.arcs.iter().map(|a| a.input).collect(), t.arcs.iter().map(|a| a.output).collect());
    Ok(Words { input: file('i', inputs)?, output: file('o', outputs)? })
}

fn selftest() -> Result<String, String> {
    let plain = Words::default();
    let mut seed = 7u64;
    let mut below = move |n: u64| {
        seed ^= seed << 13;
        seed ^= seed >> 7;
        seed ^= seed << 17;
        (seed >> 20) % n
    };
    let rounds = 5_000;
    for round in 0..rounds {
        let big = round % 500 == 0;
        let n = if big { 1_024 } else { 1 + below(6) };
        let m = if big { 3_072 } else { below(10) };
        let mut arcs: Vec<Arc> = Vec::new();
        for _ in 0..m {
            let mut small = |n: u64| below(n) as u16;
            let (source, target) = (small(n as u64), small(n as u64));
            let (input, mut output) = ([0, 1, 2, 65_534, ANY][small(5) as usize], small(65_535));
            if input == ANY && small(2) == 0 {
                output = ANY;
            }
            let weight = [weights::LEAST, -1, 0, 1, 999_999, weights::MOST][small(6) as usize];
            arcs.push(Arc { source, input, output, target, weight });
        }
        arcs.sort_by_key(|a| a.source);
        let odds = 1 + below(4);
        let mut finals = Vec::new();
        for s in 0..n as u16 {
            if below(odds + 1) == 0 {
                finals.push((s, weights::LEAST + below((weights::MOST - weights::LEAST + 1) as u64) as i64));
            }
        }
        let t = Table { states: n as usize, start: below(n) as u16, finals, arcs };
        let bytes = to_bytes(&t);
        let read = from_bytes(&bytes)?;
        if read != t {
            return Err(format!("round {round}: bytes changed the table {t:?}"));
        }
        let text = to_text(&read, &plain)?;
        let back = from_text(&text, &plain)?;
        if to_bytes(&back) != bytes {
            return Err(format!("round {round}: text changed the table {t:?}:\n{text}"));
        }
        let named = named(&t)?;
        if to_bytes(&from_text(&to_text(&t, &named)?, &named)?) != bytes {
            return Err(format!("round {round}: words changed the table {t:?}"));
        }
        if to_dot(&t, &plain)?.lines().count() != 6 + t.states + t.arcs.len() {
            return Err(format!("round {round}: dot has the wrong number of lines"));
        }
        // Lines of another order with the same first line.
        let mut lines: Vec<&str> = text.lines().collect();
        lines[1..].sort_by_key(|l| l.split('\t').next().map(|x| std::cmp::Reverse(x.parse::<u16>().ok())));
        if to_bytes(&from_text(&lines.join("\n"), &plain)?) != bytes {
            return Err(format!("round {round}: order of lines mattered:\n{text}"));
        }
        // Every cut of the bytes is refused.
        if !big {
            for cut in 0..bytes.len() {
                if from_bytes(&bytes[..cut]).is_ok() {
                    return Err(format!("round {round}: {cut} bytes passed"));
                }
            }
        }
    }
    for (text, wanted) in [
        ("", "line 1: no start state, the text is empty"),
        ("0 1 2 3\n\n0 1 65535 3 4", "line 3: label 65535 is no symbol; any symbol is <any>"),
        ("0 1 <any> <any> 4\n0 1 5 <any> 4", "line 2: output <any> beside input 5"),
        ("0 1 0 <any>", "line 1: output <any> beside input 0"),
        ("0 1 2 65536 4", "line 1: label 65536 is above 65534"),
        ("0 1 2 x", "line 1: label x is not a number"),
        ("0 1024 1 1", "line 1: state 1024 is not below 1024"),
        ("-1 0 1 1", "line 1: state -1 is not a number"),
        ("0 1 1 1 1000001", "line 1: weight 1000001 is above 1000000"),
        ("0 1 1 1 2.5", "line 1: weight 2.5 is not a whole number"),
        ("0 -1000001", "line 1: weight -1000001 is below -1000000"),
        ("0 1 1 1 -1e7", "line 1: weight -1e7 is below -1000000"),
        ("0 -Infinity", "line 1: weight -Infinity is not a number"),
        ("0 inf", "line 1: weight inf is not a number"),
        ("0 1 2", "line 1: 3 fields; an arc has 4 or 5, a final state 1 or 2"),
        ("0 1\n1 2\n0 3", "line 3: state 0 is final already, see line 1"),
    ] {
        if from_text(text, &plain) != Err(wanted.to_string()) {
            return Err(format!("{text:?} gives {:?}, not {wanted:?}", from_text(text, &plain)));
        }
    }
    // Weights are read exactly: the last ones would pass, or come out otherwise, where a float is made of them.
    for (text, wanted) in [
        ("0", Ok(0)),
        ("-0", Ok(0)),
        ("-7", Ok(-7)),
        ("-1e+06", Ok(-1_000_000)),
        ("-5.000", Ok(-5)),
        ("-1000000.00000000000000001", Err("not a whole number")),
        ("-99999999999999999999999", Err("below")),
        ("--7", Err("not a number")),
        ("+7", Ok(7)),
        ("5.000", Ok(5)),
        ("1e+06", Ok(1_000_000)),
        ("1.25E2", Ok(125)),
        ("500e-2", Ok(5)),
        ("0.0e-9", Ok(0)),
        ("1e7", Err("above")),
        ("99999999999999999999999", Err("above")),
        ("1e999999999999", Err("above")),
        ("1e-999999999999", Err("not a whole number")),
        ("1000000.00000000000000001", Err("not a whole number")),
        ("0.99999999999999999999", Err("not a whole number")),
        ("Infinity", Err("not a number")),
        ("1e", Err("not a number")),
        (".", Err("not a number")),
        ("-", Err("not a number")),
        ("0x10", Err("not a number")),
    ] {
        let same = match (weight(text), wanted) {
            (Ok(x), Ok(y)) => x == y,
            (Err(x), Err(y)) => x.contains(y),
            _ => false,
        };
        if !same {
            return Err(format!("weight {text} gives {:?}, not {wanted:?}", weight(text)));
        }
    }
    let many = "0 0 1 1\n".repeat(3_073);
    if from_text(&many, &plain) != Err("line 3073: more than 3072 arcs".to_string()) {
        return Err("3,073 arcs pass".into());
    }
    let t = from_text("2 1 0 3 1e+06\n1\n", &plain)?;
    if (t.start, t.states, t.arcs[0].weight, t.finals[0]) != (2, 3, 1_000_000, (1, 0)) {
        return Err(format!("short forms: {t:?}"));
    }
    // The bytes of weights on either side of both ends; the last four are an arc's weight.
    let t = from_text("0 0 1 1 -7", &plain)?;
    let mut bytes = to_bytes(&t);
    for (weight, wanted) in [(-7, true), (-1, true), (-1_000_000, true), (-1_000_001, false), (1_000_001, false), (i32::MIN, false)] {
        let last = bytes.len() - 4;
        bytes[last..].copy_from_slice(&weight.to_le_bytes());
        let read = from_bytes(&bytes).map(|t| t.arcs[0].weight);
        let good = if wanted { read == Ok(i64::from(weight)) } else { read == Err(format!("refused 8: arc 0 has weight {weight}")) };
        if !good {
            return Err(format!("the bytes of {weight} give {read:?}"));
        }
    }
    Ok(format!("{rounds} tables, all round trips agree"))
}

// ----------------------------------------------------------------- main

const HELP: &str = "\
tables: tables and codes as text, tables as pictures

  tables text FILE.tab      prints the text form of a table
  tables compile FILE.txt   makes a table from its text form
  tables dot FILE.tab       prints a picture of a table for Graphviz
  tables code FIELD..       makes a code, with a label for each field
  tables labels FILE.lab    prints the labels of a code
  tables --selftest         tries round trips of random tables

  tables COMMAND --help     tells more of a command

A file named - is standard input. What is made goes to standard output, or with -o OUT to a file.
Exit status: 0 done, 1 refused with the line or record named, 2 wrong usage.
";

const INPUT_WORDS: &str = "  --isymbols FILE    words for input labels: OpenFst's symbol file, lines of a word and its label\n";
const OUTPUT_WORDS: &str = "  --osymbols FILE    words for output labels\n";
const OPTIONS_END: &str = "  -o OUT             write to OUT and not to standard output
With a symbol file a label is one of its words, and never a number; without one it is a number. <any> is any symbol, either way.
";

/// What each command says of itself: how it is used, and what it does.
const COMMANDS: [(&str, &str, &str); 5] = [
    (
        "text",
        "tables text FILE.tab [--isymbols FILE] [--osymbols FILE] [-o OUT]",
        "Prints a table in OpenFst's text form: a line for each arc (source, target, input, output, weight), and for each final
state (state, weight). `compile` gives the same bytes back. A table that is refused is told by its number and record.
",
    ),
    (
        "compile",
        "tables compile FILE.txt [--isymbols FILE] [--osymbols FILE] [-o OUT]",
        "Makes a table from OpenFst's text form. The source of the first line is the start. A weight is a whole number; what a
table cannot hold exactly is refused, and the line is named.
",
    ),
    (
        "dot",
        "tables dot FILE.tab [--isymbols FILE] [--osymbols FILE] [-o OUT]",
        "Prints a table as a graph: tables dot left.tab | dot -Tsvg > left.svg
",
    ),
    (
        "code",
        "tables code FIELD.. | --file FILE [--isymbols FILE] [-o OUT]",
        "Makes a code (code.lab): two bytes for each field, which is a number from 1 to 65534, or a word of the symbol file. With
--file the fields are those of a text, parted by blanks, tabs or new lines. At most 64; none at all is the empty code.
",
    ),
    (
        "labels",
        "tables labels FILE.lab [--isymbols FILE] [-o OUT]",
        "Prints the labels of a code on one line. A code that is refused is told by its number and label.
",
    ),
];

fn help_of(command: &str) -> Option<String> {
    let (_, usage, what) = COMMANDS.iter().find(|x| x.0 == command)?;
    let outputs = if usage.contains("--osymbols") { OUTPUT_WORDS } else { "" };
    Some(format!("{usage}\n\n{what}\n{INPUT_WORDS}{outputs}{OPTIONS_END}"))
}

/// Why nothing was made: the words on the command line, or what they lead to.
enum Failure {
    Usage(String),
    Refused(String),
}

impl From<String> for Failure {
    fn from(text: String) -> Failure {
        Failure::Refused(text)
    }
}

/// The words behind a command.
#[derive(Default)]
struct Options {
    names: Vec<String>,
    file: Option<String>,
    words: Words,
    out: Option<String>,
}

fn bytes_of(name: &str) -> Result<Vec<u8>, String> {
    let mut bytes = Vec::new();
    let result = match name {
        "-" => std::io::stdin().read_to_end(&mut bytes).map(|_| ()),
        _ => std::fs::read(name).map(|x| bytes = x),
    };
    result.map_err(|e| format!("{name}: {e}")).map(|_| bytes)
}

fn text_of(name: &str) -> Result<String, String> {
    String::from_utf8(bytes_of(name)?).map_err(|_| format!("{name}: not text"))
}

fn options(command: &str, args: &[&str]) -> Result<Options, Failure> {
    let mut found = Options::default();
    let mut args = args.iter();
    while let Some(&arg) = args.next() {
        let (option, value) = match arg.split_once('=') {
            Some((option, value)) if option.starts_with("--") => (option, Some(value)),
            _ => (arg, None),
        };
        if option == "--" {
            found.names.extend(args.by_ref().map(|x| x.to_string()));
            continue;
        }
        if !option.starts_with('-') || option == "-" {
            found.names.push(arg.to_string());
            continue;
        }
        let known = match option {
            "-o" | "--isymbols" => true,
            "--osymbols" => !matches!(command, "code" | "labels"), // a code is read, never written
            "--file" => command == "code",
            _ => false,
        };
        if !known {
            return Err(Failure::Usage(format!("{command} has no option {option}")));
        }
        let Some(value) = value.or_else(|| args.next().copied()) else {
            return Err(Failure::Usage(format!("{option} wants a file")));
        };
        match option {
            "-o" => found.out = Some(value.to_string()),
            "--file" => found.file = Some(value.to_string()),
            "--isymbols" => found.words.input = Symbols::read(value, &text_of(value)?)?,
            _ => found.words.output = Symbols::read(value, &text_of(value)?)?,
        }
    }
    Ok(found)
}

/// What a command makes.
fn made(command: &str, options: &Options) -> Result<Vec<u8>, Failure> {
    let words = &options.words;
    if command == "code" {
        let text = match &options.file {
            Some(name) if options.names.is_empty() => text_of(name)?,
            Some(_) => return Err(Failure::Usage("code takes fields or --file, not both".into())),
            None => String::new(),
        };
        let told: Vec<(String, &str)> = options.names.iter().enumerate().map(|(i, x)| (format!("field {}", i + 1), x.as_str())).collect();
        return Ok(match &options.file {
            Some(name) => code_of(&fields_of(&text), &words.input).map_err(|e| format!("{name}: {e}"))?,
            None => code_of(&told, &words.input)?,
        });
    }
    let [name] = &options.names[..] else {
        return Err(Failure::Usage(format!("{command} takes one file")));
    };
    let named = |e: String| format!("{name}: {e}");
    Ok(match command {
        "compile" => to_bytes(&from_text(&text_of(name)?, words).map_err(named)?),
        "labels" => code_to_text(&bytes_of(name)?, &words.input).map_err(named)?.into_bytes(),
        "text" => to_text(&from_bytes(&bytes_of(name)?).map_err(named)?, words).map_err(named)?.into_bytes(),
        _ => to_dot(&from_bytes(&bytes_of(name)?).map_err(named)?, words).map_err(named)?.into_bytes(),
    })
}

fn run(args: &[&str]) -> Result<Vec<u8>, Failure> {
    match args {
        ["--help" | "-h" | "help"] => Ok(HELP.into()),
        ["--selftest"] => Ok((selftest()? + "\n").into_bytes()),
        [command, rest @ ..] if help_of(command).is_some() => {
            if rest.iter().take_while(|&&x| x != "--").any(|&x| x == "--help" || x == "-h") {
                return Ok(help_of(command).unwrap_or_default().into_bytes());
            }
            let options = options(command, rest)?;
            let bytes = made(command, &options)?;
            match &options.out {
                Some(out) => Ok(std::fs::write(out, bytes).map(|_| vec![]).map_err(|e| format!("{out}: {e}"))?),
                None => Ok(bytes),
            }
        }
        [] => Err(Failure::Usage("no command".into())),
        [command, ..] => Err(Failure::Usage(format!("no command {command}"))),
    }
}

fn main() {
    let args: Vec<String> = std::env::args().skip(1).collect();
    let args: Vec<&str> = args.iter().map(|x| x.as_str()).collect();
    let (text, status) = match run(&args) {
        Ok(out) => match std::io::stdout().write_all(&out).and_then(|()| std::io::stdout().flush()) {
            // A closed pipe is no error worth telling of.
            Err(e) if e.kind() != std::io::ErrorKind::BrokenPipe => (format!("standard output: {e}"), 1),
            _ => return,
        },
        Err(Failure::Refused(text)) => (text, 1),
        Err(Failure::Usage(text)) => (format!("{text}; tables --help tells how it is used"), 2),
    };
    eprintln!("{text}");
    std::process::exit(status);
}
