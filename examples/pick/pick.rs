//! Reads left.tab, right.tab and code.lab of a folder and prints the number of readings, 99 standing for 99 or more: what a picking machine
//! acts on. A refusal goes to standard error, with status 1; so does a file that cannot be read, with status 2.
use forthwn::{Refusal, lent, readings};
use std::fs::File;
use std::io::{ErrorKind, Read};
use std::process::ExitCode;

const MOST: u64 = 65_536;

/// Up to 65,536 bytes of a file; a missing one counts as empty.
fn load(folder: &str, name: &str) -> Result<Vec<u8>, String> {
    let path = format!("{folder}/{name}");
    let mut bytes = Vec::new();
    match File::open(&path).and_then(|file| file.take(MOST).read_to_end(&mut bytes)) {
        Err(error) if error.kind() != ErrorKind::NotFound => Err(format!("{path}: {error}")),
        _ => Ok(bytes),
    }
}

/// A label for each two bytes, the lower one first. An odd last byte is half a label; as label 0 it is refused by 9 in its turn.
fn labels(code: &[u8]) -> Vec<u16> {
    code.chunks(2)
        .map(|x| {
            if let [low, high] = *x {
                u16::from_le_bytes([low, high])
            } else {
                0
            }
        })
        .collect()
}

/// Which file a refusal is about.
fn place(refusal: Refusal, left: &[u8]) -> &'static str {
    match refusal.number() {
        1..=8 if lent::accepts(left).is_err() => ", in left.tab",
        1..=8 => ", in right.tab",
        9 => ", in code.lab",
        _ => "",
    }
}

fn main() -> ExitCode {
    let folder = std::env::args().nth(1).unwrap_or_else(|| ".".into());
    let files = || {
        Ok::<_, String>((
            load(&folder, "left.tab")?,
            load(&folder, "right.tab")?,
            load(&folder, "code.lab")?,
        ))
    };
    let (left, right, code) = match files() {
        Ok(files) => files,
        Err(said) => {
            eprintln!("pick: {said}");
            return ExitCode::from(2);
        }
    };
    match readings(&left, &right, &labels(&code)) {
        Ok(count) => {
            println!("{count}");
            ExitCode::SUCCESS
        }
        Err(refusal) => {
            eprintln!("pick: {refusal}{}", place(refusal, &left));
            ExitCode::from(1)
        }
    }
}
