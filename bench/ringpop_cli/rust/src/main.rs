//! The same fold in plain Rust by the crates serde_json and sha2, for comparison: fold_lines < LINES. A line is read to a `Value`, the
//! greatest change of each address is kept in a hash map, and what is no change ends it in one way.
use serde_json::Value;
use sha2::{Digest, Sha256};
use std::collections::HashMap;
use std::fmt::Write as _;
use std::io::{self, BufRead, Write};

const WORDS: [&str; 5] = ["alive", "suspect", "faulty", "leave", "tombstone"];
const GREATEST: u64 = (1 << 53) - 1;

type Address = (u32, u32);
type Entry = (u64, usize, u64);

fn part(text: &str, most: u32) -> Option<u32> {
    let plain = text.len() <= 5 && text.bytes().all(|b| b.is_ascii_digit()) && (text.len() == 1 || !text.starts_with('0'));
    if !plain {
        return None;
    }
    text.parse().ok().filter(|number| *number <= most)
}

fn address(value: &Value) -> Option<Address> {
    let (ip, port) = value.as_str()?.split_once(':')?;
    let mut parts = ip.split('.');
    let mut number = 0;
    for _ in 0..4 {
        number = number << 8 | part(parts.next()?, 255)?;
    }
    if parts.next().is_some() {
        return None;
    }
    Some((number, part(port, 65535).filter(|port| *port > 0)?))
}

fn whole(value: &Value, least: u64, most: u64) -> Option<u64> {
    value.as_u64().filter(|number| (least..=most).contains(number))
}

fn change(line: &[u8]) -> Option<(Address, Entry)> {
    let value: Value = serde_json::from_slice(line).ok()?;
    let at = address(value.get("address")?)?;
    let incarnation = whole(value.get("incarnationNumber")?, 0, GREATEST)?;
    address(value.get("source")?)?;
    whole(value.get("sourceIncarnationNumber")?, 0, GREATEST)?;
    let word = value.get("status")?.as_str()?;
    let mut rank = WORDS.iter().position(|other| *other == word)?;
    if rank == 2 && value.get("tombstone").map_or(Some(false), Value::as_bool)? {
        rank = 4;
    }
    let weight = value.get("weight").map_or(Some(1), |value| whole(value, 1, 8))?;
    Some((at, (incarnation, rank, weight)))
}

fn fold() -> io::Result<HashMap<Address, Entry>> {
    let mut held: HashMap<Address, Entry> = HashMap::new();
    let mut input = io::stdin().lock();
    let mut line = Vec::new();
    let mut number = 0;
    while input.read_until(b'\n', &mut line)? > 0 {
        number += 1;
        let Some((at, entry)) = change(line.strip_suffix(b"\n").unwrap_or(&line)) else {
            eprintln!("line {number}: no change");
            std::process::exit(1);
        };
        let known = held.entry(at).or_insert(entry);
        *known = entry.max(*known);
        line.clear();
    }
    Ok(held)
}

fn main() -> io::Result<()> {
    let mut members: Vec<(Address, Entry)> = fold()?.into_iter().collect();
    members.sort_unstable();
    let mut text = String::new();
    for (i, ((ip, port), (incarnation, rank, weight))) in members.iter().enumerate() {
        let separator = if i > 0 { ";" } else { "" };
        let [a, b, c, d] = ip.to_be_bytes();
        write!(text, "{separator}{a}.{b}.{c}.{d}:{port}{}{incarnation}", WORDS[*rank]).unwrap();
        if *weight > 1 {
            write!(text, "*{weight}").unwrap();
        }
    }
    let digest: String = Sha256::digest(&text).iter().map(|byte| format!("{byte:02x}")).collect();
    writeln!(io::stdout().lock(), "{text}\n{digest}")
}
