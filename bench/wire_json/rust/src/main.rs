//! serde_json on the lines of pings: to and from a `Value`, and to and from structs. Or a line is read once to a `Value`, and the most
//! memory that the program had before and after is told. Or it is read to a `Value`, or written from one, so many times.
//! usage: ping_lines FILE.. | ping_lines once FILE | ping_lines decode|encode TURNS FILE
use serde::{Deserialize, Serialize};
use serde_json::Value;
use std::hint::black_box;
use std::time::Instant;

#[derive(Serialize, Deserialize)]
#[serde(rename_all = "camelCase")]
struct Change {
    address: String,
    incarnation_number: u64,
    source: String,
    source_incarnation_number: u64,
    status: String,
}

#[derive(Serialize, Deserialize)]
#[serde(rename_all = "camelCase")]
struct Ping {
    changes: Vec<Change>,
    checksum: String,
    kind: String,
    source: String,
    source_incarnation_number: u64,
}

/// The median of five rounds, in MB/s.
fn speed(bytes: usize, mut call: impl FnMut()) -> f64 {
    let turns = (30_000_000 / bytes).clamp(20, 200_000);
    let mut rounds: Vec<f64> = (0..5)
        .map(|_| {
            let start = Instant::now();
            for _ in 0..turns {
                call();
            }
            start.elapsed().as_secs_f64() / turns as f64
        })
        .collect();
    rounds.sort_by(f64::total_cmp);
    bytes as f64 / rounds[2] / 1e6
}

/// The most memory that the program had resident, as the system tells it.
fn peak() -> String {
    let text = std::fs::read_to_string("/proc/self/status").expect("a status");
    let peak = text.lines().find_map(|line| line.strip_prefix("VmHWM:"));
    peak.expect("a peak").trim().to_owned()
}

fn once(file: &str) {
    let text = std::fs::read_to_string(file).expect("a file");
    let before = peak();
    let value: Value = serde_json::from_slice(text.as_bytes()).expect("a value");
    let after = peak();
    println!("rust serde_json  {file}: at most {before} before, {after} after");
    black_box(value);
}

fn do_turns(way: &str, turns: u64, file: &str) {
    let text = std::fs::read_to_string(file).expect("a file");
    let value: Value = serde_json::from_str(&text).expect("a value");
    for _ in 0..turns {
        if way == "decode" {
            black_box(
                serde_json::from_slice::<Value>(black_box(text.as_bytes())).expect("a value"),
            );
        } else {
            black_box(serde_json::to_vec(black_box(&value)).expect("a line"));
        }
    }
}

fn main() {
    let words: Vec<String> = std::env::args().collect();
    if let [_, way @ ("decode" | "encode"), turns, file] =
        words.iter().map(String::as_str).collect::<Vec<_>>()[..]
    {
        return match turns.parse() {
            Ok(turns) => do_turns(way, turns, file),
            Err(_) => println!("no turns: {turns}"),
        };
    }
    if let [_, word, file] = words.as_slice() {
        if word == "once" {
            return once(file);
        }
    }
    for file in std::env::args().skip(1) {
        let text = std::fs::read_to_string(&file).expect("a file");
        let line = text.trim_end();
        let bytes = line.as_bytes();
        let value: Value = serde_json::from_slice(bytes).expect("a value");
        let ping: Ping = serde_json::from_slice(bytes).expect("a ping");
        let rows = [
            (
                "decode to Value",
                speed(bytes.len(), || {
                    black_box(serde_json::from_slice::<Value>(black_box(bytes)).expect("a value"));
                }),
            ),
            (
                "decode to structs",
                speed(bytes.len(), || {
                    black_box(serde_json::from_slice::<Ping>(black_box(bytes)).expect("a ping"));
                }),
            ),
            (
                "encode from Value",
                speed(bytes.len(), || {
                    black_box(serde_json::to_vec(black_box(&value)).expect("a line"));
                }),
            ),
            (
                "encode from structs",
                speed(bytes.len(), || {
                    black_box(serde_json::to_vec(black_box(&ping)).expect("a line"));
                }),
            ),
        ];
        for (name, rate) in rows {
            println!("rust serde_json  {file}: {name} {rate:.0} MB/s");
        }
    }
}
