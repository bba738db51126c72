//! The same fold in plain Rust, for comparison: fold < LINES. It stands on std alone: a JSON value is read whole, its
//! members are looked up by name, and what is no change ends it in one way.
use std::collections::BTreeMap;
use std::fmt::Write as _;
use std::io::{self, BufRead, Write};

const WORDS: [&str; 5] = ["alive", "suspect", "faulty", "leave", "tombstone"];
const GREATEST: u64 = (1 << 53) - 1;

enum Value {
    Null,
    Truth(bool),
    Whole(u64),
    Other(f64),
    Text(String),
    List(Vec<Value>),
    Object(BTreeMap<String, Value>),
}

struct Reader<'a> {
    bytes: &'a [u8],
    at: usize,
}

impl Reader<'_> {
    fn space(&mut self) {
        while matches!(self.bytes.get(self.at), Some(b' ' | b'\t' | b'\r' | b'\n')) {
            self.at += 1;
        }
    }

    fn next(&mut self) -> Option<u8> {
        self.space();
        self.bytes.get(self.at).copied()
    }

    fn word(&mut self, word: &[u8], value: Value) -> Option<Value> {
        let found = self.bytes[self.at..].starts_with(word);
        self.at += word.len();
        found.then_some(value)
    }

    fn text(&mut self) -> Option<String> {
        self.at += 1;
        let mut out = Vec::new();
        loop {
            let byte = *self.bytes.get(self.at)?;
            self.at += 1;
            match byte {
                b'"' => return String::from_utf8(out).ok(),
                b'\\' => {
                    let escaped = *self.bytes.get(self.at)?;
                    self.at += 1;
                    out.push(match escaped {
                        b'n' => b'\n',
                        b't' => b'\t',
                        b'r' => b'\r',
                        b'"' | b'\\' | b'/' => escaped,
                        _ => return None,
                    });
                }
                0..=31 => return None,
                _ => out.push(byte),
            }
        }
    }

    fn number(&mut self) -> Option<Value> {
        let start = self.at;
        while matches!(self.bytes.get(self.at), Some(b'0'..=b'9' | b'-' | b'+' | b'.' | b'e' | b'E')) {
            self.at += 1;
        }
        let text = std::str::from_utf8(&self.bytes[start..self.at]).ok()?;
        match text.parse() {
            Ok(number) if text.len() == 1 || !text.starts_with(['0', '+']) => Some(Value::Whole(number)),
            _ => text.parse().ok().map(Value::Other),
        }
    }

    fn value(&mut self) -> Option<Value> {
        match self.next()? {
            b'{' => {
                self.at += 1;
                let mut members = BTreeMap::new();
                if self.next()? == b'}' {
                    self.at += 1;
                    return Some(Value::Object(members));
                }
                loop {
                    (self.next()? == b'"').then_some(())?;
                    let name = self.text()?;
                    (self.next()? == b':').then_some(())?;
                    self.at += 1;
                    let value = self.value()?;
                    members.insert(name, value);
                    let end = self.next()?;
                    self.at += 1;
                    match end {
                        b',' => {}
                        b'}' => return Some(Value::Object(members)),
                        _ => return None,
                    }
                }
            }
            b'[' => {
                self.at += 1;
                let mut items = Vec::new();
                if self.next()? == b']' {
                    self.at += 1;
                    return Some(Value::List(items));
                }
                loop {
                    items.push(self.value()?);
                    let end = self.next()?;
                    self.at += 1;
                    match end {
                        b',' => {}
                        b']' => return Some(Value::List(items)),
                        _ => return None,
                    }
                }
            }
            b'"' => self.text().map(Value::Text),
            b't' => self.word(b"true", Value::Truth(true)),
            b'f' => self.word(b"false", Value::Truth(false)),
            b'n' => self.word(b"null", Value::Null),
            _ => self.number(),
        }
    }
}

fn read(line: &[u8]) -> Option<Value> {
    std::str::from_utf8(line).ok()?;
    let mut reader = Reader { bytes: line, at: 0 };
    let value = reader.value()?;
    reader.space();
    (reader.at == line.len()).then_some(value)
}

fn part(text: &str, most: u32) -> Option<u32> {
    let plain = text.len() <= 5 && text.bytes().all(|b| b.is_ascii_digit()) && (text.len() == 1 || !text.starts_with('0'));
    if !plain {
        return None;
    }
    text.parse().ok().filter(|number| *number <= most)
}

fn address(text: &str) -> Option<(u32, u32)> {
    let (ip, port) = text.split_once(':')?;
    let mut parts = ip.split('.');
    let mut number = 0;
    for _ in 0..4 {
        number = number << 8 | part(parts.next()?, 255)?;
    }
    if parts.next().is_some() {
        return None;
    }
    Some((number, part(port, 65535).filter(|port| *port > 0)?))
}

fn whole(value: &Value, least: u64, most: u64) -> Option<u64> {
    match value {
        Value::Whole(number) if (least..=most).contains(number) => Some(*number),
        _ => None,
    }
}

fn text(value: &Value) -> Option<&str> {
    match value {
        Value::Text(text) => Some(text),
        _ => None,
    }
}

type Entry = (u64, usize, u64);

fn change(line: &[u8]) -> Option<((u32, u32), Entry)> {
    let Value::Object(members) = read(line)? else {
        return None;
    };
    let at = address(text(members.get("address")?)?)?;
    let incarnation = whole(members.get("incarnationNumber")?, 0, GREATEST)?;
    address(text(members.get("source")?)?)?;
    whole(members.get("sourceIncarnationNumber")?, 0, GREATEST)?;
    let word = text(members.get("status")?)?;
    let mut rank = WORDS.iter().position(|other| *other == word)?;
    if rank == 2 {
        match members.get("tombstone") {
            None | Some(Value::Truth(false)) => {}
            Some(Value::Truth(true)) => rank = 4,
            _ => return None,
        }
    }
    let weight = match members.get("weight") {
        None => 1,
        Some(value) => whole(value, 1, 8)?,
    };
    Some((at, (incarnation, rank, weight)))
}

fn sha256(bytes: &[u8]) -> [u32; 8] {
    const K: [u32; 64] = [
        0x428a2f98, 0x71374491, 0xb5c0fbcf, 0xe9b5dba5, 0x3956c25b, 0x59f111f1, 0x923f82a4, 0xab1c5ed5, 0xd807aa98, 0x12835b01, 0x243185be,
        0x550c7dc3, 0x72be5d74, 0x80deb1fe, 0x9bdc06a7, 0xc19bf174, 0xe49b69c1, 0xefbe4786, 0x0fc19dc6, 0x240ca1cc, 0x2de92c6f, 0x4a7484aa,
        0x5cb0a9dc, 0x76f988da, 0x983e5152, 0xa831c66d, 0xb00327c8, 0xbf597fc7, 0xc6e00bf3, 0xd5a79147, 0x06ca6351, 0x14292967, 0x27b70a85,
        0x2e1b2138, 0x4d2c6dfc, 0x53380d13, 0x650a7354, 0x766a0abb, 0x81c2c92e, 0x92722c85, 0xa2bfe8a1, 0xa81a664b, 0xc24b8b70, 0xc76c51a3,
        0xd192e819, 0xd6990624, 0xf40e3585, 0x106aa070, 0x19a4c116, 0x1e376c08, 0x2748774c, 0x34b0bcb5, 0x391c0cb3, 0x4ed8aa4a, 0x5b9cca4f,
        0x682e6ff3, 0x748f82ee, 0x78a5636f, 0x84c87814, 0x8cc70208, 0x90befffa, 0xa4506ceb, 0xbef9a3f7, 0xc67178f2,
    ];
    let mut state: [u32; 8] = [0x6a09e667, 0xbb67ae85, 0x3c6ef372, 0xa54ff53a, 0x510e527f, 0x9b05688c, 0x1f83d9ab, 0x5be0cd19];
    let mut padded = bytes.to_vec();
    padded.push(0x80);
    while padded.len() % 64 != 56 {
        padded.push(0);
    }
    padded.extend((bytes.len() as u64 * 8).to_be_bytes());
    for block in padded.chunks(64) {
        let mut w = [0u32; 64];
        for (i, four) in block.chunks(4).enumerate() {
            w[i] = u32::from_be_bytes(four.try_into().unwrap());
        }
        for i in 16..64 {
            let a = w[i - 15].rotate_right(7) ^ w[i - 15].rotate_right(18) ^ w[i - 15] >> 3;
            let b = w[i - 2].rotate_right(17) ^ w[i - 2].rotate_right(19) ^ w[i - 2] >> 10;
            w[i] = w[i - 16].wrapping_add(a).wrapping_add(w[i - 7]).wrapping_add(b);
        }
        let [mut a, mut b, mut c, mut d, mut e, mut f, mut g, mut h] = state;
        for i in 0..64 {
            let s = e.rotate_right(6) ^ e.rotate_right(11) ^ e.rotate_right(25);
            let one = h.wrapping_add(s).wrapping_add(e & f ^ !e & g).wrapping_add(K[i]).wrapping_add(w[i]);
            let t = a.rotate_right(2) ^ a.rotate_right(13) ^ a.rotate_right(22);
            let two = t.wrapping_add(a & b ^ a & c ^ b & c);
            (h, g, f, e, d, c, b, a) = (g, f, e, d.wrapping_add(one), c, b, a, one.wrapping_add(two));
        }
        for (old, new) in state.iter_mut().zip([a, b, c, d, e, f, g, h]) {
            *old = old.wrapping_add(new);
        }
    }
    state
}

fn main() -> io::Result<()> {
    let mut held: BTreeMap<(u32, u32), Entry> = BTreeMap::new();
    let mut input = io::stdin().lock();
    let mut line = Vec::new();
    let mut number = 0;
    loop {
        line.clear();
        if input.read_until(b'\n', &mut line)? == 0 {
            break;
        }
        number += 1;
        let bytes = line.strip_suffix(b"\n").unwrap_or(&line);
        let Some((at, entry)) = change(bytes) else {
            eprintln!("line {number}: no change");
            std::process::exit(1);
        };
        let known = held.entry(at).or_insert(entry);
        if entry > *known {
            *known = entry;
        }
    }
    let mut text = String::new();
    for (i, ((ip, port), (incarnation, rank, weight))) in held.iter().enumerate() {
        let separator = if i > 0 { ";" } else { "" };
        let [a, b, c, d] = ip.to_be_bytes();
        write!(text, "{separator}{a}.{b}.{c}.{d}:{port}{}{incarnation}", WORDS[*rank]).unwrap();
        if *weight > 1 {
            write!(text, "*{weight}").unwrap();
        }
    }
    let mut out = io::BufWriter::new(io::stdout().lock());
    writeln!(out, "{text}")?;
    for word in sha256(text.as_bytes()) {
        write!(out, "{word:08x}")?;
    }
    writeln!(out)
}
