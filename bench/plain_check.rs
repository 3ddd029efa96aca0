//! The check of a trace in plain Rust, unproved, to compare speed and memory with: `rustc -O plain_check.rs`.
//!
//! usage: plain_check FILE
//!
//! It keeps a history as the proved program does, in one store of bytes with an entry for each call, and
//! looks keys up in the standard library's `HashMap`, whose hasher has a random seed. It stops at the first
//! fault and names it by one word.
use std::collections::HashMap;
use std::fs::File;
use std::io::{BufReader, Error, ErrorKind, Read, Result};

#[derive(Clone, Copy, PartialEq)]
enum Kind {
    Put,
    Remove,
    Hit,
    Miss,
}

struct Entry {
    start: u64,
    end: u64,
    /// When a put expires, or a hit's moment.
    time: u64,
    offset: usize,
    value_len: u16,
    key_len: u8,
    kind: Kind,
}

#[derive(Default)]
struct Trace {
    entries: Vec<Entry>,
    store: Vec<u8>,
    positions: Vec<u32>,
}

impl Trace {
    fn key(&self, entry: &Entry) -> &[u8] {
        &self.store[entry.offset..][..entry.key_len as usize]
    }

    fn value(&self, entry: &Entry) -> &[u8] {
        &self.store[entry.offset + entry.key_len as usize..][..entry.value_len as usize]
    }
}

fn bytes<const N: usize>(reader: &mut impl Read) -> Result<[u8; N]> {
    let mut bytes = [0; N];
    reader.read_exact(&mut bytes)?;
    Ok(bytes)
}

fn bad(why: &str) -> Error {
    Error::new(ErrorKind::InvalidData, why)
}

/// Puts so many of the reader's bytes behind the store's.
fn store(store: &mut Vec<u8>, reader: &mut impl Read, count: usize) -> Result<()> {
    let len = store.len();
    store.resize(len + count, 0);
    reader.read_exact(&mut store[len..])
}

fn read_call(timed: bool, reader: &mut impl Read, trace: &mut Trace) -> Result<()> {
    let [kind] = bytes(reader)?;
    let kind = match kind {
        1 => Kind::Put,
        2 => Kind::Remove,
        3 => Kind::Hit,
        4 => Kind::Miss,
        _ => return Err(bad("BadKind")),
    };
    let _caller = u16::from_be_bytes(bytes(reader)?);
    let start = u64::from_be_bytes(bytes(reader)?);
    let end = u64::from_be_bytes(bytes(reader)?);
    let [key_len] = bytes(reader)?;
    if key_len == 0 {
        return Err(bad("BadKey"));
    }
    let offset = trace.store.len();
    store(&mut trace.store, reader, key_len as usize)?;
    let mut value_len = 0;
    let mut time = if kind == Kind::Put { u64::MAX } else { 0 };
    if kind == Kind::Put || kind == Kind::Hit {
        value_len = u16::from_be_bytes(bytes(reader)?);
        if value_len > 2048 {
            return Err(bad("BadValue"));
        }
        store(&mut trace.store, reader, value_len as usize)?;
        if timed {
            time = u64::from_be_bytes(bytes(reader)?);
        }
    }
    trace.entries.push(Entry { start, end, time, offset, value_len, key_len, kind });
    Ok(())
}

fn read_trace(reader: &mut impl Read) -> Result<Trace> {
    let timed = match &bytes::<8>(reader)? {
        b"KGTRACE2" => true,
        b"KGTRACE1" => false,
        _ => return Err(bad("BadMagic")),
    };
    let count = u32::from_be_bytes(bytes(reader)?);
    if count > 1 << 28 {
        return Err(bad("TooMany"));
    }
    let mut trace = Trace::default();
    for _ in 0..count {
        read_call(timed, reader, &mut trace)?;
    }
    for _ in 0..count {
        trace.positions.push(u32::from_be_bytes(bytes(reader)?));
    }
    match reader.read(&mut [0])? {
        0 => Ok(trace),
        _ => Err(bad("TrailingBytes")),
    }
}

fn check(trace: &Trace) -> std::result::Result<(), &'static str> {
    if trace.entries.iter().any(|entry| entry.end < entry.start) {
        return Err("BadInterval");
    }
    let mut seen = vec![false; trace.entries.len()];
    let mut greatest_start = 0;
    let mut values: HashMap<&[u8], (&[u8], u64)> = HashMap::new();
    for &position in &trace.positions {
        let position = position as usize;
        let entry = trace.entries.get(position).ok_or("NotAPlace")?;
        if std::mem::replace(&mut seen[position], true) {
            return Err("Repeated");
        }
        if entry.end < greatest_start {
            return Err("OutOfOrder");
        }
        greatest_start = greatest_start.max(entry.start);
        match entry.kind {
            Kind::Put => {
                values.insert(trace.key(entry), (trace.value(entry), entry.time));
            }
            Kind::Remove => {
                values.remove(trace.key(entry));
            }
            Kind::Hit => match values.get(trace.key(entry)) {
                Some(&(value, expires))
                    if value == trace.value(entry) && (entry.time < expires || expires == u64::MAX) => {}
                _ => return Err("WrongHit"),
            },
            Kind::Miss => {}
        }
    }
    Ok(())
}

fn main() -> Result<()> {
    let file = std::env::args().nth(1).ok_or_else(|| bad("usage: plain_check FILE"))?;
    let trace = read_trace(&mut BufReader::new(File::open(file)?))?;
    match check(&trace) {
        Ok(()) => println!("accepted {} calls", trace.entries.len()),
        Err(fault) => println!("rejected {fault}"),
    }
    Ok(())
}
