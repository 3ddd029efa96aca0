//! Drives the Rust recorder: `drive calls PORT OUT` over memcached, `drive table OUT ONE_OF` over a table. The test/run page says what.
#[path = "../rust/recorder.rs"]
mod recorder;
use recorder::Recorder;
use std::cell::RefCell;
use std::collections::HashMap;
use std::fs::File;
use std::io::{BufRead, BufReader, Error, Read, Write};
use std::net::TcpStream;
use std::time::Duration;

struct Client(RefCell<BufReader<TcpStream>>);

impl Client {
    fn ask(&self, request: &[u8]) -> Result<String, Error> {
        let mut line = String::new();
        self.0.borrow_mut().get_mut().write_all(request)?;
        self.0.borrow_mut().read_line(&mut line)?;
        Ok(line.trim_end().to_string())
    }

    fn change(&self, request: &[u8]) -> Result<(), Error> {
        let answer = self.ask(request)?;
        if ["STORED", "DELETED", "NOT_FOUND"].contains(&answer.as_str()) { Ok(()) } else { Err(Error::other(answer)) }
    }

    fn get(&self, key: &str) -> Result<Option<Vec<u8>>, Error> {
        let answer = self.ask(format!("get {key}\r\n").as_bytes())?;
        if answer == "END" {
            return Ok(None);
        }
        let size: usize = answer.split(' ').nth(3).and_then(|it| it.parse().ok()).ok_or(Error::other(answer.clone()))?;
        let mut found = vec![0; size + 7];
        self.0.borrow_mut().read_exact(&mut found)?;
        found.truncate(size);
        Ok(Some(found))
    }
}

fn work(recorder: &Recorder<File>, port: u16, seed: u64) -> Result<(), Error> {
    let stream = TcpStream::connect(("127.0.0.1", port))?;
    stream.set_nodelay(true)?;
    let (client, name, mut chance) = (Client(RefCell::new(BufReader::new(stream))), format!("rust-{seed}"), seed);
    for number in 0..600usize {
        chance = chance.wrapping_mul(6364136223846793005).wrapping_add(1442695040888963407);
        let (key, kind) = (format!("key{}", (chance >> 33) % 8), (chance >> 40) % 100);
        if kind < 60 {
            recorder.get(&name, key.as_bytes(), || client.get(&key))?;
        } else if kind < 92 {
            let expiry = usize::from(kind < 70);
            let value = vec![b'a' + (number % 26) as u8; number % 100];
            recorder.put(&name, key.as_bytes(), &value, Duration::from_secs(3 * expiry as u64), |stored| {
                client.change(&[format!("set {key} 0 {expiry} {}\r\n", stored.len()).as_bytes(), stored, b"\r\n"].concat())
            })?;
        } else {
            recorder.remove(&name, key.as_bytes(), || client.change(format!("delete {key}\r\n").as_bytes()))?;
        }
    }
    Ok(())
}

fn table(recorder: &Recorder<File>) {
    let table = RefCell::new(HashMap::<Vec<u8>, Vec<u8>>::new());
    let mut keys: Vec<(Vec<u8>, Vec<u8>)> = (0..=255u8).map(|b| (vec![b], vec![b; usize::from(b)])).collect();
    keys.extend((0..300).map(|n| (format!("key{n}").into_bytes(), vec![b'x'; n])));
    for (key, value) in keys {
        let get = || recorder.get("a #-%", &key, || Ok::<_, ()>(table.borrow().get(&key).cloned())).unwrap();
        let put = |stored: &[u8]| { table.borrow_mut().insert(key.clone(), stored.to_vec()); Ok::<_, ()>(()) };
        assert!(get().is_none());
        recorder.put("-", &key, &value, Duration::ZERO, put).unwrap();
        assert_eq!(get(), Some(value));
        recorder.remove("", &key, || { table.borrow_mut().remove(&key); Ok::<_, ()>(()) }).unwrap();
        assert!(recorder.put("late", &key, b"", Duration::from_secs(1), |_| Err(())).is_err());
    }
}

fn main() {
    let words: Vec<String> = std::env::args().collect();
    let is_table = words[1] == "table";
    let out = File::options().append(true).create(true).open(&words[if is_table { 2 } else { 3 }]).unwrap();
    let recorder = Recorder::new(out, if is_table { words[3].parse().unwrap() } else { 1 });
    if is_table {
        table(&recorder);
    } else {
        let (port, recorder) = (words[2].parse().unwrap(), &recorder);
        std::thread::scope(|scope| (1..=4).for_each(|seed| { scope.spawn(move || work(recorder, port, seed).unwrap()); }));
    }
    println!("lost {}", recorder.close().1);
}
