//! Records the calls of a cache's client as lines for `kangaroo judge`. The page is ../README.md. It runs on 64-bit Linux.
//!
//! Each of put, remove and get makes one call of yours, which returns after the cache's answer has come. No error of the recorder
//! reaches the service: it stops recording, and counts the lines that it did not write.
use std::fmt::Write as _;
use std::hash::{BuildHasher, Hasher};
use std::io::Write;
use std::panic::{catch_unwind, resume_unwind, AssertUnwindSafe};
use std::sync::atomic::{AtomicU64, Ordering};
use std::sync::{Mutex, MutexGuard};
use std::time::Duration;

mod words;
use words::{name_word, tag_size, value_word, word};

/// A recording. Any thread may use it, until it is closed.
pub struct Recorder<W: Write> {
    state: Mutex<State<W>>,
    one_of: u64,
    run: String,
    puts: AtomicU64,
}

struct State<W> {
    out: W,
    calls: u64,
    lost: u64,
}

impl<W: Write> Recorder<W> {
    /// Begins a recording of one key in `one_of`; 0 and 1 mean every key.
    pub fn new(out: W, one_of: u64) -> Self {
        let drawn = std::collections::hash_map::RandomState::new().build_hasher().finish();
        let (run, one_of) = (format!("rec.{:012x}", drawn >> 16), one_of.max(1));
        let r = Recorder { state: Mutex::new(State { out, calls: 0, lost: 0 }), one_of, run, puts: AtomicU64::new(1) };
        r.write(&format!("# recorder {}, 1 of {one_of} keys\n", r.run));
        r.state().calls = 0;
        r
    }

    /// Puts a value by `call`, which is given what it has to store. The cache surely lets it expire `lifetime` after END; zero is never.
    pub fn put<E>(&self, caller: &str, key: &[u8], value: &[u8], lifetime: Duration, call: impl FnOnce(&[u8]) -> Result<(), E>) -> Result<(), E> {
        if !self.records(key) {
            return call(value);
        }
        let stored = [format!("{}.{}|", self.run, self.puts.fetch_add(1, Ordering::Relaxed)).as_bytes(), value].concat();
        let rest = format!("put {} {}", word(key), value_word(&stored));
        self.change(caller, rest, lifetime.as_nanos(), || call(&stored))
    }

    /// Removes a key by `call`.
    pub fn remove<E>(&self, caller: &str, key: &[u8], call: impl FnOnce() -> Result<(), E>) -> Result<(), E> {
        if self.records(key) { self.change(caller, format!("remove {}", word(key)), 0, call) } else { call() }
    }

    /// Makes a write, and notes it. One that failed or panicked has the END `-`: it may have happened, or happen yet.
    fn change<E>(&self, caller: &str, mut rest: String, lifetime: u128, call: impl FnOnce() -> Result<(), E>) -> Result<(), E> {
        let start = now();
        let answer = catch_unwind(AssertUnwindSafe(call));
        let end = now();
        let ended = if matches!(answer, Ok(Ok(()))) { end.to_string() } else { "-".to_string() };
        let expires = u128::from(end) + lifetime;
        if lifetime > 0 && ended != "-" && expires <= i64::MAX as u128 {
            let _ = write!(rest, " {expires}");
        }
        self.write(&format!("{} {start} {ended} {rest}\n", name_word(caller)));
        answer.unwrap_or_else(|panic| resume_unwind(panic))
    }

    /// Gets a value by `call`, and returns it without its tag. A get that fails has no line.
    pub fn get<E>(&self, caller: &str, key: &[u8], call: impl FnOnce() -> Result<Option<Vec<u8>>, E>) -> Result<Option<Vec<u8>>, E> {
        let start = now();
        let found = call()?;
        let end = now();
        if self.records(key) {
            let rest = found.as_ref().map_or(String::new(), |it| format!(" {} {start}", value_word(it)));
            let act = if found.is_some() { "hit" } else { "miss" };
            self.write(&format!("{} {start} {end} {act} {}{rest}\n", name_word(caller), word(key)));
        }
        Ok(found.map(|mut it| it.split_off(tag_size(&it))))
    }

    /// Returns how many lines were not written. After the first, nothing more is written.
    pub fn lost(&self) -> u64 {
        self.state().lost
    }

    /// Writes the last line, and returns how many lines were not written: 0 if the recording is whole. It gives the output back.
    pub fn close(self) -> (W, u64) {
        if self.lost() == 0 {
            let calls = self.state().calls;
            self.write(&format!("# whole: {calls} calls\n"));
        }
        let mut state = self.state.into_inner().unwrap_or_else(|it| it.into_inner());
        if state.lost > 0 {
            let _ = write!(state.out, "  cut\n# not whole: {} lines were not written\n", state.lost).and_then(|()| state.out.flush());
        }
        (state.out, state.lost)
    }

    fn state(&self) -> MutexGuard<'_, State<W>> {
        self.state.lock().unwrap_or_else(|it| it.into_inner())
    }

    /// Writes a line whole, or counts it as lost.
    fn write(&self, line: &str) {
        let mut state = self.state();
        state.lost += 1; // stays if the output fails or panics
        if state.lost == 1 {
            let out = AssertUnwindSafe(&mut state.out);
            let written = catch_unwind(|| { let out = out; out.0.write_all(line.as_bytes()).and_then(|()| out.0.flush()) });
            if matches!(written, Ok(Ok(()))) {
                state.lost = 0;
                state.calls += 1;
            }
        }
    }

    /// The FNV-1a hash of a key, 64 bits, with its upper half folded into the lower, decides whether the key is recorded.
    fn records(&self, key: &[u8]) -> bool {
        let hash = key.iter().fold(14695981039346656037u64, |h, b| (h ^ u64::from(*b)).wrapping_mul(1099511628211));
        (1..=255).contains(&key.len()) && (hash ^ hash >> 32) % self.one_of == 0
    }
}

/// CLOCK_MONOTONIC in nanoseconds. `Instant` gives that clock only as a difference.
fn now() -> u64 {
    #[repr(C)]
    struct Timespec(i64, i64);
    extern "C" {
        fn clock_gettime(clock: i32, time: *mut Timespec) -> i32;
    }
    let mut time = Timespec(0, 0);
    // safe: the struct is the system's on 64-bit Linux, whose CLOCK_MONOTONIC is 1, and it is ours
    unsafe { clock_gettime(1, &mut time) };
    (time.0 * 1_000_000_000 + time.1) as u64
}
