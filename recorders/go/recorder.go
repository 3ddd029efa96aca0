// Package recorder records the calls of a cache's client as lines for `kangaroo judge`. The page is ../README.md. It runs on Linux.
//
// Each of Put, Remove and Get makes one call of yours, which returns after the cache's answer has come. No error of the recorder
// reaches the service: it stops recording, and counts the lines that it did not write.
package recorder

import (
	"crypto/rand"
	"fmt"
	"hash/fnv"
	"io"
	"math"
	"sync"
	"sync/atomic"
	"time"
)

// Recorder is a recording. Any goroutine may use it, until Close.
type Recorder struct {
	out         io.Writer
	oneOf       uint64
	run         [6]byte
	puts        atomic.Uint64
	lock        sync.Mutex // of the output, and of what follows
	calls, lost uint64
	closed      bool
}

// New begins a recording of one key in oneOf; 0 and 1 mean every key.
func New(out io.Writer, oneOf uint64) *Recorder {
	r := &Recorder{out: out, oneOf: oneOf}
	if oneOf == 0 {
		r.oneOf = 1
	}
	if _, err := rand.Read(r.run[:]); err != nil || !r.write(fmt.Sprintf("# recorder rec.%x, 1 of %d keys\n", r.run, r.oneOf)) {
		r.lost = 1
	}
	return r
}

// Put puts a value by call, which is given what it has to store. The cache surely lets it expire a lifetime after END; 0 is never.
func (r *Recorder) Put(caller string, key, value []byte, lifetime time.Duration, call func(stored []byte) error) error {
	if !r.isRecorded(key) {
		return call(value)
	}
	stored := append([]byte(fmt.Sprintf("rec.%x.%d|", r.run, r.puts.Add(1))), value...)
	return r.change(caller, "put "+word(key)+" "+valueWord(stored), lifetime, func() error { return call(stored) })
}

// Remove removes a key by call.
func (r *Recorder) Remove(caller string, key []byte, call func() error) error {
	if !r.isRecorded(key) {
		return call()
	}
	return r.change(caller, "remove "+word(key), 0, call)
}

// Makes a write, and notes it. One that failed or panicked has the END "-": it may have happened, or happen yet.
func (r *Recorder) change(caller, rest string, lifetime time.Duration, call func() error) error {
	err, start := io.ErrUnexpectedEOF, now() // what stays if the call panics
	defer func() {
		end := now()
		if err != nil {
			r.note(caller, start, "-", rest)
		} else if lifetime > 0 && end <= math.MaxInt64-uint64(lifetime) {
			r.note(caller, start, end, fmt.Sprint(rest, " ", end+uint64(lifetime)))
		} else {
			r.note(caller, start, end, rest)
		}
	}()
	err = call()
	return err
}

// Get gets a value by call, and returns it without its tag. No value is nil. A get that fails has no line.
func (r *Recorder) Get(caller string, key []byte, call func() ([]byte, error)) ([]byte, error) {
	start := now()
	found, err := call()
	end := now()
	if err == nil && r.isRecorded(key) && found == nil {
		r.note(caller, start, end, "miss "+word(key))
	} else if err == nil && r.isRecorded(key) {
		r.note(caller, start, end, fmt.Sprint("hit ", word(key), " ", valueWord(found), " ", start))
	}
	return found[len(tag.Find(found)):], err
}

// Lost returns how many lines were not written. After the first, nothing more is written.
func (r *Recorder) Lost() uint64 {
	r.lock.Lock()
	defer r.lock.Unlock()
	return r.lost
}

// Close writes the last line, and returns Lost: 0 if the recording is whole. What it wrote to stays open. Later calls have no line.
func (r *Recorder) Close() uint64 {
	r.lock.Lock()
	defer r.lock.Unlock()
	if !r.closed && (r.lost > 0 || !r.write(fmt.Sprintf("# whole: %d calls\n", r.calls))) {
		if r.lost == 0 {
			r.lost = 1
		}
		r.write(fmt.Sprintf("  cut\n# not whole: %d lines were not written\n", r.lost))
	}
	r.closed = true
	return r.lost
}

// The FNV-1a hash of a key, 64 bits, with its upper half folded into the lower, decides whether the key is recorded.
func (r *Recorder) isRecorded(key []byte) bool {
	hash := fnv.New64a()
	hash.Write(key)
	return len(key) >= 1 && len(key) <= keyMost && (hash.Sum64()^hash.Sum64()>>32)%r.oneOf == 0
}

func (r *Recorder) note(caller string, start, end any, rest string) {
	name := []byte(caller)
	if len(name) > nameMost {
		name = name[:nameMost]
	}
	r.add(fmt.Sprintf("%s %d %v %s\n", word(name), start, end, rest))
}

// Writes a call's line, or counts it as lost.
func (r *Recorder) add(line string) {
	r.lock.Lock()
	defer r.lock.Unlock()
	if r.lost == 0 && !r.closed && r.write(line) {
		r.calls++
	} else if !r.closed {
		r.lost++
	}
}

// Writes a line, and returns whether it is whole. An output that panics is one that fails.
func (r *Recorder) write(line string) (done bool) {
	defer func() { _ = recover() }()
	_, err := io.WriteString(r.out, line)
	return err == nil
}
