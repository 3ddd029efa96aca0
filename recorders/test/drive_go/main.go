// Drives the Go recorder: `drive calls PORT OUT` over memcached, `drive table OUT ONE_OF` over a table. test/run says what.
package main

import (
	"bufio"
	"bytes"
	"errors"
	"fmt"
	"io"
	"net"
	"os"
	"strconv"
	"strings"
	"sync"
	"time"

	"kangaroo/recorder"
)

type client struct{ stream *bufio.ReadWriter }

func (c client) ask(request string) (string, error) {
	c.stream.WriteString(request)
	if err := c.stream.Flush(); err != nil {
		return "", err
	}
	line, err := c.stream.ReadString('\n')
	return strings.TrimRight(line, "\r\n"), err
}

func (c client) change(request string) error {
	answer, err := c.ask(request)
	if err == nil && answer != "STORED" && answer != "DELETED" && answer != "NOT_FOUND" {
		return errors.New(answer)
	}
	return err
}

func (c client) get(key string) ([]byte, error) {
	answer, err := c.ask("get " + key + "\r\n")
	if err != nil || answer == "END" {
		return nil, err
	}
	size, err := strconv.Atoi(answer[strings.LastIndex(answer, " ")+1:])
	found := make([]byte, size+7)
	if err == nil {
		_, err = io.ReadFull(c.stream, found)
	}
	return found[:size], err
}

func must(err error) {
	if err != nil {
		panic(err)
	}
}

func work(r *recorder.Recorder, port string, seed uint64) {
	stream, err := net.Dial("tcp", "127.0.0.1:"+port)
	must(err)
	c := client{bufio.NewReadWriter(bufio.NewReader(stream), bufio.NewWriter(stream))}
	name, chance := fmt.Sprint("go-", seed), seed
	for number := 0; number < 600; number++ {
		chance = chance*6364136223846793005 + 1442695040888963407
		key, kind, expiry := fmt.Sprint("key", (chance>>33)%8), (chance>>40)%100, 0
		if kind < 70 {
			expiry = 1
		}
		if kind < 60 {
			_, err = r.Get(name, []byte(key), func() ([]byte, error) { return c.get(key) })
		} else if kind < 92 {
			value := bytes.Repeat([]byte{byte('a' + number%26)}, number%100)
			err = r.Put(name, []byte(key), value, time.Duration(3*expiry)*time.Second, func(stored []byte) error {
				return c.change(fmt.Sprintf("set %s 0 %d %d\r\n%s\r\n", key, expiry, len(stored), stored))
			})
		} else {
			err = r.Remove(name, []byte(key), func() error { return c.change("delete " + key + "\r\n") })
		}
		must(err)
	}
}

func tableKey(r *recorder.Recorder, key, value []byte) {
	var held []byte
	get := func() ([]byte, error) { return held, nil }
	found, err := r.Get("a #-%", key, get)
	must(err)
	must(r.Put("-", key, value, 0, func(stored []byte) error { held = stored; return nil }))
	again, err := r.Get("a #-%", key, get)
	must(err)
	must(r.Remove("", key, func() error { held = nil; return nil }))
	if found != nil || !bytes.Equal(again, value) {
		panic("a value was changed")
	}
	defer func() { _ = recover() }()
	r.Put("late", key, nil, time.Second, func([]byte) error { panic("refused") })
}

func table(r *recorder.Recorder) {
	for b := 0; b < 256; b++ {
		tableKey(r, []byte{byte(b)}, bytes.Repeat([]byte{byte(b)}, b))
	}
	for n := 0; n < 300; n++ {
		tableKey(r, []byte(fmt.Sprint("key", n)), bytes.Repeat([]byte("x"), n))
	}
}

func main() {
	name, oneOf := os.Args[3], uint64(1)
	if os.Args[1] == "table" {
		name = os.Args[2]
		number, err := strconv.Atoi(os.Args[3])
		must(err)
		oneOf = uint64(number)
	}
	out, err := os.OpenFile(name, os.O_WRONLY|os.O_APPEND|os.O_CREATE, 0o666)
	must(err)
	r, group := recorder.New(out, oneOf), sync.WaitGroup{}
	if os.Args[1] == "table" {
		table(r)
	} else {
		for seed := uint64(1); seed <= 4; seed++ {
			group.Add(1)
			go func(seed uint64) { defer group.Done(); work(r, os.Args[2], seed) }(seed)
		}
	}
	group.Wait()
	lost := r.Close()
	must(r.Remove("after", []byte("key0"), func() error { return nil })) // leaves no line
	fmt.Println("lost", r.Close())
	if lost != r.Lost() {
		panic("a call after Close was counted")
	}
}
