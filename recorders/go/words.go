// The words of a line, as docs/FORMATS.md has them in "Histories as text", the tags of values, and the clock.

package recorder

import (
	"crypto/sha256"
	"fmt"
	"regexp"
	"strings"
	"syscall"
	"unsafe"
)

const nameMost, keyMost, valueMost = 64, 255, 64

var tag, odd = regexp.MustCompile(`^rec\.[0-9a-f]{12}\.[0-9]{1,20}\|`), regexp.MustCompile(`[^!-~]|[%#]|^-$`)

// Returns CLOCK_MONOTONIC in nanoseconds. The time package gives that clock only as a difference.
func now() uint64 {
	var t syscall.Timespec
	syscall.RawSyscall(syscall.SYS_CLOCK_GETTIME, 1, uintptr(unsafe.Pointer(&t)), 0)
	return uint64(t.Nano())
}

func word(data []byte) string {
	if len(data) == 0 {
		return "-"
	}
	return string(odd.ReplaceAllFunc(data, func(some []byte) []byte { return []byte(strings.ReplaceAll(fmt.Sprintf(" % X", some), " ", "%")) }))
}

func valueWord(data []byte) string {
	head := tag.Find(data)
	if rest := data[len(head):]; len(rest) > valueMost {
		return string(head) + fmt.Sprintf("sha256.%x", sha256.Sum256(rest))[:7+32]
	}
	return word(data)
}
