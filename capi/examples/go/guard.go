// A lock around a function, over the sessions of libmidgegalena (mg_session.h).
//
//	guard FOLDER HOST [INTERVAL]      takes db, waits for a line or the end of standard input, and gives db back
//
// While it waits for db it looks, at most INTERVAL milliseconds apart. The images are made once before, as by `dlm format FOLDER`. `go build` makes the program where pkg-config finds the library.
package main

// #cgo pkg-config: midgegalena
// #include <mg_session.h>
// #include <stdlib.h>
import "C"

import (
	"bufio"
	"errors"
	"fmt"
	"io"
	"math"
	"os"
	"strconv"
	"strings"
	"time"
	"unsafe"
)

// Status is a number of the library's, as an error.
type Status int

const (
	BadArgument = Status(C.MG_BAD_ARGUMENT)
	TimedOut    = Status(C.MG_TIMED_OUT)    // others have the lock
	InDoubt     = Status(C.MG_IN_DOUBT)     // it is not known whether the lock stays in the table. The next Take releases it
	Lost        = Status(C.MG_NO_SUCH_LOCK) // the lock was taken away, while it was waited for or held
	Exclusive   = Mode(C.MG_EX)
	Shared      = Mode(C.MG_PR)
	Forever     = time.Duration(math.MaxInt64) // a wait without an end
)

func (status Status) Error() string { return C.GoString(C.mg_strerror(C.int(status))) }

func check(status C.int) error {
	if status == C.MG_OK {
		return nil
	}
	return Status(status)
}

// Mode is a mode of a lock.
type Mode int

// Session is a session of a host number, which no other process has meanwhile. It is for one goroutine at a time.
type Session struct {
	handle *C.struct_mg_session
	left   []C.uint // locks that could not be given back
}

// text makes a text of C's, which is to be freed. One with a zero in it is no folder and no name.
func text(from string) (*C.char, error) {
	if strings.ContainsRune(from, 0) {
		return nil, BadArgument
	}
	return C.CString(from), nil
}

// Begin releases what former sessions of the host number left, as where a process was killed.
func Begin(folder string, host uint) (*Session, error) {
	path, err := text(folder)
	if err != nil {
		return nil, err
	}
	defer C.free(unsafe.Pointer(path))
	session := &Session{}
	if err := check(C.mg_begin(path, C.uint(host), 0, &session.handle, nil)); err != nil {
		return nil, err
	}
	return session, nil
}

// End leaves locks that could not be given back to the next session of the host number.
func (session *Session) End() {
	C.mg_end(session.handle)
	session.handle = nil
}

// SetInterval sets the longest pause between two looks of a wait, 5 ms at first.
func (session *Session) SetInterval(longest time.Duration) error {
	return check(C.mg_set_interval(session.handle, milliseconds(longest)))
}

// milliseconds: below 0 for Forever, and 0 only for 0.
func milliseconds(length time.Duration) C.int {
	if length == Forever {
		return -1
	}
	rounded := length / time.Millisecond
	if length%time.Millisecond > 0 {
		rounded++
	}
	if rounded > math.MaxInt32 {
		return math.MaxInt32
	}
	return C.int(rounded)
}

// Held is a lock that is held. Its slot is a fencing token: each holder of Exclusive has a greater one than the holder before it, as long as
// the cluster is the same.
type Held struct {
	Lock      uint32
	Slot      int64
	Cluster   uint64
	SlotsLeft uint64
	Value     [C.MG_VALUE_LENGTH]byte
	Valid     bool
}

// Take takes a lock on a name. With a timeout of 0 it does not wait. What could not be given back is given back first, which may wait a minute
// once more.
func (session *Session) Take(name string, mode Mode, timeout time.Duration) (Held, error) {
	left := session.left
	session.left = nil
	for _, lock := range left {
		_ = session.give(lock) // where this fails the lock is left again
	}
	if timeout < 0 {
		return Held{}, BadArgument
	}
	named, err := text(name)
	if err != nil {
		return Held{}, err
	}
	defer C.free(unsafe.Pointer(named))
	var view C.struct_mg_held
	if err := check(C.mg_take(session.handle, named, C.int(mode), milliseconds(timeout), &view)); err != nil {
		return Held{}, err
	}
	held := Held{uint32(view.lock), int64(view.slot), uint64(view.cluster), uint64(view.slots_left), [C.MG_VALUE_LENGTH]byte{}, false}
	for i := range held.Value {
		held.Value[i] = byte(view.value.bytes[i])
	}
	held.Valid = view.value.flags&C.MG_VALID != 0
	return held, nil
}

// Give gives the lock back. Lost: it was taken away before, so others may have had it meanwhile. After any other error it is still the
// session's, whose next Take tries again. If the session ends before, the next one of the host number does so.
func (session *Session) Give(held Held) error { return session.give(C.uint(held.Lock)) }

func (session *Session) give(lock C.uint) error {
	err := check(C.mg_give(session.handle, lock, nil))
	if err != nil && !errors.Is(err, Lost) {
		session.left = append(session.left, lock)
	}
	return err
}

// With holds a lock while work runs, and gives it back also where that fails or panics.
func (session *Session) With(name string, mode Mode, timeout time.Duration, work func(Held) error) (err error) {
	held, err := session.Take(name, mode, timeout)
	if err != nil {
		return err
	}
	defer func() {
		if given := session.Give(held); err == nil {
			err = given
		} else if given != nil {
			err = fmt.Errorf("%w; lock %d was not given back: %v", err, held.Lock, given)
		}
	}()
	return work(held)
}

// The work under the lock.
func work(db Held) error {
	fmt.Printf("db is ours: slot %d of cluster %d, %d slots are left\n", db.Slot, db.Cluster, db.SlotsLeft)
	if _, err := bufio.NewReader(os.Stdin).ReadString('\n'); err != io.EOF {
		return err
	}
	return nil
}

func run(folder string, host uint, interval time.Duration) error {
	session, err := Begin(folder, host)
	if err != nil {
		return err
	}
	defer session.End()
	if err := session.SetInterval(interval); err != nil {
		return err
	}
	return session.With("db", Exclusive, time.Second, work)
}

// arguments: folder, host and interval.
func arguments(words []string) (string, uint, time.Duration, error) {
	if len(words) != 2 && len(words) != 3 {
		return "", 0, 0, errors.New("guard FOLDER HOST [INTERVAL]")
	}
	interval := uint64(5)
	host, err := strconv.ParseUint(words[1], 10, 32)
	if err == nil && len(words) == 3 {
		interval, err = strconv.ParseUint(words[2], 10, 16)
	}
	return words[0], uint(host), time.Duration(interval) * time.Millisecond, err
}

func main() {
	folder, host, interval, err := arguments(os.Args[1:])
	if err != nil {
		fmt.Fprintln(os.Stderr, err)
		os.Exit(2)
	}
	if err := run(folder, host, interval); err != nil {
		fmt.Fprintln(os.Stderr, "guard:", err)
		os.Exit(1)
	}
}
