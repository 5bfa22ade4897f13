// Package mdbtest plays a replica set that fails over in a Go test, by the program mdb-play.
//
//	set := mdbtest.New(t, 3)
//	client := connect(set.URI())
//	set.Elect(1)
//	.. use the client ..
//	set.Check(t)
//
// The program is the one that MDB_PLAY names, or mdb-play of the search path.
package mdbtest

import (
	"bufio"
	"encoding/json"
	"fmt"
	"io"
	"os"
	"os/exec"
	"strings"
	"sync"
	"testing"
	"time"
)

// Verdict is one verdict of mdb-play on its client.
type Verdict struct {
	Name    string             `json:"name"`
	State   string             `json:"state"`
	Text    string             `json:"text"`
	Numbers map[string]float64 `json:"numbers"`
}

// Fails says that the verdict is against the client.
func (v Verdict) Fails() bool { return v.State == "FAILS" }

func (v Verdict) String() string { return fmt.Sprintf("%s %s: %s", v.Name, v.State, v.Text) }

// Set is a replica set that is played. Any number of goroutines may use one.
type Set struct {
	test   testing.TB
	lock   sync.Mutex
	input  io.WriteCloser
	output *bufio.Reader
	uri    string
}

// New plays a set of so many members until the test ends. Member 0 is the primary.
func New(test testing.TB, members int) *Set {
	test.Helper()
	return NewPlan(test, fmt.Sprintf("set rs %d", members))
}

// NewPlan plays a plan until the test ends. Its lines are separated by ends of lines or by semicolons.
func NewPlan(test testing.TB, plan string) *Set {
	test.Helper()
	program := os.Getenv("MDB_PLAY")
	if program == "" {
		program = "mdb-play"
	}
	command := exec.Command(program, "serve", "--do", strings.ReplaceAll(plan, "\n", ";"))
	command.Stderr = os.Stderr
	input, err := command.StdinPipe()
	if err != nil {
		test.Fatal(err)
	}
	output, err := command.StdoutPipe()
	if err != nil {
		test.Fatal(err)
	}
	if err := command.Start(); err != nil {
		test.Fatalf("mdb-play cannot be started, which MDB_PLAY may name: %v", err)
	}
	set := &Set{test: test, input: input, output: bufio.NewReader(output)}
	test.Cleanup(func() {
		input.Close()
		command.Wait()
	})
	set.uri = strings.TrimPrefix(set.line(), "ready ")
	return set
}

// URI is the connection string.
func (s *Set) URI() string { return s.uri }

// Elect lets a member win an election.
func (s *Set) Elect(member int) { s.test.Helper(); s.Do(fmt.Sprintf("elect %d", member)) }

// StepDown leaves the set without a primary.
func (s *Set) StepDown() { s.test.Helper(); s.Do("stepdown") }

// Kill ends the process of a member.
func (s *Set) Kill(member int) { s.test.Helper(); s.Do(fmt.Sprintf("kill %d", member)) }

// Start begins a new process of a member that was killed.
func (s *Set) Start(member int) { s.test.Helper(); s.Do(fmt.Sprintf("start %d", member)) }

// Freeze lets a member answer nothing until it thaws.
func (s *Set) Freeze(member int) { s.test.Helper(); s.Do(fmt.Sprintf("freeze %d", member)) }

// Thaw ends a freeze.
func (s *Set) Thaw(member int) { s.test.Helper(); s.Do(fmt.Sprintf("thaw %d", member)) }

// Reset resets all connections of a member.
func (s *Set) Reset(member int) { s.test.Helper(); s.Do(fmt.Sprintf("reset %d", member)) }

// After does an action when so much time has passed.
func (s *Set) After(wait time.Duration, action string) {
	s.test.Helper()
	s.Do(fmt.Sprintf("after %dms %s", wait.Milliseconds(), action))
}

// Do does an action of a plan now.
func (s *Set) Do(action string) {
	s.test.Helper()
	if told := s.ask(action); !strings.HasPrefix(told, "done ") {
		s.test.Fatalf("mdb-play: %s", told)
	}
}

// Verdicts are those of the run until now.
func (s *Set) Verdicts() []Verdict {
	s.test.Helper()
	var told struct{ Verdicts []Verdict }
	if err := json.Unmarshal([]byte(s.ask("verdicts")), &told); err != nil {
		s.test.Fatalf("mdb-play: %v", err)
	}
	return told.Verdicts
}

// Check fails the test where a verdict is against the client, and shows the time line.
func (s *Set) Check(test testing.TB) {
	test.Helper()
	wrong := false
	for _, verdict := range s.Verdicts() {
		if verdict.Fails() {
			test.Errorf("mdb-play: %s", verdict)
			wrong = true
		}
	}
	if wrong {
		test.Log("\n" + s.Picture())
	}
}

// Picture is the time line of the run until now.
func (s *Set) Picture() string {
	s.lock.Lock()
	defer s.lock.Unlock()
	fmt.Fprintln(s.input, "picture")
	var rows []string
	for {
		row := s.line()
		if row == "" {
			return strings.Join(rows, "\n")
		}
		rows = append(rows, row)
	}
}

func (s *Set) ask(line string) string {
	s.lock.Lock()
	defer s.lock.Unlock()
	fmt.Fprintln(s.input, line)
	return s.line()
}

func (s *Set) line() string {
	line, err := s.output.ReadString('\n')
	if err != nil {
		s.test.Fatalf("mdb-play ended: %v", err)
	}
	return strings.TrimSuffix(line, "\n")
}
