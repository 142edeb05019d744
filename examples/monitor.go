// A loop over `nagsched live --json`: it takes each due check, runs its plugin, and reports the code.
//
//	go run examples/monitor.go SETUP COMMANDS [PROGRAM]
//
// SETUP is a setup document, and COMMANDS a JSON object with a command line for each full name. It prints a line for each change of
// state, and ends at the end of its standard input, after the plugins that run. It stores nothing: each start begins from scratch.
package main

import (
	"bytes"
	"context"
	"encoding/json"
	"errors"
	"fmt"
	"io"
	"os"
	"os/exec"
	"strconv"
	"strings"
	"time"
)

const (
	slots   = 8
	limit   = 60 * time.Second
	longest = time.Minute
	unknown = 3
)

// The wall clock at the start. From then on time passes by a clock that never goes back.
var begin = time.Now()

func now() int64 { return begin.UnixMilli() + time.Since(begin).Milliseconds() }

// Answer has the members of all answers that this program reads.
type Answer struct {
	Answer      string `json:"answer"`
	Run         uint64 `json:"run"`
	Name        string `json:"name"`
	State       string `json:"state"`
	Kind        string `json:"kind"`
	Attempt     int    `json:"attempt"`
	Changed     bool   `json:"changed"`
	NextCheck   *int64 `json:"next_check"`
	Code        string `json:"code"`
	Reason      string `json:"reason"`
	Explanation string `json:"explanation"`
}

// Scheduler is a conversation: each request has one answer.
type Scheduler struct {
	process  *exec.Cmd
	input    io.Closer
	requests *json.Encoder
	answers  *json.Decoder
}

func start(program string, setup []byte) (*Scheduler, error) {
	var line bytes.Buffer
	if err := json.Compact(&line, setup); err != nil {
		return nil, err
	}
	process := exec.Command(program, "live", "--json", "--start", strconv.FormatInt(now(), 10))
	process.Stderr = os.Stderr
	input, err := process.StdinPipe()
	if err != nil {
		return nil, err
	}
	output, err := process.StdoutPipe()
	if err != nil {
		return nil, err
	}
	if err := process.Start(); err != nil {
		return nil, fmt.Errorf("%w: name the program nagsched as the third argument", err)
	}
	_, _ = fmt.Fprintln(input, line.String())
	return &Scheduler{process, input, json.NewEncoder(input), json.NewDecoder(output)}, nil
}

// ask makes a request. A refused line or setup is an error; a refused call is an answer.
func (scheduler *Scheduler) ask(request ...any) (Answer, error) {
	var answer Answer
	// If nagsched has ended, nothing can be sent, and its last answer says why.
	_ = scheduler.requests.Encode(request)
	if err := scheduler.answers.Decode(&answer); err != nil {
		return answer, fmt.Errorf("%s gives no answer: %w", scheduler.process.Path, err)
	}
	if answer.Answer == "refused" && !strings.HasPrefix(answer.Code, "C") {
		return answer, errors.New(answer.Explanation)
	}
	return answer, nil
}

// end sends the end of the input, and waits for nagsched.
func (scheduler *Scheduler) end() error {
	_ = scheduler.input.Close()
	return scheduler.process.Wait()
}

// Result is the code of a plugin that ended, with the answer that had it started.
type Result struct {
	taken Answer
	code  int
}

// codeOf runs a plugin. Its code is unknown if it isn't one of the four, or if there is no command.
func codeOf(command string) int {
	if command == "" {
		return unknown
	}
	limited, cancel := context.WithTimeout(context.Background(), limit)
	defer cancel()
	err := exec.CommandContext(limited, "/bin/sh", "-c", command).Run()
	var exit *exec.ExitError
	if err == nil {
		return 0
	}
	if errors.As(err, &exit) && exit.ExitCode() >= 0 && exit.ExitCode() <= unknown {
		return exit.ExitCode()
	}
	return unknown
}

// quiet is the time until the next check, at most the longest wait.
func quiet(nextCheck *int64) time.Duration {
	if nextCheck == nil || *nextCheck-now() > longest.Milliseconds() {
		return longest
	}
	return time.Duration(*nextCheck-now()) * time.Millisecond
}

// takeAll starts the plugins that are due and have a slot. It returns their number, and how long nothing else is due.
func takeAll(scheduler *Scheduler, commands map[string]string, free int, results chan<- Result) (int, time.Duration, error) {
	for started := 0; started < free; {
		taken, err := scheduler.ask("take", now())
		switch {
		case err != nil:
			return started, 0, err
		case taken.Answer == "refused":
			return started, 0, errors.New(taken.Explanation)
		case taken.Answer == "taken":
			started++
			go func() { results <- Result{taken, codeOf(commands[taken.Name])} }()
		case taken.Answer != "putoff":
			return started, quiet(taken.NextCheck), nil
		}
	}
	return free, longest, nil
}

// report passes a result on, and prints a change of state. A result that comes too late is refused, and dropped.
func report(scheduler *Scheduler, result Result) error {
	answer, err := scheduler.ask("report", result.taken.Name, result.taken.Run, result.code)
	if err != nil {
		return err
	}
	if answer.Answer == "refused" {
		fmt.Fprintf(os.Stderr, "monitor: a result of %s is refused: %s %s %s\n", result.taken.Name, answer.Code, answer.Reason, answer.Explanation)
	} else if answer.Changed {
		fmt.Println(time.Now().Format("15:04:05"), answer.Name, "is", answer.State, answer.Kind, answer.Attempt)
	}
	return nil
}

// monitor works until the channel is closed, and then until the last plugin has ended.
func monitor(scheduler *Scheduler, commands map[string]string, stop <-chan struct{}) error {
	results, running, wait := make(chan Result, slots), 0, longest
	for stop != nil || running > 0 {
		if stop != nil {
			started, pause, err := takeAll(scheduler, commands, slots-running, results)
			if err != nil {
				return err
			}
			running, wait = running+started, pause
		}
		select {
		case result := <-results:
			running--
			if err := report(scheduler, result); err != nil {
				return err
			}
		case <-time.After(wait):
		case <-stop:
			stop, wait = nil, longest
		}
	}
	return nil
}

func run(setupFile, commandsFile, program string) error {
	setup, err := os.ReadFile(setupFile)
	if err != nil {
		return err
	}
	text, err := os.ReadFile(commandsFile)
	if err != nil {
		return err
	}
	var commands map[string]string
	if err := json.Unmarshal(text, &commands); err != nil {
		return fmt.Errorf("%s: %w", commandsFile, err)
	}
	scheduler, err := start(program, setup)
	if err != nil {
		return err
	}
	stop := make(chan struct{})
	go func() {
		_, _ = io.Copy(io.Discard, os.Stdin)
		close(stop)
	}()
	if err := monitor(scheduler, commands, stop); err != nil {
		_ = scheduler.end()
		return err
	}
	return scheduler.end()
}

func main() {
	if len(os.Args) < 3 || len(os.Args) > 4 {
		fmt.Fprintln(os.Stderr, "usage: monitor SETUP COMMANDS [PROGRAM]")
		os.Exit(2)
	}
	program := "nagsched"
	if len(os.Args) == 4 {
		program = os.Args[3]
	}
	if err := run(os.Args[1], os.Args[2], program); err != nil {
		fmt.Fprintln(os.Stderr, "monitor:", err)
		os.Exit(1)
	}
}
