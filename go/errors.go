package ringpop

import (
	"errors"
	"fmt"
	"time"
)

// What errors.Is tells of the errors of this package.
var (
	// ErrLine is what is wrong with a line that is not a change; the error is a *LineError.
	ErrLine = errors.New("ringpop: not a change")
	// ErrReplicas is a number of replicas that is not from 1 to 1,000.
	ErrReplicas = errors.New("ringpop: replicas is not from 1 to 1000")
	// ErrMember is a member that a ring cannot have.
	ErrMember = errors.New("ringpop: bad member")
	// ErrKey is a key that is not UTF-8, of which JSON would make another one.
	ErrKey = errors.New("ringpop: a key is not UTF-8")
	// ErrTooManyMembers is more members than a cluster can have.
	ErrTooManyMembers = errors.New("ringpop: more than 4096 members")
	// ErrURL is a URL that is not http://HOST:PORT.
	ErrURL = errors.New("ringpop: bad URL: give where an agent answers HTTP, as http://127.0.0.1:7980")
	// ErrUnreachable is that no agent answered.
	ErrUnreachable = errors.New("ringpop: no agent answers")
	// ErrRefused is an agent's refusal; the error is an *AgentError.
	ErrRefused = errors.New("ringpop: the agent refused")
	// ErrNobody is that no member serves, so that no key has an owner.
	ErrNobody = errors.New("ringpop: nobody serves")
	// ErrAnswer is an answer that is none of an agent of this version.
	ErrAnswer = errors.New("ringpop: the answer is none of an agent of this version")
)

// A LineError is a line that is not a change: its number, from 1, and why it is not one.
type LineError struct {
	Line   int
	Reason string
}

func (fault *LineError) Error() string {
	return fmt.Sprintf("ringpop: line %d: %s", fault.Line, fault.Reason)
}

// Is makes it an ErrLine, and equal to another of the same line and reason.
func (fault *LineError) Is(other error) bool {
	same, ok := other.(*LineError)
	return other == ErrLine || ok && *same == *fault
}

// An AgentError is an agent's refusal: the status and the line of its answer, which says why, its word (HTTP.md) if the agent gave one, and after
// how long to ask again, zero if the agent did not say.
type AgentError struct {
	Status     int
	Line       string
	Name       string
	RetryAfter time.Duration
}

func (refusal *AgentError) Error() string {
	return fmt.Sprintf("ringpop: %d: %s", refusal.Status, refusal.Line)
}

// Is makes it an ErrRefused, an ErrNobody if it says that nobody serves, and equal to another of the same parts.
func (refusal *AgentError) Is(other error) bool {
	same, ok := other.(*AgentError)
	return other == ErrRefused || other == ErrNobody && refusal.Line == nobody || ok && *same == *refusal
}

// Why no agent answered at a URL.
type unreachable struct {
	url   string
	cause error
}

func (fault *unreachable) Error() string {
	return fmt.Sprintf("%v at %s: %v", ErrUnreachable, fault.url, fault.cause)
}

func (fault *unreachable) Is(other error) bool { return other == ErrUnreachable }

func (fault *unreachable) Unwrap() error { return fault.cause }

// What an agent says if no member serves.
const nobody = "nobody serves"
