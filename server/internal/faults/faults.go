// Package faults has faults that a front or a node for tests can have, to show that the tests find them. Only a program that is built with the tag
// faults has any, and then the one that the variable RBAC_NODE_FAULT names.
package faults

// The faults of fronts.
const (
	// SendsEarly sends commands to the replay before they are recorded.
	SendsEarly = "sends before it records"
	// MixesUp releases answers out of order.
	MixesUp = "releases out of order"
	// ShortestBeginning takes the shortest beginning of the commands without an answer that gives the rows of the office.
	ShortestBeginning = "takes the shortest beginning"
	// Unlocked lets the replay inherit no lock.
	Unlocked = "has no lock that the replay inherits"
	// Forgets says of all commands without an answer that the office never got them.
	Forgets = "forgets the answers that it found"
	// AnswersOtherwise answers the commands about some users otherwise than the replay.
	AnswersOtherwise = "answers otherwise than the replay"
)
