package faults

// The faults of nodes.
const (
	// AppendsTwice appends a command under another name again if the reply was lost.
	AppendsTwice = "appends under another name again"
	// AnswersByItself answers questions from its own state at once.
	AnswersByItself = "answers from its own state"
	// AnswersBeforeLog answers commands before the log has them.
	AnswersBeforeLog = "answers before the log has the command"
	// TakesAnswersForNew takes an answer to be as new as the moment at which it is made.
	TakesAnswersForNew = "takes an answer to be of now"
	// AnswersTooEarly answers a question before it has done what the log has.
	AnswersTooEarly = "answers before it has done what the log has"
	// JudgesBeforeLog judges a condition when it writes the entry.
	JudgesBeforeLog = "judges a condition before the log has the command"
	// ForgetsCaller leaves a caller out of the record of one node.
	ForgetsCaller = "leaves a caller out of its record"
	// NumbersByItself makes the number of the first command by itself.
	NumbersByItself = "makes the number of the first command by itself"
	// LeavesOut leaves out the commands about some users at one node.
	LeavesOut = "leaves out the commands about some users"
)
