"""A plain model of an office, written from the rules in prose and not from the code.

It reads request lines, answers them byte for byte, and writes the role report, the export and the rows of the tables of a
state. It is made to be read, not to be fast.

    state       what an office holds, and what follows from that: the role order, who is authorized for what
    commands    the commands: what refuses each, and the state after it
    questions   the questions: what refuses each, and its answer
    requests    what a request line asks for, or why it is malformed
    names       which texts are names
    assignments assignments as CSV, read and written
    opening     which state the tables of a database hold, or why they hold none
    texts       answers, the role report and the rows of the tables
    replaying   the answers to the lines of an input
    drawing     random requests, most of them to be accepted
    even        random commands, evenly spread
    limits      scripts that reach each limit
"""
