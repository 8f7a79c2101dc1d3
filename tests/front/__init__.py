"""The front of one machine, as its clients and its operators meet it.

    sources     the sources and the page have the same options, metrics, functions and scopes
    building    the tools of Go find nothing in the sources, with Go alone and with the libraries that are installed
    starts      command lines, addresses, sockets, and how the front ends
    answers     the same answers as those of `rbac serve`, for rows and for random requests
    kills       the front and its replay are killed under load
    identities  tokens, certificates, JWTs and users of sockets; files that are read again
    clients     slow clients, many connections, heads that are meant to be read in two ways
    limited     what one caller can't do to others: large bodies and answers, framings that are errors
    restored    what a client knows from before a restore never counts after it
    restores    restoring by one command, from backups that are good and others, and killed at each system call
    setups      `rbac-node setup`, and bin/demo
    monitored   metrics as Prometheus reads them, rules for alarms, the dashboard
    decided     the log of decisions
    listed      commands and options in the help, options and metrics on the pages
    table       the table of the calls and their scopes, row by row
    page        the commands of the page
    batches     batches of lines
    gateways    decisions by status alone, also through nginx, and AuthZEN
    revisions   the revision of the policy, conditions on it, and what a caller may do
    explained   users in some session, and explanations, beside the plain model
    tried       commands over a copy, beside the plain model; the end of a review in the record
    sessions    sessions with random names, their end and their expiry
    lists       lists beside SQL
    watching    snapshots, and followers that watch
    separated   which separation of duty sets refuse a command, beside the plain model
    conforming  the answers of what the front has besides the functions, beside docs/openapi.json
    requests    the commands of docs/reference/requests.md and docs/reference/lists.md
    browsers    a page of a foreign site in Chromium
    records     what the record has, which starts it refuses, and what is found in one that was changed
    recordkills     the front and its replay are killed under load: record, office and clients agree
    accessed    who had access at a time, beside the plain model
    exported    entries that go to syslog while the export is killed
    tampered    kinds of tampering: verify refuses each, or the page lists it
    recordfaults    disks under the record that fail or are full
    recordorder     the order of writes and syncs, by strace
    signed      heads that another machine signs, and the commands of docs/howto/heads.md
    evidence    one file of all signed heads, journals beside files, copies and adoptions that lie, and what verify leaves
    verifying   what the front finds by itself in a record that was changed, and an office without its record
    backups     parts that a backup has already, and several backups at once
    callkills   commands about a record are killed at each system call
    wrongfronts     wrong fronts are found: with --long they are built and run
    auditing    the commands of docs/howto/record.md, and of docs/howto/audit.md about the record
    recorded    reads a record
    program     runs the front, and asks it
"""
