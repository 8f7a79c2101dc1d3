"""What the built program does with its files, arguments, streams and sockets.

Each module has functions `check_..`, which take a bench: a folder of their own and the program to run in it. A run is compared
to the byte with what both outputs should have, its status with it, and the folder before with the folder after: after status 0
or 1 an office is one file with nothing beside it, and a refusal leaves the file as it was, byte for byte.

    bench       runs the program and compares what it prints, how it ends and which files it leaves
    offices     offices in files, read and changed by SQLite itself, and what the plain model answers for them
    runs        offices are made, and go through several runs beside the model
    importing   assignments from CSV files, the export, the role report
    no_offices  files that hold no office of these tables, or none that can be opened
    damaged     offices whose rows were changed, each with the check that fails
    migration   offices of version 1, and how they become offices of version 2
    words       the command line
    usage       its help and its version, arguments that are refused, and standard streams that are closed or full
    cases       parameters of checks
    streams     standard streams that are closed or full
    kills       what is in the file after the program was killed
    web         a server of an office, and clients of it
    heads       requests that are refused
    serving     requests that are done, and connections that end early

The program makes no office of version 1: SQLite makes one from an office of version 2.
"""
