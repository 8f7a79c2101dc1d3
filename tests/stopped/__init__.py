"""What becomes of an office if a call on its files fails, the disk is full, or process or machine stop at a call.

    stories     runs of the program beside the plain model: what they may print, and what may be found afterwards
    shim        stop.c, loaded into the program: which call it stops, and how
    calls       each call on the files of an office is stopped in turn
    serving     the same of a server, to which requests are sent
    streams     calls on standard input and on sockets are interrupted by a signal, or fail (streams.c)
    lost        the machine stops at each call: what was not synced is lost
    full        limits of a file's size, and file systems without room
    readonly    files and folders that may not be written
"""
