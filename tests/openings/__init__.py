"""Files in which somebody changed rows of an office: the program opens or refuses them, as the plain model says.

    files       databases that SQLite writes and reads, and what each subcommand has to print for one
    drawn       offices with rows that are changed, dropped or added at random
    faults      one change for each thing that an opening checks, in the order in which it is judged
    limits      offices with one less of a kind than there may be, as many and one more, in each version
    pairs       each of these changes alone, and each two of them together: the earlier one is reported
"""
