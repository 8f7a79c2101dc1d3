"""The library librbac, by the same lines in each language, and what its header promises.

    building    builds the library, and a program in each language that answers lines
    answers     the answers and decisions of each language are those of the plain model and of the program
    explaining  the reasons of decisions about users, and the sets that assignments would violate, are those of the plain model
    saving      rows that are saved, and offices that are loaded from them
    interface   rbac.h: its symbols, its codes, null pointers, buffers that are too short
    memory      each allocation fails in turn; sanitizers and valgrind; sessions that ended leave nothing
    bindings    what each language has of its own: its errors, its threads, its own tests
    page        the examples of docs/howto/embed.md
    arm64       the library for arm64, by an emulator
"""
