"""Replicas of an office in the processes of applications, in Python and in Go.

    driving    drivers: programs that do with a replica what a test tells them
    following  a busy front, kills of it, of its replay and of connections: each decision beside the plain model
    deciding   revisions, sessions, rights, and what is done if a copy may not decide
    wrong      fronts that answer wrongly, late or not at all
    page       the examples of docs/howto/integrate.md, section 7
    forms      the form of the package in Go
    drawing    random commands with the states of the plain model after them
    proxies    a way to the front that cuts connections and holds them up
"""
