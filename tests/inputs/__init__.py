"""Hostile inputs and clients: long ones, deep ones, of random bytes, slow ones.

    measure.c   runs a program and writes down how much memory it used at most
    allocated.c counts the bytes for which the program asks
    measured    runs of the program with the memory and the seconds that they used, and the bounds of these
    texts       random lines and texts: random bytes, deep JSON
    lines       replays of such lines, and inputs of 100 MB
    lasting     long replays and servers of many requests: the memory doesn't grow with them
    heads       heads of requests: of random bytes, of each length, split at each byte
    clients     clients that send or read slowly, or not at all
"""
