"""The clients in each language, and the examples of docs/howto/integrate.md, with the program and with servers that answer wrongly.

    driving       drivers: programs in each language that do with its client what a test tells them
    wrong         wrong, slow and truncated answers to each client
    functions     all functions by each client, beside the page and the plain model
    lost          commands whose answers are lost
    sessions      sessions that end, are made again, and are closed
    secured       tokens, certificates and sockets
    applications  the web applications of examples/web
    building      what bin/clients writes, types, form, and how the clients are installed
    snippets      the examples of the page in each language
    failures      programs that are busy, killed, stopped or missing, for the client in Python
    lines         wrong lines to the client in Python that asks a child process
    guards        the guards of the client in Python, and kept connections that several share
    client        the client in Python
    fakes         servers that send wrong answers
"""
