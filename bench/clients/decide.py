"""Prints the median times of a decision in Python: by http.client, by the client, by streams of asyncio, and by its client."""

import asyncio
import http.client
import json
import os
import statistics
import time

import rbac_client

ADDRESS, HOST, PORT = os.environ["RBAC"], "127.0.0.1", int(os.environ["RBAC"].rpartition(":")[2])
WARM, COUNT = 1_000, 10_000
ASKED = {"session": os.environ["SESSION"], "operation": "open", "object": "vault"}
ALLOWED = b'{"ok":true,"value":true}'


def shown(name, times):
    print(name, *(f"{statistics.median(one[WARM:]) * 1e6:.1f}" for one in times), flush=True)


def by_hand(connection):
    connection.request("POST", "/v1/checkAccess", json.dumps(ASKED), {"Content-Type": "application/json"})
    reply = connection.getresponse()
    body = reply.read()
    return reply.status == 200 and body == ALLOWED


def waiting():
    connection, office = http.client.HTTPConnection(HOST, PORT, timeout=60), rbac_client.Client(ADDRESS, timeout=60)
    times = [], []
    for _ in range(WARM + COUNT):
        for kept, ask in zip(times, (lambda: by_hand(connection), lambda: office.may(**ASKED))):
            start = time.perf_counter()
            allowed = ask()
            kept.append(time.perf_counter() - start)
            assert allowed
    shown("Python, http.client", times)


async def by_streams(reader, writer):
    body = json.dumps(ASKED).encode()
    head = f"POST /v1/checkAccess HTTP/1.1\r\nHost: {HOST}\r\nContent-Length: {len(body)}\r\n\r\n"
    writer.write(head.encode() + body)
    said = (await reader.readuntil(b"\r\n\r\n")).decode()
    length = next(int(line[15:]) for line in said.split("\r\n") if line.lower().startswith("content-length:"))
    return said.startswith("HTTP/1.1 200 ") and await reader.readexactly(length) == ALLOWED


async def awaiting():
    reader, writer = await asyncio.open_connection(HOST, PORT)
    office = rbac_client.AsyncClient(ADDRESS, timeout=60)
    times = [], []
    for _ in range(WARM + COUNT):
        for kept, ask in zip(times, (lambda: by_streams(reader, writer), lambda: office.may(**ASKED))):
            start = time.perf_counter()
            allowed = await asyncio.wait_for(ask(), 60) if kept is times[0] else await ask()
            kept.append(time.perf_counter() - start)
            assert allowed
    shown("Python, asyncio", times)


waiting()
asyncio.run(awaiting())
