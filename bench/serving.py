#!/usr/bin/env python3
"""Measures serving: requests a second over loopback on kept connections, beside a plain server with the standard library's threads.

    python3 bench/serving.py [PROGRAM]

PROGRAM is the built program, and crates/qkdnet/out/qkdnet where none is named. The plain server and the client stand in bench/serving
and are built by cargo, out of nothing but the standard library. Both servers get the same words and the same scenario: pairs of nodes,
each with a master of keys for its neighbour's slave. First both are asked the same requests, and have to give the same responses, but
for the bytes of keys. Then clients ask for statuses, each on a connection of its own or many on one, and the delays of their
requests are printed; there both serve without end, the plain server each connection by a thread of its own, and the program by its
workers, at which connections take turns. Then, for 1 to 4 workers, the client keeps a connection with each worker and asks for statuses, for all keys
of the masters, and for all keys of the slaves: with one request at a time on its way, and with 16. Printed are the greatest rates of
five turns, requests a second, and the ratio. With two nodes more than two workers share managers; with four none do. No test depends on
them.
"""
import itertools
import os
import pathlib
import re
import socket
import statistics
import subprocess
import sys
import tempfile
import time

from cargo import built

HERE = pathlib.Path(__file__).resolve().parent
PROGRAM = pathlib.Path(sys.argv[1] if len(sys.argv) > 1 else HERE.parent / "crates/qkdnet/out/qkdnet").resolve()
# Ports of servers that ended are not used again.
PORTS = itertools.count(19_000, 16)
# Of each node; a link holds the bytes for some 3,200.
KEYS = 3_072
STATUSES = 20
TURNS = 5
# Of clients: workers, half of which serve them, requests in all, and how many a client asks on one connection, one after another.
ONE_EACH = 8, 12_800, 1
KEPT = 8, 64_000, 1_000
CALLS = ("status", "enc_keys", "dec_keys")
SECONDS = 300


def scenario(nodes, keys):
    """Pairs of nodes in which each has so many keys for its neighbour, all of which are there."""
    lines = [f"node n{v}" for v in range(nodes)] + [f"link n{v} n{v + 1}" for v in range(0, nodes, 2)]
    lines += [f"sae {who}{v} n{v}" for v in range(nodes) for who in "ms"]
    lines += [f"allow m{v} s{v ^ 1}" for v in range(nodes)]
    lines += [f"bits {link} both 1024" for link in range(nodes // 2)]
    # All keys of a node are made before a note takes a count of its names.
    lines += [f"fill m{v} s{v ^ 1} 256 {min(128, keys - done)}" for v in range(nodes) for done in range(0, keys, 128)]
    lines += ["settle 1000"]
    return "".join(line + "\n" for line in [*lines, "end"])


def key(node, count):
    return f"00000000-0000-8{node:03x}-8000-{count:012x}"


def asked(target, caller, body=None):
    length = "" if body is None else f"Content-Length: {len(body)}\r\n"
    return f"{'GET' if body is None else 'POST'} /api/v1/keys/{target} HTTP/1.1\r\nX-SAE-ID: {caller}\r\n{length}\r\n{body or ''}"


def compared():
    """Requests to a node that both servers have to answer alike."""
    named = ",".join(f'{{"key_ID":"{key(1, n)}"}}' for n in (4, 3))
    return [
        asked("s1/status", "m0"),
        asked("s1/enc_keys?number=2&size=256", "m0"),
        asked("s1/enc_keys", "m0", '{"number":3}'),
        asked("s1/status", "m0"),
        asked("s1/enc_keys?number=128&size=512", "m0"),
        asked(f"m1/dec_keys?key_ID={key(1, 1)}", "s0"),
        asked(f"m1/dec_keys?key_ID={key(1, 1)}", "s0"),
        asked(f"m1/dec_keys?key_ID={key(0, 1)}", "s0"),
        asked("m1/dec_keys", "s0", f'{{"key_IDs":[{named}]}}'),
        asked("m1/dec_keys", "s0", f'{{"key_IDs":[{named.replace(key(1, 3), key(1, 4))}]}}'),
        asked("m1/dec_keys", "s0", '{"key_IDs":[]}'),
        asked("s1/enc_keys?size=100", "m0"),
        asked("s0/status", "m0"),
        asked("s1/status", "s0"),
        asked("s1/nothing", "m0"),
        "GET /api/v1/keys/s1/status HTTP/1.1\r\nConnection: close\r\n\r\n",
    ]


def served(program, workers, connections, text, use, ends=True):
    """What is done with a server, by its port. The server ends by itself, behind its last connection, or else is ended."""
    port = next(PORTS)
    words = [program, "serve", str(workers), str(connections), str(port)]
    with tempfile.TemporaryFile() as source, tempfile.TemporaryFile() as sink:
        source.write(text.encode())
        source.seek(0)
        server = subprocess.Popen(words, stdin=source, stdout=sink)
        try:
            result = use(port)
            if not ends:
                return result
            status = server.wait(SECONDS)
        finally:
            server.kill()
            server.wait()
        sink.seek(0)
        out = sink.read()
    if status or not out.endswith(b"served %d\n" % (workers * connections)):
        sys.exit(f"{words}: status {status}, {out[-200:]!r}")
    return result


def connected(port):
    start = time.monotonic()
    while True:
        try:
            return socket.create_connection(("127.0.0.1", port), SECONDS)
        except ConnectionRefusedError:
            if time.monotonic() > start + SECONDS:
                raise
            time.sleep(0.02)


def responses(port):
    """All that a server says to the requests, with stars for the bytes of keys."""
    with connected(port) as ends:
        ends.sendall("".join(compared()).encode())
        octets = b"".join(iter(lambda: ends.recv(65_536), b""))
    return re.sub(rb'"key":"[^"]*"', lambda found: b"*" * len(found[0]), octets)


def rates(program, load, nodes, workers, depth, text):
    """The requests a second of each call."""
    beside = -(-workers // nodes)
    connections = STATUSES + 2 * (KEYS // 1000 + 1)
    # Workers of one node may have unequal numbers of connections: more of them, so that none ends before the rest.
    connections = 1 + connections * (2 if beside > 1 else 1)

    def use(port):
        words = [port, nodes, workers, connections, STATUSES, KEYS, depth]
        ran = subprocess.run([load, *map(str, words)], capture_output=True, text=True, timeout=SECONDS)
        if ran.returncode:
            sys.exit(f"{program} by {workers} workers: {ran.stderr}")
        return [int(count) / float(seconds) for count, seconds in map(str.split, ran.stdout.splitlines())]

    return served(program, workers, connections, text, use)


def best(programs, load, nodes, workers, depth, text):
    """The greatest rates of each program, which take turns."""
    turns = [[rates(program, load, nodes, workers, depth, text) for program in programs] for _ in range(TURNS)]
    return [[max(rate) for rate in zip(*rates_of)] for rates_of in zip(*turns)]


def delayed(program, use_by, clients, kind, text):
    """The requests a second and the delays of a server that so many clients ask at once."""
    workers, requests, each = kind

    def use(port):
        ran = subprocess.run([use_by, *map(str, (port, clients, requests, each))], capture_output=True, text=True, timeout=SECONDS)
        if ran.returncode:
            sys.exit(f"{program} for {clients} clients: {ran.stderr}")
        count, seconds, *delays = map(float, ran.stdout.split())
        return (count / seconds, *delays)

    return served(program, workers, "forever", text, use, ends=False)


def delays(programs, use_by, clients, kind, text):
    """The middle of these of each program, which take turns."""
    turns = [[delayed(program, use_by, clients, kind, text) for program in programs] for _ in range(TURNS)]
    return [[statistics.median(it) for it in zip(*of)] for of in zip(*turns)]


def main():
    plain, load = built("serving", "server"), built("serving", "load")
    if not PROGRAM.exists():
        sys.exit(f"{PROGRAM} isn't built")
    text = scenario(2, 128)
    if served(PROGRAM, 1, 1, text, responses) != served(plain, 1, 1, text, responses):
        sys.exit("the servers differ")
    print(f"processors {len(os.sched_getaffinity(0))}")
    print("clients  a connection  program: a second    p50    p99 longest  plain: a second    p50    p99 longest (us)")
    for clients, kind in ((1, ONE_EACH), (16, ONE_EACH), (64, ONE_EACH), (4, KEPT), (64, KEPT)):
        ours, theirs = delays((PROGRAM, plain), built("serving", "delays"), clients, kind, text)
        columns = "".join(f"  {rate:16.0f} {half:6.0f} {most:6.0f} {longest:7.0f}" for rate, half, most, longest in (ours, theirs))
        print(f"{clients:7}  {kind[-1]:12}{columns}", flush=True)
    print("nodes workers on-the-way call      program    plain  plain / program")
    for nodes, workers in ((4, 1), (4, 2), (4, 3), (4, 4), (2, 4)):
        text = scenario(nodes, KEYS)
        for depth in (1, 16):
            ours, theirs = best((PROGRAM, plain), load, nodes, workers, depth, text)
            for call, a, b in zip(CALLS, ours, theirs):
                print(f"{nodes:5} {workers:7} {depth:10} {call:8} {a:8.0f} {b:8.0f}  {b / a:.2f}", flush=True)


if __name__ == "__main__":
    main()
