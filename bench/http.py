#!/usr/bin/env python3
"""Times the reading, checking and answering of HTTP requests: beside plain Rust with serde_json, and against the length of bodies.

    python3 bench/http.py PROGRAM

PROGRAM is bench/out/http_speed, which `bench/build http_speed` builds. The plain program stands in bench/http and is built by cargo out of Debian's packages of Rust
sources. First both answer each request, and others that are refused, and have to write the same octets. Then the two take turns:
printed are the least processor times of five, without that of starting. The time for an octet is to stay the same as bodies grow.
"""
import os
import subprocess
import sys
import tempfile

from cargo import built

NEEDED = ("base64", "form_urlencoded", "httparse", "serde", "serde_derive", "serde_json", "uuid")

COUNT = 20_000
OCTETS = 20_000_000
SIZES = (4_000, 16_000, 64_000)


def get(call):
    return (
        f"GET /api/v1/keys/bob/{call} HTTP/1.1\r\nHost: kme-a.example\r\n"
        "User-Agent: curl/8.5.0\r\nAccept: */*\r\nX-SAE-ID: alice\r\n\r\n"
    )


def post(body):
    return f"POST /api/v1/keys/alice/dec_keys HTTP/1.1\r\nX-SAE-ID: bob\r\nContent-Length: {len(body)}\r\n\r\n{body}"


def names(count):
    """A body that names so many keys."""
    keys = ",".join(f'{{"key_ID":"00000000-0000-8000-8000-{n + 1:012x}"}}' for n in range(count))
    return f'{{"key_IDs":[{keys}]}}'


def members(size):
    """A body of about so many octets, with one name among many members."""
    others = ",".join(f'"m{n:05}":[{n},"text"]' for n in range(size // 24))
    return f'{{{others},{names(1)[1:]}'


def stated(body):
    return f"POST /api/v1/keys/bob/enc_keys HTTP/1.1\r\nX-SAE-ID: alice\r\nContent-Length: {len(body)}\r\n\r\n{body}"


REQUESTS = {
    "a status": get("status"),
    "a key asked for by a query": get("enc_keys?number=1&size=256"),
    "128 keys asked for by a query": get("enc_keys?number=128&size=256"),
    "a key asked for by a body": stated('{"number":1,"size":256}'),
    "a size that is refused": get("enc_keys?size=4104"),
    "a body of one name": post(names(1)),
    "a body of 128 names": post(names(128)),
}

# Not timed, but answered alike.
OTHERS = [
    get("nothing"),
    get("status").replace("X-SAE-ID", "X-SAE"),
    get("status").replace("alice", "bob"),
    get("enc_keys?number=1&number=1"),
    get("enc_keys?number=0"),
    get("enc_keys?number=%31&size=0000000064"),
    get("dec_keys?key_ID=x").replace("ID: alice", "ID: bob").replace("keys/bob", "keys/alice"),
    stated(""),
    stated("[]"),
    stated("[" * 128),
    stated('{"a":' + "[" * 126 + "]" * 126 + "}"),
    stated('{"number":1.0}'),
    stated('{"size":100}'),
    stated('{"size":100,"size":64}'),
    stated('{"additional_slave_SAE_IDs":["bob"]}'),
    stated('{"extension_mandatory":[{}]}'),
    stated('{"extension_mandatory":[],"additional_slave_SAE_IDs":[],"extension_optional":[{}]}'),
    post('{"key_IDs":[]}'),
    post(names(129)),
    post('{"key_IDs":[{"key_ID":"x"}]}'),
    post('{"key_IDs":[{"key_ID":"{00000000-0000-8000-8000-000000000001}","more":null}]}'),
    get("status").replace("HTTP/1.1", "HTTP/1.0"),
    get("status").replace("Accept", "Connection: Close\r\nAccept"),
    post("{}").replace("Content-Length: 2\r\n", ""),
    post("{}").replace("Content-Length: 2", "Content-Length: 65537"),
    post("{}").replace("Content-Length: 2", "Content-Length: +2"),
    get("status").replace("Accept", "Transfer-Encoding: chunked\r\nAccept"),
    get("status").replace("Accept", "A : b\r\nAccept"),
    get("status").replace("Accept", "".join(f"F{n}: v\r\n" for n in range(29)) + "Accept"),
    get("status" + "x" * 8192),
    "GET",
]


def timed(program, times, text):
    """The processor seconds of a run, and what it prints."""
    with tempfile.TemporaryFile() as source, tempfile.TemporaryFile() as sink:
        source.write(text.encode())
        source.seek(0)
        child = subprocess.Popen([program, str(times)], stdin=source, stdout=sink)
        _, status, used = os.wait4(child.pid, 0)
        child.returncode = os.waitstatus_to_exitcode(status)
        if child.returncode:
            sys.exit(f"{program} ends with {child.returncode}")
        sink.seek(0)
        return used.ru_utime + used.ru_stime, sink.read()


def responses(program, text):
    return subprocess.run([program, "0"], input=text.encode(), check=True, capture_output=True).stdout


def compare(programs):
    """Each request, twice in a row, has the same responses of both programs."""
    for request in [*REQUESTS.values(), *(post(members(size)) for size in SIZES), *OTHERS]:
        first, second = (responses(program, request * 2) for program in programs)
        if first != second or not first.startswith(b"HTTP/1.1 "):
            sys.exit(f"the responses to {request!r} differ:\n{first!r}\n{second!r}")


def least(programs, request):
    """The least processor seconds of one such request, for each program: of a text of many, answered often, less that answered once."""
    size = len(request) + len(responses(programs[1], request))
    many = min(200, 1_000_000 // size)
    often = 1 + min(COUNT, OCTETS // size) // many
    seconds, outputs = {}, set()
    for _ in range(5):
        for program in programs:
            for times in (1, 1 + often):
                took, out = timed(program, times, request * many)
                seconds[program, times] = min(took, seconds.get((program, times), took))
                outputs.add(out)
    if len(outputs) != 1 or not outputs.pop().startswith(b"%d requests, " % many):
        sys.exit("the programs differ")
    return [(seconds[program, 1 + often] - seconds[program, 1]) / often / many for program in programs]


def main():
    if len(sys.argv) != 2:
        sys.exit(__doc__)
    programs = sys.argv[1], str(built("http", "http", NEEDED))
    compare(programs)
    for what, request in REQUESTS.items():
        ours, theirs = least(programs, request)
        print(f"{what}, {len(request)} octets: {1 / ours:.0f} a second, plain {1 / theirs:.0f}, plain / proved {ours / theirs:.1f}", flush=True)
    for size in SIZES:
        request = post(members(size))
        ours, theirs = least(programs, request)
        print(f"a body of {len(request)} octets: {1e9 * ours / len(request):.1f} ns an octet, plain {1e9 * theirs / len(request):.1f}, plain / proved {ours / theirs:.1f}", flush=True)


if __name__ == "__main__":
    main()
