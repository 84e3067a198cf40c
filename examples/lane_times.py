#!/usr/bin/env python3
"""lane_times.py PROGRAM: what a node that serves takes for its answers, over named pipes in a folder of its own.

It prints how many requests are answered a second on one lane and on eight, each by a process of its own, one after the
other and a hundred at once; in what time eight clients who wait are told a block; how long an answer takes while
another lane sends 10,000 lines that are no requests, and a third one asks and never reads; the same for as long while
two processes compute that have nothing to do with the node, as that lane's client and its thread do; and what the
node's memory was before and after 1,000,000 calls. PROGRAM is the program `node`.
"""
import hashlib
import os
import statistics
import subprocess
import sys
import tempfile
import time

LANES, BLOCKS, TURNS = 10, 300, 2_000
ASK = b'{"jsonrpc":"2.0","method":"%s","id":1}\n'
GENESIS = f"""network = 0
k = 2160
min_fee_a = 1
min_fee_b = 100
min_utxo = 10
max_tx_size = 4096
max_body_size = 65536
max_volatile = 100000
max_mempool = 100
[[output]]
key = "{'01' * 32}"
coin = 1200
"""
HOSTILE = [
    b"", b"{", b"\xff\xfe", b"[" * 200, b"1", b"[]", b'{"jsonrpc":"2.0","method":"no","id":1}',
    b'{"jsonrpc":"2.0","method":"queryBlock","params":{"number":"x"},"id":1}', b'{"a":' * 100_000, b"[" * 2_000_000,
    b'{"jsonrpc":"2.0","method":"submitTransaction","params":{"transaction":"' + b"84" * 100_000 + b'"},"id":1}',
    b'"' + b"a" * 2_300_000 + b'"',
]


class Lane:
    """The two ends of a lane, as bytes."""

    def __init__(self, place):
        self.asks, self.tells = open(f"ask{place}", "wb"), open(f"tell{place}", "rb")

    def call(self, line, many=1):
        """Sends so many lines at once and reads as many replies."""
        self.asks.write(line * many)
        self.asks.flush()
        return [self.tells.readline() for _ in range(many)]


def beside(many, work):
    """What `work` prints for each of so many lanes, each in a process of its own, begun together."""
    gate, found = os.pipe(), []
    for place in range(many):
        out = os.pipe()
        if os.fork() == 0:
            os.close(gate[1])
            os.read(gate[0], 1)
            with os.fdopen(out[1], "w") as told:
                print(*work(place), file=told)
            os._exit(0)
        os.close(out[1])
        found.append(os.fdopen(out[0]))
    os.close(gate[1])
    return found


def numbers(found):
    """The numbers that these processes printed."""
    read = [[float(word) for word in it.read().split()] for it in found]
    for _ in found:
        os.wait()
    return read


def rate(lanes, many, calls, at_once):
    """How many requests are answered a second on so many lanes."""
    line = ASK % b"queryHeight"

    def ask(place):
        for _ in range(calls // at_once):
            lanes[place].call(line, at_once)
        return []

    start = time.perf_counter()
    numbers(beside(many, ask))
    return many * calls / (time.perf_counter() - start)


def latencies(lane, turns):
    """How long each of so many answers took, in microseconds."""
    took = []
    for _ in range(turns):
        start = time.perf_counter()
        lane.call(ASK % b"queryTip")
        took.append((time.perf_counter() - start) * 1e6)
    return took


def block(number, before):
    """The text of an empty block with a number below 2^16, and its hash."""
    digest = hashlib.sha256(b"\x80").digest()
    numbered = b"\x19" + number.to_bytes(2, "big")
    numbered = numbered if number > 255 else b"\x18" + numbered[2:] if number > 23 else bytes([number])
    header = b"\x84" + numbered * 2 + (b"\x58\x20" + before if before else b"\xf6") + b"\x58\x20" + digest
    return b"\x82" + header + b"\x80", hashlib.sha256(header).digest()


def told(lanes, peer):
    """In what time each of eight clients who wait is told each block, in milliseconds."""
    def wait(place):
        for _ in range(BLOCKS):
            lanes[place].call(ASK % b"nextBlock")
            yield time.perf_counter()

    found, sent, before = beside(8, lambda place: list(wait(place))), [], None
    for number in range(1, BLOCKS + 1):
        time.sleep(0.01)
        text, before = block(number, before)
        sent.append(time.perf_counter())
        peer.write(text.hex().encode() + b"\n")
        peer.flush()
    return [(at - start) * 1e3 for times in numbers(found) for at, start in zip(times, sent, strict=True)]


def harass(lane):
    """Sends 10,000 lines that are no requests, the long ones each hundredth time."""
    for turn in range(10_000):
        lane.call(HOSTILE[turn % 8] + b"\n" if turn % 100 else HOSTILE[8 + turn // 100 % 4] + b"\n")


def resident(process):
    """How many kilobytes of memory the node has."""
    with open(f"/proc/{process.pid}/status", encoding="utf-8") as status:
        return next(int(line.split()[1]) for line in status if line.startswith("VmRSS"))


def shown(took):
    """The middle of these times, and the greatest."""
    took = sorted(took)
    late, last = took[len(took) * 99 // 100], took[len(took) * 999 // 1000]
    return (
        f"median {statistics.median(took):.1f}, 99 of 100 within {late:.1f}, 999 of 1,000 within {last:.1f}, "
        f"most {took[-1]:.1f} of {len(took):,}"
    )


def beside_computing(lane, lasts):
    """How long answers take for so many seconds while two processes compute."""
    end = time.perf_counter() + lasts

    def compute(_place):
        while time.perf_counter() < end:
            pass
        return []

    found, took = beside(2, compute), []
    while time.perf_counter() < end:
        took += latencies(lane, 100)
    numbers(found)
    return took


def main():
    """Measures all, one after the other."""
    program = os.path.realpath(sys.argv[1])
    os.chdir(tempfile.mkdtemp())
    with open("genesis.toml", "w", encoding="utf-8") as out:
        out.write(GENESIS)
    words = [program, "serve", "--genesis", "genesis.toml", "--log", "blocks.log", "--peer", "peer"]
    os.mkfifo("peer")
    for place in range(LANES):
        os.mkfifo(f"ask{place}")
        os.mkfifo(f"tell{place}")
        words += ["--lane", f"ask{place}:tell{place}"]
    node = subprocess.Popen(words)
    lanes, peer = [Lane(place) for place in range(LANES)], open("peer", "wb")
    print("a block is told to eight who wait, milliseconds:", shown(told(lanes, peer)))
    for many in (1, 8):
        for at_once in (1, 100):
            print(f"{many} lanes, {at_once} requests at once: {rate(lanes, many, 20_000, at_once):,.0f} a second")
    print("an answer, microseconds:", shown(latencies(lanes[0], TURNS)))
    deaf = os.open("ask9", os.O_WRONLY)
    os.set_blocking(deaf, False)
    try:
        while True:
            os.write(deaf, ASK % b"queryTip")
    except BlockingIOError:
        pass
    start, took = time.perf_counter(), []
    hostile = beside(1, lambda place: [] if harass(lanes[8]) else [])
    while os.waitid(os.P_ALL, 0, os.WEXITED | os.WNOHANG | os.WNOWAIT) is None:
        took += latencies(lanes[0], 100)
    lasted = time.perf_counter() - start
    numbers(hostile)
    print(f"the same beside 10,000 hostile lines in {lasted:.1f} s: {shown(took)}")
    print("the same beside two processes that compute:", shown(beside_computing(lanes[0], lasted)))
    before = resident(node)
    rate(lanes, 4, 250_000, 100)
    print(f"memory before and after 1,000,000 calls: {before} and {resident(node)} KB")
    lanes[0].call(ASK % b"stop")
    sys.exit(node.wait())


if __name__ == "__main__":
    main()
