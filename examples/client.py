#!/usr/bin/env python3
"""client.py IN OUT: follows the chain of a node that `node serve --lane IN:OUT` runs, and prints each block.

It keeps the chain that it was told: a block is put on behind the others, and a rollback takes blocks back to its point.
"""
import json
import sys
import time


class Lane:
    """A lane to a node: requests are written to IN, and each reply is read from OUT."""

    def __init__(self, asks, tells):
        # The node opens IN first, and both wait for the other end.
        self.asks = open(asks, "w", encoding="utf-8")
        self.tells = open(tells, encoding="utf-8")
        # Ids that no client before used, whose replies may still stand in the pipe.
        self.id = time.time_ns() // 1000

    def call(self, method, **params):
        """What the method comes to; an error of the node's is raised."""
        self.id += 1
        request = {"jsonrpc": "2.0", "method": method, "params": params, "id": self.id}
        self.asks.write(json.dumps(request) + "\n")
        self.asks.flush()
        reply = None
        while reply is None or reply["id"] != self.id:
            line = self.tells.readline()
            if not line:
                raise EOFError("the node has ended")
            reply = json.loads(line)
        if "error" in reply:
            raise RuntimeError(reply["error"]["message"])
        return reply["result"]


def follow(lane, chain):
    """Puts on and takes back what comes next, once something does. What was told is answered."""
    told = lane.call("nextBlock")
    if told["direction"] == "forward":
        chain.append(told["block"])
    else:
        del chain[told["point"]["number"]:]
    return told


if __name__ == "__main__":
    node, blocks = Lane(sys.argv[1], sys.argv[2]), []
    while True:
        follow(node, blocks)
        end = blocks[-1] if blocks else {"number": 0, "hash": "-"}
        print(end["number"], end["hash"], flush=True)
