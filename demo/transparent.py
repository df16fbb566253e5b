#!/usr/bin/env python3
"""Simulated meters behind a transparent gateway on 127.0.0.1: raw frames over TCP, as a level converter passes them on.

It prints the port, and each meter with its primary address or `S` and its flat, also a dead one, and serves until it is stopped.
"""

import argparse
import random
import sys

sys.dont_write_bytecode = True
from world.bus import Bus
from world.gateways import TransparentGateway
from world.meters import LOW_BATTERY, meters_of, shown


def main() -> None:
    words = argparse.ArgumentParser(description=__doc__.splitlines()[0])
    words.add_argument("meters", type=int, help="how many")
    words.add_argument("--port", type=int, default=0, help="one that is free, if none is named")
    words.add_argument("--seed", type=int, default=1, help="of chance (1)")
    words.add_argument("--dead", type=int, metavar="N", action="append", default=[], help="the Nth meter doesn't answer")
    words.add_argument("--low-battery", type=int, metavar="N", help="the Nth meter has a low battery")
    given = words.parse_args()
    meters = meters_of(given.meters, random.Random(given.seed))
    for place, meter in enumerate(meters, 1):
        meter.status = LOW_BATTERY if place == given.low_battery else 0
    living = [meter for place, meter in enumerate(meters, 1) if place not in given.dead]
    gateway = TransparentGateway(Bus(living, random.Random(given.seed)), given.port)
    print(f"gateway {gateway.address}\n{shown(meters)}", end="", flush=True)
    gateway.run()


if __name__ == "__main__":
    main()
