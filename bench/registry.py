#!/usr/bin/python3
"""Measures a registry: how many creates are posted a second, and how long it takes until all machines resolve them.

usage: bench/registry.py PROGRAM [COUNT]

Eight clients post COUNT creates (1000) to `registry up --every=1`: to one machine over SQLite, and to three over one
PostgreSQL on the same machine. Then ten creates are posted one by one, and the time until all machines resolve each is
taken. It prints the rows of a table.
"""
import os
import statistics
import sys
import tempfile
import threading
import time

TOP = os.path.dirname(os.path.dirname(os.path.realpath(__file__)))
sys.dont_write_bytecode = True
sys.path[:0] = [os.path.join(TOP, "service", "checks"), os.path.join(TOP, "service")]
from client import Kept
from cluster import Cluster, missing
from frame import create, suffix_of, until
from machines import Machine

CLIENTS, EVERY, LONGEST, SAMPLES = 8, 1, 300, 10


def resolved(machines, suffixes):
    """Waits until all machines resolve all identifiers."""
    for machine in machines:
        with Kept(os.path.join(machine.sockets, "ask"), 60) as node:
            for suffix in suffixes:
                until(lambda: node.resolve("did:sidetree:" + suffix), LONGEST)


def posted(machine, request):
    status = machine.http("POST", "/operations", request)[0]
    if status != 200:
        raise OSError("a request has the answer %s" % status)


def measure(folder, machines, count):
    """The creates that were posted a second, the seconds from the last one to the effect of all, and those of single ones."""
    requests = [create("c%d" % n) for n in range(count)]
    faults = []

    def post(client):
        try:
            for n in range(client, count, CLIENTS):
                posted(machines[n % len(machines)], requests[n])
        except OSError as fault:
            faults.append(fault)
    threads = [threading.Thread(target=post, args=(client,)) for client in range(CLIENTS)]
    began = time.monotonic()
    for thread in threads:
        thread.start()
    for thread in threads:
        thread.join()
    last = time.monotonic()
    if faults:
        raise faults[0]
    resolved(machines, map(suffix_of, requests))
    whole, single = time.monotonic(), []
    for n in range(SAMPLES):
        request = create("s%d" % n)
        # Somewhere between two batches.
        time.sleep(EVERY * (0.5 + n / SAMPLES))
        start = time.monotonic()
        posted(machines[n % len(machines)], request)
        resolved(machines, [suffix_of(request)])
        single.append(time.monotonic() - start)
    return count / (last - began), whole - last, single


def trial(name, stores, count):
    with tempfile.TemporaryDirectory() as folder:
        machines = [Machine(folder, n, store.replace("FOLDER", folder), "--every=%d" % EVERY, "--submits=1000000") for n, store in enumerate(stores)]
        try:
            until(lambda: all("registry: ready" in machine.said() for machine in machines), LONGEST)
            rate, after, single = measure(folder, machines, count)
        finally:
            for machine in machines:
                machine.end()
    print("| %s | %.0f | %.1f s | %.2f s; %.2f s |" % (name, rate, after, statistics.median(single), max(single)), flush=True)


def main(program, count="1000"):
    os.environ["SIDETREE"] = os.path.abspath(program)
    print("| registry | creates posted a second | all resolved after the last POST | POST to resolved, median and longest |\n|---|---|---|---|")
    trial("one machine, SQLite", ["sqlite:FOLDER/store.db"], int(count))
    if missing():
        sys.exit("PostgreSQL is not measured: %s" % missing())
    with Cluster() as cluster:
        trial("three machines, PostgreSQL", [cluster.url()] * 3, int(count))


if __name__ == "__main__":
    if len(sys.argv) not in (2, 3) or sys.argv[1].startswith("-"):
        sys.exit(__doc__.strip())
    main(*sys.argv[1:])
