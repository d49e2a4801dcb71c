#!/usr/bin/python3
"""JSON Lines by workers of Dask (Debian's package python3-distributed).

usage: lines.py COMMAND LOG.. > OUTPUT

Cuts each LOG, whose last line has to end with a line feed, into parts of whole lines, passes each part through COMMAND on some
worker, and prints the outputs in order. A part whose worker died is run again on another. If COMMAND returns another status
than 0 for some part, stops with status 1.
"""
import shlex
import subprocess
import sys

from dask import delayed
from dask.bytes import read_bytes
from dask.distributed import Client

PART = "10MB"


def run(command, part):
    return subprocess.run(command, input=part, stdout=subprocess.PIPE, check=True).stdout


def main(command, logs):
    # Two processes on this machine. For a cluster: Client(ADDRESS), the logs where each worker sees them.
    with Client(n_workers=2, threads_per_worker=1, dashboard_address=None) as client:
        _, files = read_bytes(logs, delimiter=b"\n", blocksize=PART, sample=False)
        outputs = client.compute([delayed(run)(command, part) for file in files for part in file])
        for output in outputs:
            sys.stdout.buffer.write(output.result())
            output.release()


if __name__ == "__main__":
    if len(sys.argv) < 3:
        sys.exit("usage: lines.py COMMAND LOG.. > OUTPUT")
    main(shlex.split(sys.argv[1]), sys.argv[2:])
