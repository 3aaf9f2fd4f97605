#!/usr/bin/env python3
"""Times examples/collection.py on a collection that it makes: in one process, and by 1, 2 and 4 workers of Dask on this machine.

usage: bench/collection.py FOLDER [FILES [IN-AN-ARCHIVE]]    (1,000,000 files, 5,000 in an archive, if no numbers are named)

The archives are made in FOLDER where they are not there, the same bytes each time; bench/small_files.py says what is in them. The start of the workers is not counted. Beside
the time of the clock stands the processor time of the workers and that of the process that writes the table, which other work changes less.
It is run by a Python that has Dask, with the module golly_canon on PYTHONPATH.
"""
import io
import os
import random
import sys
import tarfile
import time

HERE = os.path.dirname(os.path.abspath(__file__))
sys.path.insert(0, os.path.join(HERE, "..", "examples"))

import collection  # noqa: E402
import distributed  # noqa: E402
from small_files import ending_of, file_of  # noqa: E402

WORKERS = (1, 2, 4)


def archives(folder, files, size):
    """The paths of the archives, which are made where they are not there."""
    os.makedirs(folder, exist_ok=True)
    paths = [os.path.join(folder, f"{files}_{number:05}.tar") for number in range((files + size - 1) // size)]
    for part, path in enumerate(paths):
        if os.path.exists(path):
            continue
        source = random.Random(f"archive {part}")
        with tarfile.open(f"{path}.new", "w") as archive:
            for number in range(part * size, min(files, (part + 1) * size)):
                data, entry = file_of(source, number), tarfile.TarInfo(f"patterns/{number:08}.{ending_of(number)}")
                entry.size = len(data)
                archive.addfile(entry, io.BytesIO(data))
        os.replace(f"{path}.new", path)
    return paths


def timed(folder, shares, work, of_workers):
    """The seconds of a run, and the processor seconds of its workers and of this process, and the rows."""
    path = os.path.join(folder, "timed.sqlite")
    if os.path.exists(path):
        os.remove(path)
    table = collection.Table(path, shares)
    before, own, start = of_workers(), time.process_time(), time.monotonic()
    failed = collection.run(table, shares, work)
    took, own = time.monotonic() - start, time.process_time() - own
    spent = of_workers() - before
    if failed:
        sys.exit(f"shares failed: {failed}")
    return took, spent, own, table.database.execute(f"SELECT {', '.join(table.columns)} FROM file ORDER BY id").fetchall()


def main(words):
    if len(words) not in (2, 3, 4):
        sys.exit(__doc__)
    folder = words[1]
    files, size = (int(words[at]) if at < len(words) else default for at, default in ((2, 1_000_000), (3, 5000)))
    shares = collection.shares_of(archives(folder, files, size), True)
    took, _, alone, wanted = timed(folder, shares, collection.by_this_process, lambda: 0.0)
    print("| | files in a second | processor time of the workers for a file | of the process that writes |\n|---|---|---|---|")
    print(f"| one process, without Dask | {files / took:,.0f} | | {alone / files * 1e6:.0f} us with all |", flush=True)
    for workers in WORKERS:
        how = {"n_workers": workers, "threads_per_worker": 1, "dashboard_address": None}
        with distributed.LocalCluster(**how) as cluster, distributed.Client(cluster) as client:
            work = collection.by_dask(lambda: distributed.Client(cluster))
            client.run(lambda: __import__("golly_canon") and None)
            took, spent, own, rows = timed(folder, shares, work, lambda: sum(client.run(time.process_time).values()))
        if rows != wanted:
            sys.exit(f"{workers} workers come to other rows")
        name = f"{workers} worker{'s' * (workers > 1)}"
        print(f"| {name} | {files / took:,.0f} | {spent / files * 1e6:.0f} us | {own / files * 1e6:.0f} us |", flush=True)


if __name__ == "__main__":
    main(sys.argv)
