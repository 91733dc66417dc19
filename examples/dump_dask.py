#!/usr/bin/env python3
"""Counts the words of dumps that could be capabilities, by permissions and by the region that they point to, on a Dask cluster.

    examples/dump_dask.py [--scheduler ADDRESS | --workers N] [--part MIB] [--region NAME=BASE+LENGTH].. [--perms NAMES]
                          [--unsealed] [--big] FILE..

    --scheduler ADDRESS   the cluster's scheduler, such as tcp://host:8786 [default: a cluster of N processes here]
    --workers N           the number of processes [default: 2]
    --part MIB            the size of a part of a file, which a worker reads at once [default: 64]
    --region ..           a region by its name, its base and its length
    --perms NAMES         only words with all these permissions, joined by +
    --unsealed            neither sealed words nor sentries
    --big                 the files are of big-endian memory

A FILE is raw memory: words of 16 bytes from its beginning. Only words whose address is in their bounds are counted. That is
so for few random words. A region has the words whose address it contains; `-` stands for no region.
The output is a table in CSV: permissions, region, words, sentries, and the largest length of their bounds.

Each worker must have this module's packages and read each FILE by the same name. A part is read again if its worker ends, so
the table is as with one process. The status is 2 if a FILE cannot be read or is not raw memory.
"""
import argparse
import os
import signal
import sys
from pathlib import Path
from typing import Any, Callable, Dict, List, Optional, Sequence, Tuple

sys.path.append(str(Path(__file__).resolve().parent.parent / "python"))

Region = Tuple[str, int, int]
Part = Tuple[str, int, int]
KEYS = ["permissions", "region"]


def parts_of(paths: Sequence[str], size: int) -> List[Part]:
    """Returns the parts of the files: a file, an offset and a number of bytes, each a multiple of 16.

    Errors: ValueError for a file with another size."""
    parts = []
    for path in paths:
        total = os.stat(path).st_size
        if total % 16:
            raise ValueError(f"{path}: {total} bytes are not a multiple of 16")
        parts += [(path, at, min(size, total - at)) for at in range(0, total, size)]
    return parts


def counted(part: Part, regions: Sequence[Region], how: Dict[str, Any]) -> Any:
    """Returns the data frame of a part, with a row for each group that it has."""
    import numpy
    import pandas
    from cheri_cap import SENTRY, find_capabilities

    path, offset, size = part
    with open(path, "rb") as file:
        file.seek(offset)
        table = find_capabilities(file.read(size), **how).array()
    table = table[table["address"] - table["base"] < table["length"]]
    # numbers in place of names, which are grouped faster
    region = numpy.full(len(table), len(regions))
    for number, (_, base, length) in enumerate(regions):
        # a length of 2^64 is not a number of 64 bits
        region[table["address"] - numpy.uint64(base) <= numpy.uint64(length - 1)] = number
    frame = pandas.DataFrame({"permissions": table["perms"], "region": region, "words": 1})
    frame["sentries"] = (table["type"] == SENTRY).astype(int)
    frame["largest"] = table["length"]
    return grouped(frame)


def grouped(frame: Any) -> Any:
    """Returns the data frame with the groups of rows of another: their sums, and the largest length."""
    return frame.groupby(KEYS, as_index=False).agg({"words": "sum", "sentries": "sum", "largest": "max"})


def told(done: int, parts: int, words: int) -> None:
    print(f"\r{done} of {parts} parts, {words:,} words", end="" if done < parts else "\n", file=sys.stderr, flush=True)


def counts(
    client: Any, parts: Sequence[Part], regions: Sequence[Region], how: Dict[str, Any], tell: Callable[[int, int, int], None] = told
) -> Any:
    """Returns the data frame of all parts, which the workers of a cluster count."""
    import pandas
    from cheri_cap import PERMISSIONS
    from dask.distributed import as_completed

    futures = client.map(counted, parts, regions=regions, how=how, pure=False)
    total: Optional[Any] = None
    words = 0
    for done, (future, groups) in enumerate(as_completed(futures, with_results=True), 1):
        total = grouped(pandas.concat([groups] if total is None else [total, groups]))
        words += int(groups["words"].sum())
        # the cluster keeps no result that is added
        future.release()
        tell(done, len(parts), words)
    if total is None:
        return pandas.DataFrame(columns=[*KEYS, "words", "sentries", "largest"])
    names = [it[0] for it in regions] + ["-"]
    total["region"] = [names[it] for it in total["region"]]
    total["permissions"] = ["+".join(it for bit, it in enumerate(PERMISSIONS) if mask >> bit & 1) for mask in total["permissions"]]
    return total.sort_values(["words", *KEYS], ascending=[False, True, True], ignore_index=True)


def region_in(text: str) -> Region:
    """Returns a region of at least one byte, which ends at 2^64 or below."""
    name, _, place = text.partition("=")
    base, length = (int(it, 0) for it in place.split("+"))
    if base < 0 or length < 1 or base + length > 1 << 64:
        raise ValueError
    return name, base, length


def count_in(text: str) -> int:
    """Returns a number of at least 1."""
    if int(text) < 1:
        raise ValueError
    return int(text)


def main() -> int:
    parser = argparse.ArgumentParser(usage=(__doc__ or "").split("\n\n")[1].strip())
    parser.add_argument("files", nargs="+")
    parser.add_argument("--scheduler")
    parser.add_argument("--workers", type=count_in, default=2)
    parser.add_argument("--part", type=count_in, default=64)
    parser.add_argument("--region", type=region_in, action="append", default=[])
    parser.add_argument("--perms", default=0)
    parser.add_argument("--unsealed", action="store_true")
    parser.add_argument("--big", action="store_true")
    given = parser.parse_args()
    from cheri_cap import mask_of
    from dask.distributed import Client, LocalCluster

    try:
        parts = parts_of([os.path.abspath(it) for it in given.files], given.part << 20)
        perms = mask_of(given.perms) if given.perms else 0
        how = {"perms": perms, "unsealed": given.unsealed, "byteorder": "big" if given.big else "little"}
        if given.scheduler:
            with Client(given.scheduler) as client:
                table = counts(client, parts, given.region, how)
        else:
            place = {"n_workers": given.workers, "threads_per_worker": 1, "dashboard_address": None}
            with LocalCluster(**place) as cluster, Client(cluster) as client:
                table = counts(client, parts, given.region, how)
    except (OSError, ValueError) as error:
        print(f"dump_dask.py: {error}", file=sys.stderr)
        return 2
    # a reader that has read enough, such as head, ends this program, which has no connections any more
    signal.signal(signal.SIGPIPE, signal.SIG_DFL)
    table.to_csv(sys.stdout, index=False)
    return 0


if __name__ == "__main__":
    sys.exit(main())
