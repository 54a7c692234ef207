"""A picture in tiles over the workers of Dask, each tile by a kernel of isp.

    python3 examples/python/mosaic.py                              two worker processes of its own
    python3 examples/python/mosaic.py --scheduler 10.0.0.1:8786    the workers of a scheduler

    --size N       the picture has N x N pixels (8192), in tiles of 1024 x 1024
    --kernel NAME  NAME.ispc of the folder examples (brighten)
    --kill         kills a worker in the middle, whose tiles Dask then runs again (own workers alone)

An independent entry whose instances do not clash does with each pixel what one does alone, so any tiles give the same picture;
its last line says whether the tiles gave the bytes of one run over the whole. An entry that is not independent is refused before
anything runs, with the rule that it breaks and the place. Needs python3-numpy, python3-dask and python3-distributed.
The workers need this repository at the same path.
"""
import argparse
import os
import pathlib
import signal
import sys
import threading
import time

ROOT = pathlib.Path(__file__).resolve().parents[2]
sys.path.insert(0, str(ROOT / "python"))
import isp

TILE, LEVEL = 1024, 50


def brightened(tile, code, module):
    """Returns a tile as the kernel leaves it; what a worker does."""
    sys.path[:0] = [module] * (module not in sys.path)
    import isp

    tile = tile.copy()
    isp.load(code).brighten(pixels=tile, count=tile.size, level=LEVEL)
    return tile


def refusal(kernel, name):
    """Returns why an entry may not be run in tiles, or None."""
    if name not in kernel.signatures:
        return f"it exports no {name}"
    rule = kernel.dependence(name)
    return rule and f"{name} is not independent: {rule}"


def kill_soon(process):
    """Kills a worker's process once it has begun."""
    time.sleep(0.5)
    os.kill(process, signal.SIGKILL)


def run(client, picture, kernel, dask_array, kill):
    """Returns the picture in tiles."""
    tiles = dask_array.from_array(picture, chunks=TILE)
    done = tiles.map_blocks(brightened, code=kernel.code, module=str(ROOT / "python"), dtype=picture.dtype)
    if kill:
        first = min(client.run(os.getpid).values())
        threading.Thread(target=kill_soon, args=(first,), daemon=True).start()
    return client.compute(done).result()


def client_of(scheduler):
    import dask
    import distributed

    if scheduler:
        return distributed.Client(scheduler)
    dask.config.set({"distributed.scheduler.allowed-failures": 10})
    cluster = distributed.LocalCluster(n_workers=2, threads_per_worker=1, host="127.0.0.1", dashboard_address=None)
    return distributed.Client(cluster)


def main():
    words = argparse.ArgumentParser(usage=__doc__.split("\n\n")[1].strip())
    words.add_argument("--scheduler")
    words.add_argument("--size", type=int, default=8192)
    words.add_argument("--kernel", default="brighten")
    words.add_argument("--kill", action="store_true")
    asked = words.parse_args()
    kernel = isp.compile((ROOT / "examples" / f"{asked.kernel}.ispc").read_text(), gang=16)
    why = refusal(kernel, asked.kernel)
    if why:
        print(f"mosaic: {why}", file=sys.stderr)
        return 9
    import dask.array
    import numpy

    picture = numpy.random.default_rng(1).integers(0, 256, (asked.size, asked.size), numpy.uint8)
    client = client_of(asked.scheduler)
    start = time.perf_counter()
    tiled = run(client, picture, kernel, dask.array, asked.kill)
    print(f"{len(client.scheduler_info()['workers'])} workers, {time.perf_counter() - start:.1f} s", file=sys.stderr)
    cluster = client.cluster
    client.close()
    if cluster is not None:
        cluster.close()
    kernel.budget = 2**63
    kernel.brighten(pixels=picture, count=picture.size, level=LEVEL)
    same = numpy.array_equal(tiled, picture)
    print("the tiles are the whole" if same else "the tiles differ from the whole")
    return not same


if __name__ == "__main__":
    os.environ.setdefault("MALLOC_TRIM_THRESHOLD_", "0")
    sys.exit(main())
