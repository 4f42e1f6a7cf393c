"""Workers of Dask in one process, one of each name: `workers.py ADDRESS NAME...`."""
import asyncio
import sys

from distributed import Worker


async def main(address: str, *names: str) -> None:
    workers = [await Worker(address, name=it, nthreads=1, dashboard=False) for it in names]
    await asyncio.gather(*(it.finished() for it in workers))


asyncio.run(main(*sys.argv[1:]))
