"""A cluster of Dask that has no worker until tasks wait: `growing.py FILE` writes its address into the file."""
import json
import os
import sys
import time

from distributed import LocalCluster

if __name__ == "__main__":
    cluster = LocalCluster(n_workers=0, threads_per_worker=1, processes=False, protocol="tcp", host="127.0.0.1", dashboard_address=None)
    cluster.adapt(minimum=0, maximum=2, interval="200ms")
    with open(f"{sys.argv[1]}.new", "w", encoding="utf-8") as file:
        json.dump({"address": cluster.scheduler_address}, file)
    os.replace(f"{sys.argv[1]}.new", sys.argv[1])
    time.sleep(3600)
