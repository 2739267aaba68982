#!/usr/bin/python3
"""Merges states with the workers of a Dask cluster. The first two states that are there are merged next, so the tree differs from run to
run.

  workers.py [--scheduler ADDRESS] DOCKER FOLDER TARGET STATE..

DOCKER is the program. FOLDER is a folder that all workers share. The states, plain or packed with zstd, must be where the workers can read
them. Only file names go through the cluster: a worker reads two states, merges them on its own disk, and puts the packed merge into FOLDER.
TARGET is written plain. Without the address of a scheduler, three processes of this machine do the work."""
import argparse
import contextlib
import os
import pathlib
import shutil
import subprocess
import tempfile
import uuid

from distributed import Client, LocalCluster, as_completed

ZSTD = b"\x28\xb5\x2f\xfd"


@contextlib.contextmanager
def unpacked(name):
    """The bytes of a state's file, unpacked if it is packed, as a stream."""
    # The file is opened without a buffer, so that a process that continues reading loses no bytes.
    with open(name, "rb", buffering=0) as file:
        if file.read(4) != ZSTD:
            file.seek(0)
            yield file
            return
    with subprocess.Popen(["zstd", "-dcq", name], stdout=subprocess.PIPE) as unpacking:
        yield unpacking.stdout
    if unpacking.returncode != 0:
        raise OSError(f"{name}: zstd can't unpack it")


def merged(program, folder, first, second):
    """Puts the merge of two states into the folder, and returns its name. It may be done twice, for example if a worker is lost: the states
    stay, and each merge gets a name of its own once it is whole."""
    target = pathlib.Path(folder, f"{uuid.uuid4()}.zst")
    part = target.with_suffix(".part")
    with tempfile.TemporaryDirectory() as own:
        state = pathlib.Path(own, "state")
        with unpacked(first) as text, open(state, "wb") as file:
            shutil.copyfileobj(text, file)
        with unpacked(second) as text:
            subprocess.run([program, "merge", state, "stdin"], stdin=text, check=True)
        subprocess.run(["zstd", "-q", state, "-o", part], check=True)
    part.rename(target)
    return str(target)


def words():
    parser = argparse.ArgumentParser(prog="workers.py", description="Merges states by the workers of a Dask cluster.")
    parser.add_argument("--scheduler", metavar="ADDRESS", help="as tcp://10.0.0.1:8786")
    parser.add_argument("docker", metavar="DOCKER")
    for name in ("folder", "target"):
        parser.add_argument(name, type=pathlib.Path, metavar=name.upper())
    parser.add_argument("states", nargs="+", metavar="STATE")
    return parser.parse_args()


def merge_all(client, docker, folder, states):
    """Returns the name of the merge of all states. As long as there are two, a worker merges them."""
    waiting, running, parents = list(states), as_completed(), {}
    while True:
        while len(waiting) > 1:
            pair = waiting.pop(), waiting.pop()
            merge = client.submit(merged, docker, folder, *pair, pure=False)
            parents[merge.key] = pair
            running.add(merge)
        if not parents:
            return waiting[0]
        merge = next(running)
        waiting.append(merge.result())
        for name in parents.pop(merge.key):
            # The states of the offices stay.
            if name not in states:
                pathlib.Path(name).unlink()


def main():
    asked = words()
    docker = os.path.abspath(asked.docker) if "/" in asked.docker else asked.docker
    with contextlib.ExitStack() as open_now:
        folder = open_now.enter_context(tempfile.TemporaryDirectory(prefix="merging.", dir=asked.folder.resolve()))
        # The workers may run as other users.
        os.chmod(folder, 0o777)
        cluster = asked.scheduler or open_now.enter_context(LocalCluster(n_workers=3, threads_per_worker=1, dashboard_address=None))
        client = open_now.enter_context(Client(cluster))
        name = merge_all(client, docker, folder, [os.path.abspath(state) for state in asked.states])
        with unpacked(name) as text, open(asked.target, "wb") as target:
            shutil.copyfileobj(text, target)


if __name__ == "__main__":
    main()
