"""The machines, as a scheduler of Dask knows them.

Dask keeps the queue, hands out runs, and gives those of a dead worker to another one. A machine is a host, which may
have several workers; a worker has a slot for each of its threads.
"""

from __future__ import annotations

import asyncio
import logging
from collections.abc import AsyncIterator, Iterable
from contextlib import asynccontextmanager
from dataclasses import dataclass
from itertools import count

import cloudpickle
from distributed import Client, Security
from distributed.comm import get_address_host

from cpsolve_spread import machine

# How often it looks whether there is a worker, in seconds.
LOOK_EVERY = 0.2

# Machines need no part of this package.
cloudpickle.register_pickle_by_value(machine)


class Failed(Exception):
    """A run ended without an answer; why, in one line."""


class Lost(Exception):
    """The scheduler forgot a run, since it was gone for a while."""


class ClusterGone(Exception):
    """There is no scheduler; why, in one line."""


def machine_at(address: str) -> str:
    """The machine of a worker's address."""
    return "this machine" if address.startswith("inproc://") else get_address_host(address)


@dataclass
class Output:
    """What a run wrote, its exit status, and the machine on which it ran as the scheduler says."""

    machine: str
    exit_status: int
    text: bytes


class Cluster:
    """The machines of a scheduler."""

    def __init__(self, client: Client, program: str | None) -> None:
        """`program` is what all machines run, or None where each finds its own."""
        self.client = client
        self.program = program
        self.numbers = count()

    @property
    def workers(self) -> dict[str, int]:
        """The slots of each worker that there is, by its address; none while there is no scheduler."""
        if self.client.status == "closed":
            raise ClusterGone("the scheduler is gone")
        known = self.client.scheduler_info()["workers"] if self.client.status == "running" else {}
        return {address: worker["nthreads"] for address, worker in known.items()}

    async def first_slots(self) -> int:
        """How many slots there are, as soon as there are some."""
        while not self.workers:
            await asyncio.sleep(LOOK_EVERY)
        return sum(self.workers.values())

    def elsewhere(self, avoided: Iterable[str]) -> list[str]:
        """The workers that are on none of these machines."""
        return [address for address in self.workers if machine_at(address) not in avoided]

    def new_key(self, cube: int) -> str:
        """A name for a run of a cube."""
        return f"cube-{cube}-{next(self.numbers)}-{self.client.id}"

    async def solve(self, key: str, text: bytes, conflicts: int, with_log: bool, workers: list[str]) -> Output:
        """Has a cube solved by one of these workers, or by any where none is named. Raises `Failed` and `Lost`."""
        words = (text, conflicts, with_log, self.program)
        future = self.client.submit(machine.solve, *words, key=key, pure=False, workers=workers or None)
        try:
            exit_status, output = await future
            holders = (await self.client.who_has([future]))[key]
            return Output(machine_at(holders[0]) if holders else "a machine that is gone", exit_status, output)
        except asyncio.CancelledError:
            if asyncio.current_task().cancelling():
                raise
            raise Lost from None
        except Exception as error:
            raise Failed(f"{type(error).__name__}: {error}") from error
        finally:
            # Dask cancels a run that nobody waits for.
            future.release()

    async def machine_of(self, key: str) -> str | None:
        """The machine that Dask gave a run to; None while it waits."""
        running = await self.client.processing()
        return next((machine_at(address) for address, keys in running.items() if key in keys), None)


@asynccontextmanager
async def open_cluster(scheduler: str | None, local: int, tls: dict[str, str], program: str) -> AsyncIterator[Cluster]:
    """The machines of the scheduler at this address; else so many slots of this one, in this process."""
    # What goes wrong is told by the command itself.
    logging.disable(logging.CRITICAL)
    if scheduler:
        how = {"address": scheduler, "security": Security(require_encryption=True, **tls) if tls else None}
    else:
        # Dask serves pages of itself in any case: here only to this machine.
        pages = dict.fromkeys(("dashboard_address", "worker_dashboard_address"), "127.0.0.1:0")
        how = {"n_workers": 1, "threads_per_worker": local, "processes": False, **pages}
    try:
        client = await Client(asynchronous=True, set_as_default=False, **how)
    except (OSError, ValueError) as error:
        raise ClusterGone(f"no scheduler at {scheduler}: {error}") from None
    async with client:
        yield Cluster(client, None if scheduler else program)
