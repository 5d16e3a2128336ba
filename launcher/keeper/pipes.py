"""Waits that have an end, and pipes that are read and written as far as that needs no wait."""
import asyncio
import os
from time import monotonic as now
from typing import Any, Awaitable, Callable, Optional


async def comes(waiting: Awaitable[Any], seconds: Optional[float]) -> bool:
    """Whether something comes in time. (`wait_for` may swallow a cancellation, up to 3.11.)"""
    task = asyncio.ensure_future(waiting)
    try:
        await asyncio.wait([task], timeout=seconds)
        return task.done()
    finally:
        task.cancel()


async def until(is_so: Callable[[], bool], seconds: float) -> bool:
    """Waits until something is so, at most so long."""
    end = now() + seconds
    while not is_so():
        if now() >= end:
            return False
        await asyncio.sleep(0.02)
    return True


def read_some(fd: int) -> bytes:
    """The bytes that are there now; none where there are none."""
    try:
        return os.read(fd, 1 << 16)
    except BlockingIOError:
        return b''


def write_some(fd: int, data: bytes) -> bool:
    """Whether there was room for these few bytes, which are written whole or not at all."""
    try:
        os.write(fd, data)
        return True
    except BlockingIOError:
        return False


async def until_readable(fd: int, seconds: float) -> bool:
    """Waits until there are bytes, at most so long."""
    loop, ready = asyncio.get_running_loop(), asyncio.Event()
    loop.add_reader(fd, ready.set)
    try:
        return await comes(ready.wait(), max(0.0, seconds))
    finally:
        loop.remove_reader(fd)


class Outlet:
    """Writes to a descriptor as there is room; what finds none is kept until there is."""

    def __init__(self, fd: int) -> None:
        self.fd, self.rest = fd, b''

    def write(self, data: bytes) -> None:
        is_waiting, self.rest = bool(self.rest), self.rest + data
        if not is_waiting:
            self._push()

    def _push(self) -> None:
        try:
            while self.rest:
                self.rest = self.rest[os.write(self.fd, self.rest[:1 << 16]):]
        except BlockingIOError:
            asyncio.get_running_loop().add_writer(self.fd, self._push)
            return
        except OSError:
            # (who reads is gone, which is noticed where it is waited for)
            pass
        self.close()

    def close(self) -> None:
        """Writes nothing more of what was given so far."""
        self.rest = b''
        asyncio.get_running_loop().remove_writer(self.fd)
