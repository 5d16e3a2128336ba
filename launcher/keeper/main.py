"""The keeper itself: its lock, and its socket, which takes commands as lines of JSON."""
import asyncio
import fcntl
import os
import signal
import socket
import sys
import time
from pathlib import Path
from typing import Optional

from .automatic import Automatic
from .commands import Commands
from .config import Config, load_config, problems_of
from .machine import Machine
from .settings import DONE, SOCKET, TAKEN, USAGE, Settings, settings_from_environment
from .shown import metrics_of
from .wire import LONGEST, Wire


async def open_socket(commands: Commands) -> None:
    """Opens the socket, which nobody else may use; one that is there is left over."""
    async def serve(reader: asyncio.StreamReader, writer: asyncio.StreamWriter) -> None:
        await Wire(reader, writer.write, commands.do).run()
        writer.close()
    Path(SOCKET).unlink(missing_ok=True)
    door = socket.socket(socket.AF_UNIX, socket.SOCK_STREAM)
    # (nothing is awaited meanwhile: others would make folders that lack their owner's `x`)
    mask = os.umask(0o177)
    try:
        door.bind(SOCKET)
    finally:
        os.umask(mask)
    await asyncio.start_unix_server(serve, sock=door, limit=LONGEST)


async def write_metrics(machine: Machine) -> None:
    """Writes the file of the line `metrics` of cluster.conf again and again, whole each time."""
    path, told = machine.top / machine.config.metrics, ''
    fresh = path.with_name(path.name + '.new')
    while machine.config.metrics:
        before, told = told, ''
        try:
            fresh.write_text(metrics_of(machine.view.status()) + '\n')
            fresh.replace(path)
        except OSError as error:
            told = f'metrics can\'t be written: {error}'
        if told and told != before:
            machine.note(told)
        await asyncio.sleep(machine.settings.metrics_each)


async def keep(config: Config, settings: Settings, auto: Optional[str]) -> None:
    """Keeps the cluster of the current folder, until `down` or TERM, which end the process."""
    machine = Machine(Path.cwd(), config, settings)
    if auto:
        machine.memory.put('auto', [auto == 'on', time.time()])
    for number in (signal.SIGTERM, signal.SIGINT):
        asyncio.get_running_loop().add_signal_handler(number, machine.is_last.set)
    machine.start()
    machine.tasks += [asyncio.create_task(Automatic(machine).run()),
                      asyncio.create_task(write_metrics(machine))]
    await open_socket(Commands(machine))
    machine.note('the keeper began')
    await machine.is_last.wait()
    if not machine.is_ending:
        await machine.end()
    Path(SOCKET).unlink(missing_ok=True)
    machine.note('the keeper ended')
    os._exit(DONE)  # (nobody waits for an asker, or for a thread that hangs in a disk)


def run_keeper(auto: Optional[str]) -> int:
    """Keeps the cluster of the current folder; `auto` is on or off, or as it was."""
    try:
        os.makedirs('cluster.run', mode=0o700, exist_ok=True)
        signal.signal(signal.SIGHUP, signal.SIG_IGN)
        # (it is for the life of this process alone: children don't get the descriptor)
        lock = os.open('cluster.run/lock', os.O_RDWR | os.O_CREAT | os.O_CLOEXEC, 0o600)
        fcntl.flock(lock, fcntl.LOCK_EX | fcntl.LOCK_NB)
        config, settings = load_config(Path.cwd()), settings_from_environment()
        problems = problems_of(config, Path.cwd(), settings)
        if not problems:
            asyncio.run(keep(config, settings, auto))
    except BlockingIOError:
        print('qjm: a keeper has this folder already', file=sys.stderr)
        return TAKEN
    except OSError as error:
        problems = [f'cluster.run: {error.strerror}: make room, or mend its owner or mode']
    for problem in problems:
        print(f'qjm: {problem}', file=sys.stderr)
    return USAGE if problems else DONE
