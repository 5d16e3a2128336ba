"""What a keeper remembers over its lives, and by that whether a node's folder is the one that was
served before.

Each folder gets a number of its own, in the file `keeper/number`, which a copy has too; a copy has
another inode. So a folder with another node's number is a copy of that node's, and one with its own
number and another inode is a copy of its own, maybe an older one. Of a device its number may change
at a boot, and of a file system its id, so one of both has to be as it was.
"""
import asyncio
import json
import os
import re
import secrets
import threading
from concurrent.futures import Future
from pathlib import Path
from typing import Any, Callable, TypeVar

OWN = re.compile(r'(last-promised-epoch|last-writer-epoch|committed-txid|edits_\d{19}-\d{19}|'
                 r'edits_inprogress_\d{19}.*)\Z')
T = TypeVar('T')


class NotOwn(Exception):
    """Why a folder isn't the one that the node had."""


class Memory:
    """A few facts, each written whole and synced to cluster.run/memory.json; none names a process.
    `began`: nodes that had files; `folders`: what is told of each node's; `held`: nodes that are
    held; `active`: the lead that was made active last, `epoch` its epoch; `auto`: whether failover
    is automatic, and when that was said; `down`: whether the cluster was taken down on purpose.
    `fault` is why the file couldn't be read or written, and empty where it could."""

    def __init__(self, path: Path) -> None:
        self.path, self.fault = path, ''
        self.facts: dict[str, Any] = {'began': [], 'folders': {}, 'held': [], 'active': None,
                                      'epoch': 0, 'auto': [True, 0], 'down': False}
        try:
            told = {**json.loads(path.read_text())}
            self.facts.update({name: told[name] for name in self.facts if name in told})
        except FileNotFoundError:
            pass
        except (OSError, ValueError, TypeError) as error:
            self.fault = (f'{path} can\'t be read ({error}): which nodes had files isn\'t known; '
                          'mend it, or move it away')

    def get(self, name: str) -> Any:
        return self.facts[name]

    def put(self, name: str, value: Any) -> None:
        """Writes a fact; one that can't be written counts, and is written with the next."""
        if self.facts[name] == value and not self.fault:
            return
        self.facts[name] = value
        try:
            write_synced(self.path, json.dumps(self.facts))
            self.fault = ''
        except OSError as error:
            self.fault = (f'{self.path} can\'t be written ({error.strerror}): make room, or mend '
                          'the mode of its folder')

    def note(self, name: str, member: str, is_in: bool) -> None:
        """Puts a member into a list of the facts, or takes it out."""
        had = set(self.facts[name])
        self.put(name, sorted(had | {member} if is_in else had - {member}))


def write_synced(path: Path, text: str) -> None:
    """Replaces a file whole, so that after a crash it is the old or the new one."""
    fresh = path.with_name(path.name + '.new')
    with open(fresh, 'w') as file:
        file.write(text)
        file.flush()
        os.fsync(file.fileno())
    os.replace(fresh, path)
    folder = os.open(path.parent, os.O_RDONLY)
    try:
        os.fsync(folder)
    finally:
        os.close(folder)


async def in_thread(seconds: float, call: Callable[..., T], *words: Any) -> T:
    """Has a thread do what may hang with a disk; OSError where it isn't done in time."""
    told: 'Future[T]' = Future()

    def run() -> None:
        try:
            told.set_result(call(*words))
        except Exception as error:  # noqa: BLE001
            told.set_exception(error)
    threading.Thread(target=run, daemon=True).start()
    try:
        return await asyncio.wait_for(asyncio.shield(asyncio.wrap_future(told)), seconds)
    except asyncio.TimeoutError:
        raise OSError(f'its disk doesn\'t answer in {seconds:g} s') from None


def has_node_files(folder: Path) -> bool:
    """Whether files of a node stand in the folder."""
    return folder.exists() and any(OWN.match(name) for name in os.listdir(folder))


def write_number(folder: Path) -> dict[str, Any]:
    """Gives a folder a new number; what is to be remembered of it."""
    number = secrets.token_hex(8)
    (folder / 'keeper').mkdir(exist_ok=True)
    write_synced(folder / 'keeper/number', number + '\n')
    return told_of(folder, number)


def told_of(folder: Path, number: str) -> dict[str, Any]:
    stat = folder.stat()
    return {'device': stat.st_dev, 'system': os.statvfs(folder).f_fsid, 'inode': stat.st_ino,
            'number': number}


def prepare(folder: Path, name: str, folders: dict[str, dict[str, Any]]) -> dict[str, Any]:
    """Makes a node's folder ready, and tells what to remember; NotOwn where it isn't its own."""
    folder.mkdir(parents=True, exist_ok=True)
    file, had = folder / 'keeper/number', folders.get(name)
    number = file.read_text().strip() if file.exists() else ''
    for other, told in folders.items():
        if number and other != name and told['number'] == number:
            raise NotOwn(f'it is a copy of the folder of node {other}')
    if had and has_node_files(folder):
        if number and number != had['number']:
            raise NotOwn('it has another folder\'s number')
        now = told_of(folder, number)
        is_moved = now['device'] != had['device'] and now['system'] != had['system']
        if now['inode'] != had['inode'] or is_moved:
            raise NotOwn('it isn\'t the folder that was served before, but maybe an older one')
    is_known = number and (not had or had['number'] == number)
    return told_of(folder, number) if is_known else write_number(folder)
