"""The commands of `./qjm cluster`: each is given to the keeper of the folder."""
import argparse
import fcntl
import json
import os
import select
import signal
import socket
import struct
import subprocess
import sys
import time
from pathlib import Path
from typing import Any, NoReturn, Optional

from .config import check_room, load_config, problems_of
from .settings import DONE, FAULT, NO_KEEPER, REFUSED, SOCKET, TAKEN, USAGE, Reply, open_log, \
    settings_from_environment
from .shown import metrics_of, text_of

# Which commands there are, and the help of each; and the words of each behind its name.
HELP = Path(__file__).resolve().parent.parent / 'help/cluster-commands.txt'
ON_OFF, FLAG = {'choices': ['on', 'off']}, {'action': 'store_true'}
WORDS: dict[str, dict[str, dict[str, Any]]] = {
    'up': {'--again': FLAG, '--auto': ON_OFF}, 'keep': {'--auto': ON_OFF}, 'auto': {'on': ON_OFF},
    'down': {'--force': FLAG}, 'status': {'--json': FLAG, '--own-lead': FLAG},
    'log': {'line': {'nargs': '+'}}, 'tell': {'name': {}, 'line': {'nargs': '+'}},
    'kill': {'kind': {'choices': ['node', 'lead']}, 'name': {}},
    'trim': {'extra': {'type': int, 'nargs': '?', 'default': 0}},
    **{name: {'name': {}} for name in ('failover', 'checkpoint', 'hold', 'release', 'adopt')}}


class NoKeeper(Exception):
    """Nobody answers at the socket, or one who hangs: why, and the status of that."""


def say(*texts: object) -> None:
    for text in texts:
        print(f'qjm: {text}', file=sys.stderr)


class Parser(argparse.ArgumentParser):
    """A parser that ends with the launcher's status for wrong words, and changed nothing."""

    def error(self, message: str) -> NoReturn:
        say(message, f'`{self.prog} --help` says more')
        sys.exit(USAGE)


def read_words(words: list[str]) -> argparse.Namespace:
    """The words of a command; ends with status 1 where they are wrong, and 0 behind a help."""
    *texts, statuses = HELP.read_text().split('\n\n')
    style: dict[str, Any] = {'allow_abbrev': False, 'epilog': statuses,
                             'formatter_class': argparse.RawDescriptionHelpFormatter}
    parser = Parser(prog='qjm cluster', description='Keeps nodes and leads.', **style)
    parser.add_argument('-C', dest='folder', default='.', metavar='FOLDER',
                        help='the folder that has cluster.conf')
    parser.add_argument('--timeout', type=float, default=20.0, metavar='SECONDS',
                        help='how long a result is waited for; 20')
    commands = parser.add_subparsers(dest='command', required=True, metavar='COMMAND')
    for text in texts:
        shape, does = text.split('\n', 1)
        name = shape.split()[0]
        made = commands.add_parser(name, description=does, help=does.split('.')[0], **style,
                                   usage=f'qjm cluster [-C FOLDER] [--timeout SECONDS] {shape}')
        made.add_argument('--timeout', type=float, default=argparse.SUPPRESS, metavar='SECONDS',
                          help=argparse.SUPPRESS)
        for word, more in WORDS.get(name, {}).items():
            made.add_argument(word, **more)
    asked = parser.parse_args(words)
    if not 0 < asked.timeout <= 3600:
        parser.error(f'--timeout {asked.timeout:g}: it is more than 0, and 3600 at most')
    return asked


def dial(seconds: float, path: str = SOCKET) -> socket.socket:
    """A connection to the keeper."""
    door = socket.socket(socket.AF_UNIX)
    door.settimeout(min(seconds, 5))
    try:
        door.connect(path)
        return door
    except OSError as error:
        door.close()
        raise NoKeeper(f'no keeper answers here ({error.strerror or error}): `up` starts one',
                       NO_KEEPER) from error


def ask_keeper(command: Reply, seconds: float, path: str = SOCKET) -> Reply:
    """The keeper's reply, waited for at most so long."""
    with dial(seconds, path) as door:
        door.settimeout(seconds)
        try:
            door.sendall(json.dumps({'id': 1, **command}).encode() + b'\n')
            line = door.makefile('rb').readline()
        except OSError as error:
            why = f'the keeper doesn\'t answer ({error.strerror or error})'
            raise NoKeeper(f'{why}: `down --force` ends one that hangs', FAULT) from error
    if not line:
        raise NoKeeper('the keeper ended before it answered', NO_KEEPER)
    told: Reply = json.loads(line)
    return told


def start_keeper(seconds: float, words: list[str]) -> None:
    """Sees that a keeper runs. Of several that are started at once one goes on."""
    status: Optional[int] = TAKEN
    end, started = time.monotonic() + seconds, None
    while time.monotonic() < end and status in (None, TAKEN, 0, 137, -9):
        try:
            if not ask_keeper({'command': 'status'}, 5)['is_ending']:
                return
        except NoKeeper:
            pass
        started = started if started and status is None else spawn_keeper(words)
        time.sleep(0.05)
        status = started.poll()
    if started and status is None:
        # (it must not take the folder later, when this command has told that it failed)
        started.kill()
    raise NoKeeper('no keeper answers, or one has the folder and hangs: `down --force` ends it; '
                   'cluster.run/keeper.log has its words', FAULT if is_kept() else NO_KEEPER)


def spawn_keeper(words: list[str]) -> 'subprocess.Popen[bytes]':
    os.makedirs('cluster.run', mode=0o700, exist_ok=True)
    program = [sys.executable, '-I', str(Path(__file__).with_name('__main__.py')), 'keep', *words]
    with open_log(Path('cluster.run/keeper.log')) as log:
        return subprocess.Popen(program, stdin=subprocess.DEVNULL, stdout=log, stderr=log,
                                start_new_session=True)


def is_kept() -> bool:
    """Whether a keeper has the lock."""
    try:
        with open('cluster.run/lock', 'rb') as lock:
            fcntl.flock(lock, fcntl.LOCK_SH | fcntl.LOCK_NB)
        return False
    except OSError as error:
        return isinstance(error, BlockingIOError)


def kill_keeper() -> int:
    """Kills who listens at the socket, as the kernel tells it; its children die with it."""
    with dial(5) as door:
        told = door.getsockopt(socket.SOL_SOCKET, socket.SO_PEERCRED, 12)
    handle = os.pidfd_open(struct.unpack('3i', told)[0])
    signal.pidfd_send_signal(handle, signal.SIGKILL)
    select.select([handle], [], [], 5)
    return DONE


def attach() -> int:
    """Joins the standard input and output to the keeper's socket, until either ends."""
    door = dial(5)
    door.settimeout(None)
    while True:
        for ready in select.select([0, door], [], [])[0]:
            data = os.read(0, 1 << 16) if ready == 0 else door.recv(1 << 16)
            if not data:
                # (status 12 tells the other machine that the keeper is gone)
                return DONE if ready == 0 else NO_KEEPER
            if ready == 0:
                door.sendall(data)
            while ready != 0 and data:
                data = data[os.write(1, data):]


def check(seconds: float) -> int:
    """The checks that need no keeper; one that runs is asked of other machines."""
    config = load_config(Path.cwd())
    problems = problems_of(config, Path.cwd(), settings_from_environment())
    problems += [] if config.problems else check_room(config, Path.cwd())
    try:
        problems += ask_keeper({'command': 'check'}, seconds)['says']
    except NoKeeper:
        pass
    say(*problems)
    return USAGE if config.problems else REFUSED if problems else DONE


def was_taken_down() -> bool:
    """Whether the last command of the folder was `down`, or nothing was ever started here."""
    file = Path('cluster.run/memory.json')
    try:
        return not file.exists() or bool(json.loads(file.read_text())['down'])
    except (OSError, ValueError, KeyError):
        return False


def run(asked: argparse.Namespace) -> int:
    """Runs a command in the cluster's folder."""
    name, given = asked.command, vars(asked)
    if name == 'check':
        return check(asked.timeout)
    if name == 'attach':
        return attach()
    if name == 'keep':
        from .main import run_keeper
        return run_keeper(asked.auto)
    if given.get('force'):
        return kill_keeper()
    on = given.get('on') or given.get('auto')
    if name == 'up':
        if asked.again and was_taken_down():
            return DONE
        problems = problems_of(load_config(Path.cwd()), Path.cwd(), settings_from_environment())
        say(*problems)
        if problems:
            return USAGE
        start_keeper(min(asked.timeout, 15), ['--auto', on] if on else [])
    command = {word: given[word] for word in ('name', 'kind', 'extra', 'timeout') if word in given}
    if 'line' in given:
        command['line'] = ' '.join(asked.line)
    if on:
        command['on'] = on == 'on'
    reply = ask_keeper({**command, 'command': 'status' if name == 'metrics' else name},
                       asked.timeout * (20 if name == 'restart' else 2) + 15)
    show(asked, reply)
    return DONE if name == 'metrics' else int(reply['status'])


def show(asked: argparse.Namespace, reply: Reply) -> None:
    """Writes what a command told."""
    if asked.command == 'status' and asked.json:
        told = {name: reply[name] for name in reply if name not in ('id', 'results', 'status')}
        print(json.dumps(told))
    elif asked.command == 'status' and asked.own_lead:
        print(next((lead['name'] for lead in reply['leads']
                    if reply['machine'] in ('', lead['folder'].split(':')[0])), ''))
    elif 'nodes' in reply:
        print(metrics_of(reply) if asked.command == 'metrics' else text_of(reply))
    for result in reply['results']:
        print(result)
    say(*([reply['up']] if 'up' in reply else []), *reply['says'])


def main() -> int:
    """Ends with the status of the command, whatever happens on the way."""
    asked = read_words(sys.argv[1:])
    try:
        os.chdir(asked.folder)
        return run(asked)
    except NoKeeper as error:
        is_down, (why, status) = asked.command == 'down' and not is_kept(), error.args
        say('it is down already' if is_down else why)
        return DONE if is_down else int(status)
    except ValueError as error:
        say(f'a bound of the environment (QJM_..) is no number: {error}')
    except BrokenPipeError:
        os.dup2(os.open(os.devnull, os.O_WRONLY), 1)
        return 7
    except OSError as error:
        say(f'{error.filename or "folder"}: {error.strerror}: make room, or mend its owner or mode')
    return USAGE
