"""The file cluster.conf, and what is wrong with it, or on this machine, before anything starts."""
import hashlib
import os
import re
import shutil
import socket
import time
from dataclasses import dataclass, field
from pathlib import Path

from .settings import Settings

LEAST_ROOM, LEAST_FILES, CLOCK_SLACK = 64 << 20, 1000, 60.0
MOST = {'node': 15, 'lead': 63}
# How each kind of line is written, and how many words it has at least.
SHAPES = {'node': ('node NUMBER FOLDER', 3), 'lead': ('lead NAME FOLDER', 3),
          'machine': ('machine HOST FOLDER [ADDRESS]', 3), 'metrics': ('metrics FILE', 2),
          'relay': ('relay ssh [OPTION ..], or relay socat PORT PEM CA', 2)}


@dataclass(frozen=True)
class Place:
    """A node, a lead or a machine. A node's name is its number; where machines are named a folder
    is `HOST:PATH`; that of a machine has cluster.conf, and the relay calls it by its address."""
    kind: str
    name: str
    folder: str
    line: int = field(default=0, compare=False)
    address: str = ''

    @property
    def host(self) -> str:
        return self.folder.rpartition(':')[0]

    @property
    def path(self) -> str:
        return self.folder.rpartition(':')[2]

    def __str__(self) -> str:
        return f'{self.kind} {self.name}'


@dataclass
class Config:
    """What the file lists, in its order, and its problems; `own` is this machine's name."""
    nodes: list[Place] = field(default_factory=list)
    leads: list[Place] = field(default_factory=list)
    machines: dict[str, Place] = field(default_factory=dict)
    relay: list[str] = field(default_factory=lambda: ['ssh'])
    metrics: str = ''
    own: str = ''
    problems: list[str] = field(default_factory=list)

    @property
    def places(self) -> list[Place]:
        return self.nodes + self.leads

    @property
    def majority(self) -> int:
        return len(self.nodes) // 2 + 1

    @property
    def others(self) -> list[Place]:
        return [machine for machine in self.machines.values() if machine.name != self.own]

    def is_here(self, place: Place) -> bool:
        return place.host in ('', self.own)

    def client_of(self, lead: str) -> int:
        """The number of a lead among each node's clients; ValueError where there is none."""
        return [place.name for place in self.leads].index(lead) + 1

    def digest(self) -> str:
        """A sum of what has to be the same on all machines."""
        told = [(p.name, p.folder) for p in self.places] + \
            sorted((m.name, m.folder) for m in self.machines.values())
        return hashlib.sha256(repr(told).encode()).hexdigest()[:16]


def read_config(text: str, own: str = '') -> Config:
    """Reads the text of a file; a line that is wrong is a problem with its number and the word."""
    config = Config(own=own)
    for number, line in enumerate(text.split('\n'), 1):
        if line.strip() and not line.startswith('#'):
            problem = _problem_of(line) or _take_words(config, line.split(' '), number)
            if problem:
                config.problems.append(f'cluster.conf, line {number}: {problem}')
    config.problems = config.problems or _problems_of_all(config)
    return config


def _problem_of(line: str) -> str:
    """What is wrong with a line before its words are looked at one by one."""
    words, control = line.split(' '), re.search(r'[\x00-\x1f\x7f]', line)
    if control:
        return f'column {control.start() + 1} is a tab, a carriage return or another such character'
    if '' in words:
        return f'word {words.index("") + 1} is empty: words are one space apart'
    if words[0] not in SHAPES:
        return f'`{words[0]}` is none of {", ".join(SHAPES)}'
    shape, least = SHAPES[words[0]]
    if len(words) < least:
        return f'a word is missing behind `{words[-1]}`: {shape}'
    most = {'machine': 4, 'relay': 99}.get(words[0], least)
    if len(words) > most:
        return f'`{words[most]}` is one word too many: {shape} (a folder has no spaces)'
    bad = [word for word in words[1:] if word.startswith('-') and words[0] != 'relay']
    return f'`{bad[0]}` begins with -' if bad else ''


def _take_words(config: Config, words: list[str], number: int) -> str:
    """Takes a line into the configuration; what is wrong with it, if something is."""
    kind, name = words[:2]
    if kind == 'metrics':
        config.metrics = name
    elif kind == 'relay':
        if name not in ('ssh', 'socat') or (name == 'socat' and len(words) != 5):
            return f'`{" ".join(words[1:])}` is no relay: {SHAPES[kind][0]}'
        if name == 'socat' and not (words[2].isdigit() and 0 < int(words[2]) < 65536):
            return f'`{words[2]}` is no port'
        config.relay = words[1:]
    elif kind == 'machine':
        if not re.match(r'\w[\w.-]*\Z', name, re.ASCII) or name in config.machines:
            return f'`{name}` is no name of a machine, or that of a line before'
        if not words[2].startswith('/'):
            return f'`{words[2]}` doesn\'t begin with /: it is the folder of cluster.conf there'
        config.machines[name] = Place(kind, name, words[2], number, words[-1 if words[3:] else 1])
    else:
        return _take_place(config, Place(kind, name, words[2], number))
    return ''


def _take_place(config: Config, place: Place) -> str:
    """Takes a node or a lead."""
    folder, next_number = place.folder, str(len(config.nodes) + 1)
    folders = [os.path.normpath(other.folder) for other in config.places]
    if place.kind == 'node' and place.name != next_number:
        return f'`{place.name}` isn\'t {next_number}: nodes are numbered from 1 on, in order'
    is_taken = place.name in [lead.name for lead in config.leads]
    if place.kind == 'lead' and (is_taken or not re.match(r'\w+\Z', place.name, re.ASCII)):
        return f'`{place.name}` isn\'t of letters, digits and _, or is the lead of a line before'
    if not re.match(r'([^:]+:(?!-))?[^:]+\Z', folder):
        return f'`{folder}` is neither PATH nor HOST:PATH'
    if os.path.normpath(place.path) in ('.', 'cluster.run'):
        return f'`{folder}` is the cluster\'s own folder'
    if os.path.normpath(folder) in folders:
        return f'`{folder}` is the folder of a line before'
    (config.nodes if place.kind == 'node' else config.leads).append(place)
    return ''


def _problems_of_all(config: Config) -> list[str]:
    """What is wrong with the lines together."""
    problems = []
    for kind, most in MOST.items():
        count = sum(place.kind == kind for place in config.places)
        if not 1 <= count <= most:
            problems.append(f'cluster.conf: 1 to {most} {kind}s are wanted, not {count}')
    for place in config.places:
        where = f'cluster.conf, line {place.line}'
        if place.host and place.host not in config.machines:
            problems.append(f'{where}: `{place.host}` has no line machine HOST FOLDER')
        elif config.machines and not place.host:
            problems.append(f'{where}: `{place.folder}` is to be HOST:PATH, as machines are named')
    if config.machines and config.own not in config.machines:
        problems.append(f'cluster.conf: this machine is `{config.own}`, and the machines are '
                        f'{" ".join(config.machines)}: write its name into a file cluster.host '
                        'here, or into QJM_HOST')
    return problems


def load_config(top: Path) -> Config:
    """Reads the file of this folder. This machine's name is QJM_HOST, or the word of the file
    cluster.host, or the system's, with its domain or without."""
    host, file = top / 'cluster.host', top / 'cluster.conf'
    try:
        told = os.environ.get('QJM_HOST') or (host.exists() and host.read_text(errors='replace'))
        own, text = (told or socket.gethostname()).strip(), file.read_bytes().decode('utf-8')
    except FileNotFoundError:
        return Config(problems=['there is no file cluster.conf here: `./qjm help cluster` has one'])
    except UnicodeDecodeError as error:
        return Config(problems=[f'cluster.conf: byte {error.start} is no UTF-8'])
    except OSError as error:
        return Config(problems=[f'{error.filename} can\'t be read: {error.strerror}'])
    config = read_config(text, own)
    if own not in config.machines and own.split('.')[0] in config.machines:
        config = read_config(text, own.split('.')[0])
    config.own = config.own if config.machines else ''
    return config


def problems_of(config: Config, top: Path, settings: Settings) -> list[str]:
    """What keeps a cluster from being started here, a line each with what to do."""
    return config.problems or check_tools(config, settings) + check_folders(config, top)


def check_tools(config: Config, settings: Settings) -> list[str]:
    """The program, the system and the tools that it takes."""
    problems = []
    if not os.access(settings.program, os.X_OK):
        problems.append(f'the program isn\'t there, or may not be run: {settings.program}: '
                        '`./qjm --build` makes it')
    try:
        os.close(os.pidfd_open(os.getpid()))
    except (AttributeError, OSError):
        problems.append('there is no pidfd_open: Linux 5.3 is wanted, and a python3 built on one')
    tools = [config.relay[0]] if config.others else []
    for tool in tools + (['setpriv', 'flock'] if settings.launcher else []):
        if not shutil.which(tool):
            package = {'ssh': 'openssh-client', 'socat': 'socat'}.get(tool, 'util-linux')
            problems.append(f'`{tool}` isn\'t on the PATH: install it (Debian\'s {package})')
    files = config.relay[2:] if config.relay[0] == 'socat' else []
    return problems + [f'{file}, of the line `relay`, can\'t be read' for file in files
                       if not os.access(file, os.R_OK)]


def check_folders(config: Config, top: Path) -> list[str]:
    """Folders that are one, are none, or can't be written."""
    problems: list[str] = []
    seen: dict[str, str] = {}
    if not os.access(top, os.W_OK | os.X_OK):
        problems.append(f'{top} can\'t be written, for cluster.run: mend its owner or mode')
    for who, folder in _here(config, top):
        other, above = seen.setdefault(os.path.realpath(folder), who), _nearest(folder)
        if other != who:
            problems.append(f'{who} has the folder of {other}: {folder}')
        if folder.exists() and not folder.is_dir():
            problems.append(f'{who}: {folder} is no folder')
        elif not os.access(above, os.W_OK | os.X_OK):
            problems.append(f'{who}: {folder} can\'t be written: mend owner or mode of {above}')
    return problems


def check_room(config: Config, top: Path) -> list[str]:
    """Disks with little room, and a clock that stands before the files' times."""
    problems = []
    for who, folder in [('cluster.run', top / 'cluster.run'), *_here(config, top)]:
        folder = _nearest(folder)
        told = os.statvfs(folder)
        room = told.f_bavail * told.f_frsize
        if room < LEAST_ROOM:
            problems.append(f'{who}: the disk of {folder} has {room >> 20} MiB left: make room')
        if told.f_files and told.f_favail < LEAST_FILES:
            problems.append(f'{who}: the disk of {folder} has room for {told.f_favail} more files')
        times = (entry.stat(follow_symlinks=False).st_mtime for entry in os.scandir(folder))
        ahead = max(times, default=0.0) - time.time()
        if ahead > CLOCK_SLACK:
            problems.append(f'{who}: {folder} has files {ahead:.0f} s ahead: set the clock')
    return problems


def _here(config: Config, top: Path) -> list[tuple[str, Path]]:
    """The nodes and leads of this machine, and their folders."""
    return [(str(place), top / place.path) for place in config.places if config.is_here(place)]


def _nearest(folder: Path) -> Path:
    """The folder, or the nearest above it that is there."""
    return next((path for path in (folder, *folder.parents) if path.exists()), folder)
