"""What a keeper is given by the launcher, how long it waits, and what it answers with."""
import os
from dataclasses import dataclass
from pathlib import Path
from typing import IO, Any, Dict, Optional

SOCKET = 'cluster.run/keeper.sock'
LONGEST_LOG = 1 << 20
# The exit statuses of `./qjm cluster` (launcher/help/cluster-commands.txt says what they mean).
DONE, USAGE, REFUSED, UNKNOWN, NOT_GIVEN = range(5)
WELL, DEGRADED, DOWN = 0, 10, 11
NO_KEEPER, FAULT, TAKEN = 12, 13, 75
# What a keeper answers: `status`, `results`, `says`, and more of some commands.
Reply = Dict[str, Any]


def answer(status: int, *says: str, **more: Any) -> Reply:
    """A reply, without results where none are given."""
    return {'status': status, 'results': [], 'says': list(says), **more}


def open_log(path: Path) -> IO[bytes]:
    """A log, to write behind what is there; where that grew long it is kept as old."""
    if path.exists() and path.stat().st_size > LONGEST_LOG:
        path.replace(path.with_suffix('.log.old'))
    return open(path, 'ab', buffering=0)


@dataclass(frozen=True)
class Settings:
    """Programs, and bounds in seconds. `launcher` checks a node's folder; without one only the
    program does. watch_each, watch_limit: how often a node is asked, and after what silence it is
    killed; start_limit: how long its start may take, while it does something. line_limit: how long
    a lead may be at a line, where the asker gives it no longer; takeover_limit: at a takeover.
    lead_limit: after what silence a lead is taken for hung; failover_each: the least time between
    two automatic takeovers, but at a death. peer_limit: after what silence a machine is let go."""
    program: Path
    launcher: Optional[Path] = None
    watch_each: float = 1.0
    watch_limit: float = 5.0
    manifest_each: float = 2.0
    start_limit: float = 60.0
    check_limit: float = 120.0
    folder_limit: float = 10.0
    flush_limit: float = 3.0
    stop_limit: float = 3.0
    ready_limit: float = 300.0
    line_limit: float = 20.0
    let_go_limit: float = 2.0
    lead_limit: float = 10.0
    takeover_limit: float = 60.0
    failover_each: float = 10.0
    peer_each: float = 1.0
    peer_limit: float = 5.0
    metrics_each: float = 10.0


def settings_from_environment() -> Settings:
    """The environment's, as QJM_PROGRAM, QJM_WATCH_LIMIT=2; ValueError where one is bad."""
    launcher = os.environ.get('QJM_LAUNCHER')
    bounds = {name: float(os.environ[f'QJM_{name.upper()}']) for name in Settings.__annotations__
              if name not in ('program', 'launcher') and os.environ.get(f'QJM_{name.upper()}')}
    return Settings(Path(os.environ.get('QJM_PROGRAM', 'qjm')).absolute(),
                    Path(launcher).absolute() if launcher else None, **bounds)
