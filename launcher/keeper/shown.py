"""What is written of a status: as text, and in Prometheus' text format."""
from pathlib import Path
from typing import Any, Optional

from .settings import Reply

# Of each metric whose it is, its name behind `qjm_`, the member that is its value, and its words.
METRICS = Path(__file__).resolve().parent.parent / 'help/cluster-metrics.txt'
STATES = {'well': 2, 'degraded': 1, 'answering': 1, 'ready': 1, 'connected': 1}


def metrics_of(status: Reply) -> str:
    """The text of a status for Prometheus."""
    lines = []
    for line in METRICS.read_text().splitlines():
        whose, metric, member, words = line.split(' ', 3)
        kind = 'counter' if metric.endswith('_total') else 'gauge'
        lines += [f'# HELP qjm_{metric} {words}', f'# TYPE qjm_{metric} {kind}']
        for facts in [status] if whose == 'status' else status[f'{whose}s']:
            value, name = facts[member], facts.get('number', facts.get('name'))
            label = '' if whose == 'status' else f'{{{whose}="{name}"}}'
            if value is not None:
                number = STATES.get(value, 0) if isinstance(value, str) else value
                lines.append(f'qjm_{metric}{label} {+number}')
    return '\n'.join(lines)


def ago(seconds: Optional[float]) -> str:
    return 'never observed' if seconds is None else f'{seconds:.1f} s ago'


def state_of(facts: Reply) -> str:
    return f'{facts["state"]} ({facts["why"]})' if facts['why'] else str(facts['state'])


def text_of(status: Reply) -> str:
    """A line for each node, lead and other machine, and one for all."""
    lines = [_node(node) for node in status['nodes']] + [_lead(lead) for lead in status['leads']]
    lines += [f'machine {m["name"]}: {state_of(m)}, heard {ago(m["heard"])}'
              for m in status['machines']]
    who = 'no lead is active'
    if status['active']:
        who = f'lead {status["active"]} is active under epoch {status["epoch"]}'
    lines.append(f'{status["health"]}: {who}, {status["answering"]} of {len(status["nodes"])} '
                 f'nodes answer ({status["majority"]} are a majority), auto '
                 f'{"on" if status["auto"] else "off"}')
    return '\n'.join(lines)


def _node(node: Reply) -> str:
    told = [state_of(node), 'counts' if node['counts'] else 'doesn\'t count']
    if node['promise'] is not None:
        told.append(f'promised epoch {node["promise"]}')
    if node['listed'] is not None:
        told.append(f'segments {node["segments"]}, last txid {node["last"]}, lag {node["lag"]}')
    told += [f'answered {ago(node["answered"])}', f'pid {node["pid"] or "none"}']
    return f'node {node["number"]} {node["folder"]}: {", ".join(told)}'


def _lead(lead: Reply) -> str:
    told: list[Any] = [state_of(lead)]
    if lead['active']:
        told.append(f'counts nodes {" ".join(map(str, lead["round"])) or "none"}')
    told += [f'last result {lead["last"] or "none"}', f'told {ago(lead["told"])}',
             f'pid {lead["pid"] or "none"}']
    is_active = ' (active)' if lead['active'] else ''
    return f'lead {lead["name"]} {lead["folder"]}{is_active}: {", ".join(told)}'
