"""Texts of topologies, and what `babel simulate` makes of them."""
import json
import os
import statistics
import subprocess
import sys
import tempfile

ROOT = os.path.dirname(os.path.dirname(os.path.realpath(__file__)))
BABEL = os.environ.get("BABEL", os.path.join(ROOT, "babel"))


def table(items):
    """An inline table of TOML."""
    return "{ " + ", ".join(f"{key} = {json.dumps(value)}" for key, value in items.items()) + " }"


def topology(nodes, links, duration, plan=(), hello=None):
    """The text of a topology. Nodes are dictionaries, or names; a link is a pair of names with more
    keys, or without."""
    lines = [f'duration = "{duration} s"', f"plan = {json.dumps(list(plan))}", "node = ["]
    for node in nodes:
        keys = dict(node) if isinstance(node, dict) else {"name": node}
        if hello:
            keys["hello"] = hello
        lines.append(f"  {table(keys)},")
    lines += ["]", "link = ["]
    for a, b, *more in links:
        lines.append(f"  {table({'a': a, 'b': b, 'delay': '10 ms', **(more[0] if more else {})})},")
    return "\n".join([*lines, "]"]) + "\n"


def ring(size, plan=(), duration=180, hello=None, loss=0):
    """A ring, whose first node announces a prefix."""
    nodes = [
        {"name": f"n{number}", **({"prefixes": ["10.0.0.0/8"]} if number == 0 else {})}
        for number in range(size)
    ]
    links = [(f"n{number}", f"n{(number + 1) % size}", {"loss": loss}) for number in range(size)]
    return topology(nodes, links, duration, plan, hello)


def grid(width, plan=(), duration=600, announcing=4096):
    """A square, whose nodes announce a prefix of their own each, or the first ones alone."""
    nodes = [
        {"name": f"n{number}", "prefixes": [f"10.0.{number}.0/24"][: number < announcing]}
        for number in range(width * width)
    ]
    links = [(f"n{number - 1}", f"n{number}") for number in range(width * width) if number % width]
    links += [(f"n{number - width}", f"n{number}") for number in range(width, width * width)]
    return topology(nodes, links, duration, plan)


def line_with_crash(restarts, cut, crash, restart, duration, more=()):
    """A line a, b, c with a prefix at a. The link a-b is cut, and b crashes and begins again, at
    these seconds.

    More steps of the plan come before it begins again.
    """
    nodes = [{"name": "a", "prefixes": ["10.0.0.0/8"]}, {"name": "b", "restarts": restarts}, "c"]
    plan = [f"at {cut} s cut a-b", f"at {crash} s crash b", *more[:1], f"at {restart} s restart b",
            *more[1:]]
    return topology(nodes, [("a", "b"), ("b", "c")], duration, plan)


def run(text, *options, seed=0):
    """The JSON objects of a run."""
    with tempfile.NamedTemporaryFile("w", suffix=".toml") as file:
        file.write(text)
        file.flush()
        command = [BABEL, "simulate", file.name, "--json", "--seed", str(seed), *options]
        ran = subprocess.run(command, capture_output=True, text=True, check=False)
    if ran.returncode != 0:
        sys.exit(f"studies: {' '.join(command)}: status {ran.returncode}: {ran.stderr}")
    return [json.loads(line) for line in ran.stdout.splitlines()]


def phase_from(objects, moment):
    """The phase that began at this moment, in centiseconds."""
    return next(item for item in objects if item["type"] == "phase" and item["from"] == moment)


def stranded(objects, origin, moment, cut):
    """From the moment on: from when to when how many nodes had no way to the origin, in seconds.

    A next hop over the link that was cut at the moment leads nowhere.
    """
    names = {item["node"] for item in objects if item["type"] == "route"}
    end = next(item for item in objects if item["type"] == "end")["time"]
    hops = {}
    changes = sorted(
        (item for item in objects if item["type"] == "hop"), key=lambda item: item["time"]
    )
    moments = sorted({moment, end, *(item["time"] for item in changes)})
    for at, until in zip(moments, [*moments[1:], end]):
        hops.update({item["node"]: item["via"] for item in changes if item["time"] == at})
        if at >= moment:
            without = sum(not reaches(hops, name, origin, cut) for name in names)
            yield (at - moment) / 100, (until - moment) / 100, without


def outage(objects, origin, moment, cut):
    """How long after the moment until every node has a way from then on; None if one has none at
    the end."""
    restored = None
    for at, _, without in stranded(objects, origin, moment, cut):
        if without:
            restored = None
        elif restored is None:
            restored = at
    return restored


def first_restored(objects, origin, moment, cut):
    """How long after the moment until every node has a way for the first time; None if that never
    was so."""
    return next(
        (at for at, _, without in stranded(objects, origin, moment, cut) if not without), None
    )


def share_stranded(objects, origin, moment, cut, since):
    """Which part of the time after `since` the nodes were without a way, in percent."""
    names = {item["node"] for item in objects if item["type"] == "route"} - {origin}
    spans = [(max(at, since), until, without) for at, until,
             without in stranded(objects, origin, moment, cut) if until > since]
    total = sum(until - at for at, until, _ in spans)
    return 100 * sum((until - at) * without for at, until, without in spans) / (total * len(names))


def reaches(hops, name, origin, cut):
    """Whether the next hops lead from the node to the origin."""
    for _ in range(len(hops) + 1):
        if name == origin:
            return True
        if {name, hops.get(name)} == cut:
            return False
        name = hops.get(name)
    return False


def middle(numbers):
    """The median of the numbers that are there."""
    found = [number for number in numbers if number is not None]
    return statistics.median(found) if found else None
