"""A routing layer above DDCMP: two nodes of python/examples/phase4.py, over lines that lose and
damage frames, and while one of them is killed again and again."""
import os
import re
import signal
import sys

import pytest

from .process import (
    EVENT, PROGRAM, TOP, Bridge, Process, free_port, holds_within, is_listening, udp_names)
from .test_python import over_library

RETRIES = re.compile(r"(, still trying|; retry in \d+ s)$")
SOON = 30  # seconds that nothing here may take
LONG = pytest.param(60, marks=[pytest.mark.long, pytest.mark.limit(180)])
MORE = pytest.param(10, marks=[pytest.mark.long, pytest.mark.limit(300)])


@pytest.fixture(params=["station", "link", "lines"])
def nodes(library, request):
    """Begins a node over a station, or over a link, in binary or in lines, which is killed with
    it."""
    def begin(name, line, *options):
        words = [sys.executable, f"{TOP}/python/examples/phase4.py", name, line]
        environment = over_library(DDCMP_LIBRARY=f"{library}/libddcmp.so")
        if request.param != "station":
            options = *options, "--link", *PROGRAM
        if request.param == "lines":
            options = *options, "--lines"
        return Process([*words, "--timer", "0.5", *options], env=environment,
                       start_new_session=True)
    return begin


def bridged_ends(kind):
    """The lines of two nodes, between which a bridge loses 10 and damages 5 frames of a hundred."""
    faults = "--again", "--lose", "10", "--damage", "5", "--delay", "20", "--seconds", "300"
    if kind == "tcp":
        ports = free_port(), free_port()
        Bridge(*(f"listen:127.0.0.1:{it}" for it in ports), *faults)
        assert all(holds_within(SOON, lambda at=it: is_listening(at)) for it in ports)
        return [f"connect:127.0.0.1:{it}" for it in ports]
    ends = [udp_names(), udp_names()]
    Bridge(*(it[1] for it in ends), *faults)
    return [it[0] for it in ends]


def incarnations(node, neighbour):
    """The adjacencies that a node has printed, each as the packets of one process of the neighbour,
    numbered from 0; and how many of them are down."""
    found, downs = [], 0
    assert all(EVENT.match(it) or RETRIES.search(it) for it in node.errors()), node
    for line in node.lines():
        if line == f"up {neighbour}":
            assert downs == len(found), node
            found.append([])
        elif line.startswith("down "):
            downs += 1
            assert downs == len(found), node
        else:
            words = line.split()
            assert words[:2] == ["packet", neighbour] and downs < len(found), node
            found[-1].append((int(words[2]), int(words[3])))
    for it in found:
        assert len({pid for pid, _ in it}) <= 1, "a packet of another incarnation"
        assert [number for _, number in it] == list(range(len(it))), "a packet lost, or twice"
    return found, downs


@pytest.mark.limit(90)
@pytest.mark.parametrize("seconds", [15, LONG])
@pytest.mark.parametrize("kind", ["tcp", "udp"])
def test_adjacency(nodes, kind, seconds):
    """Over a bad line the adjacency stays up, and each packet comes once."""
    lines = bridged_ends(kind)
    both = [nodes(name, line, "--hello", "4", "--packets", "10")
            for name, line in zip(("1.5", "1.6"), lines)]
    holds_within(seconds, lambda: not all(it.is_running() for it in both))
    for node, neighbour in zip(both, ("1.6", "1.5")):
        [packets], downs = incarnations(node, neighbour)
        assert downs == 0 and len(packets) > 2 * seconds, node


@pytest.mark.limit(90)
@pytest.mark.parametrize("kills", [3, MORE])
@pytest.mark.parametrize("kind", ["tcp", "udp"])
def test_kills(nodes, kind, kills):
    """Each kill of a node takes the other's adjacency down once, over TCP before that node is back,
    and it comes up again at once: no restart brings a second one about, and no packet of one
    incarnation is in the next."""
    lines = bridged_ends(kind)
    stays = nodes("1.5", lines[0], "--hello", "4", "--packets", "50")
    for kill in range(kills + 1):
        other = nodes("1.6", lines[1], "--hello", "4", "--packets", "50")
        for node, neighbour, count in (stays, "1.6", kill + 1), (other, "1.5", 1):
            def is_up():
                found = incarnations(node, neighbour)[0]
                return len(found) == count and len(found[-1]) > 20
            assert holds_within(SOON, is_up), (kill, node)
        if kill < kills:
            os.killpg(other.run.pid, signal.SIGKILL)
            other.ended()
        if kill < kills and kind == "tcp":  # whose lines end, which is told at once
            assert holds_within(5, lambda: incarnations(stays, "1.6")[1] == kill + 1), stays
    found, downs = incarnations(stays, "1.6")
    assert (len(found), downs) == (kills + 1, kills), stays
    assert len({it[0][0] for it in found}) == kills + 1

