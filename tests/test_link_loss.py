"""Two links that exchange two files over a line that loses a tenth of the frames: both end with
status 0, and have all."""
import concurrent.futures
import random
import socket
import threading
import time

import pytest

from .bad_lines import Loss, carry, lossy_datagrams
from .process import Link, connected, listening, port_of, server
from .wire import binary

OPTIONS = ("--binary", "--timer-ms", "60", "--attempts", "0", "--linger-ms", "3000",
           "--seconds", "50")


def exchange_over_tcp(seed, files):
    with server() as it:
        one = Link("listen:127.0.0.1:0", *OPTIONS)
        two = Link(f"connect:127.0.0.1:{port_of(it)}", *OPTIONS)
        ends = it.accept()[0], connected(listening(one))
    for it in ends:
        it.setsockopt(socket.IPPROTO_TCP, socket.TCP_NODELAY, 1)
    loss = Loss(seed)
    threading.Thread(target=carry, args=(*ends, loss), daemon=True).start()
    return fault_of(seed, one, two, files, loss)


def exchange_over_udp(seed, files, options=OPTIONS, seconds=55):
    with lossy_datagrams(seed, *options) as (one, two, loss):
        return fault_of(seed, one, two, files, loss, seconds)


def fault_of(seed, one, two, files, loss, seconds=55):
    """What is wrong with how two links end within the time that were given a file each."""
    one.give(binary(files[0]))
    two.give(binary(files[1]))
    until = time.monotonic() + seconds
    statuses = tuple(it.ended(until - time.monotonic()) for it in (one, two))
    whole = one.out == binary(files[1]) and two.out == binary(files[0])
    if statuses == (0, 0) and whole and loss.lost:
        return None
    return seed, statuses, whole, loss.lost, one.faults()[-1:], two.faults()[-1:]


def exchanges(exchange, count, workers=8, messages=(20, 80)):
    def faults(seed):
        draw = random.Random(seed)
        files = [[draw.randbytes(draw.randint(1, 300)) for _ in range(draw.randint(*messages))]
                 for _ in range(2)]
        return exchange(seed, files)
    with concurrent.futures.ThreadPoolExecutor(workers) as pool:
        assert list(filter(None, pool.map(faults, range(count)))) == []


@pytest.mark.parametrize("count", [10, pytest.param(100, marks=pytest.mark.long)])
@pytest.mark.parametrize("exchange", [exchange_over_tcp, exchange_over_udp])
def test_files(exchange, count):
    exchanges(exchange, count)


def test_datagrams_by_default():
    """Four exchanges over UDP of 120 messages each way, with all options but --binary left alone:
    within 40 seconds, the wait for a peer that may ask again included."""
    def exchange(seed, files):
        return exchange_over_udp(seed, files, ("--binary",), 40)
    exchanges(exchange, 4, 4, (120, 120))
