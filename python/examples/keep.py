"""Receives messages over a connection to this machine, and appends them to a file.

    keep.py PORT FILE

A message is acknowledged only after it is on the disk. So whenever this is killed, the peer still
has what the file hasn't; what was stored and not yet acknowledged the peer sends again.
"""
import os
import socket
import sys

import ddcmp

port, name = sys.argv[1:]
with open(name, "ab", buffering=0) as file, ddcmp.Station(window=7, inbox=16) as station:
    station.acknowledge_on_take()
    station.start()
    line = ddcmp.Line(station, socket.create_connection(("127.0.0.1", int(port))))
    for message in line:  # takes the message before, and so acknowledges it
        file.write(message + b"\n")
        os.fsync(file.fileno())
