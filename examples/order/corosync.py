#!/usr/bin/env python3
"""Runs three corosync daemons in network namespaces of this machine, a process beside each that multicasts to one closed process group,
kills one daemon by kill -9, and has `ct_tool order` judge what the processes delivered.

    corosync.py [--messages N] [--late] [--apart] [--keep FOLDER] [--tool PROGRAM]

--messages N  of each process, 200 where it is left out
--late        the third process joins when others have delivered something, and counts from 0
--apart       the namespaces are not connected
--keep        the logs stay in this folder

Needs root. The order is that of Totem, agreed delivery. Ends with the status of `ct_tool order`, or 2 where a daemon or the judge fails.
"""
from __future__ import annotations

import argparse
import ctypes
import os
import shutil
import signal
import subprocess
import sys
import tempfile
import time
from typing import IO, Any, List

HERE = os.path.dirname(os.path.abspath(__file__))
TOOL = os.path.join(HERE, "..", "..", "crates", "ct_tool", "out", "ct_tool")
NODES = (1, 2, 3)
KILLED, LATE = 2, 3
SECONDS_TO_START, SECONDS_STILL, SECONDS_IN_ALL = 60, 8, 90
OK, TRY_AGAIN = 1, 6
AGREED, ALL_AT_ONCE = 2, 2
GROUP = b"order"


class Failed(Exception):
    """A daemon or the judge failed."""


class Name(ctypes.Structure):
    """struct cpg_name"""

    _fields_ = [("length", ctypes.c_uint32), ("value", ctypes.c_char * 128)]


class Vector(ctypes.Structure):
    """struct iovec"""

    _fields_ = [("base", ctypes.c_char_p), ("length", ctypes.c_size_t)]


DELIVER = ctypes.CFUNCTYPE(None, ctypes.c_uint64, ctypes.c_void_p, ctypes.c_uint32, ctypes.c_uint32, ctypes.c_void_p, ctypes.c_size_t)
CHANGE = ctypes.CFUNCTYPE(None, ctypes.c_uint64, ctypes.c_void_p, ctypes.c_void_p, ctypes.c_size_t, ctypes.c_void_p, ctypes.c_size_t,
                          ctypes.c_void_p, ctypes.c_size_t)


class Callbacks(ctypes.Structure):
    """cpg_callbacks_t"""

    _fields_ = [("deliver", DELIVER), ("change", CHANGE)]


class Member:
    """A process of the group."""

    def __init__(self, number: int, log: IO[str]) -> None:
        self.number, self.log = number, log
        self.members = self.delivered = 0
        self.cpg = ctypes.CDLL("libcpg.so.4")
        self.handle = ctypes.c_uint64()
        self.callbacks = Callbacks(DELIVER(self._deliver), CHANGE(self._change))
        self.group = Name(len(GROUP), GROUP)

    def _deliver(self, *told: Any) -> None:
        self.log.write(f"deliver {ctypes.string_at(told[4], told[5]).decode()}\n")
        self.delivered += 1

    def _change(self, *told: Any) -> None:
        self.members = told[3]

    def join(self) -> None:
        end = time.monotonic() + SECONDS_TO_START
        while self.cpg.cpg_initialize(ctypes.byref(self.handle), ctypes.byref(self.callbacks)) != OK:
            if time.monotonic() > end:
                raise Failed(f"corosync {self.number} doesn't answer")
            time.sleep(0.1)
        while self.cpg.cpg_join(self.handle, ctypes.byref(self.group)) != OK:
            time.sleep(0.1)

    def turn(self) -> bool:
        """Delivers what has come. Whether the daemon is there."""
        return self.cpg.cpg_dispatch(self.handle, ALL_AT_ONCE) in (OK, TRY_AGAIN)

    def send(self, name: str) -> bool:
        """Whether the message was taken."""
        text = name.encode()
        return bool(self.cpg.cpg_mcast_joined(self.handle, AGREED, ctypes.byref(Vector(text, len(text))), 1) == OK)


def member(options: argparse.Namespace) -> int:
    """What the process of a node does."""
    with open(f"{options.conf}.err", "wb") as errors, open(options.log, "w", encoding="utf-8", buffering=1) as log:
        daemon = subprocess.Popen(["corosync", "-f", "-c", options.conf], stdin=subprocess.DEVNULL, stdout=errors, stderr=errors)
        try:
            return ended(options, Member(options.member, log), daemon)
        finally:
            daemon.kill()


def ended(options: argparse.Namespace, me: Member, daemon: "subprocess.Popen[bytes]") -> int:
    """Joins, sends its messages, and delivers until all is still."""
    if options.late and me.number == LATE:
        time.sleep(SECONDS_STILL)
    me.join()
    end = time.monotonic() + SECONDS_TO_START
    while me.members < (1 if options.apart else 2 if options.late else len(NODES)):
        me.turn()
        if time.monotonic() > end:
            raise Failed(f"process {me.number} sees {me.members} of the group")
        time.sleep(0.05)
    sent, still, since = 0, -1, time.monotonic()
    end = since + SECONDS_IN_ALL
    while time.monotonic() < min(end, since + SECONDS_STILL):
        if sent < options.messages:
            name = f"p{me.number}.{sent + 1}"
            if me.send(name):
                me.log.write(f"broadcast {name}\n")
                sent += 1
        else:
            time.sleep(0.01)
        if me.number == KILLED and sent > options.messages // 3:
            daemon.send_signal(signal.SIGKILL)
        if not me.turn():
            me.log.write("crash\n")
            return 0
        if me.delivered != still:
            still, since = me.delivered, time.monotonic()
    me.log.write("end\n")
    return 0


CONF = """totem {{
  version: 2
  cluster_name: order
  transport: udpu
  token: 2000
}}
nodelist {{
{nodes}}}
logging {{
  to_stderr: yes
  to_syslog: no
}}
"""
APART = ("/run", "/dev/shm", "/var/lib/corosync")   # of each daemon, under the same names


def ip(*words: str) -> None:
    subprocess.run(["ip", *words], check=True)


def connected(apart: bool) -> None:
    """A namespace for each node, on one bridge unless they are apart."""
    ip("link", "add", "ctorder", "type", "bridge")
    ip("link", "set", "ctorder", "up")
    for i in NODES:
        ip("netns", "add", f"ctorder{i}")
        ip("link", "add", f"ctorder{i}", "type", "veth", "peer", "name", "eth0", "netns", f"ctorder{i}")
        if not apart:
            ip("link", "set", f"ctorder{i}", "master", "ctorder", "up")
        for words in (("link", "set", "lo", "up"), ("addr", "add", f"10.77.0.{i}/24", "dev", "eth0"), ("link", "set", "eth0", "up")):
            ip("-n", f"ctorder{i}", *words)


def parted() -> None:
    for i in NODES:
        subprocess.run(["ip", "netns", "del", f"ctorder{i}"], stderr=subprocess.DEVNULL, check=False)
    subprocess.run(["ip", "link", "del", "ctorder"], stderr=subprocess.DEVNULL, check=False)


def run(options: argparse.Namespace, folder: str) -> List[str]:
    """Runs the daemons and the processes; the names of the logs."""
    nodes = "".join(f"  node {{\n    nodeid: {i}\n    name: n{i}\n    ring0_addr: 10.77.0.{i}\n  }}\n" for i in NODES)
    mounts = "; ".join(f"mkdir -p {it} && mount -t tmpfs tmpfs {it}" for it in APART)
    running = []
    for i in NODES:
        conf = os.path.join(folder, f"{i}.conf")
        with open(conf, "w", encoding="utf-8") as file:
            file.write(CONF.format(nodes=nodes))
        words = [sys.executable, os.path.abspath(__file__), "--member", str(i), "--conf", conf, "--log", os.path.join(folder, f"{i}.log"),
                 "--messages", str(options.messages), *(["--late"] if options.late else []), *(["--apart"] if options.apart else [])]
        inside = f'{mounts}; exec "$@"'
        running.append(subprocess.Popen(["ip", "netns", "exec", f"ctorder{i}", "unshare", "-m", "sh", "-c", inside, "sh", *words]))
    if any([it.wait() for it in running]):
        raise Failed("a process failed, as told above")
    return [os.path.join(folder, f"{i}.log") for i in NODES]


def main() -> int:
    parser = argparse.ArgumentParser(description=(__doc__ or "").split("\n\n", 1)[0])
    parser.add_argument("--messages", type=int, default=200, metavar="N", help="messages of each process (default 200)")
    parser.add_argument("--late", action="store_true", help="the third process joins late, and counts from 0")
    parser.add_argument("--apart", action="store_true", help="the namespaces are not connected")
    parser.add_argument("--keep", metavar="FOLDER", help="keep the logs there")
    parser.add_argument("--tool", default=TOOL, help="the program ct_tool")
    for name in ("--member", "--conf", "--log"):
        parser.add_argument(name, type=int if name == "--member" else str, help=argparse.SUPPRESS)
    options = parser.parse_args()
    try:
        if options.member:
            return member(options)
        if not shutil.which("corosync"):
            raise Failed("there is no corosync on the path: apt-get install corosync libcpg4")
        # Not in /tmp of the namespaces: the folder is the same for all.
        with tempfile.TemporaryDirectory() as folder:
            try:
                connected(options.apart)
                logs = run(options, folder)
            finally:
                parted()
            if options.keep:
                os.makedirs(options.keep, exist_ok=True)
                logs = [shutil.copy(it, options.keep) for it in logs]
            return subprocess.run([options.tool, "order", *logs], check=False).returncode
    except (Failed, OSError, subprocess.CalledProcessError) as error:
        print(f"corosync.py: {error}", file=sys.stderr)
        return 2


if __name__ == "__main__":
    sys.exit(main())
