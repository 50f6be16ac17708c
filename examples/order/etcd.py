#!/usr/bin/env python3
"""Runs three etcd servers on this machine, writes through each and watches each, kills one by kill -9 and brings it back, and has
`ct_tool order` judge what the watches delivered.

    etcd.py [--writes N] [--missing] [--apart] [--keep FOLDER] [--tool PROGRAM]

--writes N   through each server, 200 where it is left out
--missing    the watch of the server that was killed begins anew where that is back, so it misses what came in between
--apart      the servers know nothing of one another
--keep       the logs stay in this folder

A write creates a key, if it isn't there: it can be tried again where an answer was lost. The state behind a delivery is the revision. Ends
with the status of `ct_tool order`, or 2 where a server or the judge fails.
"""
from __future__ import annotations

import argparse
import base64
import http.client
import json
import os
import shutil
import signal
import socket
import subprocess
import sys
import tempfile
import threading
import time
from typing import IO, Any, Dict, List, Optional

HERE = os.path.dirname(os.path.abspath(__file__))
TOOL = os.path.join(HERE, "..", "..", "crates", "ct_tool", "out", "ct_tool")
SERVERS = 3
KILLED = 2
SECONDS_TO_START = 60
SECONDS_TO_END = 60
SECONDS_STILL = 6   # without a delivery, where something is missing
FEW = 5          # are written at least while the killed server is down
PREFIX = "m"


class Failed(Exception):
    """A server or the judge failed."""


def free_ports(count: int) -> List[int]:
    """Ports that nobody has now."""
    sockets = [socket.create_server(("127.0.0.1", 0)) for _ in range(count)]
    ports = [it.getsockname()[1] for it in sockets]
    for it in sockets:
        it.close()
    return ports


def coded(text: str) -> str:
    return base64.b64encode(text.encode()).decode()


class Server:
    """A server of the cluster: its process, its log, who writes through it and who watches it."""

    def __init__(self, number: int, folder: str, clients: List[int], peers: List[int], apart: bool) -> None:
        self.number, self.client = number, clients[number - 1]
        self.data = os.path.join(folder, f"{number}.etcd")
        together = [number] if apart else range(1, SERVERS + 1)
        self.cluster = ",".join(f"s{it}=http://127.0.0.1:{peers[it - 1]}" for it in together)
        self.peer = f"http://127.0.0.1:{peers[number - 1]}"
        self.log: IO[str] = open(os.path.join(folder, f"{number}.log"), "w", encoding="utf-8")
        self.said = threading.Lock()
        self.is_down = threading.Event()   # whether the server was killed that is to be
        self.written = self.delivered = self.revision = 0
        self.process: Optional["subprocess.Popen[bytes]"] = None
        self.fault = ""

    def start(self) -> None:
        own = f"http://127.0.0.1:{self.client}"
        words = ["etcd", "--name", f"s{self.number}", "--data-dir", self.data, "--listen-client-urls", own, "--advertise-client-urls", own,
                 "--listen-peer-urls", self.peer, "--initial-advertise-peer-urls", self.peer, "--initial-cluster", self.cluster,
                 "--initial-cluster-token", self.cluster, "--logger", "zap", "--log-level", "error"]
        with open(f"{self.data}.err", "ab") as errors:
            self.process = subprocess.Popen(words, stdin=subprocess.DEVNULL, stdout=errors, stderr=errors)

    def kill(self) -> None:
        if self.process:
            self.process.send_signal(signal.SIGKILL)
            self.process.wait()

    def say(self, line: str) -> None:
        with self.said:
            self.log.write(line + "\n")

    def ask(self, path: str, body: Dict[str, Any]) -> Dict[str, Any]:
        """What the server answers; OSError where it doesn't."""
        connection = http.client.HTTPConnection("127.0.0.1", self.client, timeout=5)
        try:
            connection.request("POST", path, json.dumps(body))
            answer = connection.getresponse()
            text = answer.read()
            if answer.status != 200:
                raise OSError(text[:200])
            told: Dict[str, Any] = json.loads(text)
            return told
        except http.client.HTTPException as error:
            raise OSError(error) from error
        finally:
            connection.close()

    def await_start(self) -> None:
        """Returns once the server answers a read that a majority confirms."""
        end = time.monotonic() + SECONDS_TO_START
        while True:
            try:
                self.ask("/v3/kv/range", {"key": coded(PREFIX)})
                return
            except OSError:
                if time.monotonic() > end:
                    raise Failed(f"server {self.number} doesn't answer: see {self.data}.err") from None
                time.sleep(0.1)

    def write(self, count: int) -> None:
        """Creates so many keys, one behind the other."""
        for k in range(1, count + 1):
            if k == count // 2 + 1 and self.number != KILLED:
                self.is_down.wait(SECONDS_TO_END)
            name = f"{PREFIX}{self.number}.{k}"
            self.say(f"broadcast {name}")
            key = coded(name)
            create = {"compare": [{"key": key, "target": "CREATE", "createRevision": "0"}],
                      "success": [{"requestPut": {"key": key, "value": key}}]}
            while True:
                try:
                    self.ask("/v3/kv/txn", create)
                    break
                except OSError:
                    time.sleep(0.05)
            self.written = k

    def watch(self, total: int, misses: bool) -> None:
        """Delivers what the server's watch tells; once that ends, goes on behind it, unless it misses that."""
        has_begun = False
        while self.delivered < total:
            request: Dict[str, Any] = {"key": coded(PREFIX), "range_end": coded(chr(ord(PREFIX) + 1))}
            if not (misses and has_begun):
                request["start_revision"] = str(self.revision + 1)
            connection = http.client.HTTPConnection("127.0.0.1", self.client, timeout=SECONDS_TO_END)
            try:
                if misses and has_begun:
                    self.ask("/v3/kv/range", {"key": coded(PREFIX)})   # answered once the server has caught up
                connection.request("POST", "/v3/watch", json.dumps({"create_request": request}))
                answer = connection.getresponse()
                has_begun = True
                if self.delivered:
                    self.say(f"restart {self.delivered}")
                while self.delivered < total:
                    line = answer.readline()
                    if not line:
                        break
                    self.take(json.loads(line))
            except (OSError, http.client.HTTPException):
                time.sleep(0.05)
            finally:
                connection.close()

    def take(self, told: Dict[str, Any]) -> None:
        for event in told.get("result", {}).get("events", []):
            entry = event["kv"]
            self.revision = int(entry["mod_revision"])
            with self.said:
                self.log.write(f"deliver {base64.b64decode(entry['key']).decode()}\nstate r{self.revision}\n")
            self.delivered += 1


def run(options: argparse.Namespace, folder: str) -> List[str]:
    """Runs the servers; the names of the logs."""
    ports = free_ports(2 * SERVERS)
    servers = [Server(it, folder, ports[:SERVERS], ports[SERVERS:], options.apart) for it in range(1, SERVERS + 1)]
    total = options.writes * (1 if options.apart else SERVERS)
    try:
        for it in servers:
            it.start()
        for it in servers:
            it.await_start()
        watches = [threading.Thread(target=it.watch, args=(total, options.missing), daemon=True) for it in servers]
        writers = [threading.Thread(target=it.write, args=(options.writes,), daemon=True) for it in servers]
        for thread in watches + writers:
            thread.start()
        killed = servers[KILLED - 1]
        while killed.written < options.writes // 3:
            time.sleep(0.01)
        killed.kill()
        for it in servers:
            it.is_down.set()
        end = time.monotonic() + SECONDS_TO_END
        while servers[0].written < min(options.writes, options.writes // 2 + FEW) and time.monotonic() < end:
            time.sleep(0.01)
        killed.start()
        await_end(servers, writers, watches)
    finally:
        for it in servers:
            it.kill()
    for it in servers:
        it.say("end")
        it.log.close()
    print(", ".join(f"server {it.number}: {it.written} written, {it.delivered} delivered" for it in servers), file=sys.stderr)
    return [it.log.name for it in servers]


def await_end(servers: List[Server], writers: List[threading.Thread], watches: List[threading.Thread]) -> None:
    """Returns once all was written and delivered, or nothing was delivered for SECONDS_STILL."""
    for it in writers:
        it.join(SECONDS_TO_END)
        if it.is_alive():
            raise Failed("a write isn't answered")
    still, since = -1, time.monotonic()
    while any(it.is_alive() for it in watches) and time.monotonic() < since + SECONDS_STILL:
        now = sum(it.delivered for it in servers)
        if now != still:
            still, since = now, time.monotonic()
        time.sleep(0.05)


def main() -> int:
    parser = argparse.ArgumentParser(description=(__doc__ or "").split("\n\n", 1)[0])
    parser.add_argument("--writes", type=int, default=200, metavar="N", help="writes through each server (default 200)")
    parser.add_argument("--missing", action="store_true", help="the watch of the killed server misses what came meanwhile")
    parser.add_argument("--apart", action="store_true", help="the servers know nothing of one another")
    parser.add_argument("--keep", metavar="FOLDER", help="keep the logs there")
    parser.add_argument("--tool", default=TOOL, help="the program ct_tool")
    options = parser.parse_args()
    if not shutil.which("etcd"):
        print("etcd.py: there is no etcd on the path: apt-get install etcd-server", file=sys.stderr)
        return 2
    with tempfile.TemporaryDirectory() as folder:
        try:
            logs = run(options, folder)
            if options.keep:
                os.makedirs(options.keep, exist_ok=True)
                logs = [shutil.copy(it, options.keep) for it in logs]
            settled = [] if options.missing or options.apart else ["--settled"]
            return subprocess.run([options.tool, "order", *settled, *logs], check=False).returncode
        except (Failed, OSError) as error:
            print(f"etcd.py: {error}", file=sys.stderr)
            return 2


if __name__ == "__main__":
    sys.exit(main())
