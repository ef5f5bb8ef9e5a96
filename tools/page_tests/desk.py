"""What all parts of tools/page-test share: a desk that is served, and what compares."""

import argparse
import atexit
import collections
import os
import pathlib
import socket
import subprocess
import tempfile
import time

ROOT = pathlib.Path(__file__).resolve().parent.parent.parent
# Who leads a batch to released, by which events.
STEPS = [("ann", "assign"), ("ann", "submit"), ("ben", "adjudicate"), ("cem", "release")]
# What the command line asks for, and how much was compared.
asked = argparse.Namespace()
tally = collections.Counter()


def same(what, wanted, found):
    assert found == wanted, f"{what}\n  wanted {wanted!r}\n  found  {found!r}"
    tally["compared"] += 1


def holds(what, found):
    same(what, True, bool(found))


def is_soon(what, seconds, limit):
    """Compares a time with its limit. Where others keep the processors busy, five times as long is soon enough."""
    limit *= 1 if os.getloadavg()[0] < os.cpu_count() else 5
    holds(f"{what} takes {seconds:.2f} seconds, and has to take less than {limit}", seconds < limit)


def sample(name):
    return (ROOT / "samples" / f"{name}.conllu").read_bytes()


class Desk:
    """A desk of its own, without a batch, served by one of the programs."""

    open = []

    def __init__(self, *words, folder=None):
        self.folder = folder or tempfile.TemporaryDirectory()
        self.path = str(pathlib.Path(self.folder.name) / "desk.db")
        if folder is None:
            subprocess.run([asked.program, "new", "--db", self.path], check=True, stdout=subprocess.DEVNULL)
        self.process = subprocess.Popen([*(words or (asked.view, "page")), "--db", self.path, "--port", "0"], stdout=subprocess.PIPE, text=True)
        atexit.register(self.process.kill)
        self.port = int(self.process.stdout.readline().split()[1])
        self.url = f"http://127.0.0.1:{self.port}"
        Desk.open.append(self)

    def raw(self, *pieces):
        """The whole answer to a request in these bytes. They are sent one after the other."""
        with socket.create_connection(("127.0.0.1", self.port), timeout=30) as connection:
            for n, piece in enumerate(pieces):
                time.sleep(0.05 if n else 0)
                connection.sendall(piece)
            return b"".join(iter(lambda: connection.recv(65536), b""))

    def request(self, line, *fields, body=b"", host=True):
        """The bytes of a request, with the right Host."""
        lines = [line + " HTTP/1.1", *([f"Host: 127.0.0.1:{self.port}"] if host else []), *fields, *([f"Content-Length: {len(body)}"] if body else [])]
        return "\r\n".join([*lines, "", ""]).encode() + body

    def ask(self, line, body=b"", user="ann"):
        """The status and the body of an answer."""
        head, _, text = self.raw(self.request(line, f"Desk-User: {user}", body=body)).partition(b"\r\n\r\n")
        return int(head.split()[1]), text.decode()

    def put(self, name, body, *steps):
        """Imports a batch and leads it on."""
        for user, line in [("ann", ""), *((user, f"/{event}") for user, event in steps)]:
            status, text = self.ask(f"POST /batches/{name}{line}", body if line == "" else b"", user)
            assert status == 200, (name, line, text)

    def moves(self):
        return self.ask("GET /moves")[1]

    def close(self):
        Desk.open.remove(self)
        self.process.terminate()
        self.process.wait(10)
