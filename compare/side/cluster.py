"""A PostgreSQL server of one's own, in a temporary folder, for as long as a `with` lasts."""

import os
import pwd
import shutil
import signal
import subprocess
import tempfile
import time
from contextlib import contextmanager
from pathlib import Path

from . import setup

VERSION = "15"
PROGRAMS = Path(f"/usr/lib/postgresql/{VERSION}/bin")
PORT = "5432"

# Nothing here outlives the run, so nothing need reach the disk.
SETTINGS = ["listen_addresses=", "fsync=off", "log_min_messages=panic", "autovacuum=off", "max_connections=5"]


def owner():
    """The server does not run as root."""
    return "postgres" if os.geteuid() == 0 else pwd.getpwuid(os.geteuid()).pw_name


@contextmanager
def cluster():
    """Gives the path of the server's socket and the name of its user."""
    # Not installed here: Debian's package may start a server of its own, which would stay behind.
    if not (PROGRAMS / "postgres").exists():
        setup.fail(f"there is no {PROGRAMS}: install the package postgresql-{VERSION} first")
    folder = Path(tempfile.mkdtemp(prefix="pg-"))
    server = None
    try:
        if os.geteuid() == 0:
            shutil.chown(folder, owner())
        make(folder)
        server = start(folder)
        socket = folder / f".s.PGSQL.{PORT}"
        wait_for(socket, server)
        yield socket, owner()
    finally:
        stop(server)
        shutil.rmtree(folder, ignore_errors=True)


def as_owner(command, **options):
    """Starts a program as the owner, in a folder that the owner may enter."""
    user = {"user": owner()} if os.geteuid() == 0 else {}
    return subprocess.Popen(command, cwd="/", stdin=subprocess.DEVNULL, **user, **options)


def make(folder):
    command = [PROGRAMS / "initdb", "-D", folder / "data", "-E", "UTF8", "--no-locale", "-A", "trust", "-N"]
    made = as_owner(command, stdout=subprocess.PIPE, stderr=subprocess.STDOUT, text=True)
    output, _ = made.communicate()
    if made.returncode != 0:
        setup.fail("initdb failed:\n" + output)


def start(folder):
    settings = [word for setting in SETTINGS for word in ("-c", setting)]
    command = [PROGRAMS / "postgres", "-D", folder / "data", "-k", folder, "-p", PORT, *settings]
    return as_owner(command, stdout=subprocess.DEVNULL, stderr=subprocess.DEVNULL)


def wait_for(socket, server):
    for _ in range(600):
        if socket.exists():
            return
        if server.poll() is not None:
            break
        time.sleep(0.05)
    setup.fail("the server did not start")


def stop(server):
    if server is not None and server.poll() is None:
        server.send_signal(signal.SIGINT)
        server.wait()
