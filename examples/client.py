#!/usr/bin/env python3
"""A small client of the daemon, over Python's standard library alone.

Usage: client.py [--client K] [--cost K] [--program PROGRAM] DIR ACCOUNT COMMAND

    new                 makes the account's home, with a password under the label `main`
    put NAME FILE       writes the bytes of FILE into the vault, as the file NAME
    get NAME            prints the bytes of a file of the vault
    list                prints the names of the vault's files, a line each
    send FILE           sends the request lines of FILE, and prints each with its reply; a token T in them
                        is the newest that a reply had, and a line that begins with # is left out

With --client K it is client K of a daemon that runs, or is about to, with these words:
    ./cryptohome serve --clients N DIR ACCOUNT..
over the named pipes DIR.in.K and DIR.out.K. Else it starts a daemon of its own, and is its client 0.

The password is that of the environment's CRYPTOHOME_PASSWORD, or is asked for.
"""
import argparse
import getpass
import json
import os
import subprocess
import sys

LABEL = "main"


class Refused(Exception):
    """The daemon's reply isn't ok."""


class Connection:
    """A daemon, as one of its clients has it. Each request is a line, and so is each reply."""

    def __init__(self, requests, replies, daemon=None):
        self.requests = requests
        self.replies = replies
        self.daemon = daemon

    @classmethod
    def over_pipes(cls, directory, client):
        """Client K over its two pipes. The order matters: the daemon opens the input first, too."""
        beside = directory.rstrip("/")
        requests = open(f"{beside}.in.{client}", "wb")
        replies = open(f"{beside}.out.{client}", "rb")
        return cls(requests, replies)

    @classmethod
    def start(cls, program, cost, directory, account):
        """Client 0 of a daemon that is started for it."""
        words = [program, "serve", "--cost", str(cost), directory, account]
        daemon = subprocess.Popen(words, stdin=subprocess.PIPE, stdout=subprocess.PIPE)
        return cls(daemon.stdin, daemon.stdout, daemon)

    def exchange(self, line):
        """Sends a line, and waits for its reply."""
        self.requests.write(line + b"\n")
        self.requests.flush()
        reply = self.replies.readline()
        if not reply.endswith(b"\n"):
            raise Refused("the daemon is gone: its status and what it said tell why")
        return reply[:-1]

    def ask(self, **fields):
        """Asks a request, and gives the reply as it is."""
        return json.loads(self.exchange(json.dumps(fields).encode()))

    def must(self, **fields):
        """Asks a request that has to be answered ok."""
        reply = self.ask(**fields)
        if reply["answer"] != "ok":
            raise Refused(f"{fields['op']}: {json.dumps(reply)}")
        return reply

    def close(self):
        """Ends the input. A daemon that was started ends then, with a status."""
        self.requests.close()
        self.replies.close()
        if self.daemon is not None and self.daemon.wait() != 0:
            raise Refused(f"the daemon ended with status {self.daemon.returncode}")


class Home:
    """An account's home over a connection."""

    def __init__(self, connection, account):
        self.connection = connection
        self.account = account
        self.token = None

    def start_session(self):
        reply = self.connection.must(op="start_session", account=self.account, intent="decrypt")
        self.token = reply["token"]

    def make(self, password):
        """Makes the home. Whoever sets the first password has proved it."""
        self.connection.must(op="create", account=self.account)
        self.start_session()
        self.connection.must(op="add_factor", account=self.account, token=self.token, label=LABEL, kind="password",
                             secret=password)

    def unlock(self, password):
        """Opens the vault by the password. Another client may have opened it already."""
        self.start_session()
        self.connection.must(op="authenticate", account=self.account, token=self.token, label=LABEL, secret=password)
        reply = self.connection.ask(op="mount", account=self.account, token=self.token)
        if reply["answer"] not in ("ok", "already_mounted"):
            raise Refused(f"mount: {json.dumps(reply)}")

    def put(self, name, content):
        self.connection.must(op="put_file", account=self.account, name=name, data=content.hex())

    def get(self, name):
        return bytes.fromhex(self.connection.must(op="get_file", account=self.account, name=name)["data"])

    def names(self):
        return self.connection.must(op="list_files", account=self.account)["files"]

    def end(self):
        """Gives the token up. The vault stays open until it is unmounted or the daemon ends."""
        self.connection.must(op="end_session", account=self.account, token=self.token)


def send(connection, path):
    """Sends the lines of a file, and prints each with its reply."""
    token = ""
    with open(path, encoding="utf-8") as lines:
        for line in lines:
            line = line.rstrip("\n")
            if line.startswith("#"):
                continue
            line = line.replace('"token":"T"', f'"token":"{token}"')
            print(f"> {line}")
            reply = connection.exchange(line.encode()).decode()
            print(reply, flush=True)
            token = json.loads(reply).get("token", token)


def password():
    return os.environ.get("CRYPTOHOME_PASSWORD") or getpass.getpass("password: ")


def run(connection, words):
    home = Home(connection, words.account)
    command, *rest = words.command
    if command == "send":
        return send(connection, *rest)
    if command == "new":
        home.make(password())
        return home.end()
    home.unlock(password())
    if command == "put":
        name, path = rest
        with open(path, "rb") as content:
            home.put(name, content.read())
    elif command == "get":
        sys.stdout.buffer.write(home.get(*rest))
    elif command == "list":
        for name in home.names():
            print(name)
    home.end()


def main():
    commands = {"new": 0, "put": 2, "get": 1, "list": 0, "send": 1}
    beside = os.path.join(os.path.dirname(os.path.abspath(__file__)), "..", "cryptohome")
    parser = argparse.ArgumentParser(usage=__doc__)
    parser.add_argument("--client", type=int)
    parser.add_argument("--cost", type=int, default=14)
    parser.add_argument("--program", default=beside)
    parser.add_argument("directory")
    parser.add_argument("account")
    parser.add_argument("command", nargs="+")
    words = parser.parse_args()
    if commands.get(words.command[0]) != len(words.command) - 1:
        parser.error("no such command")
    if words.client is None:
        connection = Connection.start(words.program, words.cost, words.directory, words.account)
    else:
        connection = Connection.over_pipes(words.directory, words.client)
    try:
        try:
            run(connection, words)
        finally:
            connection.close()
    except (Refused, OSError) as fault:
        print(fault, file=sys.stderr)
        return 1
    return 0


if __name__ == "__main__":
    sys.exit(main())
