#!/usr/bin/env bash
# Measures the built daemon over named pipes, as docs/PERFORMANCE.md says under "The daemon": lines a second with one
# client and with four, what an authenticate takes at the cost 14, how memory grows, how often the disk is synced, and
# how long an opening takes.
# PROGRAM is the built daemon, the one that ./cryptohome builds if none is named. SECONDS_EACH is how long a row with
# clients is measured, and ACCOUNTS the largest number of accounts that is opened. HOMES is the folder in which the homes
# are made, a new one in the system's temporary folder without it: rows that write measure its disk.
set -euo pipefail
cd "$(dirname "$0")/.."
program=$(readlink -f "${PROGRAM:-crates/cryptohome_cli/out/cryptohome_cli}")
if [ ! -x "$program" ]; then
  echo 'there is no program yet: ./cryptohome builds it' >&2
  exit 1
fi
work=$(mktemp -d ${HOMES:+-p "$HOMES"})
trap 'rm -rf "$work"' EXIT
cd "$work"
PROGRAM=$program SECONDS_EACH=${SECONDS_EACH:-2} ACCOUNTS=${ACCOUNTS:-64} python3 - << 'PYTHON'
import hashlib, json, os, re, shutil, subprocess, sys, threading, time

PROGRAM = os.environ["PROGRAM"]
SECONDS = float(os.environ["SECONDS_EACH"])
ACCOUNTS = int(os.environ["ACCOUNTS"])


class Client:
    """A client of the daemon over its two pipes."""

    def __init__(self, directory, number, account):
        self.input = os.open(f"{directory}.in.{number}", os.O_WRONLY)
        self.output = os.open(f"{directory}.out.{number}", os.O_RDONLY)
        self.account = account

    def exchange(self, line):
        os.write(self.input, line)
        reply = b""
        while not reply.endswith(b"\n"):
            piece = os.read(self.output, 131072)
            if not piece:
                sys.exit("the daemon is gone")
            reply += piece
        return reply

    def ask(self, **fields):
        reply = json.loads(self.exchange(self.line(**fields)))
        if reply["answer"] != "ok":
            sys.exit(f"{fields}: {reply}")
        return reply

    def line(self, **fields):
        return json.dumps(dict(account=self.account, **fields)).encode() + b"\n"

    def make_home(self):
        """A home that is open, and the token of its session."""
        self.ask(op="create")
        token = self.ask(op="start_session", intent="decrypt")["token"]
        self.ask(op="add_factor", token=token, label="main", kind="password", secret="long pass")
        self.ask(op="mount", token=token)
        return token


class Daemon:
    """The daemon with so many clients, each of an account of its own."""

    def __init__(self, directory, clients, cost, *front):
        for number in range(1, clients + 1):
            for side in ("in", "out"):
                os.mkfifo(f"{directory}.{side}.{number}")
        names = [f"u{number}" for number in range(clients)]
        words = [*front, PROGRAM, "serve", "--clients", str(clients), "--cost", str(cost), directory, *names]
        self.process = subprocess.Popen(words, stdin=subprocess.DEVNULL)
        self.directory = directory
        self.clients = [Client(directory, number + 1, name) for number, name in enumerate(names)]

    def memory(self):
        """The bytes that it has of the system's memory."""
        with open(f"/proc/{self.process.pid}/status", encoding="utf-8") as status:
            return 1024 * int(re.search(r"VmRSS:\s*(\d+)", status.read())[1])

    def end(self):
        for client in self.clients:
            os.close(client.input)
        if self.process.wait() != 0:
            sys.exit(f"the daemon ended with status {self.process.returncode}")
        for client in self.clients:
            os.close(client.output)
            os.remove(f"{self.directory}.in.{self.clients.index(client) + 1}")
            os.remove(f"{self.directory}.out.{self.clients.index(client) + 1}")
        shutil.rmtree(self.directory)
        shutil.rmtree(f"{self.directory}.chip")


def in_turn(client, line):
    """How many lines a client has answered in the time, each before the next is sent."""
    count, end = 0, time.monotonic() + SECONDS
    while time.monotonic() < end:
        reply = client.exchange(line)
        count += 1
    # A session that has expired, say, would be answered too.
    return count if reply.startswith(b'{"answer":"ok"') else 0


def at_once(client, line):
    """The same where lines are sent without waiting for replies."""
    block, until = line * (60000 // len(line)), time.monotonic() + SECONDS
    sent = [0]

    def write():
        while time.monotonic() < until:
            left = block
            while left:
                left = left[os.write(client.input, left):]
            sent[0] += block.count(b"\n")

    writer = threading.Thread(target=write)
    writer.start()
    heard = 0
    while writer.is_alive() or heard < sent[0]:
        if heard < sent[0] or writer.is_alive():
            heard += os.read(client.output, 131072).count(b"\n")
    return heard


def together(clients, work, lines):
    """The lines a second of these clients, each of which is a process."""
    pipes, start = [], time.monotonic()
    for client, line in zip(clients, lines):
        read, write = os.pipe()
        if os.fork() == 0:
            os.write(write, str(work(client, line)).encode())
            os._exit(0)
        os.close(write)
        pipes.append(read)
    count = 0
    for read in pipes:
        count += int(os.read(read, 100))
        os.close(read)
        os.wait()
    return count / (time.monotonic() - start)


def row(name, *values):
    print(f"{name:<46}" + "".join(f"{value:>14}" for value in values), flush=True)


def rates():
    print("lines a second, cost 4")
    row("", "1 client", "4 clients")
    daemons = [Daemon("one", 1, 4), None]
    daemons[1] = Daemon("four", 4, 4)
    tokens = [[client.make_home() for client in daemon.clients] for daemon in daemons]
    content = "5a" * 1024
    listed = lambda client, token: client.line(op="list_factors")
    rows = [
        ("list_factors, without waiting", at_once, listed),
        ("list_factors, one after the other", in_turn, listed),
        ("get_file of 1,024 bytes, one after the other", in_turn, lambda c, t: c.line(op="get_file", name="f")),
        ("put_file of 1,024 bytes, one after the other", in_turn,
         lambda c, t: c.line(op="put_file", name="f", data=content)),
        ("authenticate, one after the other", in_turn,
         lambda c, t: c.line(op="authenticate", token=t, label="main", secret="long pass")),
    ]
    for daemon in daemons:
        for client in daemon.clients:
            client.ask(op="put_file", name="f", data=content)
    for name, work, line in rows:
        values = []
        for daemon, known in zip(daemons, tokens):
            lines = [line(client, token) for client, token in zip(daemon.clients, known)]
            values.append(f"{together(daemon.clients, work, lines):,.0f}")
        row(name, *values)
    line, count, start = b'{"op":"list_factors","account":"u0"}', 200_000, time.monotonic()
    for _ in range(count):
        json.dumps({"answer": "ok", "factors": [{"kind": "password", "label": json.loads(line)["account"]}]})
    row("a loop in Python that reads and writes JSON", f"{count / (time.monotonic() - start):,.0f}")
    for daemon in daemons:
        daemon.end()


def derivations():
    print("\nmilliseconds each, cost 14, 20 of each")
    daemon = Daemon("costly", 1, 14)
    client = daemon.clients[0]
    token = client.make_home()
    line = client.line(op="authenticate", token=token, label="main", secret="long pass")
    start = time.monotonic()
    for _ in range(20):
        client.exchange(line)
    ours = (time.monotonic() - start) / 20
    start = time.monotonic()
    for number in range(20):
        hashlib.scrypt(b"long pass", salt=bytes([number] * 16), n=2**14, r=8, p=1, maxmem=2**28, dklen=64)
    theirs = (time.monotonic() - start) / 20
    row("authenticate", f"{1000 * ours:.2f}")
    row("scrypt of Python's hashlib", f"{1000 * theirs:.2f}")
    daemon.end()


def memory():
    print("\nbytes of memory for each line, over 20,000 lines or 2,000 files")
    daemon = Daemon("growing", 1, 4)
    client = daemon.clients[0]
    client.make_home()
    client.ask(op="put_file", name="f", data="5a" * 1024)
    for name, count, line in [
        ("list_factors", 20_000, client.line(op="list_factors")),
        ("a line that is no request", 20_000, b"{}\n"),
        ("get_file of 1,024 bytes", 2_000, client.line(op="get_file", name="f")),
        ("put_file of 1,024 bytes", 2_000, client.line(op="put_file", name="f", data="5a" * 1024)),
    ]:
        before = daemon.memory()
        for _ in range(count):
            client.exchange(line)
        row(name, f"{(daemon.memory() - before) / count:,.0f}")
    daemon.end()


def syncs():
    print("\nsyncs of a request, as strace counts them")
    if shutil.which("strace") is None:
        print("there is no strace here")
        return
    front = ["strace", "-f", "-qq", "-e", "trace=fsync,fdatasync,sync_file_range", "-o", "log"]
    daemon = Daemon("counted", 1, 4, *front)
    client = daemon.clients[0]

    def made():
        time.sleep(0.3)
        with open("log", encoding="utf-8") as log:
            return len(re.findall(r"sync\(", log.read()))

    def count(**fields):
        before = made()
        reply = client.ask(**fields)
        row(fields["op"], made() - before)
        return reply

    count(op="create")
    token = count(op="start_session", intent="decrypt")["token"]
    count(op="add_factor", token=token, label="main", kind="password", secret="long pass")
    count(op="authenticate", token=token, label="main", secret="long pass")
    count(op="mount", token=token)
    count(op="put_file", name="f", data="00")
    count(op="get_file", name="f")
    count(op="update_factor", token=token, label="main", secret="new pass")
    count(op="add_factor", token=token, label="spare", kind="password", secret="other pass")
    count(op="remove_factor", token=token, label="spare")
    daemon.end()


def openings():
    print("\nmilliseconds from the start to the end of a run without lines, each account with 16 files")
    row("", "milliseconds", "an account")
    made = 0
    for accounts in (ACCOUNTS // 4, ACCOUNTS // 2, ACCOUNTS):
        names = [f"a{number}" for number in range(made, accounts)]
        made = accounts
        for side in ("in", "out"):
            os.mkfifo(f"many.{side}.1")
        words = [PROGRAM, "serve", "--clients", "1", "--cost", "1", "many", *names]
        process = subprocess.Popen(words, stdin=subprocess.DEVNULL)
        client = Client("many", 1, "")
        for name in names:
            client.account = name
            client.make_home()
            for number in range(16):
                client.ask(op="put_file", name=f"f{number}", data="00")
        os.close(client.input)
        process.wait()
        os.close(client.output)
        for side in ("in", "out"):
            os.remove(f"many.{side}.1")
        least = min(timed([PROGRAM, "serve", "many"]) for _ in range(5))
        row(f"{accounts} accounts", f"{1000 * least:.1f}", f"{1000 * least / accounts:.2f}")


def timed(words):
    start = time.monotonic()
    subprocess.run(words, stdin=subprocess.DEVNULL, check=True)
    return time.monotonic() - start


rates()
derivations()
memory()
syncs()
openings()
PYTHON
