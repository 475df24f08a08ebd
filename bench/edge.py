#!/usr/bin/env python3
"""Tries what `tsd serve` does at its edge: addresses, idle and dead peers, statuses with their lines, want of threads and of descriptors.

    bench/edge.py PROGRAM SHORT SECONDS

Runs as root, in network namespaces of its own. PROGRAM is the built `tsd_main`, and SHORT one whose reads wait for SECONDS at most, the
constant READ_SECONDS of crates/tsd_doors/src/tcp_ends.rt; `bench/unproved.py tsd_main SHORT` in a copy builds it. Prints what it saw as
Markdown tables, and ends with status 1 where that isn't what it waits for."""
import contextlib
import ctypes
import os
import re
import resource
import select
import shutil
import signal
import socket
import struct
import subprocess
import sys
import tempfile
import time

# A user who has no processes.
USER = 64123
NEAR, FAR = "10.213.0.1", "10.213.0.2"
# What waits no longer than this doesn't wait.
SOON = 3
PIDFD_OPEN, PIDFD_GETFD = 434, 438
EARLY_CLOCK = "#include <time.h>\nint clock_gettime(clockid_t id, struct timespec *now) { now->tv_sec = -1; now->tv_nsec = 0; return 0; }\n"
failures = []


def row(*cells):
    print("| " + " | ".join(str(cell) for cell in cells) + " |", flush=True)


def table(title, *heads):
    print(f"\n### {title}\n")
    row(*heads)
    row(*("---" for _ in heads))


def want(good, what):
    if not good:
        failures.append(what)
        print(f"NOT AS IT SHOULD BE: {what}", flush=True)


class Daemon:
    """A daemon, and the port that it told, or None."""

    def __init__(self, words, address=None, before=None, limits=(), port=0):
        env = {key: value for key, value in os.environ.items() if key != "TSD_ADDRESS"}
        if address is not None:
            env["TSD_ADDRESS"] = address

        def prepare():
            if before:
                before()
            for limit, most in limits:
                resource.setrlimit(limit, (most, most))

        self.words = [words[0], "serve", str(port), "--auto-metric", *words[1:]]
        self.process = subprocess.Popen(self.words, stdin=subprocess.DEVNULL, stdout=subprocess.PIPE, stderr=subprocess.PIPE, text=True, env=env, preexec_fn=prepare)
        line = self.process.stdout.readline().split()
        self.port = int(line[1]) if line else None

    def ended(self):
        """The status and what standard error says, once it has ended by itself."""
        try:
            _, error = self.process.communicate(timeout=20)
        except subprocess.TimeoutExpired:
            self.process.kill()
            self.process.communicate()
            return "none", ""
        return self.process.returncode, error.strip()

    def die(self):
        """Ends it by `diediedie`."""
        with self.connect() as client:
            client.sendall(b"diediedie\n")
            answered(client, SOON)
        return self.ended()

    def kill(self):
        self.process.kill()
        return self.process.communicate()[1].strip()

    def connect(self, host="127.0.0.1"):
        return socket.create_connection((host, self.port), timeout=20)


def asked(daemon, host="127.0.0.1"):
    """A connection on which a request was sent."""
    client = daemon.connect(host)
    client.sendall(b"version\n")
    return client


def answered(client, seconds):
    """Whether bytes or the end come within so many seconds."""
    return bool(select.select([client], [], [], seconds)[0])


def all_answered(clients, seconds):
    """How many of these have bytes or their end within so many seconds."""
    until = time.monotonic() + seconds
    return sum(answered(client, max(0, until - time.monotonic())) for client in clients)


def close_all(clients):
    for client in clients:
        client.close()


def ran(words, **settings):
    """The status and the line of a run of other words."""
    done = subprocess.run(words, capture_output="stdout" not in settings, text=True, timeout=60, **settings)
    return done.returncode, (done.stderr or "").strip()


# Statuses


def listener_shut(daemon):
    """Shuts the daemon's listener down, from outside of it."""
    libc = ctypes.CDLL(None, use_errno=True)
    process = libc.syscall(PIDFD_OPEN, daemon.process.pid, 0)
    for name in os.listdir(f"/proc/{daemon.process.pid}/fd"):
        if "socket" in os.readlink(f"/proc/{daemon.process.pid}/fd/{name}"):
            with socket.socket(fileno=libc.syscall(PIDFD_GETFD, process, int(name), 0)) as listener:
                listener.shutdown(socket.SHUT_RDWR)
            break
    os.close(process)


def statuses(program, folder):
    table("Statuses", "status", "brought about by", "standard error")

    def told(status, cause, seen, line):
        row(seen[0], cause, f"`{seen[1]}`")
        want(seen[0] == status and re.fullmatch(line, seen[1]), f"{cause}: {seen}")

    root = os.open("/", os.O_RDONLY)
    told(3, "`stdio`, standard input is a folder", ran([program, "stdio"], stdin=root), "tsd: standard input failed")
    os.close(root)
    for words in (["batch", "1", "2", "zimsum:m"], ["serve", "0"]):
        with open("/dev/full", "w") as full:
            done = ran([program, *words], stdin=subprocess.DEVNULL, stdout=full, stderr=subprocess.PIPE)
        told(4, f"`{words[0]}`, standard output is `/dev/full`", done, "tsd: standard output failed")
    points = "".join(f"m{at} 1 1 h=a\n" for at in range(100000))
    little = lambda: resource.setrlimit(resource.RLIMIT_AS, (24 << 20, 24 << 20))
    told(5, "`batch`, 100,000 series, 24 MiB of memory", ran([program, "batch", "1", "2", "zimsum:m1"], input=points, preexec_fn=little), "tsd: there is no memory")
    with socket.create_server(("127.0.0.1", 0)) as taken:
        port = taken.getsockname()[1]
        told(7, "the port is taken", Daemon([program], "127.0.0.1", port=port).ended(), rf"tsd: port {port} of 127.0.0.1 can't be bound: .*in use.*")
        told(7, "the port is taken, no address", Daemon([program], port=port).ended(), rf"tsd: port {port} can't be bound: .*in use.*")
    told(7, "port 99, another user than root", Daemon([program], port=99, before=lambda: os.setuid(USER)).ended(), "tsd: port 99 can't be bound: .*ermission.*")
    for address in ("", "localhost", "127.0.0.1:4242", "[::1]", "256.0.0.1"):
        told(7, f"`TSD_ADDRESS={address}`", Daemon([program], address).ended(), f"tsd: TSD_ADDRESS is no address: {re.escape(address)}".strip())
    told(7, "`TSD_ADDRESS=192.0.2.1`, which no interface has", Daemon([program], "192.0.2.1").ended(), "tsd: port 0 of 192.0.2.1 can't be bound: .*")
    daemon = Daemon([program])
    listener_shut(daemon)
    told(7, "the listener is shut down from outside", daemon.ended(), "tsd: no more connections can be accepted")
    with open(f"{folder}/early.c", "w") as source:
        source.write(EARLY_CLOCK)
    subprocess.run(["cc", "-shared", "-fPIC", "-o", f"{folder}/early.so", source.name], check=True)
    query = "GET /api/query?start=1&m=sum:m HTTP/1.0\r\n\r\n"
    told(9, "`stdio`, a query, the clock is before 1970", ran([program, "stdio"], input=query, env={**os.environ, "LD_PRELOAD": f"{folder}/early.so"}), "tsd: the clock failed")
    told(0, "`batch` with a wrong `TSD_ADDRESS`, which only `serve` reads", ran([program, "batch", "1", "2", "zimsum:m"], input="m 1 1 h=a\n", env={**os.environ, "TSD_ADDRESS": "x"}), "")
    told(1, "no words", ran([program]), "")
    told(2, "`batch`, a line without a time", ran([program, "batch", "1", "2", "zimsum:m"], input="m\n"), "")


# Addresses


def addresses(program):
    asks = ("127.0.0.1", "::1", NEAR)
    table("Addresses", "TSD_ADDRESS", *(f"asked at {host}" for host in asks))
    for address, wanted in ((None, "yyy"), ("127.0.0.1", "ynn"), ("::1", "nyn"), ("0.0.0.0", "yny"), ("::", "yyy"), (NEAR, "nny")):
        daemon = Daemon([program], address)
        seen = ""
        for host in asks:
            try:
                with asked(daemon, host) as client:
                    seen += "y" if answered(client, SOON) else "-"
            except ConnectionRefusedError:
                seen += "n"
        daemon.kill()
        row(address or "isn't set", *({"y": "answered", "n": "refused", "-": "no answer"}[it] for it in seen))
        want(seen == wanted, f"address {address}: {seen}")


# Peers


def ended_after(clients, begun, seconds):
    """When each of these had its end, or None."""
    ends = {}
    while len(ends) < len(clients) and time.monotonic() - begun < seconds:
        for client in select.select([it for it in clients if it not in ends], [], [], 0.2)[0]:
            with contextlib.suppress(ConnectionResetError):
                if client.recv(4096):
                    continue
            ends[client] = time.monotonic() - begun
    return [round(ends[client], 1) if client in ends else None for client in clients]


def idle(short, limit):
    table(f"Idle peers, a limit of {limit} s, 4 workers", "what", "seconds")
    daemon = Daemon([short])
    busy = asked(daemon)
    silent = [daemon.connect() for _ in range(2)]
    keeps = daemon.connect()
    keeps.sendall(b"GET /api/version HTTP/1.1\r\n\r\n")
    time.sleep(0.2)
    begun = time.monotonic()
    fifth = asked(daemon)
    ends = ended_after([*silent, keeps], begun, 0.1 + limit / 2)
    want(ends == [None] * 3, f"ended early: {ends}")
    busy.sendall(b"version\n")
    want(answered(fifth, limit + SOON), "the fifth has no answer")
    waited = time.monotonic() - begun
    row("until a fifth connection is answered", round(waited, 1))
    want(limit / 2 < waited < limit + SOON, f"the fifth waited {waited}")
    ends = ended_after([*silent, keeps], begun, limit + SOON)
    row("until two silent ones and an HTTP connection behind its reply had their ends", ends)
    want(all(end and end < limit + SOON for end in ends), f"ends: {ends}")
    until = time.monotonic() + 2 * limit
    while time.monotonic() < until:
        busy.sendall(b"version\n")
        time.sleep(limit / 3)
        want(busy.recv(4096), "a busy one was ended")
    row(f"one that asks each {round(limit / 3, 1)} s is served for", round(time.monotonic() - begun, 1))
    close_all([busy, fifth, keeps, *silent])
    want(daemon.die() == (0, ""), "an idle daemon's end")


@contextlib.contextmanager
def far_host():
    """A process in a namespace at the other end of a link, which runs Python lines."""
    child = subprocess.Popen(["unshare", "-n", sys.executable, "-ic", ""], stdin=subprocess.PIPE, stdout=subprocess.PIPE, stderr=subprocess.DEVNULL, text=True)
    time.sleep(1)
    for words in (f"link set far netns {child.pid}", f"addr add {NEAR}/24 dev near", "link set near up"):
        subprocess.run(["ip", *words.split()], check=True)
    for words in (f"addr add {FAR}/24 dev far", "link set far up"):
        subprocess.run(["nsenter", "-t", str(child.pid), "-n", "ip", *words.split()], check=True)
    yield child
    child.kill()
    child.communicate()


def dead(short, limit, far):
    table(f"Dead peers, a limit of {limit} s, 4 workers", "what", "seconds")
    daemon = Daemon([short])
    far.stdin.write(
        f"import socket\nclients = [socket.create_connection(('{NEAR}', {daemon.port})) for _ in range(4)]\n"
        "for client in clients: client.sendall(b'put m 1 1 h=a\\nversion\\n'); reply = client.recv(4096)\n\nprint('told', flush=True)\n"
    )
    far.stdin.flush()
    want(far.stdout.readline() == "told\n", "the far host has its answers")
    subprocess.run(["ip", "link", "set", "near", "down"], check=True)
    begun = time.monotonic()
    fifth = asked(daemon)
    want(answered(fifth, limit + SOON), "the fifth has no answer")
    waited = time.monotonic() - begun
    row("four peers vanish with their link; until a fifth connection is answered", round(waited, 1))
    want(limit / 2 < waited < limit + SOON, f"the fifth waited {waited}")
    fifth.close()
    status, error = daemon.die()
    row("status of the daemon's end", status)
    want((status, error) == (0, ""), "the end of a daemon with dead peers")
    subprocess.run(["ip", "link", "set", "near", "up"], check=True)


def queued(program):
    table("Peers that are gone when their turn comes, 4 workers", "what", "seconds")
    daemon = Daemon([program])
    busy = [asked(daemon) for _ in range(4)]
    want(all_answered(busy, SOON) == 4, "four are served")
    for at in range(100):
        client = daemon.connect()
        if at % 2:
            client.setsockopt(socket.SOL_SOCKET, socket.SO_LINGER, struct.pack("ii", 1, 0))
        client.close()
    last = asked(daemon)
    want(not answered(last, 1), "one is served beside four")
    busy.pop().close()
    begun = time.monotonic()
    want(answered(last, SOON), "the last is served")
    row("100 that sent nothing are closed, half of them with a reset; from a worker's being free until the one behind them is answered", round(time.monotonic() - begun, 3))
    close_all([*busy, last])
    want(daemon.die() == (0, ""), "a queue's end")


# Threads and descriptors


@contextlib.contextmanager
def pids_group():
    """A group of processes whose threads are counted."""
    base = "/sys/fs/cgroup/pids" if os.path.isdir("/sys/fs/cgroup/pids") else "/sys/fs/cgroup"
    group = f"{base}/tsd-edge-{os.getpid()}"
    os.mkdir(group)
    yield group
    os.rmdir(group)


def served_at_once(daemon, count):
    """How many of so many connections are served at once."""
    clients = [asked(daemon) for _ in range(count)]
    served = all_answered(clients, SOON)
    close_all(clients)
    return served


def with_threads(name, most, daemons, workers, **settings):
    """A daemon that can't have all its threads."""
    daemon = Daemon([settings.pop("program"), "--daemons", str(daemons), "--workers", str(workers)], **settings)
    wanted, all_workers = daemons * workers + daemons, daemons * workers
    missing = max(0, wanted - (most - 1))
    if daemon.port is None:
        status, error = daemon.ended()
        row(name, most, f"{daemons} × {workers}", status, "", f"`{error}`")
        want(missing >= workers and status == 5 and error.startswith(f"tsd: {most - 1} of {wanted} threads can be made"), f"{name} {most}: {status} {error}")
        return
    served = served_at_once(daemon, 2 * all_workers)
    for _ in range(2 * daemons):
        with asked(daemon) as client:
            want(answered(client, SOON), f"{name} {most}: a queue without a worker")
    status, error = daemon.die()
    row(name, most, f"{daemons} × {workers}", status, f"{served} of {all_workers}", f"`{error}`" if error else "")
    want(missing < workers and status == 0 and served >= all_workers - missing, f"{name} {most}: {status} {served}")
    want(served == all_workers - missing or daemons > 1, f"{name} {most}: {served} serve")
    want(error.endswith(f"so {all_workers - missing} of {all_workers} workers serve") if missing else not error, f"{name} {most}: {error}")


def threads(program):
    table("Want of threads", "limit", "threads allowed", "daemons × workers", "status", "connections served at once", "standard error")
    with pids_group() as group:

        def join():
            with open(f"{group}/cgroup.procs", "w") as file:
                file.write(str(os.getpid()))

        for daemons, workers in ((1, 4), (2, 2)):
            for most in range(1, daemons * (workers + 1) + 2):
                with open(f"{group}/pids.max", "w") as file:
                    file.write(str(most))
                with_threads("`pids.max`", most, daemons, workers, program=program, before=join)
    for most in (1, 3, 6):
        with_threads("`ulimit -u`", most, 1, 4, program=program, before=lambda most=most: as_user(most))


def as_user(most):
    resource.setrlimit(resource.RLIMIT_NPROC, (most, most))
    os.setgroups([])
    os.setgid(USER)
    os.setuid(USER)


def descriptors(program):
    table("Want of descriptors, 16 workers", "what", "connections")
    daemon = Daemon([program, "--workers", "16"], limits=[(resource.RLIMIT_NOFILE, 12)])
    clients = [asked(daemon) for _ in range(12)]
    first = all_answered(clients, SOON)
    row("served of 12, with 12 descriptors", first)
    close_all(clients[:first])
    then = all_answered(clients[first:], SOON)
    row("served of the others, when these have ended", then)
    want(0 < first < 12 and then == 12 - first, f"descriptors: {first}, {then}")
    close_all(clients)
    want(daemon.die() == (0, ""), "the end of a daemon without descriptors")


def main():
    if len(sys.argv) != 4:
        sys.exit("usage: edge.py PROGRAM SHORT SECONDS")
    if "TSD_EDGE_SPACE" not in os.environ:
        os.environ["TSD_EDGE_SPACE"] = "1"
        os.execvp("unshare", ["unshare", "-n", sys.executable, *sys.argv])
    for words in ("link set lo up", "link add near type veth peer name far"):
        subprocess.run(["ip", *words.split()], check=True)
    signal.signal(signal.SIGPIPE, signal.SIG_IGN)
    with tempfile.TemporaryDirectory() as folder, far_host() as far:
        os.chmod(folder, 0o755)
        program, short = (shutil.copy(path, f"{folder}/{name}") for path, name in zip(sys.argv[1:3], ("tsd", "short")))
        limit = float(sys.argv[3])
        statuses(program, folder)
        addresses(program)
        idle(short, limit)
        dead(short, limit, far)
        queued(program)
        threads(program)
        descriptors(program)
    print(f"\n{len(failures)} not as it should be")
    sys.exit(1 if failures else 0)


main()
