"""What the tests of `examples/payments` run beside it: etcd, Redis and PostgreSQL, each in a folder of the test's own, and at free ports."""

import contextlib
import glob
import json
import os
import pathlib
import pwd
import random
import shutil
import signal
import socket
import subprocess
import sys
import tempfile
import time
import urllib.request

from helpers.cases import Differs

SECONDS = 600  # what comes takes less on any machine
QUIET = {"stdout": subprocess.DEVNULL, "stderr": subprocess.DEVNULL}
# What a user has set for other programs of etcd, or for ways to other machines, is none of these tests' matter.
ENVIRONMENT = {name: value for name, value in os.environ.items() if not name.lower().endswith("_proxy") and not name.startswith("ETCD")}
MEGABYTE = 1 << 20


def free_ports(count):
    """Ports that nobody listens at, and that no other program gets unasked, also while who listens there is killed and begins anew."""
    first = int(pathlib.Path("/proc/sys/net/ipv4/ip_local_port_range").read_text().split()[0])
    found = {}
    with contextlib.ExitStack() as stack:
        while len(found) < count:
            port = random.randrange(10_000, first) if first > 11_000 else 0
            with contextlib.suppress(OSError):
                server = stack.enter_context(socket.create_server(("127.0.0.1", port)))
                found[server.getsockname()[1]] = server
    return list(found)


def wait_until(is_so, what):
    """Waits until this is so, for ten minutes at most."""
    end = time.monotonic() + SECONDS
    while time.monotonic() < end:
        with contextlib.suppress(OSError, ValueError, LookupError):
            if found := is_so():
                return found
        time.sleep(0.05)
    raise Differs(f"after {SECONDS} seconds: not {what}")


def little_space(megabytes):
    """Says so if the folder for temporary files does not have so much space."""
    folder = tempfile.gettempdir()
    return f"less than {megabytes} MB are free in {folder}" if shutil.disk_usage(folder).free < megabytes * MEGABYTE else None


def can_connect(port):
    socket.create_connection(("127.0.0.1", port)).close()
    return True


def python_with(module):
    """A Python that has this module, and is new enough for the package: Debian's packages are for its own."""
    for python in (sys.executable, "/usr/bin/python3"):
        tried = [python, "-c", f"import sys, {module}; sys.exit(sys.version_info < (3, 9))"]
        if os.path.exists(python) and subprocess.run(tried, **QUIET, check=False).returncode == 0:
            return python
    return None


class Etcd:
    """Three nodes, whose journal has this address."""

    def __init__(self, folder):
        self.folder, self.ports, self.python = folder, free_ports(6), python_with("etcd3")
        self.processes = [None] * 3
        self.address = f"etcd://{','.join(f'127.0.0.1:{port}' for port in self.ports[:3])}/bank"

    def begin(self):
        for number in range(3):
            self.start(number)
        wait_until(lambda: self.leader() is not None, "an etcd that has a leader")

    @staticmethod
    def missing():
        """What is missing here, if anything is."""
        if not shutil.which("etcd"):
            return "there is no etcd on this machine"
        return little_space(1000) if python_with("etcd3") else "there is no python3-etcd3 on this machine"

    def start(self, number):
        own, peers = f"http://127.0.0.1:{self.ports[number]}", [f"http://127.0.0.1:{port}" for port in self.ports[3:]]
        words = ["--name", f"n{number}", "--data-dir", self.folder / f"etcd{number}", "--log-level", "error", "--initial-cluster-state", "new"]
        words += ["--listen-client-urls", own, "--advertise-client-urls", own]
        words += ["--listen-peer-urls", peers[number], "--initial-advertise-peer-urls", peers[number]]
        words += ["--initial-cluster", ",".join(f"n{at}={peer}" for at, peer in enumerate(peers))]
        words += ["--auto-compaction-mode", "revision", "--auto-compaction-retention", "1000"]
        self.processes[number] = subprocess.Popen(["etcd", *map(str, words)], **QUIET, env=ENVIRONMENT)

    def leader(self):
        """The node that leads, or None if there is none."""
        direct = urllib.request.build_opener(urllib.request.ProxyHandler({}))
        for number, port in enumerate(self.ports[:3]):
            with contextlib.suppress(OSError, ValueError, KeyError):
                request = urllib.request.Request(f"http://127.0.0.1:{port}/v3/maintenance/status", b"{}")
                with direct.open(request, timeout=1) as reply:
                    status = json.load(reply)
                if status.get("leader") == status["header"]["member_id"]:
                    return number
        return None

    def away(self, seconds):
        """Two of three nodes are stopped for so long."""
        with self.stopped(0, 1):
            time.sleep(seconds)

    def silent(self):
        """No node answers."""
        return self.stopped(0, 1, 2)

    @contextlib.contextmanager
    def stopped(self, *numbers):
        for number in numbers:
            self.processes[number].send_signal(signal.SIGSTOP)
        try:
            yield
        finally:
            for number in numbers:
                self.processes[number].send_signal(signal.SIGCONT)

    def kill(self, number):
        self.processes[number].kill()
        self.processes[number].wait()

    def end(self):
        for process in filter(None, self.processes):
            process.kill()
            process.wait()


class Hosts:
    """The hosts a, b and c, each in a network namespace of its own, on a switch in one more. Nothing of the machine's own network changes."""

    names = "abc"

    def __init__(self, folder):
        self.folder, self.own, self.processes = folder, f"sgt{os.getpid()}", []

    def begin(self):
        try:
            self._make()
        except (OSError, subprocess.SubprocessError) as why:
            raise Differs(f"no hosts: {why}") from None

    def _make(self):
        self.command("ip", "netns", "add", self.own)
        self.inside("", "link", "add", "switch", "type", "bridge")
        self.inside("", "address", "add", "10.77.0.254/24", "dev", "switch")
        self.inside("", "link", "set", "switch", "up")
        addresses = "".join(f"10.77.0.{number} {name}\n" for number, name in enumerate(self.names, 1))
        for number, name in enumerate(self.names, 1):
            self.command("ip", "netns", "add", self.own + name)
            hosts = pathlib.Path("/etc/netns", self.own + name, "hosts")  # `ip netns exec` shows it as /etc/hosts
            hosts.parent.mkdir(parents=True)
            hosts.write_text("127.0.0.1 localhost\n" + addresses)
            self.inside("", "link", "add", "name", name, "type", "veth", "peer", "name", "eth0", "netns", self.own + name)
            self.inside("", "link", "set", "dev", name, "master", "switch", "up")
            for words in (("address", "add", f"10.77.0.{number}/24", "dev", "eth0"), ("link", "set", "eth0", "up"), ("link", "set", "lo", "up")):
                self.inside(name, *words)

    @staticmethod
    def missing():
        if why := Etcd.missing():
            return why
        if not os.access("/etc/netns" if os.path.exists("/etc/netns") else "/etc", os.W_OK):
            return "nobody may write to /etc/netns on this machine"
        own = f"sgt{os.getpid()}try"
        made = f"ip netns add {own} && ip -n {own} link add name a type bridge && ip -n {own} link add name b type veth peer name c"
        tried = subprocess.run(["sh", "-c", f"{made} && ip netns exec {own} true; status=$?; ip netns del {own}; exit $status"], **QUIET, check=False)
        return "this machine lets nobody make network namespaces" if tried.returncode else None

    def command(self, *words):
        subprocess.run(words, check=True, capture_output=True, timeout=SECONDS)

    def inside(self, name, *words):
        """Changes the network of a host, or without a name that of the switch."""
        self.command("ip", "-n", self.own + name, *words)

    def start(self, name, script):
        """Starts a shell script on a host."""
        log = open(self.folder / f"log-{name}", "wb")  # noqa: SIM115
        words = ["ip", "netns", "exec", self.own + name, "sh", "-c", script]
        self.processes.append(subprocess.Popen(words, stdout=log, stderr=log, start_new_session=True, env=ENVIRONMENT))

    def connect(self, name, is_up):
        """Plugs a host in, or cuts it off."""
        self.inside("", "link", "set", "dev", name, "up" if is_up else "down")

    def ask(self, name, *requests, inside=""):
        """What a server replies to requests, or None if it does not for some seconds. The client is beside the switch, or on a host."""
        address = "127.0.0.1" if inside else f"10.77.0.{self.names.index(name) + 1}"
        lines = "".join(json.dumps(request) + "\n" for request in requests)
        code = f"import socket; s = socket.create_connection(({address!r}, 7070), 4); s.sendall({lines.encode()!r}); f = s.makefile(); print(*[f.readline() for _ in range({len(requests)})])"
        ran = subprocess.run(["ip", "netns", "exec", self.own + inside, sys.executable, "-c", code], capture_output=True, text=True, check=False, timeout=SECONDS)
        replies = [json.loads(line) for line in ran.stdout.splitlines() if line.strip()]
        return replies if len(replies) == len(requests) else None

    def end(self):
        for process in self.processes:
            with contextlib.suppress(ProcessLookupError):
                os.killpg(process.pid, signal.SIGKILL)
            process.wait()
        for name in ("", *self.names):
            subprocess.run(["ip", "netns", "del", self.own + name], **QUIET, check=False)
            shutil.rmtree(f"/etc/netns/{self.own}{name}", ignore_errors=True)


class Redis:
    """A Redis with these options, and the address of a journal in it."""

    def __init__(self, folder, *words):
        (self.port,) = free_ports(1)
        self.command = ["redis-server", "--port", str(self.port), "--dir", str(folder), "--save", ""]
        self.command += words or ("--appendonly", "yes", "--appendfsync", "always")
        self.address, self.python, self.process = f"redis://127.0.0.1:{self.port}/bank", python_with("redis"), None

    def begin(self):
        self.process = subprocess.Popen(self.command, **QUIET)
        wait_until(lambda: can_connect(self.port), "a Redis that listens")

    @staticmethod
    def missing():
        if not shutil.which("redis-server"):
            return "there is no redis-server on this machine"
        return None if python_with("redis") else "there is no python3-redis on this machine"

    def away(self, seconds):
        with self.silent():
            time.sleep(seconds)

    @contextlib.contextmanager
    def silent(self):
        """It takes connections, and does not answer."""
        self.process.send_signal(signal.SIGSTOP)
        try:
            yield
        finally:
            self.process.send_signal(signal.SIGCONT)

    def end(self):
        if self.process:
            self.process.kill()
            self.process.wait()


INITDB = "/usr/lib/postgresql/*/bin/initdb"


class Postgres:
    """A PostgreSQL with these options, and the address of a journal in it."""

    def __init__(self, folder, *words):
        self.folder, self.bin, self.has_begun = folder / "postgres", os.path.dirname(sorted(glob.glob(INITDB))[-1]), False
        (self.port,) = free_ports(1)
        self.options = f"-p {self.port} -c unix_socket_directories= -c listen_addresses=127.0.0.1 {' '.join(words)}"
        self.address, self.python = f"postgresql://postgres@127.0.0.1:{self.port}/postgres", python_with("psycopg2")

    @staticmethod
    def as_user():
        """The words before a command: PostgreSQL refuses to run as root."""
        return ["runuser", "-u", "postgres", "--"] if os.getuid() == 0 else []

    @staticmethod
    def missing_server():
        """What is missing here, if anything is, but for what a client takes."""
        if not glob.glob(INITDB):
            return "there is no PostgreSQL on this machine"
        try:  # an installation may have been broken off
            for words in (("test", "-x", tempfile.gettempdir()), (f"{os.path.dirname(sorted(glob.glob(INITDB))[-1])}/postgres", "--version")):
                subprocess.run([*Postgres.as_user(), *words], **QUIET, check=True)
        except (OSError, subprocess.SubprocessError):
            return f"no user postgres who can use {tempfile.gettempdir()}, and run PostgreSQL, is on this machine"
        return little_space(300)

    @staticmethod
    def missing():
        return Postgres.missing_server() or (None if python_with("psycopg2") else "there is no python3-psycopg2 on this machine")

    def begin(self):
        self.folder.mkdir()
        if self.as_user():
            os.chown(self.folder, pwd.getpwnam("postgres").pw_uid, -1)
            for it in self.folder.parents:
                if str(it).startswith(tempfile.gettempdir() + "/"):
                    it.chmod(0o755)
        self.run("initdb", "-D", self.folder / "data", "-A", "trust", "--no-sync", "--locale=C", "-U", "postgres")
        self.start()

    def start(self):
        self.has_begun = True
        self.run("pg_ctl", "-D", self.folder / "data", "-o", self.options, "-l", self.folder / "log", "-t", SECONDS, "-w", "start")

    def run(self, program, *words):
        command = [*self.as_user(), f"{self.bin}/{program}", *map(str, words)]
        ran = subprocess.run(command, **QUIET, check=False, cwd=self.folder, timeout=2 * SECONDS)
        if ran.returncode:
            raise Differs(f"{program} ends with {ran.returncode}")

    def command(self, text):
        """Changes its configuration."""
        for it in (text, "select pg_reload_conf()"):
            self.run("psql", "-h", "127.0.0.1", "-p", self.port, "-U", "postgres", "-q", "-c", it)

    def away(self, seconds):
        """It is killed, and begins anew after so long."""
        self.end()
        time.sleep(seconds)
        self.start()

    @contextlib.contextmanager
    def silent(self):
        """It takes connections, and does not answer."""
        first = (self.folder / "data" / "postmaster.pid").read_text().split()[0]
        stopped = [int(it) for it in (first, *pathlib.Path(f"/proc/{first}/task/{first}/children").read_text().split())]
        for it in stopped:
            os.kill(it, signal.SIGSTOP)
        try:
            yield
        finally:
            for it in stopped:
                with contextlib.suppress(ProcessLookupError):  # one may have been asked to end before it was stopped
                    os.kill(it, signal.SIGCONT)

    def end(self):
        if self.has_begun:
            self.run("pg_ctl", "-D", self.folder / "data", "-m", "immediate", "-t", SECONDS, "-w", "stop")


@contextlib.contextmanager
def running(kind, folder, *words):
    """One of these, ended at the end."""
    one = kind(pathlib.Path(folder), *words)
    try:
        one.begin()
        yield one
    finally:
        one.end()
