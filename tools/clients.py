"""What tools/agree and tools/kill-server share: a server, machines of `tw` and of Taskwarrior 3, and a relay.

Taskwarrior 3 is run in the Debian root that the variable TW_DEBIAN_ROOT names, by chroot, so as root. All traffic is to 127.0.0.1.
"""

import json
import os
import socket
import subprocess
import threading
import time

HERE = os.path.dirname(os.path.abspath(__file__))
ROOT = os.environ.get("TW_DEBIAN_ROOT", "").rstrip("/")
NIL = "00000000-0000-0000-0000-000000000000"


def program_of(words):
    return os.path.abspath(words[0] if words else os.path.join(HERE, "../crates/tw/out/tw"))


def in_root(*words, **more):
    return subprocess.run(["chroot", ROOT, *words], capture_output=True, check=False, **more)


def taskwarrior():
    """The version of the root's Taskwarrior if it is a third one, else None."""
    if not ROOT or os.geteuid() != 0:
        return None
    version = in_root("task", "--version").stdout.decode().strip()
    return version if version.startswith("3.") else None


class Server:
    """`tw server` over a file, on a free port that it keeps."""

    def __init__(self, program, file):
        self.program, self.file = program, file
        with socket.socket() as one:
            one.bind(("127.0.0.1", 0))
            self.port = one.getsockname()[1]
        self.start()

    def start(self):
        """Starts it, and waits until it listens. A port that was just left may be refused for a moment (status 5)."""
        words = [self.program, "server", str(self.port), self.file]
        for _ in range(100):
            self.run = subprocess.Popen(words, env={"TZ": ""}, stdout=subprocess.DEVNULL, stderr=subprocess.DEVNULL)
            while self.run.poll() is None:
                if self.is_listening():
                    return
                time.sleep(0.01)
            if self.run.returncode != 5:
                break
            time.sleep(0.1)
        raise SystemExit(f"the server does not listen: status {self.run.returncode}")

    def is_listening(self):
        with open("/proc/net/tcp", encoding="ascii") as rows:
            return any(f"0100007F:{self.port:04X} 00000000:0000 0A" in row for row in rows)

    def kill(self):
        self.run.kill()
        self.run.wait()


class Machine:
    """A machine with tasks of its own. Its program is `tw task`."""

    named = "tw"

    def __init__(self, at, folder, port, client):
        self.program, self.folder = at, folder
        os.makedirs(folder)
        with open(os.path.join(folder, "rc"), "w", encoding="utf-8") as rc:
            rc.write(self.settings(port, client))

    def settings(self, port, client):
        return f"sync.server.url=http://127.0.0.1:{port}\nsync.server.client_id={client}\n"

    def words(self):
        return [self.program, "task"]

    def home(self):
        return self.folder

    def do(self, *words, data=b"", timeout=600):
        home = self.home()
        env = {"PATH": "/usr/sbin:/usr/bin:/sbin:/bin", "HOME": home, "TASKDATA": home + "/data", "TASKRC": home + "/rc", "TZ": "", "LANG": "C.UTF-8"}
        return subprocess.run([*self.words(), *words], env=env, input=data, capture_output=True, check=False, timeout=timeout)

    def must(self, *words, data=b""):
        done = self.do(*words, data=data)
        if done.returncode:
            raise SystemExit(f"{self.named} {' '.join(words)}: status {done.returncode}, {done.stderr.decode()}")
        return done.stdout

    def sync(self, port=None):
        """The status of a sync, by way of another port if one is given."""
        way = [f"rc.sync.server.url=http://127.0.0.1:{port}"] if port else []
        return self.do(*way, "sync").returncode

    def take(self, tasks):
        self.must("import", "-", data=json.dumps(tasks).encode())

    def tasks(self):
        """Description and project by uuid."""
        return {one["uuid"]: (one.get("description"), one.get("project")) for one in json.loads(self.must("export"))}


class Taskwarrior(Machine):
    """The same with the root's Taskwarrior, whose folder is inside of the root."""

    named = "Taskwarrior"

    def settings(self, port, client):
        own = "confirmation=off\nverbose=nothing\nhooks=off\nnews.version=99.9.9\nsync.encryption_secret=a secret\n"
        return own + super().settings(port, client)

    def words(self):
        return ["chroot", ROOT, "task"]

    def home(self):
        return self.folder[len(ROOT) :]


class Relay:
    """Hands requests on to a server, and the replies back. `meet` sees each request line before it goes on, and may refuse it."""

    def __init__(self, to, meet):
        self.to, self.meet = to, meet
        self.listen = socket.socket()
        self.listen.bind(("127.0.0.1", 0))
        self.listen.listen(8)
        self.port = self.listen.getsockname()[1]
        threading.Thread(target=self.serve, daemon=True).start()

    def serve(self):
        while True:
            near, _ = self.listen.accept()
            with near:
                request = self.request_of(near)
                if request and self.meet(request.split(b"\r\n", 1)[0].decode("latin1")):
                    self.hand_on(request, near)

    def request_of(self, near):
        got = b""
        while True:
            head, end, body = got.partition(b"\r\n\r\n")
            if end:
                lengths = [line[15:] for line in head.lower().split(b"\r\n") if line.startswith(b"content-length:")]
                if len(body) >= int((lengths or [b"0"])[0]):
                    return got
            some = near.recv(1 << 16)
            if not some:
                return b""
            got += some

    def hand_on(self, request, near):
        with socket.create_connection(("127.0.0.1", self.to)) as far:
            far.sendall(request)
            while some := far.recv(1 << 16):
                near.sendall(some)
