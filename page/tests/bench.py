"""A gateway on buses without CAN, a tap on its control socket, the page over both, and browsers: what the tests of the page stand on."""
import http.client
import json
import os
import signal
import socket
import struct
import subprocess
import threading
import time

ROOT = os.path.abspath(os.path.join(os.path.dirname(__file__), "..", ".."))
GATEWAY = os.environ.get("GATEWAY_PROGRAMS", os.path.join(ROOT, "target/gateway"))
PAGE = os.environ.get("PAGE_PROGRAM", os.path.join(ROOT, "target/page/sanitized/deorasaeng-page"))
NAME = "20001C000AC00123"
# The fourth bus has a name that would be markup.
HOSTILE_BUS = "<img src=x onerror=hurt()>"
BUSES = ["tractor", "baler", "sprayer", HOSTILE_BUS]
HOSTILE_USER = "<svg/onload=hurt()>"
USERS = {"anna": "owner", "otto": "owner", "ben": "fitter:2", "vera": "viewer", HOSTILE_USER: "owner"}
CAN_EFF_FLAG = 0x80000000


def wait_for(what, seconds=10.0, every=0.05):
    """The first value that is true, or None after so long."""
    end = time.monotonic() + seconds
    while time.monotonic() < end:
        value = what()
        if value:
            return value
        time.sleep(every)
    return None


class Checks:
    """A line for each check; the last line is `N passed, M failed`."""

    def __init__(self, subject):
        self.subject, self.passed, self.failed = subject, 0, 0

    def check(self, words, holds, got=""):
        if holds:
            self.passed += 1
            print(f"ok    {words}", flush=True)
        else:
            self.failed += 1
            print(f"FAIL  {words}  {str(got)[:600]}", flush=True)

    def end(self):
        print(f"{self.subject}: {self.passed} passed, {self.failed} failed", flush=True)
        return 0 if self.failed == 0 else 1


class Bus:
    """A client of a bus without CAN."""

    def __init__(self, path):
        self.socket = socket.socket(socket.AF_UNIX, socket.SOCK_SEQPACKET)
        self.socket.connect(path)
        threading.Thread(target=self.read, daemon=True).start()
        self.heard = []

    def read(self):
        try:
            while True:
                packet = self.socket.recv(64)
                if not packet:
                    return
                if len(packet) == 16:
                    identifier, length, _, echo = struct.unpack_from("<IBBB", packet)
                    self.heard.append((time.monotonic(), identifier & 0x1FFFFFFF, packet[8:8 + length], echo))
        except OSError:
            return

    def send(self, identifier, data=b""):
        self.socket.send(struct.pack("<IBBBB8s", identifier | CAN_EFF_FLAG, len(data), 0, 0, 0, data.ljust(8, b"\0")))

    def claim(self, address, name):
        self.send(0x18EEFF00 | address, struct.pack("<Q", name))


class Tap:
    """Stands between the page and the gateway's control socket, and keeps what goes through."""

    def __init__(self, path, behind):
        self.lines, self.behind = [], behind
        if os.path.exists(path):
            os.unlink(path)
        self.listener = socket.socket(socket.AF_UNIX, socket.SOCK_STREAM)
        self.listener.bind(path)
        self.listener.listen(8)
        threading.Thread(target=self.run, daemon=True).start()

    def run(self):
        while True:
            client, _ = self.listener.accept()
            threading.Thread(target=self.serve, args=(client,), daemon=True).start()

    def serve(self, client):
        try:
            asked = client.makefile("rb").readline()
            with socket.socket(socket.AF_UNIX, socket.SOCK_STREAM) as gateway:
                gateway.connect(self.behind)
                gateway.sendall(asked)
                answer = gateway.makefile("rb").readline()
            self.lines.append((asked, answer))
            client.sendall(answer)
        except OSError:
            pass
        finally:
            client.close()


class Bench:
    """All of it, in a folder of its own; names are short, as a socket's path has to be."""

    def __init__(self, folder, bitrate=250000, tap=True):
        self.folder = os.path.join(ROOT, folder)
        os.makedirs(self.folder, exist_ok=True)
        os.chdir(self.folder)
        for name in os.listdir("."):
            if os.path.isfile(name) or os.path.exists(name) and not os.path.isdir(name):
                os.unlink(name)
        self.environment = dict(os.environ, ASAN_OPTIONS="log_path=sanitizer:detect_leaks=1", UBSAN_OPTIONS="log_path=sanitizer:print_stacktrace=1")
        self.buses_process = subprocess.Popen([f"{GATEWAY}/deorasaeng-bus", "serve", "--bitrate", str(bitrate), *BUSES], stdout=subprocess.DEVNULL)
        wait_for(lambda: all(os.path.exists(bus) for bus in BUSES))
        self.buses = [Bus(bus) for bus in BUSES]
        self.gateway = self.page = None
        self.passwords = {}
        self.tap = Tap("tap", "control") if tap else None

    def start_gateway(self, lists="", *options):
        """With a lists file of that text; None for no file."""
        arguments = []
        if lists is not None:
            with open("lists", "w", encoding="ascii") as file:
                file.write(lists)
            arguments = ["--lists", "lists"]
        return self.run_gateway(*arguments, *options)

    def run_gateway(self, *options):
        with open("gateway.log", "a", encoding="ascii") as log:
            self.gateway = subprocess.Popen([f"{GATEWAY}/deorasaeng-gateway", "--name", NAME, "--address", "128", "--status", "status", "--control", "control",
                                             *options, *[f"unix:{bus}" for bus in BUSES]], stderr=log)
        return wait_for(lambda: self.status().get("unit", {}).get("state") == "Claimed")

    def stop_gateway(self, number=signal.SIGTERM):
        if self.gateway:
            self.gateway.send_signal(number)
            self.gateway.wait()
        self.gateway = None

    def status(self):
        try:
            with socket.socket(socket.AF_UNIX, socket.SOCK_STREAM) as client:
                client.settimeout(2)
                client.connect("status")
                return json.loads(client.makefile("rb").read() or b"{}")
        except (OSError, ValueError):
            return {}

    def list_of(self, from_port, to_port):
        for one in self.status().get("lists", []):
            if one["from"] == from_port and one["to"] == to_port:
                return one
        return None

    def control(self, request):
        """A command beside the page."""
        with socket.socket(socket.AF_UNIX, socket.SOCK_STREAM) as client:
            client.connect("control")
            client.sendall(json.dumps(request).encode() + b"\n")
            return json.loads(client.makefile("rb").readline())

    def make_users(self):
        for number, (user, role) in enumerate(USERS.items()):
            self.passwords[user] = f"secret \"\\{number} ä/<b>"
            subprocess.run([PAGE, "--users", "users", "--set", user, role], input=self.passwords[user].encode() + b"\n", check=True)

    def start_page(self, *options):
        self.page_log = open("page.log", "w+b")
        self.page = subprocess.Popen([PAGE, "--status", "status", "--control", "tap" if self.tap else "control", "--users", "users", "--listen", "127.0.0.1:0", *options],
                                     stderr=self.page_log, env=self.environment)

        def address():
            with open("page.log", encoding="utf-8", errors="replace") as log:
                for line in log:
                    if "listens at " in line:
                        return line.split("listens at ")[1].split(",")[0]
            return None
        self.address = wait_for(address)
        self.host = self.address.split("//")[1].rstrip("/")
        return self.address

    def stop_page(self):
        self.page.send_signal(signal.SIGTERM)
        return self.page.wait(20)

    def sanitizer_words(self):
        words = ""
        for name in sorted(os.listdir(self.folder)):
            if name.startswith("sanitizer"):
                with open(os.path.join(self.folder, name), encoding="utf-8", errors="replace") as file:
                    words += file.read()
        return words

    def close(self):
        self.stop_gateway()
        self.buses_process.terminate()
        self.buses_process.wait()


class Hand:
    """Requests made by hand, as a program would that is no browser."""

    def __init__(self, bench):
        self.bench, self.cookie, self.token = bench, None, None

    def ask(self, method, path, body=None, **changed):
        headers = {"Host": self.bench.host, "Origin": f"http://{self.bench.host}", "Content-Type": "application/json", "Cookie": self.cookie, "X-Token": self.token}
        headers.update({name.replace("_", "-"): value for name, value in changed.items()})
        connection = http.client.HTTPConnection(self.bench.host, timeout=10)
        try:
            connection.putrequest(method, path, skip_host=True, skip_accept_encoding=True)
            data = None if body is None else body if isinstance(body, bytes) else json.dumps(body).encode()
            for name, value in headers.items():
                if value is not None:
                    connection.putheader(name, value)
            if data is not None:
                connection.putheader("Content-Length", str(len(data)))
            connection.endheaders(data)
            response = connection.getresponse()
            text = response.read()
            self.headers = dict(response.getheaders())
            try:
                return response.status, json.loads(text)
            except ValueError:
                return response.status, text
        finally:
            connection.close()

    def sign_in(self, user, password=None):
        status, answer = self.ask("POST", "/api/login", {"user": user, "password": password or self.bench.passwords[user]})
        if status == 200:
            self.cookie = self.headers["Set-Cookie"].split(";")[0]
            self.token = answer["token"]
        return status, answer
