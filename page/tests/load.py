#!/usr/bin/python3
"""HTTP that is wrong in every way, then 200 connections at once, with the page under the sanitizers: nothing crashes, nothing grows, and the gateway's frames do not wait.
usage: page/tests/load.py [REQUESTS]     how many wrong requests, 4,000"""
import json
import os
import random
import socket
import struct
import subprocess
import sys
import threading
import time

from bench import Bench, Checks, Hand

MEASURED = 22  # seconds: the gateway's "of late" is 10 to 20
checks = Checks("load")
check = checks.check

SEEDS = [
    b"GET / HTTP/1.1\r\nHost: HOST\r\n\r\n",
    b"GET /main.js HTTP/1.1\r\nHost: HOST\r\nIf-None-Match: \"0\"\r\n\r\n",
    b"GET /api/status HTTP/1.1\r\nHost: HOST\r\nCookie: COOKIE\r\n\r\n",
    b"GET /api/events HTTP/1.1\r\nHost: HOST\r\nCookie: COOKIE\r\nConnection: close\r\n\r\n",
    b"GET /api/history HTTP/1.0\r\nHost: HOST\r\nCookie: COOKIE; a=b; COOKIE\r\n\r\n",
    b"HEAD /api/bundle HTTP/1.1\r\nHost: HOST\r\nCookie: COOKIE\r\n\r\n",
    b"POST /api/login HTTP/1.1\r\nHost: HOST\r\nOrigin: http://HOST\r\nContent-Type: application/json\r\nContent-Length: 33\r\n\r\n{\"user\":\"an\\u0061\",\"password\":\"x\"}",
    b"POST /api/command HTTP/1.1\r\nHost: HOST\r\nOrigin: http://HOST\r\nContent-Type: application/json\r\nCookie: COOKIE\r\nX-Token: TOKEN\r\nContent-Length: 30\r\n\r\n{\"do\":\"read\",\"from\":1,\"to\":2}\n",
    b"POST /api/command HTTP/1.1\r\nHost: HOST\r\nOrigin: http://HOST\r\nContent-Type: application/json\r\nCookie: COOKIE\r\nX-Token: TOKEN\r\nTransfer-Encoding: chunked\r\n\r\n"
    b"1E\r\n{\"do\":\"ask\",\"from\":1,\"pgn\":0,\"\r\nc\r\nsource\":33}  \r\n0\r\n\r\n",
    b"POST /api/logout HTTP/1.1\r\nHost: HOST\r\nOrigin: http://HOST\r\nContent-Type: application/json\r\nCookie: COOKIE\r\nX-Token: wrong\r\nContent-Length: 2\r\n\r\n{}",
    b"OPTIONS * HTTP/1.1\r\nHost: HOST\r\n\r\n",
    b"GET /../../etc/passwd HTTP/1.1\r\nHost: HOST\r\n\r\nGET /%2e%2e/%00 HTTP/1.1\r\nHost: HOST\r\n\r\n",
]
PIECES = [b"\r\n", b"\n", b"\0", b" ", b":", b"Content-Length: 99999999999999999999\r\n", b"Content-Length: -1\r\n", b"Transfer-Encoding: chunked\r\n", b"Host: evil\r\n", b"%", b"\xff\xfe", b"A" * 5000,
          b"{\"do\":", b"[" * 400, b"\"\\ud800\"", b"Cookie: " + b"a=b; " * 300 + b"\r\n", b"ffffffffffffffff\r\n", b"/" * 300, b"?a=b&a", b"HTTP/9.9", b"Expect: 100-continue\r\n", b"Range: bytes=0-\r\n"]


def mutate(seed, chance):
    data = bytearray(seed)
    for _ in range(chance.randrange(0, 6)):
        place = chance.randrange(0, len(data) + 1)
        kind = chance.randrange(0, 5)
        if kind == 0 and place < len(data):
            data[place] = chance.randrange(256)
        elif kind == 1:
            data[place:place] = chance.choice(PIECES)
        elif kind == 2:
            del data[place:place + chance.randrange(1, 20)]
        elif kind == 3:
            data = data[:place]
        else:
            data += chance.choice(SEEDS)
    return bytes(data)


def fuzz(bench, hand, count):
    chance = random.Random(42)
    host, port = bench.host.split(":")
    answered = closed = 0
    for number in range(count):
        data = mutate(chance.choice(SEEDS), chance).replace(b"HOST", bench.host.encode()).replace(b"COOKIE", hand.cookie.encode()).replace(b"TOKEN", hand.token.encode())
        with socket.create_connection((host, int(port)), timeout=5) as client:
            try:
                if number % 7 == 0:
                    half = len(data) // 2
                    client.sendall(data[:half])
                    client.sendall(data[half:])
                else:
                    client.sendall(data)
                client.settimeout(0.02)
                answered += client.recv(16) != b""
            except OSError:
                closed += 1
        if number % 500 == 0 and bench.page.poll() is not None:
            break
    return answered, closed


def resident(process):
    with open(f"/proc/{process.pid}/status", encoding="ascii") as file:
        for line in file:
            if line.startswith("VmRSS"):
                return int(line.split()[1])
    return 0


def descriptors(process):
    return len(os.listdir(f"/proc/{process.pid}/fd"))


class Delays:
    """Frames across the bridge, one each 10 ms, and how long each took."""

    def __init__(self, bench):
        self.bench, self.running, self.sent = bench, True, {}
        self.begin = len(bench.buses[1].heard)
        self.thread = threading.Thread(target=self.run)
        self.thread.start()

    def run(self):
        number = 0
        while self.running:
            self.sent[number] = time.monotonic()
            self.bench.buses[0].send(0x0CFEF121, struct.pack("<Q", number))
            number += 1
            time.sleep(0.01)

    def end(self):
        self.running = False
        self.thread.join()
        time.sleep(0.3)
        took = sorted(at - self.sent[struct.unpack("<Q", data)[0]] for at, identifier, data, _ in self.bench.buses[1].heard[self.begin:] if identifier == 0x0CFEF121 and len(data) == 8)
        return len(self.sent), took


def told(bench, words, delays):
    sent, took = delays.end()
    loop = bench.status()["loop"]
    ms = [1000 * value for value in took]
    print(f"      {words}: worst turn of the gateway's loop of late {loop['recent_worst_us']} us; {sent} frames across, {len(ms)} came: median {ms[len(ms) // 2]:.2f} ms, "
          f"99 % {ms[len(ms) * 99 // 100]:.2f} ms, worst {ms[-1]:.2f} ms", flush=True)
    return loop["recent_worst_us"], sent - len(ms)


def wrk(bench, hand, path, seconds):
    out = subprocess.run(["wrk", "-t2", "-c200", f"-d{seconds}s", "--timeout", "10s", "-H", f"Cookie: {hand.cookie}", f"http://{bench.host}{path}"], capture_output=True, text=True, check=False).stdout
    print("      " + " · ".join(line.strip() for line in out.splitlines() if "requests in" in line or "Requests/sec" in line or "Socket errors" in line or "Non-2xx" in line), flush=True)
    return "Non-2xx" not in out and "requests in" in out


def slow_clients(bench, hand, count):
    """Who listens and does not read, and who never ends its request."""
    host, port = bench.host.split(":")
    clients = []
    for number in range(count):
        client = socket.create_connection((host, int(port)))
        client.sendall(f"GET /api/events HTTP/1.1\r\nHost: {bench.host}\r\nCookie: {hand.cookie}\r\n{'' if number % 2 else chr(13) + chr(10)}".encode())
        clients.append(client)
    return clients


def limits_of_password(bench):
    hand = Hand(bench)
    statuses = [hand.sign_in("otto", "wrong")[0] for _ in range(7)]
    check("five wrong passwords at once, then wait", statuses == [403] * 5 + [429] * 2 and int(hand.headers["Retry-After"]) >= 1, statuses)
    check("which the right one has to as well", hand.sign_in("otto")[0] == 429)
    check("and another user has not", hand.sign_in("vera")[0] == 200)


def foreign_requests(bench, hand):
    body = {"do": "read", "from": 1, "to": 2}
    check("a command of the user's own page: done", hand.ask("POST", "/api/command", body)[0] == 200)
    for words, changed, wanted in (("another host", {"Host": "evil.example"}, 403), ("no host", {"Host": None}, 400), ("another origin", {"Origin": "http://evil.example"}, 403),
                                   ("no origin", {"Origin": None}, 403), ("origin null", {"Origin": "null"}, 403), ("no token", {"X_Token": None}, 403), ("a wrong token", {"X_Token": "0" * 32}, 403),
                                   ("no cookie", {"Cookie": None}, 401), ("a wrong cookie", {"Cookie": hand.cookie[:-1] + ("0" if hand.cookie[-1] != "0" else "1")}, 401),
                                   ("a form's type", {"Content_Type": "text/plain"}, 415), ("another site by the browser's word", {"Sec_Fetch_Site": "cross-site"}, 403)):
        status, _ = hand.ask("POST", "/api/command", body, **changed)
        check(f"{words}: {wanted}", status == wanted, status)
    check("a command by GET: 405", hand.ask("GET", "/api/command")[0] == 405)
    check("events for another site: 403", hand.ask("GET", "/api/events", Sec_Fetch_Site="cross-site")[0] == 403)
    check("a body of over 16 KB: the connection ends", too_long(bench, hand))
    check("nothing beside the page's files", all(hand.ask("GET", path)[0] == 404 for path in ("/../users", "/users", "/page.css/", "/index.html%00", "//", "/api/", "/.git/config")))
    status, _ = hand.ask("GET", "/")
    check("no response without its headers", "default-src 'none'" in hand.headers["Content-Security-Policy"] and "unsafe" not in hand.headers["Content-Security-Policy"]
          and hand.headers["X-Content-Type-Options"] == "nosniff" and "Access-Control-Allow-Origin" not in hand.headers)


def too_long(bench, hand):
    try:
        return hand.ask("POST", "/api/command", b"{" + b" " * 20000 + b"}")[0] >= 400
    except OSError:
        return True
    except Exception:  # http.client has names of its own for an answer that is none
        return True


def users_again(bench, hand):
    """SIGHUP: whoever is not in the file any more has no session."""
    with open("users", encoding="utf-8") as file:
        lines = file.readlines()
    check("vera is in", hand.ask("GET", "/api/status")[0] == 200)
    with open("users", "w", encoding="utf-8") as file:
        file.writelines(line for line in lines if not line.startswith("vera "))
    bench.page.send_signal(1)
    time.sleep(0.5)
    check("and out when the users file says so", hand.ask("GET", "/api/status")[0] == 401)


def https(bench):
    """Another address than the loopback needs a certificate, and has it."""
    from bench import PAGE
    refused = subprocess.run([PAGE, "--status", "status", "--control", "control", "--users", "users", "--listen", "0.0.0.0:0"], capture_output=True, text=True, check=False)
    check("without a certificate it does not listen beyond the loopback", refused.returncode == 2 and "needs --certificate" in refused.stderr, refused.stderr)
    subprocess.run(["openssl", "req", "-x509", "-newkey", "rsa:2048", "-nodes", "-keyout", "key.pem", "-out", "certificate.pem", "-days", "2", "-subj", "/CN=localhost"],
                   check=True, capture_output=True)
    bench.stop_page()
    address = bench.start_page("--certificate", "certificate.pem", "--key", "key.pem")
    out = subprocess.run(["curl", "-sik", "-H", f"Origin: {address.rstrip('/')}", "-H", "Content-Type: application/json", "-d", json.dumps({"user": "anna", "password": bench.passwords["anna"]}),
                          f"{address}api/login"], capture_output=True, text=True, check=False).stdout
    check("with one it is https, and the cookie Secure", address.startswith("https://") and "200 OK" in out and "; Secure" in out, out[:300])


def main():
    count = int(sys.argv[1]) if len(sys.argv) > 1 else 4000
    bench = Bench("target/page/load", bitrate=1000000, tap=False)
    bench.environment["ASAN_OPTIONS"] += ":quarantine_size_mb=8"
    bench.start_gateway("1 2 pass 65265\n")
    bench.make_users()
    bench.start_page()
    hand, vera = Hand(bench), Hand(bench)
    try:
        hand.sign_in("anna")
        foreign_requests(bench, hand)
        limits_of_password(bench)
        vera.sign_in("vera")
        users_again(bench, vera)
        answered, closed = fuzz(bench, hand, count)
        print(f"      {count} wrong requests: {answered} answered, {closed} closed or left waiting", flush=True)
        check("wrong requests: the page still answers", bench.page.poll() is None and hand.ask("GET", "/api/session")[0] == 200)
        delays = Delays(bench)
        time.sleep(MEASURED)
        quiet, missing = told(bench, "without load", delays)
        check("every frame came", missing == 0, missing)
        wrk(bench, hand, "/api/status", 4)
        before, open_before = resident(bench.page), descriptors(bench.page)
        delays = Delays(bench)
        slow = slow_clients(bench, hand, 24)
        fine = wrk(bench, hand, "/api/status", MEASURED // 2) and wrk(bench, hand, "/list.js", MEASURED // 2)
        loaded, missing = told(bench, "200 connections at once and 24 that do not read", delays)
        check("200 connections at once: every answer is one", fine)
        check("every frame came all the same", missing == 0, missing)
        check("and the gateway's loop had no worse turn than 50 ms", loaded < 50000, (quiet, loaded))
        for client in slow:
            client.close()
        time.sleep(2)
        after, open_after = resident(bench.page), descriptors(bench.page)
        print(f"      resident before {before} KB, after {after} KB; descriptors {open_before}, {open_after}", flush=True)
        check("nothing grows", after < before * 1.25 + 8192 and open_after <= open_before + 2, (before, after, open_before, open_after))
        check("the page answers as before", hand.ask("GET", "/api/session")[0] == 200)
        https(bench)
    finally:
        status = bench.stop_page()
        bench.close()
    check("the page ends with status 0", status == 0, status)
    check("the sanitizers have nothing to say", bench.sanitizer_words() == "", bench.sanitizer_words())
    return checks.end()


if __name__ == "__main__":
    sys.exit(main())
