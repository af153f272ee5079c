#!/usr/bin/env python3
"""Lets clients fetch files through a tinyproxy, and send bytes through it that come back: each is to arrive as it was sent.

usage: fetches.py TINYPROXY DIRECTORY
"""
import hashlib
import http.client
import http.server
import os
import random
import socket
import subprocess
import sys
import threading
import time

CLIENTS = 40
ROUNDS = 6
LARGEST = 400_000


def bytes_of(number):
    """The bytes of a file, by its number."""
    drawn = random.Random(number)
    return drawn.randbytes(drawn.randrange(LARGEST))


class Origin(http.server.BaseHTTPRequestHandler):
    """Answers a GET with the bytes of a number, and a POST with what was posted."""

    protocol_version = "HTTP/1.1"

    def answer(self, content):
        self.send_response(200)
        self.send_header("Content-Length", str(len(content)))
        self.end_headers()
        self.wfile.write(content)

    def do_GET(self):
        self.answer(bytes_of(int(self.path[1:])))

    def do_POST(self):
        self.answer(self.rfile.read(int(self.headers["Content-Length"])))

    def log_message(self, *words):
        pass


class Server(http.server.ThreadingHTTPServer):
    daemon_threads = True
    request_queue_size = 128


def free_port():
    with socket.socket() as listener:
        listener.bind(("127.0.0.1", 0))
        return listener.getsockname()[1]


def wait_for(port, process):
    for _ in range(200):
        if process.poll() is not None:
            sys.exit(f"tinyproxy ended with {process.returncode}")
        try:
            socket.create_connection(("127.0.0.1", port), 1).close()
            return
        except OSError:
            time.sleep(0.05)
    sys.exit("tinyproxy doesn't listen")


def call(proxy, origin, client, turn, told):
    """One request: a GET or a POST as a proxy's client makes it, or either through a tunnel."""
    number = client * ROUNDS + turn
    wanted = bytes_of(number)
    tunnel = number % 3 == 2
    connection = http.client.HTTPConnection("127.0.0.1", proxy, timeout=60)
    if tunnel:
        connection.set_tunnel("127.0.0.1", origin)
    at = "" if tunnel else f"http://127.0.0.1:{origin}"
    if number % 2 == 0:
        connection.request("GET", f"{at}/{number}")
    else:
        connection.request("POST", f"{at}/{number}", wanted)
    answer = connection.getresponse()
    got = answer.read()
    connection.close()
    told.append((answer.status == 200 and hashlib.sha256(got).digest() == hashlib.sha256(wanted).digest(), len(got)))


def work(proxy, origin, client, told):
    for turn in range(ROUNDS):
        try:
            call(proxy, origin, client, turn, told)
        except OSError as error:
            print(f"client {client}, turn {turn}: {error}", flush=True)


def main():
    program, folder = sys.argv[1:]
    origin = Server(("127.0.0.1", 0), Origin)
    threading.Thread(target=origin.serve_forever, daemon=True).start()
    proxy = free_port()
    path = os.path.join(folder, "tinyproxy.conf")
    with open(path, "w", encoding="utf-8") as file:
        file.write(f"Port {proxy}\nListen 127.0.0.1\nAllow 127.0.0.1\nMaxClients 100\nTimeout 60\nLogLevel Error\n")
    process = subprocess.Popen([program, "-d", "-c", path])
    try:
        wait_for(proxy, process)
        told = []
        threads = [threading.Thread(target=work, args=(proxy, origin.server_port, client, told)) for client in range(CLIENTS)]
        for thread in threads:
            thread.start()
        for thread in threads:
            thread.join()
    finally:
        process.terminate()
        status = process.wait(30)
    good = sum(right for right, _ in told)
    if good != CLIENTS * ROUNDS or status != 0:
        sys.exit(f"{good} of {CLIENTS * ROUNDS} requests were answered rightly; status {status}")
    print(f"{good} requests of {CLIENTS} clients, {sum(size for _, size in told) // 1000} KB, each byte as it was sent")


if __name__ == "__main__":
    main()
