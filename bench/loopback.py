"""A client of the service on the loopback address: it sends requests one at a time or all at once, and takes the replies."""

import re
import socket
import sys
import threading
import time


def free_port():
    with socket.socket() as it:
        it.bind(("127.0.0.1", 0))
        return it.getsockname()[1]


def connect(port, server):
    for _ in range(500):
        try:
            client = socket.create_connection(("127.0.0.1", port))
            client.setsockopt(socket.IPPROTO_TCP, socket.TCP_NODELAY, 1)
            return client
        except ConnectionRefusedError:
            if server.poll() is not None:
                sys.exit(f"serve: {server.stderr.read().decode()}")
            time.sleep(0.01)
    sys.exit("serve: no connection")


def receive(client, most):
    part = client.recv(min(most, 65_536))
    if not part:
        sys.exit("serve: the connection was closed")
    return part


def skip(client, length):
    """Takes so many bytes of what is sent."""
    while length:
        length -= len(receive(client, length))


def reply_length(client):
    """The length of the next reply, which is taken."""
    head = b""
    while not head.endswith(b"\r\n\r\n"):
        head += receive(client, 1)
    body = int(re.search(rb"content-length: (\d+)", head)[1])
    skip(client, body)
    return len(head) + body


def in_turn(client, request, length, times):
    start = time.monotonic()
    for _ in range(times):
        client.sendall(request)
        skip(client, length)
    return time.monotonic() - start


def together(client, request, length, times):
    start = time.monotonic()
    writer = threading.Thread(target=client.sendall, args=(request * times,))
    writer.start()
    skip(client, length * times)
    writer.join()
    return time.monotonic() - start
