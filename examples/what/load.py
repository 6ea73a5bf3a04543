"""load.py http|memcached PORT PROCESS: asks a server many things, says so, and holds some connections until the process
is gone."""
import os
import socket
import sys
import time


def ask(port, request):
    """A connection on which this was asked and answered."""
    connection = socket.create_connection(("127.0.0.1", port))
    connection.settimeout(1)
    connection.sendall(request)
    try:
        connection.recv(65536)
    except OSError:
        pass
    return connection


def http(number):
    """A request that differs from the others."""
    path = ("/", "/a.txt", f"/missing{number}", "/dir/", f"/b.html?x={number}")[number % 5]
    lines = [f"GET {path} HTTP/1.1", f"Host: example{number % 5}.org", f"User-Agent: load/{number}",
             f"Cookie: id={number}"]
    lines += ["Range: bytes=0-9"] if number % 4 == 0 else []
    return "".join(line + "\r\n" for line in lines + ([] if number % 3 else ["Connection: close"]) + [""]).encode()


def memcached(number):
    """A few commands."""
    value = "x" * (20 + number)
    return f"set key{number} 0 0 {len(value)}\r\n{value}\r\nget key{number}\r\nstats\r\n".encode()


request, port = {"http": http, "memcached": memcached}[sys.argv[1]], int(sys.argv[2])
kept = []
for each in range(400):
    opened = ask(port, request(each))
    if each % 6 < 4:
        opened.close()
    else:
        kept.append(opened)
print("asked", flush=True)
while os.path.exists(f"/proc/{sys.argv[3]}"):
    time.sleep(0.2)
