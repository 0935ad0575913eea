#!/usr/bin/env python3
"""What bench/chain.sh needs beside innd: something that offers articles, a silent peer, and the seconds of the logs.

    chain.py offer PORT COUNT PAUSE OCTETS   offers COUNT articles to the server at this port, each PAUSE seconds
                                             after the one before; with PAUSE 0 all at once
    chain.py silent                          prints its port; greets, takes every command and article, answers none
    chain.py watch FUNNEL                    prints when each message-id is in the funnel, a file or a directory
    chain.py each FROM TO [WATCHED]          of the articles that both logs of innd have accepted: how many, and the
                                             median, the 95th and 99th per cent and the maximum of the seconds from
                                             FROM to TO; with WATCHED also the median until the funnel had them
    chain.py all FROM TO [WATCHED]           how many, and when the first and the last was accepted by TO, in seconds
                                             after FROM accepted the first one; when FROM accepted its last one; with
                                             WATCHED also when the funnel had the first and the last
"""
import datetime
import os
import re
import socket
import statistics
import sys
import threading
import time

NONE = float("nan")


def offer(port, count, pause, octets):
    """Offers the articles by TAKETHIS, and reads the answers beside it."""
    stream = socket.create_connection(("127.0.0.1", port))
    lines = stream.makefile("rb")
    if not lines.readline().startswith(b"200"):
        sys.exit("chain.py: the server is not ready")
    stream.sendall(b"MODE STREAM\r\n")
    lines.readline()
    refused = []

    def answers():
        for _ in range(count):
            line = lines.readline()
            if not line.startswith(b"239"):
                refused.append(line)

    reader = threading.Thread(target=answers)
    reader.start()
    date = time.strftime("%a, %d %b %Y %H:%M:%S +0000", time.gmtime())
    body = ""
    while len(body) < octets - 300:
        body += "A line of an article, as long as most of them are, or so.\r\n"
    began = time.time()
    for n in range(1, count + 1):
        if pause:
            time.sleep(max(0.0, began + n * pause - time.time()))
        name = f"<{n}.{os.getpid()}@chain.bench>"
        stream.sendall((f"TAKETHIS {name}\r\nPath: poster!not-for-mail\r\nFrom: Bench <bench@chain.bench>\r\n"
                        f"Newsgroups: misc.test\r\nSubject: {n}\r\nMessage-ID: {name}\r\nDate: {date}\r\n\r\n"
                        f"{body}.\r\n").encode())
    reader.join()
    stream.close()
    if refused:
        sys.exit(f"chain.py: the server refused {len(refused)} articles: {refused[0].decode()}")


def silent():
    """Greets, agrees to MODE STREAM, and never answers again; what comes is read."""
    def serve(stream):
        try:
            stream.sendall(b"200 hi\r\n")
            stream.recv(1000)
            stream.sendall(b"203 ok\r\n")
            while stream.recv(65536):
                pass
        except OSError:
            pass

    listener = socket.create_server(("127.0.0.1", 0), backlog=4096)
    print(listener.getsockname()[1], flush=True)
    while True:
        stream, _ = listener.accept()
        threading.Thread(target=serve, args=(stream,), daemon=True).start()


def watch(funnel):
    """Reads on in the funnel a hundred times a second."""
    read = {}
    while True:
        paths = [os.path.join(funnel, name) for name in sorted(os.listdir(funnel))] if os.path.isdir(funnel) else [funnel]
        for path in paths:
            try:
                with open(path, "rb") as file:
                    file.seek(read.get(path, 0))
                    text = file.read()
            except OSError:
                continue
            text = text[:text.rfind(b"\n") + 1]
            read[path] = read.get(path, 0) + len(text)
            now = time.time()
            for name in re.findall(rb"<[^>\s]*>", text):
                print(f"{now:.3f} {name.decode()}")
            sys.stdout.flush()
        time.sleep(0.01)


def accepted(path):
    """When each article was accepted, by innd's log."""
    found, year = {}, time.gmtime().tm_year
    with open(path, errors="replace") as file:
        for line in file:
            words = line.split()
            if len(words) > 5 and words[3] == "+":
                when = datetime.datetime.strptime(f"{year} {' '.join(words[:3])}", "%Y %b %d %H:%M:%S.%f")
                found.setdefault(words[5], when.timestamp())
    return found


def at(values, part):
    return sorted(values)[min(len(values) - 1, int(len(values) * part))] if values else NONE


def handed_on(path):
    """When each article was in the funnel, by what `watch` has printed."""
    with open(path) as file:
        return {line.split()[1]: float(line.split()[0]) for line in file if line.endswith(">\n")}


def each(first, second, watched=None):
    begun, ended = accepted(first), accepted(second)
    took = [ended[name] - begun[name] for name in begun if name in ended]
    middle = statistics.median(took) if took else NONE
    told = f"{len(took)} {middle:.3f} {at(took, 0.95):.3f} {at(took, 0.99):.3f} {max(took, default=NONE):.3f}"
    if watched:
        seen = handed_on(watched)
        told += f" {statistics.median([seen[n] - begun[n] for n in begun if n in seen] or [NONE]):.3f}"
    print(told)


def all_at_once(first, second, watched=None):
    begun, ended = accepted(first), accepted(second)
    began = min(begun.values())

    def span(moments):
        return f"{min(moments, default=NONE) - began:.2f} {max(moments, default=NONE) - began:.2f}"

    told = f"{len(ended)} {span(ended.values())} {max(begun.values()) - began:.2f}"
    print(told + (f" {span(handed_on(watched).values())}" if watched else ""))


def main():
    words = sys.argv[1:]
    if words[0] == "offer":
        offer(int(words[1]), int(words[2]), float(words[3]), int(words[4]))
    elif words[0] == "silent":
        silent()
    elif words[0] == "watch":
        watch(words[1])
    elif words[0] == "each":
        each(*words[1:])
    else:
        all_at_once(*words[1:])


main()
