"""follow.py PROGRAM LINES GAP_MS SLOW_DISK: see follow.sh."""
import os
import re
import socket
import subprocess
import sys
import tempfile
import threading
import time

CONF = """news-spool: articles
backlog-directory: backlog
status-file: status
peer p {{
  ip-name: 127.0.0.1
  port-number: {port}
}}
"""
LOOK_SECONDS = 0.2
SILENT_SECONDS = 20


class Sink:
    """A peer that takes everything, and keeps when each article was offered or sent first."""

    def __init__(self):
        self.seen, self.server = {}, socket.create_server(("127.0.0.1", 0), backlog=4096)
        threading.Thread(target=self.accept, daemon=True).start()

    def accept(self):
        while True:
            stream, _ = self.server.accept()
            stream.setsockopt(socket.IPPROTO_TCP, socket.TCP_NODELAY, 1)
            threading.Thread(target=self.serve, args=(stream,), daemon=True).start()

    def serve(self, stream):
        lines = stream.makefile("rb")
        stream.sendall(b"200 hello\r\n")
        for line in lines:
            word, *names = line.split()
            if word == b"MODE":
                stream.sendall(b"203 streaming\r\n")
            elif word == b"QUIT":
                stream.sendall(b"205 goodbye\r\n")
                return
            else:
                self.seen.setdefault(names[0], time.monotonic())
                if word == b"TAKETHIS":
                    while lines.readline() != b".\r\n":
                        pass
                stream.sendall((b"238 " if word == b"CHECK" else b"239 ") + names[0] + b"\r\n")


def look(path, seen):
    """A plain reader of the same file, which looks five times a second."""
    with open(path, "rb") as file:
        while True:
            for line in file:
                seen.setdefault(line.split()[1], time.monotonic())
            time.sleep(LOOK_SECONDS)


def watch(program, sent, behind, ended):
    """Asks four times a second up to which line lines are acknowledged, and notes how old the next one is."""
    while not ended.is_set():
        told = subprocess.run([program, "-v", "-c", "innfeed.conf", "--owed"], stdout=subprocess.DEVNULL,
                              stderr=subprocess.PIPE, text=True, check=False).stderr
        found, moments = re.search(r"acknowledged up to line (\d+)", told), list(sent.values())
        if found:
            number = int(found[1])
            behind.append(time.monotonic() - moments[number] if number < len(moments) else 0)
        ended.wait(0.25)


def processor(process):
    fields = open(f"/proc/{process.pid}/stat").read().rsplit(")", 1)[1].split()
    return (int(fields[11]) + int(fields[12])) / os.sysconf("SC_CLK_TCK")


def late(sent, seen):
    return sorted((seen[name] - when) * 1000 for name, when in sent.items())


def main():
    program, count, gap = os.path.realpath(sys.argv[1]), int(sys.argv[2]), float(sys.argv[3]) / 1000
    slow = {"LD_PRELOAD": sys.argv[4]} if sys.argv[4] else {}
    with tempfile.TemporaryDirectory() as folder:
        os.chdir(folder)
        for name in ("articles", "backlog", "funnel"):
            os.mkdir(name)
        for n in range(count):
            with open(f"articles/{n}", "w") as file:
                file.write(f"Message-ID: <{n}@bench>\n\nText.\n")
        sink, plain, sent, behind, ended = Sink(), {}, {}, [], threading.Event()
        with open("innfeed.conf", "w") as file:
            file.write(CONF.format(port=sink.server.getsockname()[1]))
        segment = f"funnel/{1:020}"
        with open(segment, "w") as writer:
            threading.Thread(target=look, args=(segment, plain), daemon=True).start()
            run = subprocess.Popen([program, "-c", "innfeed.conf", "--follow", "funnel"],
                                   stdout=subprocess.DEVNULL, env={**os.environ, **slow})
            time.sleep(2)
            threading.Thread(target=watch, args=(program, sent, behind, ended), daemon=True).start()
            next_one = time.monotonic()
            for n in range(count):
                sent[b"<%d@bench>" % n] = time.monotonic()
                writer.write(f"{n} <{n}@bench> p\n")
                writer.flush()
                next_one += gap
                time.sleep(max(0, next_one - time.monotonic()))
            time.sleep(2)
            ended.set()
            before = processor(run)
            time.sleep(SILENT_SECONDS)
            silent = (processor(run) - before) / SILENT_SECONDS
        open("backlog/~stop", "w").close()
        run.wait(30)
        ours, others = late(sent, sink.seen), late(sent, plain)
    median, other = ours[count // 2], others[count // 2]
    print(f"a line to its offer: median {median:.1f} ms, 99 of 100 within {ours[count * 99 // 100]:.1f}; "
          f"a reader that looks five times a second: {other:.1f}: {median / other:.2f} times; "
          f"acknowledged {sorted(behind)[len(behind) // 2]:.2f} s later, {max(behind):.2f} at most; "
          f"silent: {silent:.1%} of a processor", end="")


main()
