"""What an earlier run on this machine tried and passed (for try-wrong-bodies and run-tests).

A result is kept under the SHA-256 sum of all that it rests on, and found only under that sum: if one octet of it is
another, it is tried anew. Only what passed is kept; if it fails later, say because all is tried anew, what was kept of
it goes. An entry counts for 30 days from when it was tried, and is then tried anew, however often it was of use.

The entries are files of the folder ${XDG_CACHE_HOME:-$HOME/.cache}/innfeed-gate, outside each checkout, which has to be
of whoever runs this and is open to nobody else; or else nothing is kept or found. Each is written under another name
and renamed, so nobody meets half of one, and has a sum of itself: one that is damaged counts for nothing. Of more than
MOST those go that were tried first.
"""
import contextlib
import hashlib
import json
import os
import stat
import tempfile
import time

MOST = 4000
DAYS = 30
DAY = 24 * 60 * 60
NEW = "new-"


def store():
    """Returns the folder of the entries, or None if there can be none."""
    cache = os.environ.get("XDG_CACHE_HOME") or os.path.join(os.environ.get("HOME") or "", ".cache")
    return os.path.join(cache, "innfeed-gate") if os.path.isabs(cache) else None


class Sum:
    """A sum of all that a result rests on. Each part has a name and a length, so that none runs into the next."""

    def __init__(self):
        self.sum = hashlib.sha256()

    def add(self, what, octets):
        octets = octets if isinstance(octets, bytes) else repr(octets).encode()
        self.sum.update(repr((what, len(octets))).encode())
        self.sum.update(octets)

    def add_file(self, what, path):
        with open(path, "rb") as file:
            self.add(what, file.read())

    def add_folder(self, what, folder):
        """All files below the folder, by their paths there; of a link where it leads, too."""
        for at, folders, names in os.walk(folder):
            folders.sort()
            for name in sorted([*names, *(each for each in folders if os.path.islink(f"{at}/{each}"))]):
                path = f"{at}/{name}"
                leads = os.readlink(path) if os.path.islink(path) else ""
                mode = stat.S_IMODE(os.lstat(path).st_mode) & 0o111
                self.add(what, (os.path.relpath(path, folder), leads, mode))
                if os.path.isfile(path):
                    self.add_file(what, path)

    def end(self):
        return self.sum.hexdigest()


def sum_of_kit(kit):
    """Returns a sum of the toolchain: the path, size and time of each of its files, and the texts that name it."""
    found = Sum()
    for at, folders, names in os.walk(kit):
        folders[:] = sorted(name for name in folders if name not in ("out", "__pycache__"))
        for name in sorted(names):
            path = f"{at}/{name}"
            known = os.lstat(path)
            found.add(os.path.relpath(path, kit), (known.st_mode, known.st_size, known.st_mtime_ns))
    for name in ("KIT-ID", "WHAT"):
        if os.path.isfile(f"{kit}/{name}"):
            found.add_file(name, f"{kit}/{name}")
    return found.end()


def marks_of(folder):
    """Returns what tells whether a file of the folder was changed meanwhile, also if it was changed back."""
    marks = []
    for at, _, names in os.walk(folder):
        for path in (at, *(f"{at}/{name}" for name in names)):
            known = os.lstat(path)
            marks.append((path, known.st_ino, known.st_size, known.st_mtime_ns))
    return sorted(marks)


class Kept:
    """The results of one kind. With `anew` none is found; what passes is kept all the same."""

    def __init__(self, kind, anew=False):
        self.kind, self.anew, self.at = kind, anew, None
        folder = store()
        with contextlib.suppress(OSError):
            if folder:
                os.makedirs(folder, 0o700, exist_ok=True)
                known = os.lstat(folder)
                if stat.S_ISDIR(known.st_mode) and known.st_uid == os.geteuid():
                    os.chmod(folder, 0o700)
                    self.at = folder
        if self.at:
            self.shrink()

    def path(self, sum_):
        return f"{self.at}/{self.kind}-{sum_}"

    def find(self, sum_):
        """Returns what was kept under this sum, and when it was tried, or None."""
        if not self.at or self.anew:
            return None
        try:
            with open(self.path(sum_), encoding="utf-8") as file:
                entry = json.load(file)
            if entry["sum"] != self.sum_of(sum_, entry["tried"], entry["result"]):
                raise ValueError("it is damaged")
            if not 0 <= time.time() - entry["tried"] < DAYS * DAY:
                raise ValueError("it is too old, or of a clock that was ahead")
            return entry["result"], time.strftime("%Y-%m-%d %H:%M", time.localtime(entry["tried"]))
        except FileNotFoundError:
            return None
        except (OSError, ValueError, KeyError, TypeError):
            self.drop(sum_)
            return None

    def sum_of(self, sum_, tried, result):
        return hashlib.sha256(json.dumps([self.kind, sum_, tried, result], sort_keys=True).encode()).hexdigest()

    def keep(self, sum_, result):
        """Keeps a result. If there is no room, say, it is not kept."""
        if not self.at:
            return
        tried = int(time.time())
        entry = {"sum": self.sum_of(sum_, tried, result), "tried": tried, "result": result}
        path = None
        try:
            with tempfile.NamedTemporaryFile("w", prefix=NEW, dir=self.at, delete=False, encoding="utf-8") as file:
                path = file.name
                json.dump(entry, file)
            os.replace(path, self.path(sum_))
        except OSError:
            with contextlib.suppress(OSError):
                os.remove(path or "")

    def drop(self, sum_):
        """Removes what was kept under this sum."""
        if self.at:
            with contextlib.suppress(OSError):
                os.remove(self.path(sum_))

    def shrink(self):
        """Removes what is too old, what runs that were killed have left, and what is too much."""
        now, entries = time.time(), []
        with contextlib.suppress(OSError):
            for entry in os.scandir(self.at):
                age = now - entry.stat(follow_symlinks=False).st_mtime
                if age > (DAY if entry.name.startswith(NEW) else DAYS * DAY):
                    os.remove(entry.path)
                else:
                    entries.append((age, entry.path))
            for _, path in sorted(entries)[MOST:]:
                os.remove(path)

    def tell(self):
        """Returns a word on why nothing is kept, for the user."""
        return None if self.at else "nothing is kept for later runs: there is no folder for it that is of this user alone"
