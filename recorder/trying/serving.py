"""A server under fuse-record: its start, its mount and its end, and what is left of both wherever fuse-try ends."""

import ctypes
import os
import re
import shutil
import signal
import subprocess
import time

RECORDER = os.path.realpath(os.path.join(os.path.dirname(__file__), ".."))
# What the kernel does without: an order names none of them, and a success of them is a fault (code 32).
REFUSED = "FALLOCATE,COPY_FILE_RANGE,IOCTL"
STOPPED = (signal.SIGHUP, signal.SIGINT, signal.SIGTERM)
PR_SET_PDEATHSIG, PR_SET_CHILD_SUBREAPER = 1, 36
MNT_DETACH, UMOUNT_NOFOLLOW = 2, 8
PATIENCE = 20  # seconds, for an end

libc = ctypes.CDLL(None, use_errno=True)


class NotTried(Exception):
    """Nothing could be tried, or not to its end."""


class Stopped(Exception):
    """A signal came."""


def stop(number, _):
    """The first signal counts: what is to be cleaned up then is."""
    ignore_signals()
    raise Stopped(number)


def stop_at_signals():
    for number in STOPPED:
        signal.signal(number, stop)


def ignore_signals():
    for number in STOPPED:
        signal.signal(number, signal.SIG_IGN)


def keep_orphans():
    """Processes whose parents ended become children of this one."""
    libc.prctl(PR_SET_CHILD_SUBREAPER, 1, 0, 0, 0)


def end_with_parent():
    libc.prctl(PR_SET_PDEATHSIG, signal.SIGTERM, 0, 0, 0)


def is_mounted(folder):
    with open("/proc/self/mounts", encoding="utf-8", errors="surrogateescape") as mounts:
        return any(line.split(" ")[1] == folder for line in mounts)


def processes_below(process):
    """All that a process has started, and what these have."""
    children = {}
    for name in os.listdir("/proc"):
        if not name.isdigit():
            continue
        try:
            with open(f"/proc/{name}/stat", encoding="utf-8", errors="replace") as file:
                parent = int(file.read().rsplit(")", 1)[1].split()[1])
        except (OSError, IndexError):
            continue
        children.setdefault(parent, []).append(int(name))
    found, left = [], [process]
    while left:
        mine = children.get(left.pop(), [])
        found += mine
        left += mine
    return found


def reap():
    """Takes the statuses of those that ended. Whether some are left."""
    try:
        while os.waitpid(-1, os.WNOHANG)[0]:
            pass
    except ChildProcessError:
        return False
    return True


def end_all(seconds=PATIENCE):
    """
    Ends all processes below this one. Those that wait for the server end when that has: a request that was sent can't be taken
    back, and so they are asked again.
    """
    until = time.monotonic() + seconds
    while reap() and time.monotonic() < until:
        for process in processes_below(os.getpid()):
            try:
                os.kill(process, signal.SIGKILL)
            except ProcessLookupError:
                pass
        time.sleep(0.01)


def unmount(folder, flags=0):
    """Whether it was unmounted. The helper of libfuse serves who is not root."""
    if os.geteuid() == 0:
        return libc.umount2(os.fsencode(folder), flags | UMOUNT_NOFOLLOW) == 0
    helper = shutil.which("fusermount3") or shutil.which("fusermount")
    words = [helper, "-q", "-u", *(["-z"] if flags else []), folder]
    return bool(helper) and subprocess.run(words, stderr=subprocess.DEVNULL, check=False).returncode == 0


def remove(folder):
    """Takes a folder away, with folders in it that the work has closed to their owner. Nothing is mounted there."""
    left = [folder]
    while left:
        place = left.pop()
        try:
            os.chmod(place, 0o700)
            left += [entry.path for entry in os.scandir(place) if entry.is_dir(follow_symlinks=False)]
        except OSError:
            pass
    shutil.rmtree(folder, ignore_errors=True)


def take_down(folder):
    """Nothing is left of what was started, nor of what was mounted below a folder. Whether that is so."""
    end_all()
    mounts = [os.path.join(folder, place, "mnt") for place in os.listdir(folder)]
    for mount in mounts:
        while is_mounted(mount) and unmount(mount, MNT_DETACH):
            pass
    return not any(map(is_mounted, mounts))


def clean_up(folder):
    """Takes the folder away too."""
    if os.path.isdir(folder) and take_down(folder):
        remove(folder)


def fill(lower, has_links):
    """The folder that a server passes on: it has names that the work uses, and a file with two names where links are asked for."""
    for folder in ("", "d0", "d1"):
        os.mkdir(os.path.join(lower, folder))
        for name in ("a", "b"):
            with open(os.path.join(lower, folder, name), "w", encoding="ascii") as file:
                file.write(f"{name} of {folder or 'the root'}\n" * 50)
    os.symlink("a", os.path.join(lower, "c"))
    if has_links:
        os.link(os.path.join(lower, "d0/a"), os.path.join(lower, "d1/d"))


def built(name):
    """A program of the recorder."""
    program = os.path.join(RECORDER, name)
    if not os.path.exists(program):
        raise NotTried(f"{program} is not built: make -C {RECORDER}")
    return program


class Server:
    """One start of a server, with a folder, a mount and a capture of its own."""

    def __init__(self, folder, words, options, has_lower, has_links):
        self.folder = folder
        self.mount, self.lower, self.capture = (os.path.join(folder, name) for name in ("mnt", "lower", "a.cap"))
        self.tree = self.capture + ".tree" if has_lower else None
        self.said = os.path.join(folder, "said")
        self.options = ["-o", self.capture, "--keep-refused", "--refuse", REFUSED, *options]
        os.umask(0o022)
        os.mkdir(self.mount)
        if has_lower:
            fill(self.lower, has_links)
            self.options += ["--lower", self.lower]
        named = [word.replace("{mnt}", self.mount).replace("{lower}", self.lower) for word in words]
        self.words = named if any("{mnt}" in word for word in words) else [*named, self.mount]

    def start(self, patience):
        """Returns when its mount is there, which it may be so many seconds late."""
        self.mount_by([built("fuse-record"), *self.options, "--", *self.words], patience)

    def tree_of_mount(self, patience):
        """The tree text of a mount of the server, which is not recorded and is gone again."""
        self.mount_by(self.words, patience)
        try:
            text = subprocess.run([built("fuse-tree"), self.mount], capture_output=True, timeout=patience, check=True).stdout
        except subprocess.TimeoutExpired as error:
            raise NotTried(f"no tree text of a mount in {patience} seconds") from error
        except subprocess.CalledProcessError as error:
            raise NotTried(f"no tree text of a mount: {error.stderr.decode(errors='replace').strip()}") from error
        if not self.unmounted():
            raise NotTried(f"the server did not end in {PATIENCE} seconds after the unmount")
        return text.decode("ascii")

    def begin_with(self, text):
        """What is recorded is judged from this tree text."""
        self.tree = os.path.join(self.folder, "begun.tree")
        with open(self.tree, "w", encoding="ascii") as file:
            file.write(text)

    def mount_by(self, command, patience):
        """Starts it, and returns when its mount is there."""
        try:
            with open(self.said, "wb") as said:
                process = subprocess.Popen(
                    command, stdin=subprocess.DEVNULL, stdout=said, stderr=said, start_new_session=True, umask=0)
        except OSError as error:
            raise NotTried(f"no mount: {command[0]}: {error.strerror}") from error
        until = time.monotonic() + patience
        while not is_mounted(self.mount):
            if process.poll() is not None and (process.returncode != 0 or not reap()):
                raise NotTried(f"no mount: {self.last_words()}")
            if time.monotonic() > until:
                raise NotTried(f"no mount in {patience} seconds: {self.last_words()}")
            time.sleep(0.002)

    def end(self):
        """Unmounts, and waits for the server's end. What the recorder then says is what keeps the capture from being judged, or nothing."""
        if not self.unmounted():
            return f"the server did not end in {PATIENCE} seconds after the unmount"
        return self.fault_told()

    def unmounted(self):
        """Unmounts, and waits for the server's end. Whether that came."""
        until = time.monotonic() + PATIENCE
        while is_mounted(self.mount) and not unmount(self.mount) and time.monotonic() < until:
            time.sleep(0.002)
        if is_mounted(self.mount):
            unmount(self.mount, MNT_DETACH)
        while reap():
            if time.monotonic() > until:
                return False
            time.sleep(0.002)
        return True

    def fault_told(self):
        """What the recorder says at the end where not all was answered or recorded."""
        with open(self.capture + ".log", encoding="utf-8", errors="replace") as log:
            lines = log.read().splitlines()
        cut = [line for line in lines if "the recording ends with" in line]
        if cut:
            return cut[0].removeprefix("fuse-record: ")
        found = re.search(r"operations that no order names: (.*)", lines[-1] if lines else "no end")
        if found:
            return found[1]
        return "" if lines and "messages, " in lines[-1] else "the recorder was ended"

    def last_words(self):
        """The last line of the server, and how it ended."""
        with open(self.said, encoding="utf-8", errors="replace") as file:
            lines = file.read().strip().splitlines()
        own = [line for line in lines if not line.startswith("fuse-record: ")]
        told = [line.removeprefix("fuse-record: ") for line in lines if line not in own]
        ended = [line if line.startswith(f"{self.words[0]}: ") else line.rsplit(": ", 1)[1] for line in told]
        return ": ".join((*ended[-1:], *own[-1:])) or "it said nothing"
