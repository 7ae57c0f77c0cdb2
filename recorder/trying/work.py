"""The work of fuse-try: system calls on few names in few folders, made from a seed or read from a script."""

import collections
import ctypes
import errno
import mmap
import os
import random
import stat
import time

FOLDERS = ("", "d0", "d1", "d0/e")
NAMES = ("a", "b", "c", "d", "e", "f", "g", "long-" + "n" * 180)
# The descriptors of a client: of files, of folders, and one for copies.
FILE_SLOTS, FOLDER_SLOTS = 4, 2
COPY_SLOT = FILE_SLOTS + FOLDER_SLOTS
SLOTS = COPY_SLOT + 1

# What a kind does, and how often: of the sum of the weights.
KINDS = {
    "open": (12, "open and close a file: to read, to write or both, with O_CREAT, O_EXCL and O_TRUNC"),
    "append": (2, "open a file with O_APPEND"),
    "direct": (2, "open a file with O_DIRECT"),
    "path": (2, "open with O_PATH, which keeps the file without an OPEN"),
    "read": (12, "pread at odd offsets, across pages"),
    "write": (12, "pwrite at odd offsets, across pages; write, which O_APPEND takes to the end"),
    "truncate": (4, "ftruncate, truncate by name"),
    "stat": (8, "lstat, fstat"),
    "rename": (6, "rename, in and between folders"),
    "noreplace": (2, "renameat2 with RENAME_NOREPLACE"),
    "exchange": (3, "renameat2 with RENAME_EXCHANGE"),
    "link": (3, "a second name"),
    "symlink": (2, "symlink, readlink"),
    "unlink": (6, "unlink, of open files too"),
    "mkdir": (4, "mkdir"),
    "rmdir": (3, "rmdir, of full folders too"),
    "node": (1, "mknod of a regular file and of a FIFO"),
    "list": (10, "getdents64 with small buffers, on folders that stay open while names come and go"),
    "mmap": (3, "bytes read and written by MAP_SHARED"),
    "copy": (3, "a file written from its start by pieces, or read whole"),
    "chmod": (2, "chmod, fchmod"),
    "times": (1, "utimensat"),
    "sync": (1, "fsync"),
}

SIZES = (1, 3, 10, 10, 100, 100, 511, 1000, 4095, 4096, 4097, 9001)
OFFSETS = (0, 0, 0, 1, 7, 100, 1000, 4000, 4095, 4096, 4097, 8191, 12288)
LENGTHS = (0, 0, 1, 5, 50, 1000, 4095, 4096, 4097, 8200, 20000)
BUFFERS = (64, 64, 100, 300, 300, 1000, 32768)  # of getdents64: not each has room for the long name

# A call of a client: its kind, its name, and its words, which are texts and numbers.
Call = collections.namedtuple("Call", "client kind name words")


class Generator:
    """The calls of one client. What it makes depends on the seed, the client and the weights alone; fewer calls are the first of more."""

    def __init__(self, seed, client, weights):
        self.random = random.Random(f"{seed} {client}")
        self.client, self.kinds, self.weights = client, list(weights), list(weights.values())
        self.opened = set()
        self.made = {"symlink": ["a"], "mkdir": list(FOLDERS[1:])}  # the paths at which this client has tried to make one
        self.calls = []

    def calls_made(self, count):
        for folder in FOLDERS[1:]:
            self.add("mkdir", "mkdir", folder)
        while len(self.calls) < count:
            kind = self.random.choices(self.kinds, self.weights)[0]
            getattr(self, f"make_{kind}")()
        return self.calls[:count]

    def add(self, kind, name, *words):
        self.calls.append(Call(self.client, kind, name, words))

    def path(self):
        folder, name = self.random.choice(FOLDERS), self.random.choice(NAMES)
        return f"{folder}/{name}" if folder else name

    def folder(self):
        return self.random.choice(FOLDERS) or "."

    def any_path(self):
        """Of a file mostly, and of a folder now and then."""
        return self.random.choice(FOLDERS[1:]) if self.random.random() < 0.1 else self.path()

    def own_slot(self, number):
        return self.client * SLOTS + number

    def slot(self):
        return self.own_slot(self.random.randrange(FILE_SLOTS))

    def opened_slot(self):
        """One whose file is open, unless that was refused; any where none is."""
        opened = [slot for slot in map(self.own_slot, range(FILE_SLOTS)) if slot in self.opened]
        return self.random.choice(opened) if opened else self.slot()

    def folder_slot(self):
        return self.own_slot(self.random.randrange(FILE_SLOTS, COPY_SLOT))

    def tag(self):
        """What tells the bytes of one write from those of another."""
        return self.client * 1_000_000 + len(self.calls)

    def open_as(self, kind, slot, path, flags):
        if slot in self.opened:
            self.add(kind, "close", slot)
        self.opened.add(slot)
        self.add(kind, "open", slot, path, flags)

    def flags(self):
        flags = self.random.choice(("O_RDONLY", "O_WRONLY", "O_RDWR", "O_RDWR", "O_RDWR"))
        if self.random.random() < 0.8:
            flags += "|O_CREAT"
            if self.random.random() < 0.15:
                flags += "|O_EXCL"
        if not flags.startswith("O_RDONLY") and self.random.random() < 0.3:
            flags += "|O_TRUNC"
        return flags

    def make_open(self):
        if self.random.random() < 0.2:
            slot = self.opened_slot()
            self.opened.discard(slot)
            self.add("open", "close", slot)
        else:
            self.open_as("open", self.slot(), self.path(), self.flags())

    def make_direct(self):
        self.open_as("direct", self.slot(), self.path(), self.flags() + "|O_DIRECT")

    def make_append(self):
        self.open_as("append", self.slot(), self.path(), self.flags().replace("O_RDONLY", "O_RDWR") + "|O_APPEND")

    def make_path(self):
        self.open_as("path", self.slot(), self.path(), "O_PATH|O_NOFOLLOW")

    def make_read(self):
        self.add("read", "pread", self.opened_slot(), self.random.choice(SIZES), self.random.choice(OFFSETS))

    def make_write(self):
        if self.random.random() < 0.2:
            self.add("write", "write", self.opened_slot(), self.random.choice(SIZES), self.tag())
        else:
            self.add("write", "pwrite", self.opened_slot(), self.random.choice(SIZES), self.random.choice(OFFSETS), self.tag())

    def make_truncate(self):
        if self.random.random() < 0.5:
            self.add("truncate", "ftruncate", self.opened_slot(), self.random.choice(LENGTHS))
        else:
            self.add("truncate", "truncate", self.path(), self.random.choice(LENGTHS))

    def make_stat(self):
        if self.random.random() < 0.5:
            self.add("stat", "fstat", self.opened_slot())
        else:
            self.add("stat", "lstat", self.any_path())

    def make_rename(self):
        self.add("rename", "rename", self.any_path(), self.any_path())

    def make_noreplace(self):
        self.add("noreplace", "noreplace", self.any_path(), self.any_path())

    def make_exchange(self):
        self.add("exchange", "exchange", self.any_path(), self.any_path())

    def make_link(self):
        self.add("link", "link", self.path(), self.path())

    def make_symlink(self):
        if self.random.random() < 0.5:
            self.made["symlink"].append(self.path())
            self.add("symlink", "symlink", self.random.choice(NAMES), self.made["symlink"][-1])
        else:
            self.add("symlink", "readlink", self.made["symlink"][-1])

    def make_unlink(self):
        self.add("unlink", "unlink", self.path())

    def make_mkdir(self):
        self.made["mkdir"].append(self.random.choice((*FOLDERS[1:], self.path())))
        self.add("mkdir", "mkdir", self.made["mkdir"][-1])

    def make_rmdir(self):
        self.add("rmdir", "rmdir", self.random.choice((*self.made["mkdir"][-3:], self.path())))

    def make_node(self):
        self.add("node", "mknod", self.path(), self.random.choice(("S_IFREG", "S_IFREG", "S_IFIFO")))

    def make_list(self):
        slot = self.folder_slot()
        if slot not in self.opened or self.random.random() < 0.15:
            self.open_as("list", slot, self.folder(), "O_RDONLY|O_DIRECTORY")
        elif self.random.random() < 0.1:
            self.add("list", "rewind", slot)
        for _ in range(self.random.choice((1, 1, 2, 20))):
            self.add("list", "getdents", slot, self.random.choice(BUFFERS))

    def make_mmap(self):
        name = self.random.choice(("mapread", "mapwrite"))
        words = [self.opened_slot(), self.random.choice(SIZES), self.random.choice(OFFSETS)]
        self.add("mmap", name, *words, *([self.tag()] if name == "mapwrite" else []))

    def make_copy(self):
        slot = self.own_slot(COPY_SLOT)
        if self.random.random() < 0.5:
            self.open_as("copy", slot, self.path(), "O_WRONLY|O_CREAT|O_TRUNC")
            for size in self.random.choices(SIZES, k=3):
                self.add("copy", "write", slot, size, self.tag())
        else:
            self.open_as("copy", slot, self.path(), "O_RDONLY")
            self.add("copy", "pread", slot, 65536, 0)
        self.opened.discard(slot)
        self.add("copy", "close", slot)

    def make_chmod(self):
        mode = self.random.choice((0o600, 0o640, 0o644, 0o755, 0o777))
        if self.random.random() < 0.5:
            self.add("chmod", "chmod", self.path(), mode)
        else:
            self.add("chmod", "fchmod", self.opened_slot(), mode)

    def make_times(self):
        self.add("times", "utimens", self.path(), self.random.randrange(2_000_000_000))

    def make_sync(self):
        self.add("sync", "fsync", self.opened_slot())


def seeded_calls(seed, clients, count, weights):
    """A list of calls for each client."""
    return [Generator(seed, client, weights).calls_made(count) for client in range(clients)]


# ---- scripts


def write_script(calls):
    """A line for each call: the client, the call's name, its words."""
    return "".join(f"{call.client} {call.name} {' '.join(map(str, call.words))}\n" for call in calls)


def read_script(text):
    calls = []
    for number, line in enumerate(text.splitlines(), 1):
        words = line.split()
        if not words or line.startswith("#"):
            continue
        if len(words) < 3 or not words[0].isdigit() or words[1] not in CALLS:
            raise ValueError(f"line {number}: no call")
        values = tuple(int(word) if word.isdigit() else word for word in words[2:])
        calls.append(Call(int(words[0]), "script", words[1], values))
    return calls


def by_client(calls):
    """The calls of each client, for those that have some."""
    clients = collections.defaultdict(list)
    for call in calls:
        clients[call.client].append(call)
    return [clients[client] for client in sorted(clients)]


# ---- carrying out

libc = ctypes.CDLL(None, use_errno=True)
libc.mmap.restype = ctypes.c_void_p
libc.mmap.argtypes = [ctypes.c_void_p, ctypes.c_size_t, ctypes.c_int, ctypes.c_int, ctypes.c_int, ctypes.c_long]
libc.munmap.argtypes = [ctypes.c_void_p, ctypes.c_size_t]
libc.pwrite.argtypes = [ctypes.c_int, ctypes.c_void_p, ctypes.c_size_t, ctypes.c_long]
libc.pread.argtypes = libc.pwrite.argtypes
libc.pwrite.restype = libc.pread.restype = ctypes.c_ssize_t
RENAME_NOREPLACE, RENAME_EXCHANGE = 1, 2
AT_FDCWD = -100
MAP_FAILED = ctypes.c_void_p(-1).value
PAGE = mmap.PAGESIZE


def answered(result):
    """What a call of the C library returned, or its error."""
    if result < 0:
        raise OSError(ctypes.get_errno(), os.strerror(ctypes.get_errno()))
    return result


def bytes_of(tag, size):
    text = b"%d;" % tag
    return (text * (size // len(text) + 1))[:size]


def flags_of(words):
    """The flags of open by their names. None waits for the other end of a FIFO."""
    flags = os.O_NONBLOCK | os.O_CLOEXEC
    for word in words.split("|"):
        flags |= getattr(os, word)
    return flags


def rename_at(old, new, flags):
    answered(libc.renameat2(AT_FDCWD, os.fsencode(old), AT_FDCWD, os.fsencode(new), flags))


class Client:
    """Carries calls out, one after the other, in the folder that it works in. Slots are its open descriptors."""

    def __init__(self):
        self.opened = {}
        self.between = os.memfd_create("between", os.MFD_CLOEXEC)

    def carry_out(self, call):
        """What came of it: `ok` or an error, as the server may refuse anything. None where there is nothing to do in an empty slot."""
        try:
            getattr(self, call.name)(*call.words)
        except KeyError:
            return None
        except OSError as error:
            return errno.errorcode[error.errno]
        return "ok"

    def open(self, slot, path, flags):
        self.opened[slot] = os.open(path, flags_of(flags), 0o644)

    def close(self, slot):
        os.close(self.opened.pop(slot))

    def pread(self, slot, size, offset):
        os.pread(self.opened[slot], size, offset)

    def pwrite(self, slot, size, offset, tag):
        os.pwrite(self.opened[slot], bytes_of(tag, size), offset)

    def write(self, slot, size, tag):
        os.write(self.opened[slot], bytes_of(tag, size))

    def ftruncate(self, slot, size):
        os.ftruncate(self.opened[slot], size)

    def truncate(self, path, size):
        os.truncate(path, size)

    def fstat(self, slot):
        os.fstat(self.opened[slot])

    def lstat(self, path):
        os.lstat(path)

    def rename(self, old, new):
        os.rename(old, new)

    def noreplace(self, old, new):
        rename_at(old, new, RENAME_NOREPLACE)

    def exchange(self, old, new):
        rename_at(old, new, RENAME_EXCHANGE)

    def link(self, old, new):
        os.link(old, new, follow_symlinks=False)

    def symlink(self, target, path):
        os.symlink(target, path)

    def readlink(self, path):
        os.readlink(path)

    def unlink(self, path):
        os.unlink(path)

    def mkdir(self, path):
        os.mkdir(path)

    def rmdir(self, path):
        os.rmdir(path)

    def mknod(self, path, kind):
        os.mknod(path, getattr(stat, kind) | 0o644)

    def getdents(self, slot, size):
        answered(libc.getdents64(self.opened[slot], ctypes.create_string_buffer(size), size))

    def rewind(self, slot):
        os.lseek(self.opened[slot], 0, os.SEEK_SET)

    def chmod(self, path, mode):
        os.chmod(path, mode)

    def fchmod(self, slot, mode):
        os.fchmod(self.opened[slot], mode)

    def utimens(self, path, seconds):
        os.utime(path, (seconds, seconds), follow_symlinks=False)

    def fsync(self, slot):
        os.fsync(self.opened[slot])

    def mapread(self, slot, size, offset):
        self.mapped(slot, size, offset, mmap.PROT_READ, libc.pwrite)

    def mapwrite(self, slot, size, offset, tag):
        os.pwrite(self.between, bytes_of(tag, size), 0)
        self.mapped(slot, size, offset, mmap.PROT_READ | mmap.PROT_WRITE, libc.pread)

    def mapped(self, slot, size, offset, protection, copy):
        """The kernel copies between the mapping and a file in memory: where the file has no such page that is EFAULT, no SIGBUS."""
        before = offset % PAGE
        address = libc.mmap(None, before + size, protection, mmap.MAP_SHARED, self.opened[slot], offset - before)
        if address == MAP_FAILED:
            answered(-1)
        try:
            answered(copy(self.between, address + before, size, 0))
        finally:
            libc.munmap(address, before + size)


CALLS = {name for name, member in vars(Client).items() if callable(member) and not name.startswith("_")} - {"carry_out", "mapped"}


def be_client(folder, calls, begin, times, tell):
    """
    What the process of a client does: it waits until all are there, and notes when it began and ended each call that had something to
    do.
    """
    os.chdir(folder)
    os.umask(0o022)
    client = Client()
    os.read(begin, 1)
    for place, call in enumerate(calls):
        times[2 * place] = time.monotonic()
        result = client.carry_out(call)
        times[2 * place + 1] = time.monotonic()
        if result is None:
            times[2 * place] = 0
        tell(call, result)


def tell_nothing(call, result):
    pass


def tell_call(call, result):
    """A line on standard output, by one write."""
    os.write(1, f"{write_script([call]).strip()}: {result or 'nothing to do'}\n".encode())


class Clients:
    """A process for each list of calls."""

    def __init__(self, folder, lists, tell=tell_nothing):
        self.lists, self.processes = lists, {}
        self.times = [memoryview(mmap.mmap(-1, 16 * len(calls))).cast("d") for calls in lists]
        begin, ready = os.pipe()
        for calls, times in zip(lists, self.times):
            process = os.fork()
            if process == 0:
                self.run(folder, calls, begin, ready, times, tell)
            self.processes[process] = calls
        os.close(begin)
        os.close(ready)

    @staticmethod
    def run(folder, calls, begin, ready, times, tell):
        status = 1
        try:
            os.close(ready)
            be_client(folder, calls, begin, times, tell)
            status = 0
        finally:
            os._exit(status)

    def done(self):
        """How many calls were made."""
        return sum(sum(1 for moment in times[::2] if moment) for times in self.times)

    def wait(self, patience, progress):
        """Whether all ended, where they never stood still for so many seconds. Each second it is told how many calls were made."""
        done, until, told = -1, 0, time.monotonic()
        while self.processes:
            if time.monotonic() > told + 1:
                told = time.monotonic()
                progress(f"{self.done()} calls")
            for process in list(self.processes):
                if os.waitpid(process, os.WNOHANG)[0]:
                    del self.processes[process]
            if self.done() != done:
                done, until = self.done(), time.monotonic() + patience
            elif time.monotonic() > until:
                return False
            time.sleep(0.002)
        return True

    def made(self):
        """All calls that were made, each with when it was begun and ended; an end is 0 where the call did not."""
        return [
            (begun, ended, call)
            for calls, times in zip(self.lists, self.times)
            for begun, ended, call in zip(times[::2], times[1::2], calls)
            if begun
        ]
