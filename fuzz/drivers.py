"""What answers a call: the built program, a process for each call, or the library for C, in a process that serves many of them."""
import contextlib
import ctypes
import fcntl
import os
import resource
import signal
import struct
import subprocess
import time
import traceback
import typing

import captures

# A call that takes longer is ended, and its status is then that of SIGKILL; one that takes more memory is refused it.
SECONDS = 30
MOST_BYTES = 4 << 30
# So many bytes a pipe has room for.
PIPE_BYTES = 1 << 20
LIBRARY = os.path.join(captures.TOP, "crates", "fa_audit_c", "out", "libfa_audit_c.a")
LINE_SIZE = 128


class Answer(typing.NamedTuple):
    """How a call ended: its status, below 0 for a signal; what it wrote to standard output and standard error; the seconds of a
    processor and the bytes of memory that it took, 0 where that is not known."""

    status: int
    output: bytes
    error: bytes = b""
    seconds: float = 0
    memory: int = 0

    def told(self):
        return self.output, self.status


@contextlib.contextmanager
def ended_in_time(process):
    """Ends the process of this id where it is at work for too long."""
    signal.signal(signal.SIGALRM, lambda *_: os.kill(process, signal.SIGKILL))
    signal.alarm(SECONDS)
    try:
        yield
    finally:
        signal.alarm(0)


def content(path):
    with open(path, "rb") as opened:
        return opened.read()


class Program:
    """A built program. Its files are written to the folder `room`, each again only where it has other bytes. `by_rattle` is what the
    other compiler built of it, if that is there, and `program` what answers in a process for each call."""

    def __init__(self, path, room, shim=None):
        self.path, self.room, self.shim, self.written = path, room, shim, {}
        self.program, self.by_rattle = self, None
        os.mkdir(room)
        if os.path.exists(f"{path}.by-rattle"):
            self.by_rattle = Program(f"{path}.by-rattle", os.path.join(room, "by-rattle"), shim)

    def options(self, files):
        """The words for files with these bytes, by the names of their options. One that is None is not there."""
        for name, data in files.items():
            path = os.path.join(self.room, name)
            if data is not None and self.written.get(name) != data:
                with open(path, "wb") as opened:
                    opened.write(data)
                self.written[name] = data
            yield from (f"--{name}", path) if data is not None else ()

    def call(self, command, files, *words):
        """What is answered to a command on these files."""
        return self.run([command, *self.options(files), *words], (os.POSIX_SPAWN_OPEN, 0, os.devnull, os.O_RDONLY, 0), {})

    def call_in_pieces(self, command, files, unit, seed, *words):
        """The same, where the capture comes through a pipe: in pieces of `unit` bytes, or with a seed of up to a hundred times that."""
        others = {name: data for name, data in files.items() if name != "capture"}
        variables = {"LD_PRELOAD": self.shim, "SHORT_READS": str(unit), "SHORT_READS_SEED": str(seed)} if self.shim else {}
        reader, writer = os.pipe()
        try:
            fcntl.fcntl(writer, fcntl.F_SETPIPE_SZ, PIPE_BYTES)
            with open(writer, "wb") as opened:
                opened.write(files["capture"])
            words = [command, "--capture", "-", *self.options(others), *words]
            return self.run(words, (os.POSIX_SPAWN_DUP2, reader, 0), variables)
        finally:
            os.close(reader)

    def run(self, words, standard_input, variables):
        """Runs the program. The memory that is told is never less than this process has."""
        paths = [os.path.join(self.room, name) for name in ("output", "error")]
        how = os.O_WRONLY | os.O_CREAT | os.O_TRUNC
        outputs = [(os.POSIX_SPAWN_OPEN, number, path, how, 0o600) for number, path in enumerate(paths, 1)]
        process = os.posix_spawn(self.path, [self.path, *words], os.environ | variables, file_actions=[standard_input, *outputs])
        with ended_in_time(process):
            resource.prlimit(process, resource.RLIMIT_AS, (MOST_BYTES, MOST_BYTES))
            _, status, used = os.wait4(process, 0)
        return Answer(os.waitstatus_to_exitcode(status), *map(content, paths), used.ru_utime + used.ru_stime, used.ru_maxrss << 10)


class Library(Program):
    """The same, but that `check` and `judge` are answered by the library, in a process of their own. Where that dies, a new one is made."""

    HEAD = struct.Struct("=QQQQq")

    def __init__(self, path, room, shim, library):
        super().__init__(path, room, shim)
        self.program = Program(path, os.path.join(room, "program"), shim)
        self.library, self.process = library, None

    def call(self, command, files, *words):
        if command not in ("check", "judge") or "--explain" in words:
            return super().call(command, files, *words)
        parts = [files.get(name) or b"" for name in ("capture", "tree", "order")]
        steps = int(words[1]) if command == "judge" else -1
        if self.process is None:
            self.start()
        with ended_in_time(self.process):
            try:
                self.ours.write(self.HEAD.pack(*map(len, parts), files.get("tree") is not None, steps) + b"".join(parts))
                self.ours.flush()
                answer = self.theirs.read(1)
                if answer:
                    size, seconds = struct.unpack("=Qd", self.theirs.read(16))
                    return Answer(answer[0], self.theirs.read(size) + b"\n", b"", seconds)
            except BrokenPipeError:
                pass
        return Answer(os.waitstatus_to_exitcode(self.end()), b"")

    def start(self):
        """Starts the process that serves."""
        (asked, ours), (theirs, answers) = os.pipe(), os.pipe()
        self.process = os.fork()
        if self.process == 0:
            try:
                os.close(ours)
                os.close(theirs)
                serve(self.library, open(asked, "rb"), open(answers, "wb", buffering=0))
            except BaseException:
                traceback.print_exc()
            finally:
                os._exit(1)
        os.close(asked)
        os.close(answers)
        self.ours, self.theirs = open(ours, "wb"), open(theirs, "rb")

    def end(self):
        """Waits for the process that serves: its status."""
        for opened in (self.ours, self.theirs):
            with contextlib.suppress(BrokenPipeError):
                opened.close()
        _, status = os.waitpid(self.process, 0)
        self.process = None
        return status


def serve(library, asked, answers):
    """Answers calls of the library until there are no more."""
    called = ctypes.CDLL(library)
    resource.setrlimit(resource.RLIMIT_AS, (MOST_BYTES, MOST_BYTES))
    for function in (called.fa_audit_check, called.fa_audit_judge):
        function.restype = ctypes.c_uint8
    line, size = ctypes.create_string_buffer(LINE_SIZE), ctypes.c_size_t()
    while head := asked.read(Library.HEAD.size):
        *lengths, has_tree, steps = Library.HEAD.unpack(head)
        capture, tree, order = ((asked.read(length), ctypes.c_size_t(length)) for length in lengths)
        told = line, ctypes.c_size_t(LINE_SIZE), ctypes.byref(size)
        begun = time.process_time()
        if steps < 0:
            status = called.fa_audit_check(*capture, *tree, ctypes.c_bool(has_tree), *order, *told)
        else:
            status = called.fa_audit_judge(*capture, *tree, ctypes.c_bool(has_tree), ctypes.c_uint64(steps), *told)
        written = line.raw[: min(size.value, LINE_SIZE)]
        answers.write(bytes([status]) + struct.pack("=Qd", len(written), time.process_time() - begun) + written)


def built_library(room):
    """The library as a shared object in this folder, or None where it was not built."""
    if not os.path.exists(LIBRARY):
        return None
    runtime = os.path.join(os.path.dirname(subprocess.check_output(["rt", "doc"], text=True).strip()), "c", "liblibc_c.a")
    shared = os.path.join(room, "libfa_audit_c.so")
    whole = "-Wl,--whole-archive", LIBRARY, "-Wl,--no-whole-archive", runtime
    subprocess.run([os.environ.get("CC", "cc"), "-shared", "-o", shared, *whole, "-lm"], check=True)
    return shared
