"""Starts programs and takes their figures: processor and wall time in seconds, memory in bytes, and what they answer.
Linux alone."""

import ctypes
import fcntl
import os
import re
import shlex
import signal
import subprocess
import tempfile
import time
from pathlib import Path

SUBREAPER = 36  # of prctl: this process becomes the parent of its children's children
PIPE_SIZE = 1 << 20  # bytes
PAUSE = 0.002  # seconds between two looks at what was answered
PATIENCE = 600  # seconds without an answer
# A shell starts another, which tells its number and becomes the program; then the first ends, and the program is a
# child of this process. So the greatest memory that the system tells of it is its own. Of a direct child it would be at
# least this process's.
START = """exec 3<&0; sh -c 'echo $$ >&2; exec "$@"' sh "$@" <&3 3<&- &"""
# Without the limits memset and memcpy of a page are `rep stosb` and `rep movsb`, which callgrind counts once a byte.
COUNTING = [
    "env", "PYTHONHASHSEED=0",
    "GLIBC_TUNABLES=" + ":".join(f"glibc.cpu.x86_rep_{it}_threshold=1000000000" for it in ("stosb", "movsb")),
    "valgrind", "-q", "--tool=callgrind", "--trace-children=yes",
]


class Failed(Exception):
    """A program didn't end or answer as it should have."""


class Program:
    """A program under its name in the table. It takes the words of docs/FORMATS.md, section 9."""

    def __init__(self, text):
        """Reads NAME=COMMAND, or COMMAND alone."""
        name, named, command = text.partition("=")
        self.words = [
            os.path.abspath(it) if os.path.exists(it) else it for it in shlex.split(command if named else text)
        ]
        self.name = name if named else os.path.basename(self.words[-1])


class Counted:
    """A program under callgrind, which counts the instructions of its processes in user mode."""

    def __init__(self, program, folder):
        """Takes the program, and a folder for what callgrind writes."""
        self.name, self.folder = program.name, Path(tempfile.mkdtemp(prefix="counted-", dir=folder))
        self.pipes = f"--vgdb-prefix={self.folder}-vgdb"
        self.words = [*COUNTING, self.pipes, f"--callgrind-out-file={self.folder}/%p", *program.words]

    def instructions(self, process=None):
        """How many were counted since the last call, up to the end of the runs, or up to now of a process that
        waits."""
        if process:
            words = ["timeout", "60", "vgdb", self.pipes, f"--pid={process.number}", "dump"]
            told = subprocess.run(words, stdin=subprocess.DEVNULL, capture_output=True, text=True, check=False)
            if told.returncode:
                raise Failed(f"{self.name}: vgdb: status {told.returncode}; it said {told.stderr.strip()[-200:]}")
        files = list(self.folder.iterdir())
        totals = [total_of(it.read_text(encoding="utf-8", errors="replace")) for it in files]
        for it in files:
            it.unlink()
        if not sum(totals):
            raise Failed(f"{self.name}: callgrind counted nothing")
        return sum(totals)


def total_of(counted):
    """The instructions in all of what callgrind wrote, or none where it wrote no sum."""
    return sum(int(it) for it in re.findall(r"^totals: (\d+)$", counted, re.M))


class Usage:
    """What a process took that has ended."""

    def __init__(self, status, used, wall, said):
        """From what the system tells of the process, its wall seconds and what it wrote to standard error."""
        self.status, self.wall, self.said, self.output = os.waitstatus_to_exitcode(status), wall, said, b""
        self.processor, self.memory = used.ru_utime + used.ru_stime, used.ru_maxrss * 1024


class Process:
    """A process that runs."""

    running = set()  # those that weren't waited for yet

    def __init__(self, words, given, taken):
        """Starts it with its input and output."""
        ctypes.CDLL(None).prctl(SUBREAPER, 1, 0, 0, 0)
        # a program in Python too answers before it waits for more
        environment = {**os.environ, "PYTHONUNBUFFERED": "1"}
        self.began = time.monotonic()
        shell = subprocess.Popen(
            ["sh", "-c", START, "sh", *words], stdin=given, stdout=taken, stderr=subprocess.PIPE, env=environment
        )
        self.said, self.number = shell.stderr, int(shell.stderr.readline())
        Process.running.add(self)
        shell.wait()

    def processor(self):
        """Processor seconds of all its threads up to now."""
        return sum(self.of_thread(it) for it in os.listdir(f"/proc/{self.number}/task"))

    def of_thread(self, thread):
        """Processor seconds of one thread."""
        with open(f"/proc/{self.number}/task/{thread}/schedstat", encoding="ascii") as file:
            return int(file.read().split()[0]) / 1e9

    def memory(self, kind="VmRSS"):
        """Bytes of memory that it has now, or, with VmHWM, had at most."""
        with open(f"/proc/{self.number}/status", encoding="ascii") as file:
            return next(int(it.split()[1]) * 1024 for it in file if it.startswith(kind + ":"))

    def has_ended(self):
        """Whether it has ended and wasn't waited for yet."""
        with open(f"/proc/{self.number}/stat", encoding="ascii", errors="replace") as file:
            return file.read().rpartition(")")[2].split()[0] == "Z"

    def end(self):
        """Waits for its end."""
        said = self.said.read().decode(errors="replace")
        self.said.close()
        _, status, used = os.wait4(self.number, 0)
        Process.running.discard(self)
        return Usage(status, used, time.monotonic() - self.began, said)


def stop_all():
    """Kills what still runs, after a fault."""
    for process in list(Process.running):
        os.kill(process.number, signal.SIGKILL)
        process.end()


def in_memory(data=b""):
    """A file without a name, in memory, that holds data."""
    file = os.fdopen(os.memfd_create("bench"), "w+b")
    file.write(data)
    file.seek(0)
    return file


def run(program, *words, given=b"", statuses=(0,)):
    """Runs a program to its end on an input, and returns what it took, with its output; any other status is a fault."""
    with in_memory(given) as source, in_memory() as target:
        used = Process([*program.words, *words], source, target).end()
        target.seek(0)
        used.output = target.read()
    if used.status not in statuses:
        raise Failed(f"{program.name} {words[0]}: status {used.status}; it said {used.said.strip()[:200]}")
    return used


def from_first_byte(program, *words):
    """Runs a program on no input, and returns what it took, but the wall seconds are those behind the first byte of its
    output."""
    reading, writing = os.pipe()
    process = Process([*program.words, *words], subprocess.DEVNULL, writing)
    os.close(writing)
    with os.fdopen(reading, "rb") as output:
        first = output.read(1)
        begin = time.monotonic()
        rest = output.read()
        took = time.monotonic() - begin
    used = process.end()
    used.wall, used.output = took, first + rest
    if used.status:
        raise Failed(f"{program.name} {words[0]}: status {used.status}; it said {used.said.strip()[:200]}")
    return used


def by_table(program, file):
    """Checks a file on a terminal, where the program tells of each table when it comes to it: pairs of what was told
    and the processor seconds from there to the next, the last to the end. None are told by a program that says
    nothing."""
    reading, writing = os.openpty()
    process = subprocess.Popen(
        [*program.words, "check", file], stdin=subprocess.DEVNULL, stdout=subprocess.DEVNULL, stderr=writing
    )
    os.close(writing)
    clock = ~process.pid << 3 | 2  # its processor time, all threads, as clock_getcpuclockid makes the number
    told, said = [("", 0.0)], b""
    with os.fdopen(reading, "rb", buffering=0) as terminal:
        while True:
            try:
                piece = terminal.read(4096)
            except OSError:  # the other end is closed
                break
            at = time.clock_gettime(clock)
            said += piece
            told += [(name.decode(), at) for name in re.findall(rb"opening|checking \w+(?=,)", said)[len(told) - 1 :]]
    _, status, used = os.wait4(process.pid, 0)
    process.returncode = os.waitstatus_to_exitcode(status)
    if process.returncode:
        raise Failed(f"{program.name} check: status {process.returncode}")
    told.append(("", used.ru_utime + used.ru_stime))
    return [(name, after - at) for (name, at), (_, after) in zip(told, told[1:]) if name]


class Lines:
    """A program that runs by the words `lines FILE` and is sent block after block."""

    def __init__(self, program, file):
        """Starts it over a file, or `:memory:`."""
        self.name, self.answers, self.taken = program.name, in_memory(), 0
        source, self.input = os.pipe()
        fcntl.fcntl(self.input, fcntl.F_SETPIPE_SZ, PIPE_SIZE)
        os.set_blocking(self.input, False)
        self.process = Process([*program.words, "lines", file], source, self.answers)
        os.close(source)

    def write(self, rest):
        """Sends what there is room for, and returns the rest."""
        try:
            return rest[os.write(self.input, rest) :] if rest else rest
        except BlockingIOError:
            return rest
        except BrokenPipeError:
            raise Failed(f"{self.name} lines: it doesn't read") from None

    def ask(self, lines):
        """Sends lines, and returns the processor seconds and wall seconds until all were answered, and the answers."""
        rest, wanted, answers = memoryview(b"".join(lines)), len(lines), []
        processor = self.process.processor()
        begin = late = time.monotonic()
        while wanted:
            rest = self.write(rest)
            time.sleep(PAUSE)
            some = os.pread(self.answers.fileno(), PIPE_SIZE, self.taken)
            self.taken, wanted = self.taken + len(some), wanted - some.count(b"\n")
            answers.append(some)
            late = time.monotonic() if some else late
            if not some and (self.process.has_ended() or time.monotonic() - late > PATIENCE):
                raise Failed(f"{self.name} lines: {wanted} lines aren't answered")
        return self.process.processor() - processor, time.monotonic() - begin, b"".join(answers)

    def end(self):
        """Ends its input, and returns what it took."""
        os.close(self.input)
        used = self.process.end()
        self.answers.close()
        if used.status:
            raise Failed(f"{self.name} lines: status {used.status}; it said {used.said.strip()[:200]}")
        return used


class Server:
    """A program that runs by the words `serve FILE --port 0`, with `--count N` where so many connections are to
    come."""

    def __init__(self, program, file, count, client):
        """Starts it for so many connections, or without end, and waits until it listens; `client` is the built
        client.c."""
        reading, writing = os.pipe()
        self.name, self.client, self.left, self.output = program.name, client, count, os.fdopen(reading, "rb")
        counted = ["--count", str(count)] if count else []
        words = [*program.words, "serve", file, "--port", "0", *counted]
        self.process = Process(words, subprocess.DEVNULL, writing)
        os.close(writing)
        told = self.output.readline().decode()
        if not told.startswith("listening 127.0.0.1:"):
            raise Failed(f"{program.name} serve: it said {told.strip() or self.process.said.read().decode()[:200]}")
        self.port = told.strip().rpartition(":")[2]

    def ask(self, requests):
        """Sends requests in turn, and returns the server's processor seconds and the wall seconds, status, length and
        hash of each."""
        processor = self.process.processor()
        told = subprocess.run(
            [self.client, self.port], input=b"\0".join(requests) + b"\0", capture_output=True, check=True
        ).stdout
        if self.left is not None:
            self.left -= len(requests)
        rows = [it.split() for it in told.decode().splitlines()]
        used = self.process.processor() - processor if self.left != 0 else None
        return used, [(int(wall) / 1e9, int(status), int(length), hash_) for wall, status, length, hash_ in rows]

    def at_once(self, clients, core, requests, milliseconds, count, **held):
        """Has so many clients at once send requests for so long, beside others that are held; `clients` is the built
        clients.c, which runs on other cores than the server. Returns, for each exchange, the first letter of the
        request, the wall seconds, the status, and when it ended."""
        words = [clients, self.port, str(milliseconds), str(count), *(f"{name}={it}" for name, it in held.items())]
        others = set(range(os.cpu_count())) - {core} or {core}
        told = subprocess.run(
            [str(it) for it in words], input=b"\0".join(requests) + b"\0", stdout=subprocess.PIPE, check=True,
            preexec_fn=lambda: os.sched_setaffinity(0, others),
        ).stdout
        rows = [it.split() for it in told.decode().splitlines()]
        return [(letter, int(wall) / 1e9, int(status), int(at) / 1e9) for letter, wall, status, at in rows]

    def end(self):
        """Sends what is left of the connections that were told, or kills it where none were, and returns what it
        took."""
        if self.left is None:
            os.kill(self.process.number, signal.SIGKILL)
        else:
            self.ask([b"GET / HTTP/1.1\r\n\r\n"] * self.left)
        used = self.process.end()
        self.output.close()
        return used
