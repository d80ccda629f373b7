"""How a script ends that a person has called. One place makes the documented status and line of whatever the system answers, and prints and stores.

A terminal gets `?` in place of characters that would move its cursor or change the order of what it shows; what is told on standard error never has them.
"""
import errno
import io
import os
import shutil
import signal
import sys
import tempfile
from pathlib import Path

MISSING, FAULT, NO_OUTPUT, NO_MEMORY, FAILED = 9, 10, 11, 14, 70
STOPS = (signal.SIGINT, signal.SIGTERM, signal.SIGHUP)


class NoOutput(Exception):
    """Standard output can't be written."""


class Stopped(BaseException):
    """A signal asks to end."""

    def __init__(self, number):
        super().__init__(number)
        self.number = number


def shown(text):
    """A text of lines as a terminal can show it."""
    return text if text.replace("\n", "").isprintable() else "".join(it if it.isprintable() or it in "\n\t" else "?" for it in text)


class Printed:
    """Standard output. A fault in it is none of a file, and what isn't there can't be written."""

    def __init__(self, stream):
        self.stream = stream
        if stream is not None:
            stream.reconfigure(errors="surrogateescape")

    def isatty(self):
        return self.stream is not None and self.stream.isatty()

    def write(self, text):
        if self.stream is None:
            raise NoOutput
        try:
            return self.stream.write(shown(text) if self.isatty() else text)
        except OSError as fault:
            raise NoOutput from fault

    def flush(self):
        try:
            if self.stream is not None:
                self.stream.flush()
        except OSError as fault:
            raise NoOutput from fault


class Told:
    """Standard error, where it is there: nobody is told that it isn't."""

    def __init__(self, stream):
        self.stream = stream

    def isatty(self):
        return self.stream is not None and self.stream.isatty()

    def write(self, text):
        return self.write_as_it_is(shown(text))

    def write_as_it_is(self, text):
        try:
            if self.stream is not None:
                self.stream.write(text)
                self.stream.flush()
        except OSError:
            self.stream = None
        return len(text)

    def flush(self):
        pass


def stop(number, _):
    """Leaves what is being done, so that its folders go. A second signal changes nothing."""
    for it in STOPS:
        signal.signal(it, signal.SIG_IGN)
    raise Stopped(number)


def tell(text):
    print(f"stack: {text}", file=sys.stderr)


def refused_by_system(fault):
    """The status of an error of the system, whose line is printed: of a file, or of what has no file."""
    if fault.filename is None:
        tell(f"the system said: {fault.strerror or fault}")
        return NO_MEMORY if fault.errno == errno.ENOMEM else FAILED
    name = os.fsdecode(fault.filename) if isinstance(fault.filename, (str, bytes)) else str(fault.filename)
    print(f"missing {name}" if isinstance(fault, FileNotFoundError) else f"shelf fault {name}")
    return MISSING if isinstance(fault, FileNotFoundError) else FAULT


def status_of(act):
    """The status that `act` returns, or that of what it met."""
    try:
        try:
            status = act()
        except OSError as fault:
            status = refused_by_system(fault)
        sys.stdout.flush()
        return status
    except NoOutput:
        # It isn't tried again at the end.
        os.dup2(os.open(os.devnull, os.O_WRONLY), 1)
        return NO_OUTPUT
    except MemoryError:
        return NO_MEMORY
    except Exception as fault:
        where = fault.__traceback__
        while where.tb_next:
            where = where.tb_next
        tell(f"this is a fault of the script, at {Path(where.tb_frame.f_code.co_filename).name}:{where.tb_lineno}: {fault!r}"[:400])
        return FAILED


def end(act):
    """Ends the process with the status of `act`, or as a signal ends it, after all folders that `act` made are gone."""
    sys.stdout, sys.stderr = Printed(sys.stdout), Told(sys.stderr)
    for it in STOPS:
        if signal.getsignal(it) != signal.SIG_IGN:
            signal.signal(it, stop)
    try:
        status = status_of(act)
    except Stopped as stopped:
        signal.signal(stopped.number, signal.SIG_DFL)
        os.kill(os.getpid(), stopped.number)
    sys.exit(status)


def store(path, content):
    """Stores bytes, or what a file has, under a name, as the program does: docs/program/cli.md, What is left of the files."""
    path, given = Path(path), io.BytesIO(content) if isinstance(content, bytes) else content
    try:
        if not is_replaced(path) or not store_beside(path, given):
            with open(path, "wb") as file:
                shutil.copyfileobj(given, file)
    except OSError as fault:
        raise OSError(fault.errno, fault.strerror, str(path)) from None


def is_replaced(path):
    """Whether a file gives way to a new one: an ordinary one that has no other name and may be written, or none."""
    if path.is_symlink() or not path.exists():
        return not path.is_symlink()
    return path.is_file() and path.stat().st_nlink == 1 and os.access(path, os.W_OK)


def store_beside(path, given):
    """Stores what a file has beside a name, and then under it. Says whether the folder lets it."""
    try:
        handle, part = tempfile.mkstemp(prefix="partly-stored-", dir=path.parent)
    except PermissionError:
        return False
    try:
        with open(handle, "wb") as file:
            os.fchmod(handle, rights_of(path))
            shutil.copyfileobj(given, file)
            file.flush()
            os.fsync(handle)
        os.replace(part, path)
        return True
    except BaseException:
        os.unlink(part)
        raise


def rights_of(path):
    """The rights of a file, or those of a new one."""
    if path.exists():
        return path.stat().st_mode & 0o777
    mask = os.umask(0)
    os.umask(mask)
    return 0o666 & ~mask
