"""What is read and written, and what goes wrong with it. The name `-` is standard input, or standard output."""
import contextlib
import os
import stat

STDIN, STDOUT, STDERR = range(3)


class Trouble(Exception):
    """What keeps a command from being done, in one line."""


def read(name):
    """All bytes of a file."""
    try:
        with opened(name) as file:
            return file.read()
    except OSError as error:
        raise unreadable(name, error) from None


def opened(name):
    """A file to be read, also by a program that it is handed to."""
    try:
        return open(STDIN, "rb", closefd=False) if name == "-" else open(name, "rb")
    except OSError as error:
        raise unreadable(name, error) from None


def unreadable(name, error):
    return Trouble(f"{called(name, 'standard input')} can't be read: {error.strerror}")


def write(name, data):
    """Writes a file: all of it, or, where that fails and it is a plain file, nothing of it."""
    try:
        if name == "-":
            with open(STDOUT, "wb", closefd=False) as out:
                out.write(data)
        elif name and is_plain(name):
            _replace(os.path.realpath(name), data)
        else:
            _fill(name, data)
    except BrokenPipeError:
        raise
    except OSError as error:
        raise Trouble(f"{called(name, 'standard output')} can't be written: {error.strerror}") from None


def is_plain(name):
    """Whether a name is that of a plain file, or of none yet: no device, no pipe."""
    try:
        return stat.S_ISREG(os.stat(name).st_mode)
    except FileNotFoundError:
        return True


def _fill(name, data, mode="wb"):
    with open(name, mode) as file:
        file.write(data)


def _replace(name, data):
    """A file beside it takes its name once it is whole."""
    beside = os.path.join(os.path.dirname(name), f".guineacrumb-{os.getpid()}.part")
    try:
        _fill(beside, data, "xb")
        if os.path.exists(name):
            os.chmod(beside, stat.S_IMODE(os.stat(name).st_mode))
        os.replace(beside, name)
    except BaseException:
        if os.path.exists(beside):
            os.remove(beside)
        raise


def called(name, dash):
    """What a message calls a file."""
    return dash if name == "-" else name or "a file with no name"


def complain(line):
    """Says a line on standard error: one, whatever a file's name has in it."""
    say(f"guineacrumb: {' '.join(str(line).splitlines())}\n")


def say(words):
    """Puts words on standard error. Where that can't be done, nobody can be told so either."""
    with contextlib.suppress(OSError):
        os.write(STDERR, words.encode(errors="backslashreplace"))
