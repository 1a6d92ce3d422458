"""The commands: each takes its arguments as `options`, and hands back an exit status where it is not 0."""
import shutil
import subprocess

from door import drawing, files, fleet, programs, refusals, tables, text
from door.files import Trouble


class Refused(Exception):
    """A refusal: a program's line, and its words."""

    def __init__(self, line, words):
        super().__init__(f"{line}: {words}")


def tick(options):
    data = files.read(options.file)
    output = programs.run("onetick", is_forced=options.check, input=data)
    if options.hex and options.out != "-":
        files.write("-", output)
    hold_to_fleet(output, data)
    lines = [line.split() for line in output.decode().splitlines()]
    if len(lines) != len(data) // fleet.RECORD_BYTES:
        raise Trouble("onetick did not print a line for each agent")
    if options.out:
        files.write(options.out, fleet.moved(data, lines))
    if not options.hex and options.out != "-":
        files.write("-", tables.of_ticked(lines).encode())


def fly(options):
    data = files.read(options.file)
    output = programs.run("tenticks", is_forced=options.check, input=data)
    hold_to_fleet(output, data)
    if len(output) != len(data):
        raise Trouble(f"tenticks wrote {len(output)} bytes for a fleet file of {len(data)}")
    files.write(options.out, output)


def spacing(options):
    with files.opened(options.file) as recording:
        output = programs.run("spacing_report", [options.agents, options.limit], options.check, stdin=recording)
    hold_to(output, refusals.of_spacing)
    if not output.startswith(b"frames "):
        raise Trouble("spacing_report printed no report")
    files.write("-", output)


def hold_to_fleet(output, data):
    """Raises what a program refuses about a fleet file, if it does."""
    hold_to(output, lambda number, place: refusals.of_file(number, place, data))


def hold_to(output, explained):
    """Raises what a program refuses, if it does; `explained` puts a number and a place into words."""
    refusal = refusals.parted(output)
    if refusal is None:
        return
    try:
        words = explained(*refusal)
    except refusals.Unknown as unknown:
        words = str(unknown)
    raise Refused(output.decode().strip(), words)


def show(options):
    agents = fleet.decoded(files.read(options.file))
    shown = text.write if options.text else tables.of_places if options.exact else tables.of_fleet
    files.write("-", shown(agents).encode())


def make(options):
    name = files.called(options.text, "standard input")
    try:
        agents = text.read(files.read(options.text).decode("utf-8-sig"))
    except UnicodeDecodeError:
        raise Trouble(f"{name} is no text in UTF-8") from None
    except text.BadText as bad:
        raise Trouble(f"{name}, {bad}") from None
    files.write(options.out, fleet.encoded(agents))


def explain(options):
    try:
        words = explanation(options)
    except refusals.Unknown as unknown:
        raise Trouble(unknown) from None
    files.write("-", f"refused {options.number} {options.place}: {words}\n".encode())


def explanation(options):
    number, place = options.number, options.place
    if options.call:
        return refusals.of_call(number, place)
    if options.spacing:
        return refusals.of_spacing(number, place)
    if options.file:
        return refusals.of_file(number, place, files.read(options.file))
    return refusals.of_table(number, place)


def draw(options):
    if options.files.count("-") > 1:
        raise Trouble("standard input can be read once")
    fleets = [fleet.decoded(files.read(name)) for name in options.files]
    files.write(options.out, drawing.drawn(options.files, fleets, options.limit).encode())


def test(_):
    return subprocess.call(["bash", str(programs.ROOT / ".ci" / "run")])


def version():
    """The commit and the toolchain: what is proved, and by what."""
    commit = said_by("git", "-C", str(programs.ROOT), "describe", "--always", "--dirty")
    files.write("-", f"guineacrumb {commit or 'of no known commit'}, {said_by('rt', 'version') or 'no rt'}\n".encode())


def said_by(*command):
    """What a command prints, if it is there and ends well."""
    if not shutil.which(command[0]):
        return None
    ran = subprocess.run(command, stdout=subprocess.PIPE, stderr=subprocess.DEVNULL)
    return ran.stdout.decode().strip() if ran.returncode == 0 else None
