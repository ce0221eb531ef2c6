"""What the tools share: refusals that say where, progress, files, and the program that they ask."""

import os
import pathlib
import subprocess
import sys
import time

TOP = pathlib.Path(__file__).resolve().parent.parent
# What `rt ci` leaves, as two compilers have built it; `rt run` leaves the first.
BUILT = [TOP / "crates" / "spatial_cli" / "out" / name for name in ("spatial_cli", "spatial_cli.by-rattle")]
BAD_INPUT = 1
BAD_WORDS = 2


class Refused(Exception):
    """Bad input: the file, its line (0 where no line is at fault) and what is wrong there."""

    def __init__(self, file, line, what):
        super().__init__(f"{file}:{line}: {what}" if line else f"{file}: {what}")


class Progress:
    """Tells on standard error how far a file is, once a second has passed and then once each further second."""

    def __init__(self, name, quiet):
        self.name, self.quiet = name, quiet
        self.start = self.last = time.monotonic()

    def tell(self, done, unit, of=None):
        """Tells the count where a second has passed since the last one was told."""
        now = time.monotonic()
        if self.quiet or now - self.last < 1:
            return
        self.last = now
        share = f" of {of}" if of else ""
        print(f"{self.name}: {done}{share} {unit} after {now - self.start:.0f} s", file=sys.stderr, flush=True)


def read_text(file):
    """The file's text, standard input's for `-`. Bytes that are no UTF-8 are refused with their line."""
    try:
        data = sys.stdin.buffer.read() if file == "-" else pathlib.Path(file).read_bytes()
    except OSError as error:
        raise Refused(file, 0, error.strerror) from None
    try:
        return data.decode("utf-8-sig")
    except UnicodeDecodeError as error:
        raise Refused(file, data.count(b"\n", 0, error.start) + 1, "bytes that are no UTF-8") from None


def write_text(file, text):
    """Writes the text to the file, to standard output where the file is None."""
    if file is None:
        sys.stdout.write(text)
        sys.stdout.flush()
        return
    try:
        pathlib.Path(file).write_text(text)
    except OSError as error:
        raise Refused(file, 0, error.strerror) from None


def program_at(given=None):
    """The built spatial_cli: the one that is given, else the one that the repository's own check has left."""
    program = pathlib.Path(given) if given else next((it for it in BUILT if it.is_file()), BUILT[0])
    if not program.is_file() or not os.access(program, os.X_OK):
        raise Refused(program, 0, "no program is there: build spatial_cli, or name where it is")
    return str(program.resolve())


def ask(program, words, script):
    """What the program prints of the script. Where it ends otherwise than with 0, that is told."""
    done = subprocess.run([program, *words], input=script.encode(), capture_output=True, check=False)
    if done.returncode:
        raise Refused(program, 0, f"ended with {done.returncode}: {done.stderr.decode(errors='replace').strip()}")
    return done.stdout.decode()


def add_quiet(parser):
    """Adds the word that turns progress off."""
    parser.add_argument("--quiet", action="store_true", help="tell no progress on standard error")


def run(main):
    """Ends the process with what main answers, or with 1 and the refusal on standard error."""
    try:
        sys.exit(main())
    except Refused as refusal:
        print(refusal, file=sys.stderr)
        sys.exit(BAD_INPUT)
    except BrokenPipeError:
        os.dup2(os.open(os.devnull, os.O_WRONLY), sys.stdout.fileno())
        sys.exit(BAD_INPUT)
