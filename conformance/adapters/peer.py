"""What the adapters share: how one is called, and its answers (conformance/README.md)."""
import pathlib
import subprocess
import sys
import tempfile

CANNOT, HANGS, SIGNAL = 77, 124, 128
SECONDS = 5


def cannot():
    sys.exit(CANNOT)


def quoted(name):
    """A name as `omf list` prints it: a byte outside 20H to 7EH, a quote and a backslash as \\xNN."""
    plain = (it if " " <= it <= "~" and it not in '"\\' else f"\\x{ord(it):02X}" for it in name)
    return f'"{"".join(plain)}"'


def only(names, name):
    """The index of a name, where one entry has it: a peer that prints names shows no more."""
    if names.count(name) != 1:
        cannot()
    return names.index(name) + 1


def ran(command, module):
    """The status and the text of a peer; one that crashes or hangs ends the adapter."""
    with tempfile.TemporaryDirectory() as folder:
        path = pathlib.Path(folder) / "input.obj"
        path.write_bytes(module)
        try:
            pipes = {"stdout": subprocess.PIPE, "stderr": subprocess.STDOUT}
            ended = subprocess.run([*command, str(path)], timeout=SECONDS, **pipes)
        except subprocess.TimeoutExpired:
            sys.exit(HANGS)
    if ended.returncode < 0:
        sys.exit(SIGNAL - ended.returncode)
    return ended.returncode, ended.stdout.decode("latin-1")


def answer(command, fault, kinds="", tables=None):
    """Answers `check`, and `list` where `tables` gives the lines of `kinds`. `fault` gives what refuses, or None."""
    words = sys.argv[1:]
    if words != ["check"] and not (words == ["list"] and tables):
        cannot()
    status, text = ran(command, sys.stdin.buffer.read())
    try:
        refused = fault(status, text)
        lines = list(tables(text)) if words == ["list"] and not refused else []
    except ValueError:
        cannot()
    if refused:
        print(f"only\n{refused}" if words == ["check"] else "only")
        sys.exit(1)
    if words == ["list"]:
        print(f"only {kinds}", *lines, sep="\n")
