"""What the scripts of tests/ and bench/ have in common: where the built program is, which commands it knows, and ports."""
import functools, itertools, os, socket, subprocess

HERE = os.path.dirname(os.path.abspath(__file__))
SKETCHD = os.environ.get("SKETCHD") or os.path.join(HERE, "..", "crates", "sketchd", "out", "sketchd")
COMMANDS = ["count", "hash", "replay", "image", "join", "quantile", "serve", "make", "window", "tally", "tenants"]


@functools.cache
def usage():
    """The line that the program writes for words that are no command."""
    return subprocess.run([SKETCHD], stdin=subprocess.DEVNULL, capture_output=True, text=True).stderr


def usage_line(commands):
    return f"usage: sketchd {', '.join(commands[:-1])} or {commands[-1]}\n"


def is_known(command):
    """Whether the program has this command. A program that was built before the last three came has another line of usage,
    and there is no third one."""
    known = [commands for commands in (COMMANDS, COMMANDS[:8]) if usage() == usage_line(commands)]
    assert known, f"the line of usage is {usage()!r}"
    return command in known[0]


def unknown(commands):
    """Those commands that the program does not know, each said in a line."""
    missing = [command for command in commands if not is_known(command)]
    for command in missing:
        print(f"{command}: the program does not know it, and it was not tried")
    return missing


# Below those that the system gives to clients: one of these could take a server's port before it listens, and a client
# that is given the very port that it asks for meets itself.
@functools.cache
def ports_of(process):
    return itertools.count(20_000 + process % 40 * 300)


def free_port():
    """A port that nobody listens at, and that was not given before."""
    for port in ports_of(os.getpid()):
        with socket.socket() as probe:
            try:
                probe.bind(("127.0.0.1", port))
            except OSError:
                continue
            return port


def is_listening(port):
    """Whether somebody listens at the port; a link to it would be a session."""
    with open("/proc/net/tcp") as table:
        return any(f"0100007F:{port:04X}" in line and line.split()[3] == "0A" for line in table)
