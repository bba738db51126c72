"""Agents that read their hosts from a file, for `scripts/agent hosts`.

One that starts with an empty file serves alone, stays well while the host that the file gets is not up, and joins by it once it is. A file with a bad line
is told once in the log, by the line's number, and changes nothing, and so is each other fault, as that the file is a pipe; once it can be read again, the
log says that. A host that comes later is joined by healing. The same hosts in another order, or twice, change nothing, and a list that comes while hosts are
asked that do not answer is taken up before the next one is. At the start a file that is absent, is a pipe or has a bad line is refused with status 1, and
both lines of the refusal say why.
"""
import contextlib
import os
import pathlib
import socket
import subprocess
import tempfile
import time

from agents import agree, running, well
from nodes import address, expect, wait_until

# the seconds within which a change of the file has its effect: it is read each five seconds, and healing comes each ten rounds
READ, HEALED = 8, 20
# hosts that say nothing, each of which is asked for half a second
SILENT = 40


def write(file, text):
    """Replaces the file as a whole, as the pages say."""
    newer = file.with_name("newer")
    newer.write_text(text)
    newer.rename(file)


def check_join(file, alone, host):
    """An agent that serves alone joins by the host that its file gets."""
    write(file, "127.0.0.1:1\n")
    wait_until("read a host that is down", READ, lambda: f"{file} has changed; number of hosts: 1\n" in alone.said())
    expect(len(alone.members()) == 1 and alone.is_well(), "an agent is not well alone, though it had no host at the start")
    write(file, "")
    wait_until("read no host", READ, lambda: f"{file} has changed; number of hosts: 0\n" in alone.said())
    write(file, f"# the hosts\n\n  {alone.own}\n\t{host.own} \n")
    spent = wait_until("joined by the file", READ, lambda: agree([alone, host]) and len(alone.members()) == 2)
    expect(alone.said().count("number of hosts: 1\n") == 2, f"the log of an agent whose file changed: {alone.said()}")
    print(f"an agent joined {spent:.1f} s after its file named a host")


def check_bad(file, alone, host):
    """A file with a bad line changes nothing, and is told once; so is a pipe in its stead, which holds up nothing."""
    what = "the hosts of before stay: bad --hosts-file: line 2 is not an IPv4 address"
    write(file, f"{host.own}\nlocalhost:7946\n")
    wait_until("told of a bad file", READ, lambda: what in alone.said())
    newer = file.with_name("newer")
    os.mkfifo(newer)
    newer.rename(file)
    wait_until("told of a pipe", READ, lambda: "the hosts of before stay: bad --hosts-file: no regular file" in alone.said())
    write(file, f"{host.own}\n")
    wait_until("read again", 2 * READ + 10, lambda: f"{file} is read again" in alone.said())
    expect(alone.said().count("the hosts of before stay") == 2, f"a fault of the file is told more than once: {alone.said()}")
    expect(agree([alone, host]), "a bad file changed the members")


def check_healing(program, file, alone, port):
    """A host that the file gets after the agent has joined is met by healing."""
    with running(program, port, hosts=(), until=well) as (other,):
        write(file, f"{other.own}\n")
        spent = wait_until("met by healing", HEALED, lambda: len(alone.members()) == 3 and alone.members().get(other.own) == "alive")
        print(f"a host was joined {spent:.1f} s after the file of a member named it")


def check_same(file, alone, hosts):
    """The same hosts in another order, and twice, change nothing."""
    write(file, "".join(f"{it}\n" for it in hosts))
    wait_until("read both hosts", READ, lambda: f"{file} has changed; number of hosts: {len(hosts)}\n" in alone.said())
    before = alone.said().count(" has changed; ")
    write(file, "".join(f"{it}\n" for it in (*reversed(hosts), *hosts)))
    time.sleep(READ)
    expect(alone.said().count(" has changed; ") == before, f"the same hosts are told as others: {alone.said()}")


def check_silent(program, file, port, host):
    """A list that comes while hosts are asked that say nothing, each for half a second, is taken up before all of them were."""
    with contextlib.ExitStack() as all_of_it:
        silent = [all_of_it.enter_context(socket.create_server(("127.0.0.1", 0))) for _ in range(SILENT)]
        file.write_text("".join(f"{address(it.getsockname()[1])}\n" for it in silent))
        (waiting,) = all_of_it.enter_context(running(program, port, hosts=(), more=("--hosts-file", str(file)), until=lambda agents: agents[0].is_up()))
        expect(not waiting.is_well(), "an agent is well while its hosts are asked for the first time")
        write(file, f"{host.own}\n")
        spent = wait_until("took up the list at once", READ, waiting.is_well)
        print(f"an agent that asked {SILENT} silent hosts was ready {spent:.1f} s after its file named another one")


def check_refused(program, port, folder):
    """A file that lists no hosts at the start is refused."""
    cases = {"absent": None, "bad": b"# one\n127.0.0.1:1\n\n127.0.0.1\n", "long": b"#" * 131_073, "many": b"1.1.1.1:1\n" * 4_097, "latin": b"# \xe4\n", "pipe": None}
    said = {
        "absent": "cannot read --hosts-file: entity not found", "bad": "bad --hosts-file: line 4 is not an IPv4 address and a port of 1 to 65535",
        "long": "bad --hosts-file: it has more than 131072 bytes", "many": "bad --hosts-file: it has more than 4096 hosts",
        "latin": "bad --hosts-file: it is not UTF-8", "pipe": "bad --hosts-file: no regular file"}
    for name, text in cases.items():
        file = folder / name
        if text is not None:
            file.write_bytes(text)
        elif name == "pipe":
            os.mkfifo(file)
        ran = subprocess.run([program, "agent", "--hosts-file", file, address(port)], capture_output=True, text=True, timeout=30)
        lines = ran.stderr.splitlines()
        is_said = len(lines) == 2 and lines[0].startswith(f"ringpop: {said[name]}") and f"'{file}' for --hosts-file" in lines[1]
        expect(ran.returncode == 1 and not ran.stdout and is_said, f"a file of hosts that is {name}: {ran}")


def check(program, port, second, third):
    with contextlib.ExitStack() as all_of_it:
        folder = pathlib.Path(all_of_it.enter_context(tempfile.TemporaryDirectory()))
        check_refused(program, port, folder)
        file = folder / "hosts"
        file.write_text("")
        (alone,) = all_of_it.enter_context(running(program, port, hosts=(), more=("--hosts-file", str(file)), until=well))
        (host,) = all_of_it.enter_context(running(program, second, hosts=(), until=well))
        check_join(file, alone, host)
        check_bad(file, alone, host)
        check_same(file, alone, (host.own, "127.0.0.1:1"))
        check_healing(program, file, alone, third)
        check_silent(program, folder / "silent", third, host)
