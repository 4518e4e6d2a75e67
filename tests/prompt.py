#!/usr/bin/env python3
"""Talks with PROGRAM at its prompt, `debug FILE`: python3 tests/prompt.py PROGRAM

  story     at a terminal, a deadlock is found by `where`; the screen without its own commands is a transcript that
            `check` accepts, and so is what `save` wrote
  count     at a terminal, a wrong count is found by `expect` and `watch`, and kept by `back` and `save`
  pipe      replies come one by one: each is read before the next line is written
  recorded  for random commands the replies are those of `record`, `back` leads to where they would have led without the
            commands undone, and `check` accepts what `save` writes
  saving    what has the name already: files, links, folders, pipes; a folder and a disk that take no more
  hostile   files and lines of any bytes; output that can't be written
The last line that is printed is 'prompt: N passed, M failed', and the exit status is 0 if M is 0.
"""
import os
import pty
import random
import re
import resource
import select
import stat
import subprocess
import sys
import tempfile

TWO = "node 708\nmain: right b! 1 2 3 !b !b\ndone: jump done\nnode 709\nmain: right b! @b @b + @b\ndone: jump done\n"
RING = ("node 708\nmain: right b!  5 !b @b  jump warm\nnode 709\nmain: right a! left b!  @ @ + !b  @b !  jump warm\n"
        "node 710\nmain: left a!  @ 2* !  jump warm\n")
LOOP = "node 000\nmain: 0\nloop: 1 . + jump loop\nnode 001\nmain: right b!\nmore: @b 2* !b jump more\n"
SEND = ("node 708\nmain:\n  right a! 4 push\nsend:\n  7 ! next send\ndone:\n  jump done\n\n"
        "node 709\nmain:\n  right a! 0 3 push\nadd:\n  @ + next add\ndone:\n  jump done\n")
HEAD = "profile 2\nplace\n" + TWO + "go\n"
COMMANDS = ["turn 4", "turn 1", "regs 708", "regs 709", "node 709", "where", "breaks", "ports 708", "mem 708", "try 709 r",
            "break 709 done", "break 708 001", "clear 709 done", "pass 709", "until 709 done 20", "turn x", "regs 800",
            "until 708 nowhere", "turn 4 4", "step 708", "step 709 3", "trace 709 4", "watch 709 T", "watch 708 steps = 9",
            "run 20", "nodes", "map", "code 708", "sides 709", "depth 708", "mem 708 main+1 3", "expect 708 T 0", "expect 708 Q 1",
            "until 709 done x1 20", "watch 708", "step", "trace 709 x"]
failures = []
passed = 0


def check(what, held):
    global passed
    if held:
        passed += 1
    else:
        failures.append(what)
        print(f"failed: {what}")


def talk(program, arguments, lines, **more):
    return subprocess.run([program, "debug", *arguments], input=lines, capture_output=True, timeout=60, **more)


def recorded(program, text):
    run = subprocess.run([program, "record"], input=text.encode(), capture_output=True, timeout=60)
    return run.stdout.decode().split("\ngo\n", 1)[1]


def session(commands, head=HEAD):
    return head + "".join(f"> {command}\n" for command in commands)


def accepted(program, file):
    """Whether `check` finds no difference. Expectations that aren't met are none."""
    run = subprocess.run([program, "check", file], capture_output=True, timeout=60)
    return run.returncode == 0 or re.match(rb"ga-bench: check: \d+ expectations? failed, ", run.stderr) is not None


class Terminal:
    """A session at a pseudo terminal."""

    def __init__(self, program, source):
        self.typist, terminal = pty.openpty()
        self.run = subprocess.Popen([program, "debug", source], stdin=terminal, stdout=terminal, stderr=terminal,
                                    close_fds=True)
        os.close(terminal)
        self.screen = b""

    def until(self, end, since=0):
        while not self.screen[since:].endswith(end) and select.select([self.typist], [], [], 20)[0]:
            self.screen += os.read(self.typist, 4096)
        return self.screen[since:].endswith(end)

    def types(self, line):
        """Types a line, and waits for the next prompt. Returns the reply, or None."""
        since, echo = len(self.screen), line.encode() + b"\r\n"
        os.write(self.typist, line.encode() + b"\n")
        if not self.until(b"\r\n> ", since) or not self.screen[since:].startswith(echo):
            return None
        return self.screen[since + len(echo):-2].decode().replace("\r\n", "\n")

    def ends(self, line=b""):
        """Types the end of the input: behind a line without its end, twice."""
        os.write(self.typist, line + (b"\x04\x04" if line else b"\x04"))
        ended = self.run.wait(20) == 0
        os.close(self.typist)
        return ended


def placed(folder, name, text):
    """A file of source text."""
    with open(f"{folder}/{name}", "w") as file:
        file.write(text)
    return f"{folder}/{name}"


def story(program, folder):
    """A deadlock, at a terminal."""
    terminal = Terminal(program, placed(folder, "ring.source", RING))
    check("a prompt comes first", terminal.until(b"> ") and terminal.screen == b"> ")
    check("a reply, and a prompt again", (terminal.types("turn 40") or "").startswith("moved "))
    check("the deadlock", (terminal.types("where") or "").endswith("\nring 708 709\n"))
    before = len(terminal.screen)
    terminal.types("break 709 main")
    check("what is undone", terminal.types("back") == "undone break 709 main\n")
    kept = terminal.screen[:before]
    before = len(terminal.screen)
    check("no breakpoint is left", terminal.types("breaks") == "")
    kept += terminal.screen[before:]
    check("it is saved", terminal.types(f"save {folder}/kept") == f"saved {folder}/kept\n")
    check("the end of the input ends it", terminal.ends())
    check("what was saved is accepted", accepted(program, f"{folder}/kept"))
    with open(f"{folder}/kept") as file:
        saved = file.read()
    check("the screen is the session", saved == "profile 2\nplace\n" + RING + "go\n" + kept.replace(b"\r\n", b"\n").decode().removesuffix("> "))


def count(program, folder):
    """A loop that goes round once too often, at a terminal."""
    terminal = Terminal(program, placed(folder, "send.source", SEND))
    terminal.until(b"> ")
    check("it comes to rest", (terminal.types("run") or "").endswith(", at rest\n"))
    check("the sum is right", terminal.types("expect 709 T 1C") == "ok\n")
    check("the count is wrong", terminal.types("expect 708 right written 4") == "expected 4, is 5\n")
    check("all is undone", (terminal.types("back 3") or "").startswith("undone run\n"))
    seen = [(terminal.types("watch 708 R") or "\n").splitlines()[-1][:14] for _ in range(5)]
    check("R counts down from 4", seen == [f"0000{n + 1} -> 0000{n}" if n < 4 else "00000 -> 00004" for n in (4, 3, 2, 1, 0)])
    check("it is saved", terminal.types(f"save {folder}/count") == f"saved {folder}/count\n")
    check("the end of the input ends it, also in a line", terminal.ends(b"breaks"))
    check("the count that was saved is accepted", accepted(program, f"{folder}/count"))


def pipe(program, folder):
    """Without a terminal: no prompt, and each reply at once."""
    with open(f"{folder}/head", "w") as file:
        file.write(HEAD)
    run = subprocess.Popen([program, "debug", f"{folder}/head"], stdin=subprocess.PIPE, stdout=subprocess.PIPE)

    def said(line):
        run.stdin.write(line + b"\n")
        run.stdin.flush()
        return run.stdout.readline() if select.select([run.stdout], [], [], 20)[0] else None

    check("a first reply", (said(b"turn 4") or b"").startswith(b"moved "))
    first = said(b"regs 708")
    check("a second reply", (first or b"").startswith(b"node 708 "))
    check("an empty line repeats", said(b"") == first)
    check("nothing to repeat that isn't a command", said(b"trun 4") == b"refused BadCommand, the nearest is turn\n")
    check("back", said(b"back 2") == b"undone regs 708\n" and run.stdout.readline() == b"undone regs 708\n")
    check("help", said(b"help turn") == b"turn K                    K turns of all nodes, up to 1000000\n")
    run.stdin.write(b"quit\nregs 708\n")
    run.stdin.close()
    check("quit ends it", run.stdout.read() == b"" and run.wait(20) == 0)


def compare(program, folder, seed):
    """Replies beside those of `record`."""
    rng = random.Random(seed)
    file = f"{folder}/random"
    with open(file, "w") as text:
        text.write(HEAD)
    lines, left = [], []
    for _ in range(rng.randrange(1, 14)):
        if rng.random() < 0.2:
            count = rng.randrange(0, 4)
            lines.append("back" if count == 1 and rng.random() < 0.5 else f"back {count}")
            left = left[:max(len(left) - count, 0)]
        else:
            lines.append(rng.choice(COMMANDS))
            left.append(lines[-1])
    saved = f"{folder}/saved{seed}"
    run = talk(program, [file], "".join(f"{line}\n" for line in [*lines, "where", "breaks", f"save {saved}"]).encode())
    whole = recorded(program, session([*left, "where", "breaks"]))
    end = whole[whole.rindex("> where\n") + len("> where\n"):].replace("> breaks\n", "")
    check(f"random {seed}: the state at the end", run.returncode == 0
          and run.stdout.decode().endswith(end + f"saved {saved}\n"))
    with open(saved) as text:
        check(f"random {seed}: what is saved is the recording", text.read() == session([]) + whole)
    check(f"random {seed}: and holds", accepted(program, saved))
    plain = [line for line in lines if not line.startswith("back")]
    run = talk(program, [file], "".join(f"{line}\n" for line in plain).encode())
    shown = "".join(line + "\n" for line in recorded(program, session(plain)).splitlines() if not line.startswith("> "))
    check(f"random {seed}: the replies are those of record", run.stdout.decode() == shown)
    again = f"{folder}/again"
    with open(again, "w") as text:
        text.write(session(plain[:3]))
    rest = talk(program, [again], "".join(f"{line}\n" for line in plain[3:]).encode())
    early = talk(program, [file], "".join(f"{line}\n" for line in plain[:3]).encode())
    check(f"random {seed}: a transcript goes on", rest.returncode == 0 and run.stdout == early.stdout + rest.stdout)


def hostile(program, folder):
    """Files and lines of any bytes."""
    source = f"{folder}/loop.source"
    with open(source, "w") as file:
        file.write(LOOP)
    fault = talk(program, [f"{folder}/none"], b"")
    check("no file", (fault.returncode, fault.stdout) == (2, b"") and fault.stderr.endswith(b": input NoFile\n"))
    fault = talk(program, [folder], b"")
    check("a folder", (fault.returncode, fault.stderr) == (1, f"ga-bench: {folder}: input Folder\n".encode()))
    for name, text, message in [
        ("bytes", b"\xff\xfe", "ga-bench: {}: input BadText\n"),
        ("long", b" " * 1048577, "ga-bench: {}: input TooLong\n"),
        ("token", b"node 000 nothing\n", "{}:1:10: error: BadToken: "),
        ("label", b"node 000 jump x\n", "{}:1:15: error: UndefinedLabel: a name that is no label of its node (node 000)\n"),
        ("early", HEAD.encode() + b"moved 4\n", "{}:10:1: error: EarlyReply: a line that is no command or comment"),
    ]:
        with open(f"{folder}/{name}", "wb") as file:
            file.write(text)
        run = talk(program, [f"{folder}/{name}"], b"turn 4\n")
        begin = message.format(f"{folder}/{name}").encode()
        check(f"a file that is {name}", run.returncode == 1 and run.stdout == b"" and run.stderr.startswith(begin))
    moved = recorded(program, session(["turn 4"], "profile 2\nplace\n" + LOOP + "go\n")).split("\n")[1].encode() + b"\n"
    for line, reply in [
        (b"\xff", b"refused BadText\n"),
        (b"a" * 65536, b"refused BadCommand\n"),
        (b"a" * 65537, b"refused TooLong\n"),
        (b"a" * 3000000, b"refused TooLong\n"),
        (b"turn 4\r", b"refused BadCount\n"),
        (b"back x", b"refused BadCount\n"),
        (b"back -1", b"refused BadCount\n"),
        (b"\x00", b"refused BadCommand\n"),
        (b"", b""),
        (b"save " + folder.encode(), b"refused Exists\n"),
        (b"save /nowhere/at/all", b"refused Write, No such file or directory (os error 2)\n"),
        (b"save a\x00b", b"refused Write, file name contained an unexpected NUL byte\n"),
        (b"save! " + folder.encode(), b"refused NotAFile\n"),
        (b"save", b"refused NoName\n"),
        (b"save! ", b"refused NoName\n"),
        (b"back 1000001", b"refused BadCount\n"),
        (b"quit now", b"refused BadCommand\n"),
        (b"help nothing", b"refused BadCommand\n"),
        (b"help An", b"refused BadCommand\n"),
    ]:
        run = talk(program, [source], line + b"\nturn 4\n")
        check(f"the line {line[:20]!r}", run.returncode == 0 and run.stdout == reply + moved)
    check("no LF at the end", talk(program, [source], b"turn 4").stdout == moved)
    check("the program as a route", talk(program, ["--route", "000,001", source], b"turn 4").returncode == 0)
    run = talk(program, ["--place"], b"")
    check("--place wants a file", run.returncode == 2)
    with open("/dev/full", "wb") as full:
        run = subprocess.run([program, "debug", source], input=b"turn 4\n", stdout=full, stderr=subprocess.PIPE, timeout=60)
    check("output that can't be written", (run.returncode, run.stderr) == (1, b"ga-bench: write\n"))
    with open(f"{folder}/escapes", "wb") as file:
        file.write(b"profile 2\nplace\nnode 000 .\ngo\n> turn 1\n>\x01no command\n> turn \x1b[31m\xe2\x80\xae\n> turn\t2\n")
    run = talk(program, [f"{folder}/escapes"], b"back 2\n")
    check("what was undone is shown as other texts are", run.stdout == b"undone turn  [31m \nundone turn\t2\n")


def full(program, folder):
    """A session takes no command by which it would be longer than an input may be, replies apart."""
    head, command = "profile 2\nplace\nnode 000 .\ngo\n\\ ", "\n> turn 0"
    for room, replies in (0, "moved 0\nrefused TooLong\nundone turn 0\nmoved 0\n"), (-1, "refused TooLong\n" * 3):
        with open(f"{folder}/full", "w") as file:
            file.write(head.ljust(1048576 - len(command) - room, "x"))
        run = talk(program, [f"{folder}/full"], b"turn 0\nturn 0\nback\nturn 0\n")
        check(f"a full session, {room}", (run.returncode, run.stdout.decode()) == (0, replies))


def saving(program, folder):
    """What has the name already."""
    folder = f"{folder}/saving"
    os.mkdir(folder)
    source = f"{folder}/loop.source"
    with open(source, "w") as file:
        file.write(LOOP)

    def says(line, reply, **more):
        """Whether a line has this reply behind a command, and the session goes on."""
        run = talk(program, [source], f"turn 4\n{line}\nback\n".encode(), **more)
        return run.returncode == 0 and run.stdout.decode().split("\n")[1:] == [reply, "undone turn 4", ""]

    def made(name, text="old", mode=0o644):
        with open(f"{folder}/{name}", "w") as file:
            file.write(text)
        os.chmod(f"{folder}/{name}", mode)
        return f"{folder}/{name}"

    def holds(name, text):
        with open(name) as file:
            return file.read() == text

    def mode_of(name):
        return stat.S_IMODE(os.stat(name).st_mode)

    new = f"{folder}/new"
    check("a new file", says(f"save {new}", f"saved {new}") and accepted(program, new))
    check("no file is replaced by save", says(f"save {made('kept')}", "refused Exists") and holds(f"{folder}/kept", "old"))
    check("a new file by save!", says(f"save! {new}er", f"saved {new}er") and accepted(program, f"{new}er"))
    for mode in (0o644, 0o600, 0o444):
        name = made(f"mode{mode}", mode=mode)
        check(f"a file of mode {mode:o}", says(f"save! {name}", f"saved {name}") and accepted(program, name) and mode_of(name) == mode)
    left, name = made("fresh.ga-bench-unfinished"), f"{folder}/fresh"
    check("what a killed call left goes", says(f"save {name}", f"saved {name}") and accepted(program, name) and not os.path.exists(left))
    left = made("fresh.ga-bench-unfinished")
    check("also by a call that is refused", says(f"save {name}", "refused Exists") and not os.path.exists(left))
    left = made("fresh.ga-bench-unfinished")
    check("also if it is replaced", says(f"save! {name}", f"saved {name}") and accepted(program, name) and not os.path.exists(left))
    name = made("beside")
    os.mkdir(f"{name}.ga-bench-unfinished")
    check("no name is free", says(f"save! {name}", "refused Exists") and holds(name, "old"))
    if os.geteuid() == 0:
        name = made("another's")
        os.chown(name, 4321, 4322)
        check("the owner and the group stay", says(f"save! {name}", f"saved {name}") and accepted(program, name)
              and (os.stat(name).st_uid, os.stat(name).st_gid) == (4321, 4322))

    target, link = made("target", mode=0o640), f"{folder}/link"
    os.symlink("target", link)
    check("a link", says(f"save! {link}", f"saved {link}") and os.readlink(link) == "target")
    check("the file that it leads to", accepted(program, target) and mode_of(target) == 0o640)
    check("a link isn't new", says(f"save {link}", "refused Exists") and os.readlink(link) == "target")
    pipe, nowhere = f"{folder}/pipe", f"{folder}/nowhere"
    os.mkfifo(pipe)
    os.symlink("none", nowhere)
    os.symlink("pipe", f"{folder}/piped")
    for what, name in [("a pipe", pipe), ("a folder", folder), ("a link to a pipe", f"{folder}/piped"), ("a link to nothing", nowhere)]:
        check(f"{what} isn't replaced", says(f"save! {name}", "refused NotAFile") and says(f"save {name}", "refused Exists"))
    check("all are as they were", stat.S_ISFIFO(os.stat(pipe).st_mode) and os.readlink(nowhere) == "none"
          and not os.path.exists(f"{folder}/none"))

    def limited():
        resource.setrlimit(resource.RLIMIT_FSIZE, (8, 8))

    before, name = sorted(os.listdir(folder)), made("kept")
    reply = "refused Write, File too large (os error 27)"
    # Python ignores the signal for a file that is too large, and so does the program then.
    full = {"preexec_fn": limited, "restore_signals": False}
    check("a disk that is full", says(f"save {folder}/more", reply, **full) and says(f"save! {name}", reply, **full))
    check("it leaves all as it was", sorted(os.listdir(folder)) == before and holds(name, "old"))
    locked = f"{folder}/locked"
    os.mkdir(locked)
    name = made("locked/kept", mode=0o666)
    os.chmod(locked, 0o555)
    if os.geteuid() != 0:
        reply = "refused Write, Permission denied (os error 13)"
        check("a folder that can't be written", says(f"save {locked}/more", reply) and says(f"save! {name}", reply) and holds(name, "old"))


def main():
    if len(sys.argv) != 2:
        sys.exit("usage: tests/prompt.py PROGRAM")
    program = os.path.abspath(sys.argv[1])
    with tempfile.TemporaryDirectory() as folder:
        story(program, folder)
        count(program, folder)
        pipe(program, folder)
        for seed in range(60):
            compare(program, folder, seed)
        hostile(program, folder)
        full(program, folder)
        saving(program, folder)
    print(f"prompt: {passed} passed, {len(failures)} failed")
    return 1 if failures else 0


if __name__ == "__main__":
    sys.exit(main())
