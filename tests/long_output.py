"""Records transcripts up to the limit of a recording, and over it: python3 tests/long_output.py PROGRAM

A transcript sets 20,000 breakpoints, and shows them so often that its recording has 268,435,456 bytes: a comment fills it
up. This recording is written, to the byte. With one byte more, at its end or in front of its commands, with twice as many,
and with as many commands as an input may have, it is refused as `output TooLong`, and nothing is written. A fault of the
head and an early reply are reported before that. Each run has at most 1,200 MiB of memory, and a minute of a processor.

The last line that is printed is 'long output: N passed, M failed', and the exit status is 0 if M is 0.
"""
import os
import resource
import subprocess
import sys
import tempfile

LIMIT = 268_435_456
INPUT_LIMIT = 1_048_576
MEMORY = 1200 << 20
SECONDS = 60
COUNT = 20_000
# No node is held: 717 has no breakpoint here, and the P of no other node is below 100.
HEAD = b"profile 2\nplace\nnode 717 .\ngo\n"
PLACES = [b"%d%02d %03X" % (*divmod(node, 18), address) for node in range(144) for address in range(0x100)][:COUNT]
BREAKS = b"".join(b"> break %s\n" % place for place in PLACES)
SHOW = b"> breaks\n"
SHOWN = SHOW + b"".join(b"%s\n" % place for place in PLACES)


def transcript(length, comment_first=False):
    """A transcript whose recording has this many bytes, and this recording in parts."""
    recorded = BREAKS.replace(b"\n", b"\nok\n")
    times, left = divmod(length - len(HEAD + recorded + b"\\ \n"), len(SHOWN))
    comment = b"\\ " + b"x" * left + b"\n"
    if comment_first:
        return HEAD + comment + BREAKS + SHOW * times, [HEAD, comment, recorded, *[SHOWN] * times]
    return HEAD + BREAKS + SHOW * times + comment, [HEAD, recorded, *[SHOWN] * times, comment]


def runs():
    """Each input with its name, the parts of the expected output, and the expected standard error."""
    exact, parts = transcript(LIMIT)
    yield "as many bytes as there may be", exact, parts, ""
    yield "one more at the end", transcript(LIMIT + 1)[0], [], "output TooLong\n"
    yield "one more in front", transcript(LIMIT + 1, comment_first=True)[0], [], "output TooLong\n"
    yield "twice as many", transcript(2 * LIMIT)[0], [], "output TooLong\n"
    most = HEAD + BREAKS
    most += SHOW * ((INPUT_LIMIT - len(most)) // len(SHOW))
    yield "as many commands as there may be", most, [], "output TooLong\n"
    early = "transcript line 5 EarlyReply\n  ok\na line that is no command or comment, with no command before it\n"
    yield "a reply in front of them", most.replace(HEAD, HEAD + b"ok\n")[:INPUT_LIMIT], [], early
    no_route = "replay BadRoute\n  put\nthe second line is neither 'place' nor 'route' and names of nodes\n"
    yield "a head with a fault", most.replace(b"place", b"put", 1), [], no_route


def bound():
    resource.setrlimit(resource.RLIMIT_AS, (MEMORY, MEMORY))
    resource.setrlimit(resource.RLIMIT_CPU, (SECONDS, SECONDS))


def wrong(program, data, parts, error):
    """The fault of the recording of an input, or None."""
    with tempfile.TemporaryFile() as file:
        file.write(data)
        file.seek(0)
        streams = {"stdin": file, "stdout": subprocess.PIPE, "stderr": subprocess.PIPE}
        with subprocess.Popen([program, "record"], **streams, preexec_fn=bound) as child:
            is_written = all([child.stdout.read(len(part)) == part for part in parts]) and not child.stdout.read()
            reported = child.stderr.read().decode(errors="replace")
            status = child.wait()
    if is_written and (status, reported) == ((1, f"ga-bench: {error}") if error else (0, "")):
        return None
    return f"status {status}, {reported[:200]!r}, and the output is {'as' if is_written else 'not what is'} wanted"


def main(program):
    passed = failed = 0
    for what, data, parts, error in runs():
        why = wrong(program, data, parts, error) if len(data) <= INPUT_LIMIT else f"{len(data)} bytes of input"
        passed, failed = passed + (why is None), failed + (why is not None)
        if why is not None:
            print(f"FAILED {what}: {why}")
    print(f"long output: {passed} passed, {failed} failed")
    return 1 if failed else 0


if __name__ == "__main__":
    if len(sys.argv) != 2:
        sys.exit(__doc__)
    sys.exit(main(os.path.abspath(sys.argv[1])))
