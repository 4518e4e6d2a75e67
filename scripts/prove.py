#!/usr/bin/env python3
"""Proves the crates of the program and builds it. Crates that don't use each other are proved in parallel.

    prove.py ROOT

Status: 0 if all is proved, 1 if a crate is not. Its faults go to standard error, and the whole log of each crate to
out/NAME.log. A crate's library is left in crates/NAME/out/rlib, and the program in crates/ga_bench/out.

A library is built with its contracts and without its proofs, as the gate builds it, so that its users have less to
load. `rt lib` has no option for that, and doesn't prove two users of one crate in parallel, so this calls the
toolchain's own program `rattle`. An interrupted build goes on with the crates that weren't done.
"""
import contextlib
import hashlib
import os
import re
import shutil
import signal
import subprocess
import sys
import time
from concurrent.futures import FIRST_COMPLETED, ThreadPoolExecutor, wait

# Ctrl-C ends this like any command, without a trace.
signal.signal(signal.SIGINT, signal.SIG_DFL)
BEGAN = time.time()
PROGRAM = 'ga_bench'
# The cost of a crate before its first function, with that of the crates that it uses, in bytes of code; and the cost
# that some of the toolchain's crates add to each of their users.
PRICE = 13_000
PRICES = {'clap': 60_000}
# Crates whose chain is at least this part of the longest one are proved before all others.
SHARE_OF_LONGEST = 0.8
KIT = os.path.dirname(subprocess.run(['rt', 'doc'], capture_output=True, text=True, check=True).stdout.strip())
LOGIC = ['--antt-project', f'{KIT}/rattle/logic/antt-project.json', '--logic-built', f'{KIT}/logic_built']
TOOLCHAIN = ['--toolchain', f'{KIT}/toolchain']


class Crate:
    """A crate, those of the repository and of the toolchain that it names, and all of the repository below it."""

    def __init__(self, root, name, direct, of_kit):
        self.root, self.name, self.direct, self.of_kit = root, name, direct, of_kit
        self.below = list({it.name: it for crate in direct for it in [*crate.below, crate]}.values())
        self.folder = f'{root}/crates/{name}'
        self.out = f'{self.folder}/out' if name == PROGRAM else f'{self.folder}/out/rlib'
        self.made = f'{self.out}/{name}.{"o" if name == PROGRAM else "rlib"}'
        self.sources = sorted(file for part in ('src', 'specs', 'proofs') for file in files_of(f'{self.folder}/{part}'))
        # how long the proof of the longest chain of crates from this one up takes, as bytes of code
        code = sum(map(os.path.getsize, files_of(f'{self.folder}/src')))
        self.size = self.chain = code + PRICE + sum(PRICES.get(it, 0) for it in of_kit)
        self.sum = self.sum_of_sources()

    def sum_of_sources(self):
        """The sum of all that the crate is made from."""
        found = hashlib.sha256(repr([self.of_kit, [it.sum for it in self.direct]]).encode())
        for file in [f'{KIT}/WHAT', *self.sources]:
            with open(file, 'rb') as it:
                found.update(f'{os.path.relpath(file, self.root)}\0'.encode() + it.read())
        return found.hexdigest()

    def is_proved(self):
        """Whether what is there was made from what the crate is now."""
        try:
            with open(f'{self.out}/sum') as it:
                return os.path.exists(self.made) and it.read() == self.sum
        except OSError:
            return False

    def prove(self, jobs, yields=False):
        """Proves and builds the crate, if that isn't done. Returns whether it is proved."""
        calls = [] if self.is_proved() else [self.building(jobs)]
        calls += [self.linking()] if self.name == PROGRAM else []
        if not calls:
            return True
        if self.name != PROGRAM:
            shutil.rmtree(self.out, ignore_errors=True)
        os.makedirs(self.out, exist_ok=True)
        with contextlib.suppress(OSError):
            os.remove(f'{self.out}/sum')
        with open(f'{self.root}/out/{self.name}.log', 'wb') as log:
            for call in calls:
                call = ['nice', '-n', '5', *call] if yields else call
                if subprocess.run(call, cwd=self.folder, stdin=subprocess.DEVNULL, stdout=log, stderr=log).returncode:
                    return False
        # nobody knows what was read of a source that was changed meanwhile, and perhaps put back
        if all(os.stat(file).st_ctime < BEGAN for file in self.sources):
            with open(f'{self.out}/sum', 'w') as it:
                it.write(self.sum)
        return True

    def building(self, jobs):
        words = ['--crate-name', self.name, 'src/main.rt' if self.name == PROGRAM else 'src/lib.rt']
        words += [word for it in ['std', *self.of_kit] for word in ['--extern', f'{it}={KIT}/rlibs/{it}.rlib']]
        words += [word for it in self.direct for word in ['--extern', f'{it.name}={it.made}']]
        words += [word for it in [f'{KIT}/rlibs', *[it.out for it in self.below]] for word in ['-L', f'dependency={it}']]
        words += [*LOGIC, '--links', f'{self.name}=', '--jobs', str(jobs), '-o', self.made]
        return [f'{KIT}/bin/rattle', 'build', *words, *(TOOLCHAIN if self.name == PROGRAM else ['--statements'])]

    def linking(self):
        words = ['--target', 'x86_64-unknown-linux-gnu', *TOOLCHAIN, '-o', f'{self.out}/{self.name}', self.made]
        return [f'{KIT}/bin/rattle-link', *words, f'{KIT}/c/libos_c.a', f'{KIT}/c/liblibc_c.a']


def files_of(folder):
    return [f'{at}/{name}' for at, _, names in os.walk(folder) for name in names]


def crates_of(root):
    """The program's crate and all below it, lowest first."""
    crates = {}
    with open(f'{root}/crates.txt') as text:
        for name, words in re.findall(r'^(\w+):(.*)', text.read(), re.M):
            words = words.split()
            direct = [crates[it] for it in words if it in crates]
            crates[name] = Crate(root, name, direct, [it for it in words if it not in crates])
    found = [*crates[PROGRAM].below, crates[PROGRAM]]
    for crate in reversed(found):
        for below in crate.below:
            below.chain = max(below.chain, below.size + crate.chain)
    return found


def prove_all(crates):
    """Proves the crates, each once those below it are proved. Returns the first that is not proved, if one isn't.

    A crate loads the crates that it uses in one process, and then checks several functions at a time, in copies of
    itself. If a single crate can be proved, it gets more jobs than there are processors, since some always wait for
    others. If several can be proved, those with about the longest chain get as many jobs as there are processors, and
    each other crate gets one, with a lower priority. If that would leave processors idle, each gets as many."""
    processors = len(os.sched_getaffinity(0))
    left, proved, running, began = sorted(crates, key=lambda it: -it.chain), set(), {}, time.monotonic()
    with ThreadPoolExecutor(len(crates)) as pool:
        while left or running:
            ready = [it for it in left if proved.issuperset(it.below)]
            longest = max(it.chain for it in [*left, *[it for it, _ in running.values()]])
            alone = len(ready) == 1 and not running
            few = len(ready) + len(running) <= processors // 2
            for crate in ready:
                free = 2 * processors - sum(jobs for _, jobs in running.values())
                if free > 0:
                    is_first = few or crate.chain >= SHARE_OF_LONGEST * longest
                    jobs = min(free, (processors + alone if is_first else 1))
                    left.remove(crate)
                    running[pool.submit(crate.prove, jobs, not is_first)] = crate, jobs
            for ended in wait(running, return_when=FIRST_COMPLETED).done:
                crate, _ = running.pop(ended)
                if not ended.result():
                    wait(running)
                    return crate
                proved.add(crate)
                minutes, seconds = divmod(int(time.monotonic() - began), 60)
                say(f'proved {crate.name}: {len(proved)} of {len(crates)} crates, {minutes} min {seconds:02} s')
    return None


def say(text):
    print(f'ga-bench: {text}', file=sys.stderr, flush=True)


def show_failure(crate):
    """Shows the functions in a crate's log that were not proved, without those that only wait for them; or the log's end."""
    path = f'{crate.root}/out/{crate.name}.log'
    with open(path, errors='replace') as log:
        lines = log.read().splitlines()
    told = [it for it in lines if re.search(r': error: |: no proof: (?!it calls|its contract rests)', it)]
    say(f'{crate.name} was not proved or not built:')
    for line in list(dict.fromkeys(line[:400] for line in told))[:20] or lines[-20:]:
        print(line, file=sys.stderr)
    say(f'the whole log is {path}')


def main(root):
    failed = prove_all(crates_of(root))
    if failed:
        show_failure(failed)
    return 1 if failed else 0


if __name__ == '__main__':
    sys.exit(main(sys.argv[1]))
