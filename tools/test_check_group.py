#!/usr/bin/env python3
"""Tests of check-group with an rt that proves nothing: what is told, when it is told, and what is left behind.

    test_check_group.py

Each case is a folder with a copy of check-group, four crates that the program stands on or not, and an rt of the test's own. Exit status 1,
and the case, at the first failure.
"""

import os
import shutil
import signal
import subprocess
import sys
import tempfile

HERE = os.path.dirname(os.path.abspath(__file__))

# The program stands on three of the four crates; io and os are the kit's, and a word in a comment is no crate.
CRATES = '# pcp: low none\nlow:\nmiddle: low io # other\nother: low\npcp: middle low os\n'

BEGUN = 'check-group: nothing is trusted, so the program is proved first: 3 crates, some minutes if none of them is proved yet\n'
PROVED = ('check-group: proved low, 1 of 3\n'
          'check-group: proved middle, 2 of 3\n'
          'check-group: proved pcp, 3 of 3\n')

# rt runs in the program's folder, and leaves the program in out/.
BUILD = '''mkdir -p out
printf '#!/bin/sh\\n[ "$(cat group.pcp)" = bytes ] && echo "pass 2 3 10"\\n' >out/pcp
chmod +x out/pcp
'''
LOW = 'echo "rt: chose --jobs 2 for low"; echo "fn low::least: proved"; echo "logic=proved functions=1 sum=09"\n'
REST = ('echo "rt: chose --jobs 4 for middle"; echo "logic=proved functions=2 sum=09"; echo "rt: chose --jobs 2 for pcp"; '
        'echo "logic=proved functions=1 target=x86"\n')
GOOD = '[ "$*" = run ] && [ "$(basename "$PWD")" = pcp ] || exit 9\n' + LOW + REST + BUILD + 'echo short\n'
# The crate that fails is not told as proved, and its lines are the end of the log.
BAD = LOW + 'echo "rt: chose --jobs 4 for middle"\nfor k in $(seq 30); do echo "goal $k"; done\necho "logic=not-proved"\necho "rt: FAILED: middle" >&2\nexit 1\n'
# A program whose run fails is built all the same, and must not be run by check-group.
RUN_FAILED = LOW + BUILD + 'echo "rt: the run failed"\nexit 1\n'
# Goes on only when the test has seen the first crate, or after ten seconds, so that a failing test ends too.
WAITING = LOW + 'k=0; while [ ! -f ../../seen ] && [ $k -lt 100 ]; do sleep 0.1; k=$((k + 1)); done\n[ -f ../../seen ] || exit 1\n' + REST + BUILD


def fail(case, what):
    sys.stderr.write('%s: %s\n' % (case, what))
    sys.exit(1)


class Case:
    """A folder to run check-group in. Its temporary folders come to lie in `tmp`, so that a forgotten one is seen."""

    def __init__(self, name, rt):
        self.name = name
        self.root = tempfile.mkdtemp()
        for folder in ('bin', 'tmp', 'repo/crates/low/src', 'repo/crates/pcp/src'):
            os.makedirs(os.path.join(self.root, folder))
        self.repo = os.path.join(self.root, 'repo')
        shutil.copy(os.path.join(HERE, '..', 'check-group'), self.repo)
        self.write('repo/crates.txt', CRATES)
        self.write('repo/crates/low/src/lib.rt', '')
        self.write('group', 'bytes')
        self.environment = dict(os.environ, TMPDIR=os.path.join(self.root, 'tmp'))
        self.environment['PATH'] = os.path.join(self.root, 'bin') + ':/usr/bin:/bin'
        if rt is not None:
            self.write('bin/rt', '#!/bin/sh\n' + rt)
            os.chmod(os.path.join(self.root, 'bin/rt'), 0o755)

    def __enter__(self):
        return self

    def __exit__(self, *_):
        shutil.rmtree(self.root)

    def write(self, name, text):
        with open(os.path.join(self.root, name), 'w', encoding='utf-8') as file:
            file.write(text)

    def start(self, *arguments):
        command = [os.path.join(self.repo, 'check-group')] + list(arguments or [os.path.join(self.root, 'group')])
        return subprocess.Popen(command, env=self.environment, stdout=subprocess.PIPE, stderr=subprocess.PIPE, text=True, start_new_session=True)

    def same(self, what, got, wanted):
        if got != wanted:
            fail(self.name, '%s is %r and not %r' % (what, got, wanted))

    def ends(self, process, status, out, err=None):
        """Standard error is held against `err` where it is given: of a killed process the shell says what it likes."""
        got_out, got_err = process.communicate(timeout=60)
        self.same('standard output', got_out, out)
        if err is not None:
            self.same('standard error', got_err, err)
        self.same('the exit status', process.returncode, status)
        self.same('what is left in the temporary folder', os.listdir(os.path.join(self.root, 'tmp')), [])


def proves_once():
    with Case('proves once', GOOD) as case:
        case.ends(case.start(), 0, 'pass 2 3 10\n', BEGUN + PROVED)
        case.ends(case.start(), 0, 'pass 2 3 10\n', '')
        stamp = os.path.join(case.repo, 'target/check-group')
        os.utime(stamp, (1, 1))
        case.ends(case.start(), 0, 'pass 2 3 10\n', BEGUN + PROVED)


def refuses(name, rt, told=None):
    with Case(name, rt) as case:
        case.ends(case.start(), 2, '', told and told + 'check-group: the program is not proved\n')
        case.same('the mark of a proved program', os.path.exists(os.path.join(case.repo, 'target/check-group')), False)


def tells_at_once():
    with Case('tells at once', WAITING) as case:
        process = case.start()
        first = process.stderr.readline() + process.stderr.readline()
        case.same('what is told while rt runs', first, BEGUN + PROVED.split('\n')[0] + '\n')
        case.write('repo/seen', '')
        case.ends(process, 0, 'pass 2 3 10\n', PROVED.split('\n', 1)[1])


def stopped(name, number):
    with Case(name, WAITING) as case:
        process = case.start()
        process.stderr.readline(), process.stderr.readline()
        os.killpg(process.pid, number)
        case.ends(process, 128 + number, '')


def bad_usage():
    with Case('bad usage', GOOD) as case:
        missing = os.path.join(case.root, 'missing')
        case.ends(case.start(missing), 2, '', 'check-group: no such file: %s\n' % missing)
        case.ends(case.start('one', 'two'), 2, '', 'check-group: give one file: ./check-group FILE\n')


def main():
    first = BEGUN + PROVED.split('\n')[0] + '\n'
    goals = ''.join('goal %d\n' % k for k in range(13, 31))
    proves_once()
    refuses('a crate is refused', BAD, first + goals + 'logic=not-proved\nrt: FAILED: middle\n')
    refuses('the run fails', RUN_FAILED, first + 'rt: chose --jobs 2 for low\nfn low::least: proved\n'
            + 'logic=proved functions=1 sum=09\nrt: the run failed\n')
    refuses('rt is killed', BUILD + 'kill -9 $$\n')
    refuses('there is no rt', None)
    tells_at_once()
    stopped('interrupted', signal.SIGINT)
    stopped('ended', signal.SIGTERM)
    bad_usage()
    print('check-group tells, refuses and cleans up as it should')


if __name__ == '__main__':
    if len(sys.argv) != 1:
        sys.exit('usage: test_check_group.py')
    main()
