#!/usr/bin/env python3
"""Tests of moved.py, gatetime.py and numbers_test.py, on small repositories, logs and files that are made here.

    test_tools.py

Each case runs a tool as a command and holds what it prints, and its exit status, against what is written here. Exit status 1, and the case,
at the first failure. The cases of moved.py need git.
"""

import os
import shutil
import subprocess
import sys
import tempfile

HERE = os.path.dirname(os.path.abspath(__file__))


def fail(case, what):
    sys.stderr.write('%s: %s\n' % (case, what))
    sys.exit(1)


def same(case, what, got, wanted):
    if got != wanted:
        fail(case, '%s is\n%s\nand not\n%s' % (what, got, wanted))


def run(tool, *arguments, folder='.', environment=None):
    done = subprocess.run([sys.executable, os.path.join(HERE, tool)] + list(arguments), cwd=folder, env=environment,
                          stdout=subprocess.PIPE, stderr=subprocess.PIPE, encoding='utf-8', check=False)
    return done.returncode, done.stdout, done.stderr


def refused(case, result, part):
    """Exit status 2, nothing on standard output, and one line that has the part."""
    status, out, err = result
    same(case, 'the exit status', status, 2)
    same(case, 'standard output', out, '')
    if part not in err or 'Traceback' in err:
        fail(case, 'says %r' % err)


def write(folder, files):
    """Writes the files; None removes one."""
    for name, text in files.items():
        path = os.path.join(folder, name)
        if text is None:
            os.remove(path)
            continue
        os.makedirs(os.path.dirname(path), exist_ok=True)
        with open(path, 'w', encoding='utf-8') as file:
            file.write(text)


# --- moved.py ----------------------------------------------------------------------------------------------------------------------

SPECS = '''-- Words.
use Rattle·low·specs.specs.Letters.{Letter}

-- A word.
abbrev pub Word : Type 0
Word = List Letter

pub record Placed : Type 0 where
  pub vector : Word
  pub puts : Word

abbrev pub size : Word → ℕ
size [] = 0
size (a ∷ w) = suc (size w)
'''

LAWS = '''use Rattle·low·specs.specs.Words.{Word, size}

back : (w : Word) → Rattle·low.specs.Words.size w ≡ size w
back w = refl

module _ (n : ℕ) (ok : n ≤ 40) where
  abbrev pub most : ℕ
  most = n

  module _ (w : Word)
      (small : size w ≤ most) where
    pub bounded : size w ≤ 40
    bounded = go small
      where
        go : size w ≤ most → size w ≤ 40
        go h = omega arith

-- A statement over two lines.
pub no-letters
    : size [] ≡ 0
no-letters = refl
'''

CODE = '''// Words in the machine.
ghost use Rattle·low·specs.specs.Words.{size};

pub const MOST: u16 = 40;

pub struct Pair(pub u16, pub u16);

// How many letters. "{" in a comment opens nothing.
pub fn letters(word: &[u16]) -> usize
    requires { ⌜ size (now word) ≤ 40 ⌝ }
    ensures counted { λ r. ⌜ r ≡ size (now (word .entry)) ⌝ }
{
    if word.len() == 0 {
        put(b"} // none");
    }
    word.len()
}

fn last(word: &[u16]) -> Pair {
    Pair(word[0], 1)
}
'''

PROOF = '''use Rattle·low·proofs.proofs.letters.Tie as tie
use Rattle·low·specs.specs.Words.{size}

returns : tie.Need-returns
returns c = search needs
'''

BASE = {'crates/low/specs/Words.antt': SPECS, 'crates/low/proofs/Laws.antt': LAWS, 'crates/low/src/lib.rt': CODE,
        'crates/low/proofs/letters/Proof.antt': PROOF, 'crates/high/specs/Lib.antt': 'pub mod None\n',
        'crates/low/must-fail/none.edit': 'file: specs/Words.antt\n'}


def edited(name, *pairs):
    """The base's file with each old text, which has to be there once, replaced by the new one."""
    text = BASE[name]
    for old, new in pairs:
        if text.count(old) != 1:
            fail(name, 'has %r %d times' % (old, text.count(old)))
        text = text.replace(old, new)
    return {name: text}


SPECS_FILE, LAWS_FILE, CODE_FILE, PROOF_FILE = list(BASE)[:4]
STRUCT = 'pub struct Pair(pub u16, pub u16);\n\n'
SIZE = SPECS[SPECS.index('abbrev pub size'):]
LAST = CODE[CODE.index('fn last'):]

# (case, files that change, further arguments, stayed by kind, the names that are told)
STAYED = (5, 2, 3, 2, 4)
MOVED = [
    ('nothing', {}, [], STAYED, []),
    ('comments, white space, imports and the crate of a path',
     {**edited(SPECS_FILE, ('-- A word.', '-- Any word.'), ('Word = List Letter', 'Word =\n    List Letter'), ('·low·', '·high·')),
      **edited(CODE_FILE, ('(word: &[u16]) -> usize', '(\n    word: &[u16],\n) -> usize'), ('// How many', '/* one\ntwo */ // How many')),
      **edited(LAWS_FILE, ('Rattle·low.specs', 'Rattle·high.specs')), **edited(PROOF_FILE, ('specs.specs.Words', 'specs.specs.Sizes'))},
     [], STAYED, []),
    ('to another file of the crate',
     {**edited(SPECS_FILE, (SIZE, '')), 'crates/low/specs/Sizes.antt': SIZE, **edited(CODE_FILE, (LAST, '')), 'crates/low/src/last.rt': LAST,
      PROOF_FILE: None, 'crates/low/proofs/words/letters/Proof.antt': PROOF}, [], STAYED, []),
    ('to another crate',
     {**edited(SPECS_FILE, (SIZE, '')), 'crates/high/specs/Sizes.antt': SIZE, **edited(CODE_FILE, (STRUCT, '')), 'crates/high/src/lib.rt': STRUCT},
     [], (3, 2, 3, 2, 4), ['definitions', 'to another crate  low -> high: size, struct Pair']),
    ('to another crate, and not as it was', {**edited(SPECS_FILE, (SIZE, '')), 'crates/high/specs/Sizes.antt': SIZE.replace('0', '1')}, [],
     (4, 2, 3, 2, 4), ['definitions', 'new               high: size', 'gone              low: size']),
    ('a definition', edited(SPECS_FILE, ('suc (size w)', 'size w')), [], (4, 2, 3, 2, 4), ['definitions', 'changed           low: size']),
    ('a field', edited(SPECS_FILE, ('pub puts', 'pub put')), [], (4, 2, 3, 2, 4), ['definitions', 'changed           low: Placed']),
    ('a constant', edited(CODE_FILE, ('= 40', '= 41')), [], (4, 2, 3, 2, 4), ['definitions', 'changed           low: const MOST']),
    ('a contract', edited(CODE_FILE, ('counted { λ r. ⌜ r ≡', 'counted { λ r. ⌜ r ≤')), [], (5, 1, 3, 2, 4),
     ['contracts', 'changed           low: letters']),
    ('a parameter', edited(CODE_FILE, ('fn last(word: &[u16])', 'fn last(word: &[u8])')), [], (5, 1, 3, 2, 4), ['contracts', 'changed           low: last']),
    ('a body, in a string', edited(CODE_FILE, ('"} // none"', '"} //  none"')), [], (5, 2, 3, 1, 4), ['code', 'changed           low: letters']),
    ('a statement', edited(LAWS_FILE, (': size [] ≡ 0', ': size [] ≤ 0')), [], (5, 2, 2, 2, 4), ['theorems', 'changed           low: no-letters']),
    ('what a statement is told under', edited(LAWS_FILE, ('(small : size w ≤ most)', '(small : size w < most)')), [], (5, 2, 2, 2, 4),
     ['theorems', 'changed           low: bounded']),
    ('what a statement is read through', edited(LAWS_FILE, ('most = n', 'most = 40')), [], (5, 2, 2, 2, 4), ['theorems', 'changed           low: most']),
    ('a proof', edited(LAWS_FILE, ('go h = omega arith', 'go h = omega (arith, ok)')), [], (5, 2, 3, 2, 3), ['proofs', 'changed           low: bounded']),
    ('a helper', edited(LAWS_FILE, ('back w = refl', 'back w = sym refl')), [], (5, 2, 3, 2, 3), ['proofs', 'changed           low: back']),
    ("a function's proof", edited(PROOF_FILE, ('search needs', 'omega arith')), [], (5, 2, 3, 2, 3), ['proofs', 'changed           low: fn letters']),
    ('a theorem is gone', edited(LAWS_FILE, (LAWS[LAWS.index('pub no-letters'):], '')), [], (5, 2, 2, 2, 3),
     ['theorems', 'gone              low: no-letters', 'proofs', 'gone              low: no-letters']),
    ('a name a second time in a crate', {'crates/low/specs/Other.antt': 'abbrev pub Word : Type 0\nWord = ℕ\n'}, [], STAYED,
     ['definitions', 'new               low: Word']),
    ('a renaming that is not told', edited(LAWS_FILE, ('back :', 'forth :'), ('back w', 'forth w')), [], (5, 2, 3, 2, 3),
     ['proofs', 'new               low: forth', 'gone              low: back']),
    ('a renaming', {**edited(LAWS_FILE, ('back :', 'forth :'), ('back w', 'forth w')), PROOF_FILE: None,
                    'crates/low/proofs/count/Proof.antt': PROOF.replace('letters', 'count'), **edited(CODE_FILE, ('fn letters', 'fn count'))},
     ['--renamed', 'back=forth,letters=count'], STAYED, []),
    ('a renaming, and a change beside it', edited(LAWS_FILE, ('back :', 'forth :'), ('back w = refl', 'forth w = sym refl')),
     ['--renamed', 'back=forth'], (5, 2, 3, 2, 3), ['proofs', 'changed           low: forth']),
    ('a part of a name is not renamed', {}, ['--renamed', 'no=yes,letter=sign'], STAYED, []),
    ('many names', {'crates/low/src/more.rt': ''.join('const C%02d: u8 = 1;\n' % k for k in range(12))}, [], STAYED,
     ['definitions', 'new               low: ' + ', '.join('const C%02d' % k for k in range(10)) + ' and 2 more']),
    ('all names', {'crates/low/src/more.rt': ''.join('const C%02d: u8 = 1;\n' % k for k in range(12))}, ['--names'], STAYED,
     ['definitions', 'new               low: ' + ', '.join('const C%02d' % k for k in range(12))]),
    ('methods', {'crates/low/src/more.rt': "impl<'a> Reader<'a> {\n    pub fn at(self) -> u16 {\n        1\n    }\n}\n\nfn at() {\n}\n"}, [], STAYED,
     ['contracts', 'new               low: Reader::at, at', 'code', 'new               low: Reader::at, at']),
]


def git(folder, *words):
    subprocess.run(('git', '-C', folder, '-c', 'user.name=t', '-c', 'user.email=t@t', '-c', 'commit.gpgsign=false') + words,
                   stdout=subprocess.DEVNULL, check=True)


def table(out):
    """(stayed by kind, the lines of names) of a report."""
    lines = out.split('\n')[:-1]
    return tuple(int(line.split()[1]) for line in lines[1:6]), [line.strip() for line in lines[6:]]


def moved(folder):
    git(folder, 'init', '-q')
    write(folder, BASE)
    git(folder, 'add', '-A')
    git(folder, 'commit', '-qm', 'base')
    git(folder, 'tag', 'base')
    for case, files, arguments, stayed, names in MOVED:
        write(folder, files)
        status, out, err = run('moved.py', 'base', *arguments, folder=os.path.join(folder, 'crates'))
        same(case, 'the exit status, with %s' % err, status, 0)
        same(case, 'the report', table(out), (stayed, names))
        # The same once it is committed.
        git(folder, 'add', '-A')
        git(folder, 'commit', '-q', '--allow-empty', '-m', 'head')
        same(case, 'the report on two commits', run('moved.py', 'base', 'HEAD', *arguments, folder=folder), (0, out, ''))
        git(folder, 'reset', '-q', '--hard', 'base')
    moved_refuses(folder)
    return len(MOVED)


def moved_refuses(folder):
    refused('no revision', run('moved.py', folder=folder), 'usage')
    refused('an unknown option', run('moved.py', 'base', '--all', folder=folder), 'usage')
    refused('a bad revision', run('moved.py', 'nowhere', folder=folder), 'moved.py: no such commit: nowhere\n')
    refused('a bad second revision', run('moved.py', 'base', 'nowhere', folder=folder), 'no such commit: nowhere')
    refused('a bad renaming', run('moved.py', 'base', '--renamed', 'a', folder=folder), 'not a renaming')
    refused('two renamings', run('moved.py', 'base', '--renamed', 'a=b,a=c', folder=folder), 'a is renamed twice')
    refused('no file of renamings', run('moved.py', 'base', '--renames', 'none', folder=folder), "can't read none")
    with tempfile.TemporaryDirectory() as empty:
        refused('no repository', run('moved.py', 'base', folder=empty, environment=dict(os.environ, GIT_CEILING_DIRECTORIES=empty)), 'git rev-parse')
        refused('no git', run('moved.py', 'base', folder=folder, environment=dict(os.environ, PATH=empty)), 'git is not installed')
        write(empty, {'names': '# two of them\nback=forth   # and a word\n\n most = least \n'})
        write(folder, edited(LAWS_FILE, ('back :', 'forth :'), ('back w', 'forth w')))
        told = run('moved.py', 'base', '--renames', os.path.join(empty, 'names'), folder=folder)[1]
        same('a file of renamings', 'what is told', table(told)[1],
             ['theorems', 'changed           low: bounded', 'new               low: most', 'gone              low: least',
              'proofs', 'changed           low: bounded'])


# --- gatetime.py -------------------------------------------------------------------------------------------------------------------

LOG = '''fn low::least: proved
logic=proved functions=12 sum=09 native=nat
rt: low proved (8 s)
note: rt: none proved (99 s)
logic=proved functions=1 axioms=5 target=x86
linked target=x86
rt: high proved (31 s)
rt: middle proved (unchanged since it was last proved)
rt: must-fail low/first: refused, as it must be (first at proofs/least/Proof.antt:102:5; 53 s)
rt: must-fail low/second: refused, as it must be (7 s)
rt: must-fail high/third: refused, as it must be (first at src/lib.rt:1:5; 4 s)
rt: high ran as nobody, and wrote what its file 'stdout' has (2 s)
7 passed, 0 failed
'''
ROWS = '''crate   proof s  functions  edits  edit s
low           8         12      2      60
high         31          1      1       4
middle        0          0      0       0
all          39         13      3      64
'''
OTHER = '''logic=not-proved functions=3 sum=09
rt: low NOT PROVED (exit 1, 90 s)
rt: new NOT PROVED: its dependency low is not proved
rt: must-fail high/third: NOT REFUSED: the crate is still proved with this edit (5 s)
rt: must-fail high/fourth: BAD EDIT: an 'old:' text is not in src/lib.rt
'''
BOTH = '''crate   proof s  functions  edits  edit s   |  proof s  functions  edits  edit s
low           8         12      2      60   |       90          3      0       0
high         31          1      1       4   |        0          0      2       5
middle        0          0      0       0   |        -          -      -       -
new           -          -      -       -   |        0          0      0       0
all          39         13      3      64   |       90          3      2       5
other: the gate has not ended, its last line "N passed, M failed" is missing
other: low: not proved
other: new: not proved
other: must-fail high/third: not refused
other: must-fail high/fourth: bad edit
'''


def gatetime(folder):
    write(folder, {'./log': LOG, './other': OTHER, './text': 'no gate\n'})
    same('one log', 'the table', run('gatetime.py', 'log', folder=folder), (0, ROWS, ''))
    same('two logs', 'the table', run('gatetime.py', 'log', 'other', folder=folder), (0, BOTH, ''))
    refused('no log', run('gatetime.py'), 'usage')
    refused('three logs', run('gatetime.py', 'log', 'log', 'log', folder=folder), 'usage')
    refused('a log that is missing', run('gatetime.py', 'log', 'none', folder=folder), "gatetime.py: can't read none: No such file")
    refused('a folder', run('gatetime.py', '.', folder=folder), "can't read .: ")
    refused('another file', run('gatetime.py', 'text', folder=folder), 'text is no log of the gate')
    return 2


# --- numbers_test.py ---------------------------------------------------------------------------------------------------------------

NUMBERS = {
    'crates/numbers/src/lib.rt': '// pub const OLD: u8 = 9;\npub const DONE: u8 = 0;\n\npub const DIFFERS: u8 = 255; // for C\n',
    'crates/numbers/specs/Numbers.antt': '-- OLD = 9\nabbrev pub DONE : ℕ\nDONE = 0\n\nabbrev pub DIFFERS : ℕ\nDIFFERS = 255\n\n'
                                         'abbrev pub all : List ℕ\nall = DONE ∷ []\n',
    'crates/layout/src/limits.rt': 'pub const RANK_MOST: u16 = 40;\npub const WORD_PAIRS_MOST: usize = 4_096;\n',
    'crates/layout/specs/Limits.antt': 'abbrev pub rankMost : ℕ\nrankMost = 40\n\nabbrev pub wordPairsMost : ℕ\nwordPairsMost = 4096\n',
    'include/yavarosht.h': '/* YAV_OLD = 9,\n */\nenum {\n    YAV_DONE = 0, /* YAV_DONE = 1 */\n    YAV_PASS = 0,\n    YAV_DIFFERS = 255\n};\n'
                           'enum { YAV_RANK_MOST = 40 };\n',
}
CONSTANTS, NAMES, LIMITS, LIMIT_NAMES, HEADER = list(NUMBERS)

# (file, old, new, what is said)
DIFFERING = [
    (CONSTANTS, '= 255', '= 11', [CONSTANTS + ':4: DIFFERS = 11, and ' + NAMES + ':6: DIFFERS = 255',
                                  CONSTANTS + ':4: DIFFERS = 11, and ' + HEADER + ':6: YAV_DIFFERS = 255']),
    (CONSTANTS, 'pub const DONE', 'pub const HELD', [CONSTANTS + ':2: HELD = 0, and ' + NAMES + ' has no HELD',
                                                     NAMES + ':3: DONE = 0, and it stands there alone',
                                                     CONSTANTS + ':2: HELD = 0, and ' + HEADER + ' has no YAV_HELD',
                                                     HEADER + ':4: YAV_DONE = 0, and it stands there alone',
                                                     HEADER + ':5: YAV_PASS = 0, and ' + CONSTANTS + ' has no DONE']),
    (NAMES, 'DIFFERS = 255', 'DIFFERS = 254', [CONSTANTS + ':4: DIFFERS = 255, and ' + NAMES + ':6: DIFFERS = 254']),
    (NAMES, 'DIFFERS = 255', 'DIFFERS = suc 254', [CONSTANTS + ':4: DIFFERS = 255, and ' + NAMES + ':6: DIFFERS = no plain number']),
    (NAMES, 'DIFFERS : ℕ', 'DIFFERS : Byte', [CONSTANTS + ':4: DIFFERS = 255, and ' + NAMES + ' has no DIFFERS']),
    (HEADER, 'YAV_DIFFERS = 255', 'YAV_DIFFERS = 11', [CONSTANTS + ':4: DIFFERS = 255, and ' + HEADER + ':6: YAV_DIFFERS = 11']),
    (HEADER, 'YAV_PASS = 0', 'YAV_PASS = 1', [HEADER + ':5: YAV_PASS = 1, and ' + CONSTANTS + ':2: DONE = 0']),
    (HEADER, '    YAV_DIFFERS = 255\n', '', [CONSTANTS + ':4: DIFFERS = 255, and ' + HEADER + ' has no YAV_DIFFERS']),
    (HEADER, 'YAV_RANK_MOST = 40', 'YAV_RANK_MOST = 41', [HEADER + ':8: YAV_RANK_MOST = 41, and ' + LIMITS + ':1: RANK_MOST = 40']),
    (HEADER, 'YAV_RANK_MOST', 'YAV_RANKS_MOST', [HEADER + ':8: YAV_RANKS_MOST = 40, and ' + LIMITS + ' has no RANKS_MOST']),
    (LIMIT_NAMES, '= 4096', '= 4095', [LIMITS + ':2: WORD_PAIRS_MOST = 4096, and ' + LIMIT_NAMES + ':5: wordPairsMost = 4095']),
    (LIMITS, 'pub const RANK_MOST: u16 = 40;\n', '', [LIMIT_NAMES + ':2: rankMost = 40, and it stands there alone',
                                                      HEADER + ':8: YAV_RANK_MOST = 40, and ' + LIMITS + ' has no RANK_MOST']),
]


def numbers(folder):
    write(folder, NUMBERS)
    same('equal numbers', 'the answer', run('numbers_test.py', folder),
         (0, '2 numbers and 2 limits are the same in code, definitions and header\n', ''))
    for name, old, new, said in DIFFERING:
        if NUMBERS[name].count(old) != 1:
            fail(name, 'has %r %d times' % (old, NUMBERS[name].count(old)))
        write(folder, {name: NUMBERS[name].replace(old, new)})
        same('%s with %r' % (name, new), 'the answer', run('numbers_test.py', folder), (1, '', '\n'.join(said) + '\n'))
        write(folder, {name: NUMBERS[name]})
    refused('two folders', run('numbers_test.py', folder, folder), 'usage')
    for name in NUMBERS:
        write(folder, {name: None})
        refused('no ' + name, run('numbers_test.py', folder), '0 files are crates/*/src/limits.rt' if name == LIMITS else "can't read " + name)
        write(folder, {name: NUMBERS[name]})
    return len(DIFFERING)


def main():
    counts = []
    for tests in (moved, gatetime, numbers):
        folder = tempfile.mkdtemp()
        try:
            counts.append(tests(folder))
        finally:
            shutil.rmtree(folder)
    print('%d changes, %d logs and %d differing numbers told as they should be' % tuple(counts))


if __name__ == '__main__':
    if len(sys.argv) != 1:
        sys.exit('usage: test_tools.py')
    main()
