#!/usr/bin/env python3
"""What a change moved and what stayed, between two commits or a commit and the working tree.

    moved.py BASE [HEAD]                     HEAD is the working tree, with its files that are not added yet, where it is left out
    moved.py BASE [HEAD] --names             every name, and not the first ten of each row
    moved.py BASE [HEAD] --renamed a=b,c=d   with the names a and c of BASE read as b and d
    moved.py BASE [HEAD] --renames FILE      the same, one a=b to a line; `#` starts a comment

A table with a row for each kind, and below it the names by crate:

    definitions    the declarations of specs/, whole, and the structs, enums, constants and types of src/
    contracts      a function of src/ up to its body: its parameters, and what it requires and ensures
    theorems       the pub declarations of the modules in proofs/: the statement, with the parameters of the `module _` around it. An
                   abbreviation, a record and a data type count whole, because statements are read through them
    code           the bodies of the functions
    proofs         what stands below a statement, the declarations that are not pub, and each function's Proof.antt

A declaration is known by its crate and its name. So one that only went to another file of its crate stayed, and one with another name is gone
and new, unless --renamed tells. What went to another crate counts as such if it is as it was. Where a crate has a name more than once, the
texts that are equal belong together.

Comments, white space, a comma before a closing bracket and imports say nothing and never count; nor does the crate in front of a module's
path, `Rattle·crate.specs.Mod`. Names are replaced as whole words, in all of BASE.

Exit status: 0, whatever moved; 2 for a wrong call, no such commit, or no git. It needs Python 3, its standard library and git.
"""

import argparse
import collections
import os
import re
import subprocess
import sys

KINDS = ('definitions', 'contracts', 'theorems', 'code', 'proofs')
SHOWN = 10


class Failure(Exception):
    """A wrong call, with the sentence that says why."""


# --- the files of a commit or of the working tree ----------------------------------------------------------------------------------

def git(*words, given=None):
    """What git prints. Raises Failure with git's own last line where it refuses."""
    try:
        done = subprocess.run(('git',) + words, input=given, stdout=subprocess.PIPE, stderr=subprocess.PIPE, check=False)
    except FileNotFoundError:
        raise Failure('git is not installed') from None
    if done.returncode:
        said = done.stderr.decode('utf-8', 'replace').strip().split('\n')[-1]
        raise Failure('git %s: %s' % (words[0], said or 'refused'))
    return done.stdout


def wanted(path):
    """Sources of a crate: crates/NAME/src/*.rt, and the .antt files of specs/ and proofs/."""
    parts = path.split('/')
    return len(parts) > 3 and (parts[2] == 'src' and path.endswith('.rt') or parts[2] in ('specs', 'proofs') and path.endswith('.antt'))


def names_in(listed):
    return [name for name in listed.decode('utf-8', 'surrogateescape').split('\0') if wanted(name)]


def files_of_commit(revision):
    """Path and text of every source of a commit."""
    try:
        commit = git('rev-parse', '--verify', '--quiet', '--end-of-options', revision + '^{commit}').decode().strip()
    except Failure as failure:
        raise failure if 'not installed' in str(failure) else Failure('no such commit: %s' % revision) from None
    paths = names_in(git('ls-tree', '-r', '-z', '--name-only', commit, '--', 'crates'))
    asked = ''.join('%s:%s\n' % (commit, path) for path in paths)
    return zip(paths, blobs(git('cat-file', '--batch', given=asked.encode('utf-8', 'surrogateescape'))))


def blobs(answer):
    """The texts in an answer of `git cat-file --batch`: a line `ID blob SIZE`, so many bytes and a line's end, for each file."""
    at = 0
    while at < len(answer):
        end = answer.index(b'\n', at)
        size = int(answer[at:end].split()[-1])
        yield answer[end + 1:end + 1 + size].decode('utf-8', 'replace')
        at = end + size + 2


def files_of_working_tree():
    """The same of the working tree. A file that is removed and not yet committed is still listed, and is passed over."""
    for path in sorted(set(names_in(git('ls-files', '-z', '--cached', '--others', '--exclude-standard', '--', 'crates')))):
        if os.path.isfile(path):
            with open(path, encoding='utf-8', errors='replace') as file:
                yield path, file.read()


# --- text --------------------------------------------------------------------------------------------------------------------------

STRING = r'"(?:\\.|[^"\\])*"'
# A name of antt is any run of other characters than these, so that `too-small` is one name.
NAME = r'(?:[^\s(){}.;,@"«»]+|«[^»]*»)'
COMMENT = {'antt': re.compile(STRING + r'|(?P<comment>\{-.*?-\}|(?<![^\s(){}.;,@"«»])--[^\n]*)', re.S),
           'rt': re.compile(STRING + r"|'(?:\\.|[^'\\])'" + r'|(?P<comment>/\*.*?\*/|//[^\n]*)', re.S)}
# Code has operators that touch a name; the contracts in it have names such as `in-range` and `ws′`.
WORD = {'antt': re.compile(STRING + '|' + NAME), 'rt': re.compile(STRING + r"|\w[\w·′″'-]*")}
CRATE_PREFIX = re.compile(r'Rattle·\w+(?:·(?:specs|proofs))?\.')


def without_comments(text, language):
    return COMMENT[language].sub(lambda found: ' ' if found.group('comment') else found.group(), text)


def renamed(text, names, language):
    """The text with whole words replaced, and strings left alone."""
    return WORD[language].sub(lambda found: names.get(found.group(), found.group()), text) if names else text


def squeezed(text):
    text = re.sub(r'\s+', ' ', CRATE_PREFIX.sub('', text))
    text = re.sub(r' ?([(){}\[\],;]) ?', r'\1', text)
    # The formatter puts this comma where a list is broken over lines, so a longer name elsewhere in the list can bring it.
    return re.sub(r',(?=[)\]}])', '', text)


def plain(text):
    """The text as it is compared. What stands in a string is kept as it is."""
    parts = re.split('(' + STRING + ')', text)
    return ''.join(part if k % 2 else squeezed(part) for k, part in enumerate(parts)).strip()


# --- declarations of antt ----------------------------------------------------------------------------------------------------------

MARKS = r'(?P<marks>(?:(?:unfoldable|abbrev|axiom|pub)\s+)*)'
IMPORT = re.compile(r'(?:unfoldable\s+)?(?:pub\s+)?(?:use|mod)\s')
TYPE = re.compile(MARKS + r'(?P<word>data|record)\s+(?P<name>' + NAME + r')')
SIGNATURE = re.compile(MARKS + r'(?P<name>' + NAME + r')(?:\s*\{[^{}:]*\})?\s*:\s')
FIXITY = re.compile(r'(?P<name>infix[lr]?\s.*)')
BLOCK = re.compile(r'(?:module|mutual)(?:\s|$)')

Declaration = collections.namedtuple('Declaration', 'name marks whole statement below')


def depth(line):
    return len(line) - len(line.lstrip())


def entries(text):
    """Each line at which a declaration can begin, with the deeper lines below it, and the heads of the blocks that it stands in."""
    lines = [line.rstrip() for line in text.split('\n') if line.strip()]
    blocks, at = [(0, '')], 0
    while at < len(lines):
        here = depth(lines[at])
        while here < blocks[-1][0]:
            blocks.pop()
        end = at + 1
        if BLOCK.match(lines[at].lstrip()):
            while lines[at].lstrip() != 'mutual' and not lines[end - 1].endswith('where') and end < len(lines):
                end += 1
            if end < len(lines) and depth(lines[end]) > here:
                blocks.append((depth(lines[end]), '\n'.join(lines[at:end])))
        else:
            while end < len(lines) and depth(lines[end]) > here:
                end += 1
            yield '\n'.join(lines[at:end]).lstrip(), '\n'.join(head for _, head in blocks)
        at = end


def declarations(text):
    """The declarations of a module. What is no signature (a clause, `unfolding`, a closing bracket) belongs to the one before it."""
    begun = []
    for entry, heads in entries(text):
        if IMPORT.match(entry):
            continue
        found = TYPE.match(entry) or FIXITY.match(entry) or SIGNATURE.match(entry)
        if found:
            begun.append((found, entry, heads, []))
        elif begun:
            begun[-1][3].append(entry)
    for found, entry, heads, clauses in begun:
        groups, below = found.groupdict(), '\n'.join(clauses)
        marks = (groups.get('marks', '') + groups.get('word', '')).split()
        statement = heads + '\n' + entry
        yield Declaration(groups['name'], marks, plain(statement + '\n' + below), plain(statement), plain(below))


def survey_antt(path, text):
    """(kind, name, text) for everything in a file of specs/ or proofs/."""
    parts = path.split('/')
    if parts[2] == 'proofs' and parts[-1] == 'Proof.antt':
        entire = '\n'.join(heads + '\n' + entry for entry, heads in entries(text) if not IMPORT.match(entry))
        yield 'proofs', 'fn ' + parts[-2], plain(entire)
        return
    for one in declarations(text):
        if parts[2] == 'specs':
            yield 'definitions', one.name, one.whole
        elif 'pub' not in one.marks:
            yield 'proofs', one.name, one.whole
        elif {'abbrev', 'unfoldable', 'data', 'record'} & set(one.marks):
            yield 'theorems', one.name, one.whole
        else:
            yield 'theorems', one.name, one.statement
            yield 'proofs', one.name, one.below


# --- items of code -----------------------------------------------------------------------------------------------------------------

ITEM = re.compile(r'^[ \t]*(?P<marks>(?:#\[[^\]]*\]\s*|pub\b(?:\([^)]*\))?\s*|extern\s+"C"\s+)*)'
                  r'(?P<word>fn|struct|enum|const|type|impl(?:<[^>]*>)?)\s+(?P<name>\w+)', re.M)
CLAUSE = re.compile(r'\b(?:requires|ensures)(?:\s+\w+)?\s*$')
# Brackets, and before them what may hold one that means nothing.
BRACKET = re.compile(STRING + r"|'(?:\\.|[^'\\])'|[(){}\[\];]")


def end_of(text, at, last):
    """The place after the first of the characters `last` that closes what was opened since `at`, or that stands outside of all brackets."""
    level = 0
    for found in BRACKET.finditer(text, at):
        mark = found.group()
        level += (mark in '([{') - (mark in ')]}')
        if level <= 0 and mark in last:
            return found.end()
    return len(text)


def body_of(text, at):
    """Where the body of a function begins whose name ends at `at`: the first brace that belongs to no clause of its contract."""
    while True:
        brace = text.find('{', at)
        if brace < 0:
            return len(text)
        if not CLAUSE.search(text, at, brace):
            return brace
        at = end_of(text, brace, '}')


def survey_rt(text):
    """(kind, name, text) for every item of a file of src/."""
    at, owner, owner_end = 0, '', 0
    while True:
        found = ITEM.search(text, at)
        if not found:
            return
        word, name = found.group('word'), found.group('name')
        if found.start() >= owner_end:
            owner = ''
        if word.startswith('impl'):
            at = text.find('{', found.end()) + 1 or len(text)
            owner, owner_end = name + '::', end_of(text, at - 1, '}')
        elif word == 'fn':
            brace = body_of(text, found.end())
            at = end_of(text, brace, '}')
            yield 'contracts', owner + name, plain(text[found.start():brace])
            yield 'code', owner + name, plain(text[brace:at])
        else:
            at = end_of(text, found.end(), ';}' if word in ('struct', 'enum') else ';')
            yield 'definitions', '%s %s' % (word, name), plain(text[found.start():at])


# --- comparing ---------------------------------------------------------------------------------------------------------------------

def survey(files, names):
    """For each kind the texts by crate and name. A name can be there more than once, in different modules of a crate."""
    found = {kind: collections.defaultdict(list) for kind in KINDS}
    for path, text in files:
        language = 'rt' if path.endswith('.rt') else 'antt'
        text = renamed(without_comments(text, language), names, language)
        # The folder of a function's proof has the function's name.
        path = '/'.join([names.get(part, part) if k > 2 else part for k, part in enumerate(path.split('/'))])
        for kind, name, one in survey_rt(text) if language == 'rt' else survey_antt(path, text):
            found[kind][path.split('/')[1], name].append(one)
    return found


def left_over(texts, others):
    """The texts without those that are among the others, each as often as it is there."""
    return list((collections.Counter(texts) - collections.Counter(others)).elements())


def compare(before, after):
    """How many stayed, and lists of (crate, name): changed, new, gone; and of what went, with both crates for the crate."""
    stayed, changed, new, gone, went = 0, [], [], [], []
    for key in sorted(set(before) | set(after)):
        old, young = left_over(before.get(key, []), after.get(key, [])), left_over(after.get(key, []), before.get(key, []))
        stayed += len(before.get(key, [])) - len(old)
        both = min(len(old), len(young))
        changed += [key] * both
        gone += [(key, text) for text in old[both:]]
        new += [(key, text) for text in young[both:]]
    for lost in list(gone):
        (crate, name), text = lost
        there = [other for other in new if other[0][1] == name and other[1] == text]
        if there:
            went.append(('%s -> %s' % (crate, there[0][0][0]), name))
            gone.remove(lost)
            new.remove(there[0])
    return stayed, {'changed': changed, 'new': [key for key, _ in new], 'gone': [key for key, _ in gone], 'to another crate': went}


# --- the command -------------------------------------------------------------------------------------------------------------------

def rows_of_names(keys, every):
    by_crate = collections.defaultdict(list)
    for crate, name in keys:
        by_crate[crate].append(name)
    for crate, names in sorted(by_crate.items()):
        shown = names if every else names[:SHOWN]
        more = ' and %d more' % (len(names) - len(shown)) if len(shown) < len(names) else ''
        yield '%s: %s%s' % (crate, ', '.join(shown), more)


def report(before, after, every):
    """The table, and below it the names."""
    rows = [(kind,) + compare(before[kind], after[kind]) for kind in KINDS]
    labels = list(rows[0][2])
    lines = ['%-12s' % '' + ''.join('%*s' % (len(label) + 3, label) for label in ['stayed'] + labels)]
    for kind, stayed, moved in rows:
        lines.append('%-12s%9d' % (kind, stayed) + ''.join('%*d' % (len(label) + 3, len(moved[label])) for label in labels))
    for kind, _, moved in rows:
        named = ['    %-18s%s' % (label, row) for label in labels for row in rows_of_names(moved[label], every)]
        lines += [kind] * bool(named) + named
    return '\n'.join(lines)


def read_renames(pairs, file_name):
    """Old name to new name, from `a=b,c=d` and from a file's lines."""
    pairs = [pair for some in pairs for pair in some.split(',')]
    if file_name is not None:
        try:
            with open(file_name, encoding='utf-8') as file:
                pairs += [line.split('#', 1)[0] for line in file]
        except (OSError, UnicodeDecodeError) as error:
            raise Failure("can't read %s: %s" % (file_name, getattr(error, 'strerror', None) or 'not UTF-8 text')) from None
    names = {}
    for pair in pairs:
        old, sign, new = (part.strip() for part in pair.partition('='))
        if not (old or sign):
            continue
        if not (old and new) or not re.fullmatch(NAME, old) or not re.fullmatch(NAME, new):
            raise Failure('not a renaming such as old=new: "%s"' % pair.strip())
        if names.setdefault(old, new) != new:
            raise Failure('%s is renamed twice' % old)
    return names


def main(arguments):
    parser = argparse.ArgumentParser(prog='moved.py', description='What a change moved and what stayed.')
    parser.add_argument('base', metavar='BASE')
    parser.add_argument('head', metavar='HEAD', nargs='?')
    parser.add_argument('--names', action='store_true', help='every name')
    parser.add_argument('--renamed', action='append', default=[], metavar='OLD=NEW,..')
    parser.add_argument('--renames', metavar='FILE')
    given = parser.parse_args(arguments)
    try:
        names = read_renames(given.renamed, given.renames)
        os.chdir(git('rev-parse', '--show-toplevel').decode().rstrip('\n'))
        before = survey(files_of_commit(given.base), names)
        after = survey(files_of_working_tree() if given.head is None else files_of_commit(given.head), {})
        print(report(before, after, given.names))
    except Failure as failure:
        sys.stderr.write('moved.py: %s\n' % failure)
        return 2
    return 0


if __name__ == '__main__':
    sys.exit(main(sys.argv[1:]))
