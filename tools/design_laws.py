#!/usr/bin/env python3
"""design_laws.py COMMIT [-v]: the definitions and laws of crates/*/specs and crates/*/proofs (the answers of single functions aside) beside those of a commit, by name and text:
how many are gone from their crate and how many changed; -v lists them."""
import re, subprocess, sys

ANSWERS = ('Answers.antt', 'Invariants.antt')
HEAD = re.compile(r"^( *)(?:abbrev |unfoldable )?(pub )?(?:record )?([^\s(){}:]+)((?: *[({][^:]*:[^)}]*[)}])*) *:(?: |$)")


def git(*args):
    return subprocess.run(['git', *args], capture_output=True, text=True, check=True).stdout


def texts(commit):
    names = git('ls-tree', '-r', '--name-only', commit, 'crates') if commit else git('ls-files', '-co', '--exclude-standard', 'crates')
    for name in sorted(set(names.split())):
        if re.match(r'crates/\w+/(specs|proofs)/.*\.antt$', name) and not name.endswith(ANSWERS):
            yield name, git('show', f'{commit}:{name}') if commit else open(name).read()


def signatures(commit):
    """By crate, folder and name: the text up to the next line that is indented no further. A name in a module counts where it is `pub`."""
    found = {}
    for name, text in texts(commit):
        lines = text.split('\n')
        for i, line in enumerate(lines):
            m = HEAD.match(line)
            if not m or line.lstrip().startswith(('--', 'use ', 'module ')) or (m[1] and not m[2]):
                continue
            j = i + 1
            record = 'record ' in line
            while j < len(lines) and (lines[j].startswith(m[1] + ' ') or (record and lines[j].strip())):
                j += 1
            found[(name.split('/')[1], name.split('/')[2], m[3])] = (re.sub(r'\s+', ' ', ' '.join(lines[i:j])).strip(), name)
    return found


def main():
    commit = [a for a in sys.argv[1:] if a != '-v'][0]
    old, new = signatures(commit), signatures(None)
    gone = [k for k in old if k not in new and not any(n[2] == k[2] and new[n][0] == old[k][0] for n in new)]
    changed = [k for k in old if k in new and new[k][0] != old[k][0]]
    print(f'definitions and laws: {len(old)} then, {len(new)} now; gone: {len(gone)}, changed: {len(changed)}')
    if '-v' in sys.argv:
        for k in gone:
            print('gone   ', old[k][1], k[2])
        for k in changed:
            print('changed', new[k][1], k[2])


if __name__ == '__main__':
    main()
