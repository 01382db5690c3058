#!/usr/bin/env python3
"""Brings this repository's own names to today's spelling: words in snake case, types in camel case. Run once, at the top, right after the
toolchain's port.py; a second run changes nothing.

  tools/respell.tsv   a line for each name that changes: the old spelling, a tab, the new one
  crates/hex          becomes crates/hexadecimal, since the toolchain has a library hex now

It turns definitions and lemmas in specs/ and proofs/, and what the clauses of src/ and the edits cite. It leaves functions of src/, strings,
comments (but for a name in backticks), inputs and outputs as they are."""
import pathlib
import re
import shutil
import subprocess

ROOT = pathlib.Path(__file__).resolve().parent.parent
OLD_CRATE, NEW_CRATE = 'hex', 'hexadecimal'
NAMES = dict(line.split('\t') for line in (ROOT / 'tools' / 'respell.tsv').read_text().splitlines())
ANTT = re.compile(r'(--(?![^\s]).*|--$|"[^"]*")|([^\s(){}\[\].,;:|"⟦⟧]+)')
RATTLE = re.compile(r'(//.*|b?"(?:\\.|[^"\\])*"|\'(?:\\.|[^\\\'])\')|([A-Za-z_][\w\']*(?:-[\w\']+)*)')
QUOTED = re.compile(r'`([^`\s]+)`')


def quoted(text):
    return QUOTED.sub(lambda m: '`' + NAMES.get(m[1], m[1]) + '`', text)


def respell(text, words):
    def turn(m):
        if m[1]:
            return quoted(m[1]) if m[1].startswith(('--', '//')) else m[1]
        return NAMES.get(m[2], m[2])
    return '\n'.join(words.sub(turn, line) for line in text.split('\n'))


def rename_crate(text):
    text = re.sub(rf'\bRattle\.{OLD_CRATE}\b', f'Rattle.{NEW_CRATE}', text)
    text = re.sub(rf'(?m)^use {OLD_CRATE}\b', f'use {NEW_CRATE}', text)
    return re.sub(rf'\b{OLD_CRATE}::', f'{NEW_CRATE}::', text)


def main():
    old, new = ROOT / 'crates' / OLD_CRATE, ROOT / 'crates' / NEW_CRATE
    if old.is_dir() and not new.exists():
        shutil.move(old, new)
    listed = ROOT / 'crates.txt'
    listed.write_text('\n'.join(line if line.startswith('#') else re.sub(rf'\b{OLD_CRATE}\b', NEW_CRATE, line) for line in listed.read_text().split('\n')))
    for path in sorted((ROOT / 'crates').rglob('*')):
        if path.suffix not in ('.rt', '.antt', '.edit') or 'out' in path.parts:
            continue
        text = path.read_text()
        turned = rename_crate(respell(text, ANTT if path.suffix == '.antt' else RATTLE))
        if turned != text:
            path.write_text(turned)
    for crate in sorted(p for p in (ROOT / 'crates').iterdir() if (p / 'src').is_dir()):
        subprocess.run(['rt', 'fmt'], cwd=crate, check=True, stdout=subprocess.DEVNULL)


main()
