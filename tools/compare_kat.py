#!/usr/bin/env python3
"""Compares `kat` with other implementations on random lines, well formed, refused and malformed.

usage: compare_kat.py [--count N] [--seed S] [--kat PATH]

AES and XTS are compared with Python's `cryptography` where that is installed, everything with reference.py. It is no part of the gate.
Build the program first, in crates/kat: rt run < stdin."""
import argparse
import pathlib
import random
import subprocess
import sys
import reference

try:
    from cryptography.hazmat.primitives.ciphers import Cipher, algorithms, modes
except ImportError:
    Cipher = None

BLOCKS = [f'{cipher}' for cipher in reference.CIPHERS]
TEXTS = [f'{mode}-{cipher}' for mode in ('xts', 'xcb') for cipher in reference.CIPHERS]
LENGTHS = [0, 1, 15, 16, 31, 32, 33, 40, 48, 64, 496, 512, 528]


def outside(line):
    """What `cryptography` answers, or None where it has no say."""
    command, *args = line.split(' ')
    if Cipher is None or command not in ('aes128', 'xts-aes128'):
        return None
    try:
        if 'open' in args[:-1]:
            return None
        values = [reference.unhex(word) for word in args if word != 'open']
        if command == 'aes128':
            key, text = values
            cipher = Cipher(algorithms.AES(key), modes.ECB())
        else:
            first, second, tweak, text = values
            # it refuses equal keys and short tweaks, and takes lengths that we refuse
            if first == second or len(text) % 16 or not 32 <= len(text) <= 4096:
                return None
            cipher = Cipher(algorithms.AES(first + second), modes.XTS(tweak))
        if any(len(v) != 16 for v in values[:len(values) - 1]) or command == 'aes128' and len(text) != 16:
            return None
        worker = cipher.decryptor() if args[-1] == 'open' else cipher.encryptor()
        return (worker.update(text) + worker.finalize()).hex()
    except (ValueError, TypeError):
        return None


def data(rng, length):
    text = rng.randbytes(length).hex() or '-'
    return text.upper() if rng.random() < 0.2 else text


def well_formed(rng):
    kind = rng.choice(BLOCKS + TEXTS * 2 + ['product', 'hash', 'double', 'cards'])
    key = lambda: data(rng, 16) if rng.random() < 0.9 else rng.choice(['00', 'ff', '01']) * 16
    if kind in BLOCKS:
        words = [key(), data(rng, 16)]
    elif kind in TEXTS:
        length = rng.choice(LENGTHS) if rng.random() < 0.7 else 16 * rng.randrange(0, 20)
        if rng.random() < 0.01:
            length = rng.choice([4080, 4096, 4097, 4112])
        words = [key() for _ in range(2 if kind.startswith('xts') else 1)] + [data(rng, 16), data(rng, length)]
    elif kind == 'hash':
        words = [key(), data(rng, 16 * rng.randrange(0, 6))]
    elif kind == 'double':
        words = [data(rng, 16)]
    elif kind == 'cards':
        first = data(rng, rng.choice([15, 16, 16, 16, 17]))
        words = [first, first if rng.random() < 0.2 else data(rng, rng.choice([0, 15, 16, 16, 16, 17]))]
    else:
        words = [key(), key()]
    if kind in BLOCKS + TEXTS and rng.random() < 0.5:
        words.append('open')
    return ' '.join([kind] + words)


def damaged(rng, line):
    at = rng.randrange(len(line))
    way = rng.randrange(5)
    if way == 0:
        return line[:at] + line[at + 1:]
    if way == 1:
        return line[:at] + rng.choice('0g -xG\t') + line[at + 1:]
    if way == 2:
        return line[:at] + rng.choice(' 0z') + line[at:]
    if way == 3:
        return line + rng.choice([' ', ' open', ' 00', 'open', '\r'])
    words = line.split(' ')
    words.pop(rng.randrange(len(words)))
    return ' '.join(words)


def main():
    root = pathlib.Path(__file__).resolve().parent.parent
    parser = argparse.ArgumentParser()
    parser.add_argument('--count', type=int, default=2000)
    parser.add_argument('--seed', type=int, default=1)
    parser.add_argument('--kat', default=str(root / 'crates' / 'kat' / 'out' / 'kat'))
    a = parser.parse_args()
    rng = random.Random(a.seed)
    lines = []
    for _ in range(a.count):
        line = well_formed(rng)
        lines.append(damaged(rng, line) if rng.random() < 0.2 else line)
    said = subprocess.run([a.kat], input=''.join(line + '\n' for line in lines).encode(), capture_output=True, check=True).stdout.decode().split('\n')
    assert said.pop() == '' and len(said) == len(lines), 'not one answer a line'
    wrong = asked = 0
    for line, mine in zip(lines, said):
        theirs = outside(line)
        asked += theirs is not None
        if mine != reference.answer(line) or theirs not in (None, mine):
            wrong += 1
            print(f'differs: {line}\n  kat {mine}\n  reference {reference.answer(line)}\n  cryptography {theirs}')
    kinds = {k: sum(s.startswith(k) for s in said) for k in ('refused', 'malformed')}
    print(f'{len(lines)} lines, {kinds["refused"]} refused, {kinds["malformed"]} malformed; {asked} also compared with cryptography'
          f'{"" if Cipher else " (not installed)"}; {wrong} differ')
    return 1 if wrong else 0


sys.exit(main())
