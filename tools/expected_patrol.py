#!/usr/bin/env python3
"""Writes crates/patrol/stdout and crates/patrol_flash/stdout: what `patrol` and `patrol_flash` have to print for their stdin, worked out with
reference.py."""
import pathlib
import reference

CHIEF = b'chief, card 0001'
SKIPPED = 17


def record(line):
    number, badge, time, name = line.split(' ')
    return int(number).to_bytes(2, 'big') + int(badge).to_bytes(4, 'big') + int(time).to_bytes(8, 'big') + name.encode().ljust(10, b'\0')


def image(lines):
    return b''.join(record(line) for line in lines).ljust(1024, b'\0')


def turned(function, text):
    return b''.join(function(k.to_bytes(16, 'little'), text[512 * k:512 * k + 512]) for k in range(2))


def key(guard):
    return reference.cards(CHIEF, guard)


FLASH = ['written through the sealing layer to a flash chip of 2048 sectors: sector 0 bears 99999 more writes, sector 1 99999',
         'the dock copied 2048 sectors as they are']


def show(name, mode, doors, between, out):
    out.append(name)
    out.extend(between)
    sealed = turned(mode.seal, image(doors))
    for k in range(2):
        out.append(f'sector {k}, sealed under its number:')
        out.extend('  ' + sealed[i:i + 32].hex() for i in range(512 * k, 512 * k + 512, 32))
    verdict = {True: 'the copies are equal', False: 'the copies differ'}
    out.append(f'a second wand that walked the same round: {verdict[turned(mode.seal, image(doors)) == sealed]}')
    skipped = turned(mode.seal, image(doors[:SKIPPED - 1] + doors[SKIPPED:]))
    out.append(f'a wand that skipped door {SKIPPED} of the round: {verdict[skipped == sealed]}')
    opened = turned(mode.open, sealed)
    assert opened == image(doors)
    out.append(f'opened again: {len(doors)} doors, as they were laid:')
    out.extend('  ' + line for line in doors)


def write(program, between):
    folder = pathlib.Path(__file__).resolve().parent.parent / 'crates' / program
    doors = (folder / 'stdin').read_text().splitlines()
    out = [f'the round: {len(doors)} doors of 24 bytes, in 2 sectors of 512 bytes',
           'the cards are laid: two for XCB, two for each key of XTS, on two wands']
    show('XCB over AES-128', reference.Xcb(reference.Aes128, key(b'guard, card 0417')), doors, between, out)
    show('XTS over AES-128', reference.Xts(reference.Aes128, key(b'guard, card 0418'), key(b'guard, card 0419')), doors, between, out)
    (folder / 'stdout').write_text(''.join(line + '\n' for line in out))
    print(f'{program}: {len(out)} lines')


write('patrol', [])
write('patrol_flash', FLASH)
