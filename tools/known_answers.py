#!/usr/bin/env python3
"""Writes crates/kat/stdin and crates/kat/stdout: the published vectors, with their published answers, and the edges.

An answer that no standard publishes comes from reference.py; a published one is compared with it here."""
import pathlib
import reference

LINES = []


def add(line, published=None):
    worked_out = reference.answer(line)
    assert published is None or published == worked_out, (line, published, worked_out)
    LINES.append((line, published or worked_out))


def both(line, result, back):
    add(line, result)
    add(back + ' open')


# FIPS 197, appendices B and C.1
both('aes128 2b7e151628aed2a6abf7158809cf4f3c 3243f6a8885a308d313198a2e0370734', '3925841d02dc09fbdc118597196a0b32',
     'aes128 2b7e151628aed2a6abf7158809cf4f3c 3925841d02dc09fbdc118597196a0b32')
both('aes128 000102030405060708090a0b0c0d0e0f 00112233445566778899aabbccddeeff', '69c4e0d86a7b0430d8cdb78070b4c55a',
     'aes128 000102030405060708090A0B0C0D0E0F 69C4E0D86A7B0430D8CDB78070B4C55A')
# SP 800-38A, F.1.1 and F.1.2
for plain, sealed in (('6bc1bee22e409f96e93d7e117393172a', '3ad77bb40d7a3660a89ecaf32466ef97'),
                      ('ae2d8a571e03ac9c9eb76fac45af8e51', 'f5d3d58503b9699de785895a96fdbaaf'),
                      ('30c81c46a35ce411e5fbc1191a0a52ef', '43b1cd7f598ece23881b00e3ed030688'),
                      ('f69f2445df4f9b17ad2b417be66c3710', '7b0c785e27e8ad3f8223207104725dd4')):
    key = '2b7e151628aed2a6abf7158809cf4f3c'
    both(f'aes128 {key} {plain}', sealed, f'aes128 {key} {sealed}')
# Speck128/128, from its authors' paper: the first 8 bytes are the right word, lowest byte first
both('speck 000102030405060708090a0b0c0d0e0f 206d616465206974206571756976616c', '180d575cdffe60786532787951985da6',
     'speck 000102030405060708090a0b0c0d0e0f 180d575cdffe60786532787951985da6')
# SP 800-38D: one times x, and the hash of GCM's test case 2
add('product 00000000000000000000000000000001 40000000000000000000000000000000', 'e1000000000000000000000000000000')
add('product 80000000000000000000000000000000 0123456789abcdef0123456789abcdef', '0123456789abcdef0123456789abcdef')
add('product 0388dace60b6a392f328c2b971b2fe78 66e94bd4ef8a2c3b884cfa59ca342b2e', '5e2ec746917062882c85b0685353deb7')
add('hash 66e94bd4ef8a2c3b884cfa59ca342b2e 0388dace60b6a392f328c2b971b2fe7800000000000000000000000000000080',
    'f38cbb1ad69223dcc3457ae5b6b0f885')
add('hash 66e94bd4ef8a2c3b884cfa59ca342b2e -', '00' * 16)
# the doubling of IEEE 1619
add('double 00000000000000000000000000000080', '87' + '00' * 15)
add('double 80' + '00' * 15, '0001' + '00' * 14)
# IEEE 1619, XTS-AES-128 vectors 1 to 3
T = '3333333333' + '00' * 11
XTS = (('00' * 16, '00' * 16, '00' * 16, '00' * 32, '917cf69ebd68b2ec9b9fe9a3eadda692cd43d2f59598ed858c02c2652fbf922e'),
       ('11' * 16, '22' * 16, T, '44' * 32, 'c454185e6a16936e39334038acef838bfb186fff7480adc4289382ecd6d394f0'),
       ('fffefdfcfbfaf9f8f7f6f5f4f3f2f1f0', '22' * 16, T, '44' * 32, 'af85336b597afc1a900b2eb21ec949d292df4c047e0b21532186a5971a227a89'))
for first, second, tweak, plain, sealed in XTS:
    both(f'xts-aes128 {first} {second} {tweak} {plain}', sealed, f'xts-aes128 {first} {second} {tweak} {sealed}')
# XTS over Speck, XCB over both, on 48 bytes and on a sector of 512
RAMP = bytes(i * 7 & 255 for i in range(512)).hex()
for mode in ('xts-speck', 'xcb-aes128', 'xcb-speck'):
    keys = '000102030405060708090a0b0c0d0e0f' + (' 0f0e0d0c0b0a09080706050403020100' if mode.startswith('xts') else '')
    for text in (RAMP[:96], RAMP):
        head = f'{mode} {keys} 0201{"00" * 14} '
        both(head + text, None, head + reference.answer(head + text))
# the zero key has no cards, and seals all the same
both(f'xcb-aes128 {"00" * 16} {"00" * 16} {"00" * 32}', None, f'xcb-aes128 {"00" * 16} {"00" * 16} ' + reference.answer(f'xcb-aes128 {"00" * 16} {"00" * 16} {"00" * 32}'))
# lengths: 0, 16, 40 and 4,112 bytes are refused, 32 and 4,096 accepted
for mode, keys in (('xts-aes128', f'{"01" * 16} {"02" * 16}'), ('xcb-aes128', '01' * 16), ('xcb-speck', '01' * 16)):
    for length in (0, 16, 31, 32, 33, 40, 4096, 4097, 4112):
        add(f'{mode} {keys} {"03" * 16} {"5a" * length or "-"}')
    for length in (0, 16, 40, 4112):
        add(f'{mode} {keys} {"03" * 16} {"5a" * length or "-"} open', 'refused 1')
# cards
add(f'cards {"0f" * 16} {"f0" * 16}', 'ff' * 16)
add('cards 000102030405060708090a0b0c0d0e0f 0F0E0D0C0B0A09080706050403020100')
for first, second, number in ((15, 16, 5), (17, 16, 5), (16, 15, 5), (16, 17, 5), (0, 16, 5), (16, 0, 5), (15, 15, 5), (16, 16, 6)):
    add(f'cards {"0f" * first or "-"} {"0f" * second or "-"}', f'refused {number}')
# lines of another form
for line in ('', ' ', 'aes128', 'aes128 00', f'aes128 {"00" * 16}', f'aes128 {"00" * 16} {"00" * 15}', f'aes128 {"00" * 17} {"00" * 16}',
             f'aes128 {"0g" * 16} {"00" * 16}', f'aes128  {"00" * 16} {"00" * 16}', f'aes128 {"00" * 16} {"00" * 16} ',
             f'aes128 {"00" * 16} {"00" * 16} close', f'aes128 {"00" * 16} {"00" * 16} open open', f'AES128 {"00" * 16} {"00" * 16}',
             f'aes128 {"00" * 16} {"00" * 16}\r', f'aes128 {"00" * 16}\t{"00" * 16}', f'aes256 {"00" * 16} {"00" * 16}', f'hash {"00" * 16}',
             f'hash {"00" * 16} 00', f'product {"00" * 16} {"00" * 16} {"00" * 16}', f'product {"00" * 16} {"00" * 16} open', 'double -',
             f'double {"00" * 16} open', f'cards {"0f" * 16}', f'xts-aes128 {"00" * 16} {"00" * 16} 00 {"00" * 32}',
             f'xcb-aes128 {"00" * 16} {"00" * 16} 0', f'xcb-aes128 {"00" * 16} {"00" * 16}', '-', 'cards - -x'):
    add(line, 'malformed')

folder = pathlib.Path(__file__).resolve().parent.parent / 'crates' / 'kat'
(folder / 'stdin').write_text(''.join(line + '\n' for line, _ in LINES))
(folder / 'stdout').write_text(''.join(answer + '\n' for _, answer in LINES))
print(f'{len(LINES)} lines')
