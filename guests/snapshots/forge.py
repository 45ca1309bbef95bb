#!/usr/bin/env python3
"""forge.py SECVISOR [BITS]: shows snapshots of a machine with a virtio disk whose device is forged, and compares which are
refused; then turns so many bits of the device's part, 2,000 if not said, one by one. Each has to be shown (status 0) or refused
by a number (status 3). The snapshot is made of the generated guest's; the form is in docs/FORMATS.md."""
import pathlib
import random
import struct
import subprocess
import sys
import tempfile

TOP = pathlib.Path(__file__).resolve().parent.parent.parent
PARTS = [(0x80004000, 16, 0), (0x80005000, 512, 1), (0x80006F00, 1024, 1), (0x80007000, 1, 1)]
MOST_PARTS = 34
SHOWN, RANGE = None, 3


def words(*numbers):
    return b''.join(struct.pack('<Q', number) for number in numbers)


def split(raw):
    """What stands before and after the block device in a snapshot `SVSNAP01`."""
    def number(at):
        return struct.unpack_from('<Q', raw, at)[0]

    at = 40 + number(16) * 47 * 8 + number(24)
    at += 8 + 40 * number(at)
    at += 8 + 32 * number(at) + 8
    at += 8 + (48 if number(at) else 0)
    at += 8 + number(at)
    return raw[:at], raw[at + 48:]


def request(head=3, sector=2, size=8, used=0x80003000, count=4, part=2, parts=None, offset=100, last=0, result=0, written=512):
    parts = (PARTS if parts is None else parts) + [(0, 0, 0)] * MOST_PARTS
    return (words(head, sector, size, used, count, part) + b''.join(words(*one) for one in parts[:MOST_PARTS])
            + words(offset, last, result, written))


def device(registers=(0, 0, 0, 1, 0, 8), ready=1, interrupt=1, status=15, rings=(0x80002000, 0x80002800, 0x80003000), accepted=7,
           asked=b'', flag=None):
    return (words(*registers, ready, interrupt, status, *rings, accepted, (1 if asked else 0) if flag is None else flag) + asked)


def with_part(index, part):
    return request(parts=PARTS[:index] + [part] + PARTS[index + 1:])


CASES = {
    'idle': (device(), SHOWN),
    'a request': (device(asked=request()), SHOWN),
    'its last moves': (device(asked=request(part=3, offset=0, last=2)), SHOWN),
    'a request whose queue is used no more': (device(ready=0, asked=request()), SHOWN),
    'data outside RAM': (device(asked=with_part(2, (0x10, 1024, 1))), SHOWN),
    'broken': (device(status=79), SHOWN),
    '35 descriptors': (device(asked=request(count=35)), RANGE),
    'one descriptor': (device(asked=request(count=1, part=1)), RANGE),
    'the header reached': (device(asked=request(part=0)), RANGE),
    'past the last reached': (device(asked=request(part=4)), RANGE),
    'more moved than there is': (device(asked=request(offset=1025)), RANGE),
    'moved at the last': (device(asked=request(part=3, offset=1)), RANGE),
    'last moves before the last': (device(asked=request(last=1)), RANGE),
    'five last moves': (device(asked=request(part=3, offset=0, last=5)), RANGE),
    'no result': (device(asked=request(result=3)), RANGE),
    'too much written': (device(asked=request(written=1 << 32)), RANGE),
    'a descriptor past the number': (device(asked=request(parts=PARTS + [(0, 0, 1)])), RANGE),
    'data that wraps': (device(asked=with_part(2, ((1 << 63) - 512, 1024, 1))), RANGE),
    'used ring not aligned': (device(asked=request(used=0x80003002)), RANGE),
    'used ring that wraps': (device(asked=request(used=1 << 63)), RANGE),
    'a queue of none': (device(asked=request(size=0)), RANGE),
    'a queue of 65': (device(asked=request(size=65)), RANGE),
    'a head too large': (device(asked=request(head=65536)), RANGE),
    'a sector past the disk': (device(asked=request(sector=100000000)), RANGE),
    'a queue of three': (device(registers=(0, 0, 0, 1, 0, 3)), RANGE),
    'a register of 33 bits': (device(registers=(1 << 32, 0, 0, 1, 0, 8)), RANGE),
    'neither in use nor not': (device(ready=2), RANGE),
    'descriptors not aligned': (device(rings=(0x80002008, 0x80002800, 0x80003000)), RANGE),
    'available ring not aligned': (device(rings=(0x80002000, 0x80002801, 0x80003000)), RANGE),
    'too many accepted': (device(accepted=65536), RANGE),
    'broken with a request': (device(status=79, asked=request()), RANGE),
    'neither a request nor none': (device(flag=2), RANGE),
}


def main(secvisor, bits=2000):
    with tempfile.TemporaryDirectory() as folder:
        folder = pathlib.Path(folder)

        def run(*command, put=None):
            if put is not None:
                (folder / 'forged').write_bytes(put)
            return subprocess.run([pathlib.Path(secvisor).resolve(), *command], cwd=folder, capture_output=True, check=False)

        def refusal(snapshot):
            """The number by which a snapshot is refused, or none where it is shown."""
            done = run('show', 'forged', put=snapshot)
            if done.returncode == 0:
                return SHOWN
            assert done.returncode == 3 and done.stdout.startswith(b'refused snapshot '), (done.returncode, done.stdout[:80])
            return int(done.stdout.split()[2])

        (folder / 'kernel').write_bytes((TOP / 'crates/secvisor/data/store.elf').read_bytes())
        run('measure', 'policy', 'kernel', '64', '1', '0x80000000,0x80000100', 'none')
        (folder / 'disk').write_bytes(bytes(65536))
        run('snap', 'kernel', 'policy', 'disk', 'none', '100', 'saved')
        before, after = split((folder / 'saved').read_bytes())
        before = b'SVSNAP02' + before[8:]
        wrong = [f'{name}: {got}, due {due}' for name, (part, due) in CASES.items()
                 if (got := refusal(before + part + after)) != due]
        whole = device(asked=request())
        random.seed(5)
        found = {}
        for place in random.sample(range(8 * len(whole)), bits):
            turned = bytearray(whole)
            turned[place // 8] ^= 1 << place % 8
            number = refusal(before + bytes(turned) + after)
            found[number] = found.get(number, 0) + 1
        print('\n'.join(wrong + [f'{len(CASES)} devices, {len(wrong)} wrong; {bits} bits: {found}']))
        return 1 if wrong else 0


if __name__ == '__main__':
    sys.exit(main(sys.argv[1], *map(int, sys.argv[2:3])))
