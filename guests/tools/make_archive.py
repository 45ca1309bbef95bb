#!/usr/bin/env python3
"""Makes an initial file system: a cpio archive of the given files, with the folders that lead to them, the folders /dev,
/proc, /sys and /tmp, and the console's node. Owners are root and times 0, so the same files give the same bytes."""
import argparse

FOLDER, FILE, CONSOLE = 0o40755, 0o100755, 0o20600
ALWAYS = ('dev', 'proc', 'sys', 'tmp')


def member(number, path, mode, content=b'', device=(0, 0)):
    """One member, in the form `newc`."""
    name = path.encode() + b'\0'
    fields = (number, mode, 0, 0, 1, 0, len(content), 0, 0, *device, len(name), 0)
    head = b'070701' + b''.join(b'%08x' % field for field in fields) + name
    return head + bytes(-len(head) % 4) + content + bytes(-len(content) % 4)


def folders(paths):
    """The folders of an archive with these paths, each behind those that lead to it."""
    found = list(ALWAYS)
    for path in paths:
        parts = path.split('/')[:-1]
        for count in range(1, len(parts) + 1):
            folder = '/'.join(parts[:count])
            if folder not in found:
                found.append(folder)
    return found


def archive(files):
    """The archive of (path, content) in their order."""
    members = [(folder, FOLDER, b'', (0, 0)) for folder in folders([path for path, _ in files])]
    members.append(('dev/console', CONSOLE, b'', (5, 1)))
    members += [(path, FILE, content, (0, 0)) for path, content in files]
    body = b''.join(member(number + 1, *rest) for number, rest in enumerate(members))
    return body + member(0, 'TRAILER!!!', 0)


def main():
    words = argparse.ArgumentParser(description=__doc__)
    words.add_argument('out')
    words.add_argument('file', nargs='*', help='PATH=FILE: this file at this path')
    words = words.parse_args()
    files = []
    for word in words.file:
        path, name = word.split('=', 1)
        with open(name, 'rb') as file:
            files.append((path.strip('/'), file.read()))
    with open(words.out, 'wb') as out:
        out.write(archive(files))


if __name__ == '__main__':
    main()
