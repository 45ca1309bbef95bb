#!/usr/bin/env python3
"""Runs the commands of the pages as they stand and compares what they print with what the pages show.

  run_guide.py SECVISOR [PAGE ..]   with a built program, README.md and docs/GUIDE.md where no page is named: some ten seconds,
                                    with Debian's gcc-riscv64-unknown-elf. `rt run -- WORDS` and `rt try -- WORDS` become
                                    `secvisor WORDS` then, and `rt ci` isn't run
  run_guide.py --rt [PAGE ..]       the same as the pages stand, with `rt`, which proves first: an hour and a half
  run_guide.py --list [PAGE ..]     only says what would be compared

A page's blocks (```sh) run one after the other in one shell, in an empty folder alongside a link `secvisor` to this
repository; README.md's in the repository itself. The block of output is the next one without a language, which has to be
equal, or the next lines that are indented by four, which have to be among what is printed. Standard input is what
docs/GUIDE.md says to type. Status 1 where something differs."""
import pathlib
import re
import shutil
import subprocess
import sys
import tempfile

TOP = pathlib.Path(__file__).resolve().parent.parent
PAGES = ['README.md', 'docs/GUIDE.md']
TYPED = 'hello.\n'
MARK = '@@ block '


def blocks(page):
    """The page's blocks in order: each its line, its language (`indented` where it has no fence) and its text."""
    found, inside = [], None
    for number, line in enumerate(page.read_text().splitlines(), 1):
        if line.startswith('```'):
            if inside is None:
                inside = (number, line[3:], [])
            else:
                found.append((inside[0], inside[1], '\n'.join(inside[2]) + '\n'))
                inside = None
        elif inside is not None:
            inside[2].append(line)
        elif re.match(r' {4}\S', line):
            if found and found[-1][1] == 'indented' and found[-1][0] + found[-1][2].count('\n') == number:
                found[-1] = (found[-1][0], 'indented', found[-1][2] + line[4:] + '\n')
            else:
                found.append((number, 'indented', line[4:] + '\n'))
    return found


def runs(page):
    """Each block of commands with its line, and what the page shows of its output: nothing, all, or some lines."""
    found = blocks(page)
    for at, (number, language, text) in enumerate(found):
        if language == 'sh':
            after = found[at + 1] if at + 1 < len(found) else (0, 'sh', '')
            yield number, text, after[1:] if after[1] in ('', 'indented') else None


def without_rt(text):
    text = re.sub(r'\brt (?:run|try)(?: --data \S+)* -- ', 'secvisor ', text)
    return ''.join(line for line in text.splitlines(True) if not re.match(r'rt ci\b|export PATH=', line))


def outputs(page, commands, folder):
    """What each block printed, standard error included."""
    script = ''.join(f'echo "{MARK}{number}"\n{text}' for number, text in commands)
    (folder / 'script').write_text(script)
    (folder / 'typed').write_text(TYPED)
    work = TOP if page.name == 'README.md' else folder / 'work'
    work.mkdir(exist_ok=True)
    with open(folder / 'typed') as typed:
        done = subprocess.run(['bash', folder / 'script'], cwd=work, stdin=typed, stdout=subprocess.PIPE, stderr=subprocess.STDOUT)
    printed = {}
    for part in re.split(rf'^{MARK}', done.stdout.decode(errors='replace'), flags=re.M)[1:]:
        number, _, text = part.partition('\n')
        printed[int(number)] = text
    return printed


def differs(shown, printed):
    """The first line that isn't as the page shows it, none where all are."""
    kind, text = shown
    want, got = text.splitlines(), printed.replace('\r\n', '\n').splitlines()
    if kind == 'indented':
        return next((f'isn\'t printed: {line}' for line in want if line not in got), None)
    for line, other in zip(want + [None] * len(got), got + [None] * len(want)):
        if line != other:
            return f'shown {line!r}, printed {other!r}'
    return None


def main(words):
    listed, with_rt = '--list' in words, '--rt' in words
    words = [word for word in words if not word.startswith('--')]
    program = None if listed or with_rt else pathlib.Path(words.pop(0)).resolve()
    if not listed and not shutil.which('riscv64-unknown-elf-gcc'):
        print('riscv64-unknown-elf-gcc isn\'t there: apt-get install gcc-riscv64-unknown-elf')
        return 2
    status = 0
    for page in [TOP / word for word in words or PAGES]:
        found = list(runs(page))
        if listed:
            for number, text, shown in found:
                kind = {None: 'nothing', '': 'all lines', 'indented': 'some lines'}[shown and shown[0]]
                print(f'{page.name}:{number}: {text.count(chr(10))} lines, compared: {kind}')
            continue
        with tempfile.TemporaryDirectory() as name:
            folder = pathlib.Path(name)
            (folder / 'secvisor').symlink_to(TOP)
            commands = [(number, text if with_rt else without_rt(text)) for number, text, _ in found]
            if program:
                commands.insert(0, (0, f'export PATH="{program.parent}:$PATH"\n'))
            printed = outputs(page, commands, folder)
        for number, text, shown in found:
            wrong = differs(shown, printed[number]) if shown and number in printed else None
            wrong = 'wasn\'t run' if number not in printed else wrong
            print(f'{page.name}:{number}: {wrong or ("as shown" if shown else "ran")}')
            status |= bool(wrong)
    return status


if __name__ == '__main__':
    sys.exit(main(sys.argv[1:]))
