"""The command ./bench beside what it says: exit status, files, --echo, a terminal, byte order marks, samples, input and output that fail, and where it is called from.

    python3 checks/program.py TEMPORARY-FOLDER

checks/run calls it, when the program is built. Says what does not hold and ends with 1, or says how much was tried.
"""
import errno
import fcntl
import os
import pathlib
import pty
import select
import shutil
import signal
import subprocess
import sys
import time

ROOT = pathlib.Path(__file__).resolve().parent.parent
BENCH = str(ROOT / 'bench')
FOLDER = pathlib.Path(sys.argv[1]).resolve()
MARK = b'\xef\xbb\xbf'
tried = 0


def holds(what, truth, *shown):
    global tried
    tried += 1
    if not truth:
        sys.exit(f'program: not so: {what}' + ''.join(f'\n  {one!r}' for one in shown))


def run(*words, command=BENCH, given=b'', **named):
    """A whole run, which must end."""
    named.setdefault('stdout', subprocess.PIPE)
    if 'stdin' not in named:
        named['input'] = given
    return subprocess.run([command, *words], stderr=subprocess.PIPE, timeout=60, **named)


def ended(what, ran, status, out=None, error=None):
    holds(f'{what}: exit status {status}', ran.returncode == status, ran)
    if out is not None:
        holds(f'{what}: {out!r}', ran.stdout == out, ran.stdout)
    if error is not None:
        holds(f'{what}: says {error!r} on standard error', error in ran.stderr, ran.stderr)


def statuses():
    ended('a call', run(given=b'beacon 2 6\n'), 0, b'beacon 6 14\n')
    ended('a refusal is an answer', run(given=b'close 3\n'), 0)
    ended('no line at all', run(), 0, b'')
    ended('an unknown word', run(given=b'beacon 2 6\nfrobnicate\nbeacon 2 6\n'), 1)
    ended('a missing word', run(given=b'beacon 2\n'), 1)
    ended('a line that is too long', run(given=b'#' + b'x' * 8191 + b'\n'), 1)
    ended('and one that is just short enough', run(given=b'beacon 2 6#' + b'x' * 8180 + b'\n'), 0, b'beacon 6 14\n')
    ended('quit is no call where nobody types', run(given=b'quit\n'), 1)


def arguments():
    ended('an unknown argument', run('--frobnicate'), 2, b'', b'--frobnicate')
    helped = run('--help')
    ended('--help', helped, 0)
    holds('--help has the options and the calls', b'--echo' in helped.stdout and b'midamble CELL' in helped.stdout, helped.stdout)
    version = run('--version')
    ended('--version', version, 0)
    holds('--version is the library\'s', version.stdout.split()[-1].decode() in (ROOT / 'python' / 'mqarbset.py').read_text(), version.stdout)


def files():
    one, two, odd = FOLDER / 'one.lesson', FOLDER / 'two words.lesson', FOLDER / '-odd'
    one.write_bytes(b'open 3 0 1 0 0 0\nlist 3\n')
    two.write_bytes(b'list 3\nno call\nlist 3')
    odd.write_bytes(b'beacon 1 0\n')
    ran = run(str(one), str(two))
    ended('two lessons', ran, 1)
    holds('each has an empty book and lines from 1', ran.stdout.splitlines()[:3] == [b'ok', b'list 0', b'refused 14: seat not open'] and b'\nline 2: ' in ran.stdout, ran.stdout)
    ended('one that is not there', run(str(one), str(FOLDER / 'none')), 1, b'ok\nlist 0\n', b'none')
    ended('a folder', run(str(FOLDER)), 1, b'', str(FOLDER).encode())
    ended('a name that begins with -', run('--', '-odd', cwd=FOLDER), 0, b'beacon 0\n')
    ended('a name from the caller\'s folder', run('one.lesson', cwd=FOLDER), 0, b'ok\nlist 0\n')


def echo():
    lesson = b'# a plan\n\nopen 3 0 1 0 0 0   # seat 3\nlist 3\nfrobnicate'
    ran = run('--echo', given=lesson)
    ended('--echo', ran, 1)
    lines = ran.stdout.splitlines()
    holds('each line stands with its number before its reply', lines[:6] == [b'1> # a plan', b'2> ', b'3> open 3 0 1 0 0 0   # seat 3', b'ok', b'4> list 3', b'list 0'], lines)
    holds('also the last', lines[6] == b'5> frobnicate' and lines[7].startswith(b'line 5: '), lines)
    ended('and no line behind the last LF', run('--echo', given=b'beacon 2 6\n'), 0, b'1> beacon 2 6\nbeacon 6 14\n')
    long = run('--echo', given=b'#' * 10000).stdout
    holds('of a line that is too long so much that it can be seen', long.startswith(b'1> ' + b'#' * 8192 + b'\nline 1: '), long)


def marks():
    ended('a byte order mark at the start is passed over', run(given=MARK + b'beacon 2 6\n'), 0, b'beacon 6 14\n')
    ended('and no line is shorter for it', run(given=MARK + b'beacon 2 6' + b' ' * 8181 + b'\n'), 0, b'beacon 6 14\n')
    ended('once', run(given=MARK + MARK + b'beacon 2 6\n'), 1)
    ended('not further on', run(given=b'beacon 2 6\n' + MARK + b'beacon 2 6\n'), 1)
    ended('half of one is none', run(given=MARK[:2] + b'beacon 2 6\nbeacon 2 6'), 1)
    ended('a mark and nothing else', run(given=MARK), 0, b'')
    for coding in ('utf-16', 'utf-16-le', 'utf-16-be'):
        text = 'open 3 0 1 0 0 0\nclose 3\n'.encode(coding)
        if coding != 'utf-16':
            text = {'utf-16-le': b'\xff\xfe', 'utf-16-be': b'\xfe\xff'}[coding] + text
        first = run(given=text).stdout.splitlines()[0]
        holds(f'{coding} is named in the reply to line 1', first.startswith(b'line 1: ') and b'UTF-16' in first, first)
    given, process = os.pipe(), None
    process = subprocess.Popen([BENCH], stdin=given[0], stdout=subprocess.PIPE)
    os.close(given[0])
    os.write(given[1], b'\n')
    os.write(given[1], b'beacon 2 6\n')
    holds('a short first line is answered before more comes', select.select([process.stdout], [], [], 30)[0] and process.stdout.readline() == b'beacon 6 14\n')
    os.close(given[1])
    holds('and the lesson ends', process.wait(30) == 0)


def air():
    """Samples: what the program writes it hears again, and what is no sample is no call."""
    for asked, call, reply in ((b'pairs 7 1 4 5 2047', b'hear 7 1 4', b'user 5 1048064 0\n'), (b'pairs 7 2 6 6 1', b'hear 7 2 3', b'user '), (b'pairs 7 2 6 2 999', b'hear 7 2 6', b'user 2 255744 0\n')):
        row = run(given=asked).stdout.removeprefix(b'pairs')
        ran = run(given=call + row)
        holds(f'{call!r} with what {asked!r} gives', ran.returncode == 0 and ran.stdout.startswith(reply), ran.stdout)
    for word, reply in ((b'0', b'nobody'), (b'-0', b'nobody'), (b'000000', b'nobody'), (b'2048', b'refused 24: '), (b'-999999', b'refused 24: ')):
        ran = run(given=b'hear 0 2 6' + (b' ' + word) * 512)
        holds(f'{word!r} is a sample', ran.returncode == 0 and ran.stdout.startswith(reply), ran.stdout)
    for word in (b'+5', b'-', b'--1', b'1-', b'1.5', b'1234567', b'0000005', b'-1000000', b'x', b'up'):
        ended(f'{word!r} is no sample', run(given=b'hear 0 2 6 ' + word), 1)
        ended(f'nor is {word!r} where it would not be read', run(given=b'hear 0 2 6' + b' 0' * 600 + b' ' + word), 1)
    ended('1,100 samples', run(given=b'hear 0 2 6' + b' 0' * 1100), 0, b'nobody\n')
    ended('and no more', run(given=b'hear 0 2 6' + b' 0' * 1101), 1)
    ended('a number is missing', run(given=b'hear 0 2'), 1)
    ended('a number that is none', run(given=b'hear 0 2 -6' + b' 0' * 512), 1)


def failures():
    """Input and output that fail."""
    many = b'help\n' * 20000
    with open('/dev/full', 'wb') as full:
        ended('a full disk', run(given=many, stdout=full), 1, None, b'standard output')
        ended('also for one line', run(given=b'help\n', stdout=full), 1, None, b'standard output')
    read, write = os.pipe()
    os.close(read)
    ended('a closed pipe whose signal is ignored', run(given=many, stdout=write, preexec_fn=lambda: signal.signal(signal.SIGPIPE, signal.SIG_IGN)), 1, None, b'standard output')
    os.close(write)
    folder = os.open(FOLDER, os.O_RDONLY)
    ended('a folder as input', run(stdin=folder), 1, b'', b'standard input')
    os.close(folder)
    read, write = os.pipe()
    fcntl.fcntl(read, fcntl.F_SETFL, os.O_NONBLOCK)
    os.write(write, b'beacon 2 6\n')
    ran = run(stdin=read)
    holds('input that does not wait: all that came is answered, and the rest is said to be missing', ran.stdout == b'beacon 6 14\n' and ran.returncode == 1 and b'standard input' in ran.stderr, ran)
    os.close(read)
    os.close(write)
    read, write = os.pipe()
    fcntl.fcntl(write, fcntl.F_SETFL, os.O_NONBLOCK)
    ran = run(given=many, stdout=write)
    holds('output that does not wait: stops and says so', ran.returncode == 1 and b'standard output' in ran.stderr, ran)
    os.close(read)
    os.close(write)


def terminal():
    for last, what in ((b'quit\n', 'quit'), (b' quit \n', 'quit between blanks'), (b'\x04', 'the end of the input')):
        typed(last, what)
    holds('no prompt where the input is no terminal', run(given=b'beacon 2 6\n').stdout == b'beacon 6 14\n')


def typed(last, what):
    pid, fd = pty.fork()
    if pid == 0:
        os.execv(BENCH, [BENCH])

    def until(text):
        got, end = b'', time.time() + 30
        while text not in got and time.time() < end:
            if select.select([fd], [], [], 1)[0]:
                try:
                    got += os.read(fd, 4096)
                except OSError as error:
                    if error.errno == errno.EIO:
                        break
                    raise
        holds(f'at a terminal {text!r} comes', text in got, got)
        return got

    holds('the greeting says how to get help', b'help' in until(b'> '))
    os.write(fd, b'beacon 2 6\n')
    until(b'beacon 6 14\r\n> ')
    os.write(fd, last)
    ended_by = os.waitpid(pid, 0)[1]
    holds(f'{what} ends it with 0', ended_by == 0, ended_by)
    os.close(fd)


def elsewhere():
    """From where it is called, and what is built anew."""
    (FOLDER / 'linked').symlink_to(BENCH)
    for environment in ({}, {'CDPATH': f'{FOLDER}:/tmp'}):
        ended('through a link, from another folder', run(command='./linked', given=b'beacon 2 6\n', cwd=FOLDER, env={**os.environ, **environment}), 0, b'beacon 6 14\n', b'')
    copy = FOLDER / 'copy'
    copy.mkdir()
    for name in ('bench', 'crates', 'crates.txt', 'kit.txt', 'python', 'tools'):
        source = ROOT / name
        if source.is_dir():
            shutil.copytree(source, copy / name, ignore=shutil.ignore_patterns('out'))
        else:
            shutil.copy(source, copy / name)
    shutil.copytree(ROOT / 'target' / 'bin', copy / 'target' / 'bin')
    future = time.time() + 3600
    for path in (copy / 'crates').rglob('*'):
        os.utime(path, (future, future))
    stand_in = FOLDER / 'rt'
    stand_in.write_text('#!/bin/sh\necho "rt $*" >&2\nexit 1\n')
    stand_in.chmod(0o755)
    path = {**os.environ, 'PATH': f'{FOLDER}:{os.environ["PATH"]}'}
    ended('nothing is built anew where only dates changed', run(command=str(copy / 'bench'), given=b'beacon 2 6\n', env=path), 0, b'beacon 6 14\n')
    changed = copy / 'crates' / 'bench' / 'src' / 'main.rt'
    changed.write_text(changed.read_text() + '// another\n')
    ended('it is where the content did', run(command=str(copy / 'bench'), given=b'beacon 2 6\n', env=path), 1, b'', b'rt run')


if __name__ == '__main__':
    for part in (statuses, arguments, files, echo, marks, air, failures, terminal, elsewhere):
        part()
    print(f'program: {tried} things tried of ./bench, all as it says')
