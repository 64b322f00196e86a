"""What the scripts share: Debian's packages, a server on a free port, a raw connection, a report."""

import os
import pathlib
import select
import shutil
import socket
import subprocess
import sys
import tempfile
import time
import traceback

PACKAGE = pathlib.Path(__file__).resolve().parent.parent
USER, PASSWORD = 'alice', 'pw'


def install(*packages):
    """Installs what is missing and answers the version of the first."""
    missing = [package for package in packages if not version(package)]
    if missing:
        calm = dict(os.environ, DEBIAN_FRONTEND='noninteractive')
        for words in (['update'], ['install', '-y', '--no-install-recommends', *missing]):
            subprocess.run(['apt-get', '-qq', *words], env=calm, check=True, stdout=sys.stderr)
    return version(packages[0])


def version(package):
    """Debian's version of an installed package, or None."""
    asked = ['dpkg-query', '-W', '-f', '${db:Status-Status} ${Version}', package]
    status, _, number = subprocess.run(asked, capture_output=True, text=True).stdout.partition(' ')
    return number if status == 'installed' else None


def server_binary():
    """IMAP_SERVER names a server that stands already; else cargo builds the package's own."""
    if 'IMAP_SERVER' in os.environ:
        return os.environ['IMAP_SERVER']
    manifest = PACKAGE / 'Cargo.toml'
    subprocess.run(['cargo', 'build', '--quiet', '--release', '--offline', '--manifest-path', manifest], check=True)
    return PACKAGE / 'target/release/imap'


class Server:
    """A server of its own, with an empty store and a transcript of every connection, for one `with`."""

    def __init__(self, report, *options):
        self.report, self.options, self.folder = report, options, report.scratch('server')

    def __enter__(self):
        with socket.create_server(('127.0.0.1', 0)) as free:
            self.port = free.getsockname()[1]
        words = [server_binary(), '--port', str(self.port), '--log', self.folder, *self.options]
        with open(self.folder / 'stderr', 'w') as said:
            self.process = subprocess.Popen(words, stdin=subprocess.DEVNULL, stdout=subprocess.DEVNULL, stderr=said)
        if until(self.answers, 10) is None:
            self.process.kill()
            raise RuntimeError(f'the server does not answer: {self.said()}')
        return self

    def __exit__(self, *_):
        stands = self.process.poll() is None
        self.process.terminate()
        self.process.wait()
        self.report.step('the server stands and complains of nothing', stands and not self.said(), self.said()[:300])

    def answers(self):
        try:
            socket.create_connection(('127.0.0.1', self.port), 1).close()
            return True
        except OSError:
            return False

    def said(self):
        return (self.folder / 'stderr').read_text('latin1')

    def transcripts(self):
        """Every connection's lines, both ways, as the server wrote them down."""
        return [path.read_text('latin1') for path in sorted(self.folder.glob('*.txt'))]


class Connection:
    """A raw connection: what somebody else does meanwhile, and what a watcher hears."""

    def __init__(self, server, user=USER):
        self.socket = socket.create_connection(('127.0.0.1', server.port), 20)
        self.socket.setsockopt(socket.IPPROTO_TCP, socket.TCP_NODELAY, 1)
        self.rest, self.tags = b'', 0
        self.line(10)
        self.command(f'LOGIN {user} {PASSWORD}')

    def line(self, seconds):
        """The next line, or None if none came in time."""
        end = time.monotonic() + seconds
        while b'\r\n' not in self.rest:
            if not select.select([self.socket], [], [], max(0, end - time.monotonic()))[0]:
                return None
            octets = self.socket.recv(65536)
            if not octets:
                raise EOFError('the server closed the connection')
            self.rest += octets
        line, self.rest = self.rest.split(b'\r\n', 1)
        return line.decode('latin1')

    def command(self, text):
        """All lines up to the tagged one, that one too."""
        self.tags += 1
        tag = f't{self.tags} '
        self.socket.sendall(f'{tag}{text}\r\n'.encode('latin1'))
        lines = []
        while not lines or not lines[-1].startswith(tag):
            line = self.line(20)
            if line is None:
                raise TimeoutError(text)
            lines.append(line)
        return lines

    def append(self, folder, subject='hello'):
        mail = f'From: ann@example.org\r\nSubject: {subject}\r\n\r\nhello\r\n'
        return self.command(f'APPEND "{folder}" {{{len(mail)}+}}\r\n{mail}')

    def status(self, folder, item='MESSAGES'):
        """One number of STATUS."""
        line = next(line for line in self.command(f'STATUS "{folder}" ({item})') if line.startswith('* STATUS'))
        return int(line.rpartition(f'{item} ')[2].split(')')[0].split(' ')[0])

    def heard(self, seconds=0.3):
        """Lines that come without a command."""
        lines = []
        while (line := self.line(seconds)) is not None:
            lines.append(line)
        return lines


def nap():
    time.sleep(0.002)


def until(test, limit, pause=nap):
    """Seconds until the test holds, or None if it does not within the limit."""
    start = time.monotonic()
    while not test():
        if time.monotonic() - start > limit:
            return None
        pause()
    return time.monotonic() - start


class Report:
    """Steps as they come, and a last line that says whether all was as expected. Leaving its `with` ends the script."""

    def __init__(self, client, number):
        self.client, self.steps, self.wrong = f'{client} {number}', 0, []
        self.folder = tempfile.mkdtemp(prefix=f'{client}-')
        print(self.client, flush=True)

    def __enter__(self):
        return self

    def __exit__(self, kind, error, trace):
        if error:
            traceback.print_exception(kind, error, trace)
            self.wrong.append(f'the script ended early by {kind.__name__}')
        if self.wrong:
            result = 'differs: ' + '; '.join(self.wrong)
            print(f'\nthe transcripts are kept in {self.folder}')
        else:
            result = 'as expected'
            # a client that is going may still take files of its own away
            shutil.rmtree(self.folder, ignore_errors=True)
        print(f'\n{self.client} | {self.steps} steps | {result}', flush=True)
        # Not sys.exit: it would wait for the threads of a client library.
        os._exit(bool(self.wrong))

    def scratch(self, name):
        """A new folder. All of them go at the end if all was as expected."""
        return pathlib.Path(tempfile.mkdtemp(prefix=f'{name}-', dir=self.folder))

    def part(self, text):
        print(f'\n{text}', flush=True)

    def step(self, name, right, seen=''):
        self.steps += 1
        if not right:
            self.wrong.append(name)
        print(f'  {"ok" if right else "DIFFERS":8}{name:52} {seen}', flush=True)

    def within(self, name, test, act=lambda: None, limit=12, pause=nap):
        """A step whose test comes to hold; shows how long after the act began."""
        start = time.monotonic()
        act()
        holds = until(test, limit, pause) is not None
        self.step(name, holds, f'{time.monotonic() - start:.3f} s' if holds else f'not within {limit} s')
