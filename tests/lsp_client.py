#!/usr/bin/env -S python3 -B
"""An editor's side of a conversation with retangle-lsp over pipes.

usage: lsp_client.py WEB [CHANGES]

As a program it changes a line of the web CHANGES times, 2,000 if that is not said, and prints what
this takes: the time from sending a change to receiving the diagnostics, of completion and hover
after a change, of opening the web, and the most memory that the server and retangle have had.
RETANGLE in the environment names the program.
"""
import json
import os
import re
import select
import statistics
import subprocess
import sys
import time

from checks import folder_with, read, same

TOP = os.path.dirname(os.path.dirname(os.path.abspath(__file__)))

PATIENCE = 60           # seconds for an answer
SERVER = [sys.executable, '-B', os.path.join(TOP, 'lsp', 'retangle-lsp')]


def framed(body):
    return b'Content-Length: %d\r\n\r\n%s' % (len(body), body)


def message(**parts):
    return framed(json.dumps(dict(parts, jsonrpc='2.0')).encode())


class Client:
    """An editor's side of a conversation with the server."""

    def __init__(self, files, program=None, capabilities=None, **parts):
        self.folder = folder_with(files)
        arguments = [] if program is None else ['--retangle', program]
        self.process = subprocess.Popen([*parts.get('runner', []), *SERVER, *arguments], cwd='/',
                                        stdin=subprocess.PIPE, stdout=subprocess.PIPE,
                                        stderr=parts.get('errors'), env=parts.get('environment'))
        os.set_blocking(self.process.stdin.fileno(), False)
        self.read, self.number, self.version, self.last = b'', 0, 0, None
        self.diagnostics, self.shown, self.logged, self.asked, self.errors = {}, [], [], [], []
        if parts.get('initialize', True):
            params = {'rootUri': self.uri(''), 'capabilities': capabilities or {},
                      'initializationOptions': parts.get('options')}
            self.capabilities = self.ask('initialize', params)['result']['capabilities']
            self.notify('initialized', {})

    def path(self, name):
        return os.path.join(self.folder.name, name)

    def uri(self, name):
        return 'file://' + self.path(name)

    def name(self, uri):
        return os.path.relpath(uri[len('file://'):], self.folder.name)

    # ------------------------------------------------------------------ messages

    def send(self, text):
        """Sends bytes, and reads what comes meanwhile: the server may write before it reads."""
        rest, sources = memoryview(text), [self.process.stdout]
        while rest:
            readable, writable, _ = select.select(sources, [self.process.stdin], [], PATIENCE)
            if not readable and not writable:
                raise TimeoutError('nothing is taken')
            if writable:
                rest = rest[os.write(self.process.stdin.fileno(), rest):]
            elif not self.fill():
                sources = []

    def fill(self):
        """Whether the server has written more, which is waited for."""
        if not select.select([self.process.stdout], [], [], PATIENCE)[0]:
            raise TimeoutError('no answer')
        some = os.read(self.process.stdout.fileno(), 1 << 16)
        self.read += some
        return bool(some)

    def notify(self, method, params):
        self.send(message(method=method, params=params))

    def ask(self, method, params=None):
        """The whole answer to a request; what comes before it is kept."""
        self.number += 1
        self.send(message(id=self.number, method=method, params=params))
        return self.answer(self.number)

    def result(self, method, params):
        return self.ask(method, params).get('result')

    def answer(self, number):
        while True:
            received = self.receive()
            if received is None or 'method' not in received and received.get('id') == number:
                return received

    def receive(self):
        """The next message, or None at the end. It is kept by what it is."""
        while True:
            head = re.match(rb'Content-Length: (\d+)\r\n\r\n', self.read)
            if head and len(self.read) >= head.end() + int(head[1]):
                body = self.read[head.end():head.end() + int(head[1])]
                self.read = self.read[head.end() + int(head[1]):]
                break
            if not self.fill():
                return None
        received = json.loads(body, parse_constant=refuse)
        self.keep(received, received.get('params'))
        return received

    def keep(self, received, params):
        method = received.get('method')
        if method == 'textDocument/publishDiagnostics':
            self.diagnostics[self.name(params['uri'])] = params['diagnostics']
        elif method == 'window/showMessage':
            self.shown.append(params['message'])
        elif method == 'window/logMessage':
            self.logged.append(params['message'])
        elif method:
            self.asked.append(received)
        elif 'error' in received:
            self.errors.append(received['error'])

    def settle(self):
        """Reads up to the answer to a request that is sent now."""
        same(self.ask('no/such')['error']['code'], -32601, 'an unknown request')

    # ------------------------------------------------------------------ documents

    def open(self, name, text, uri=None):
        self.version, self.last = self.version + 1, name if uri is None else None
        item = {'uri': uri or self.uri(name), 'languageId': 'cweb', 'version': self.version}
        self.notify('textDocument/didOpen', {'textDocument': dict(item, text=text)})

    def change(self, name, *changes):
        self.version, self.last = self.version + 1, name
        item = {'uri': self.uri(name), 'version': self.version}
        made = [{'text': text} if place is None else {'range': range_of(*place), 'text': text}
                for place, text in changes]
        self.notify('textDocument/didChange', {'textDocument': item, 'contentChanges': made})

    def about(self, method, name):
        if method == 'didClose':
            self.last = None
        self.notify('textDocument/' + method, {'textDocument': {'uri': self.uri(name)}})

    def faults(self):
        """The lines of ctangle that the diagnostics are for, in an order of their own. They are
        whole after a save: while a name is typed, what follows from it is not shown."""
        if self.last:
            self.about('didSave', self.last)
        self.settle()
        return sorted(line for these in self.diagnostics.values() for one in these
                      for line in one['data']['faults'])

    def has(self, expected, name):
        same(self.faults(), sorted(expected), name)

    def places(self, method, name, line, character, **parts):
        """What a question on a place is answered by, as FILE:LINE:FROM-TO."""
        found = self.result('textDocument/' + method, dict(
            parts, textDocument={'uri': self.uri(name)},
            position={'line': line - 1, 'character': character}))
        return ['%s:%d:%d-%d' % (self.name(one['uri']), one['range']['start']['line'] + 1,
                                 one['range']['start']['character'],
                                 one['range']['end']['character']) for one in found]

    def c_of(self, name, line):
        """The answer to the command that shows the C of a line."""
        return self.ask('workspace/executeCommand', {
            'command': 'retangle.showC', 'arguments': [self.uri(name), line - 1]})

    def end(self, status=0):
        self.ask('shutdown')
        self.send(message(method='exit'))
        same(self.process.wait(PATIENCE), status, 'the status of the server')
        self.process.stdin.close()
        self.process.stdout.close()
        self.folder.cleanup()


def refuse(constant):
    raise ValueError('the server sent %s, which is no JSON' % constant)


def range_of(start, end):
    start, end = ({'line': line, 'character': count} for line, count in (start, end))
    return {'start': start, 'end': end}


def at(line, character):
    return {'line': line - 1, 'character': character}


def item(client, name, **parts):
    return dict(parts, textDocument={'uri': client.uri(name)})


def applied(client, edits, texts):
    """The texts after the edits of a client's answer."""
    made = dict(texts)
    changes = edits.get('changes')
    if changes is None:
        changes = {one['textDocument']['uri']: one['edits'] for one in edits['documentChanges']}
    for uri, these in changes.items():
        lines = made[client.name(uri)].split('\n')
        for edit in sorted(these, key=lambda one: (one['range']['start']['line'],
                                                   one['range']['start']['character']))[::-1]:
            start, end = edit['range']['start'], edit['range']['end']
            front = cut(lines[start['line']], start['character'], True)
            back = cut(lines[end['line']], end['character'], False)
            lines[start['line']:end['line'] + 1] = (front + edit['newText'] + back).split('\n')
        made[client.name(uri)] = '\n'.join(lines)
    return made


def cut(line, units, is_front):
    raw = line.encode('utf-16-le', 'surrogatepass')
    return (raw[:2 * units] if is_front else raw[2 * units:]).decode('utf-16-le', 'surrogatepass')


# ---------------------------------------------------------------------- what it takes

def seconds_of(action):
    start = time.perf_counter()
    action()
    return time.perf_counter() - start


def diagnosed(client):
    """Waits for the diagnostics of the web."""
    while 'a.w' not in client.diagnostics:
        client.receive()


def times(web, changes):
    """The seconds of each kind of action on a web, and the memory of both programs at the end in
    megabytes."""
    text = read(web).decode('utf-8', 'surrogateescape')
    found = {'opening': [], 'change': [], 'completion': [], 'hover': []}
    client, count = Client({'a.w': read(web)}), text.count('\n')

    def change(start, end, new):
        client.diagnostics.clear()
        client.change('a.w', ((start, end), new))
        diagnosed(client)

    def ask(method, line, character):
        return client.result('textDocument/' + method, {
            'textDocument': {'uri': client.uri('a.w')},
            'position': {'line': line, 'character': character}})

    found['opening'].append(seconds_of(lambda: (client.open('a.w', text), diagnosed(client))))
    names = [at for at, line in enumerate(text.split('\n')) if re.match('@<[^@]*@>', line)]
    for number in range(0, changes, 2):             # something is typed, and removed again
        line, new = number * 347 % count, ['x', '@<a@>', '"', '\n', '@<'][number // 2 % 5]
        start, end = (line, 0), (line + 1, 0) if new == '\n' else (line, len(new))
        found['change'].append(seconds_of(lambda: change(start, start, new)))
        if new == '@<':
            found['completion'].append(seconds_of(lambda: ask('completion', line, 2)))
        found['change'].append(seconds_of(lambda: change(start, end, '')))
        if new == '@<' and names:
            at = names[number % len(names)]
            found['hover'].append(seconds_of(lambda: ask('hover', at, 3)))
    memory = [memory_of(pid) for pid in [client.process.pid, *children_of(client.process.pid)]]
    client.end()
    return found, memory


def processor_seconds(pid):
    """What a process has used of a processor, which does not depend on what others use."""
    with open('/proc/%d/stat' % pid) as file:
        user, system = file.read().rpartition(')')[2].split()[11:13]
    return (int(user) + int(system)) / os.sysconf('SC_CLK_TCK')


def used_by_both(client):
    """The seconds that the server and its retangle have used of a processor."""
    return sum(map(processor_seconds, [client.process.pid, *children_of(client.process.pid)]))


def memory_of(pid):
    with open('/proc/%d/status' % pid) as file:
        return int(re.search(r'VmHWM:\s*(\d+)', file.read())[1]) / 1024


def children_of(pid):
    with open('/proc/%d/task/%d/children' % (pid, pid)) as file:
        return list(map(int, file.read().split()))


def main(web, changes=2000):
    seconds, memory = times(web, int(changes))
    print('load %.1f on %d processors' % (os.getloadavg()[0], os.cpu_count()))
    for kind, these in seconds.items():
        these = sorted(1000 * one for one in these) or [0]
        most = these[(99 * len(these) - 1) // 100]
        print('%-10s median %4.0f ms, 99 of 100 within %4.0f, longest %4.0f (%d)' % (
            kind, statistics.median(these), most, these[-1], len(these)))
    print('most memory: server %.1f MB, retangle %s MB' % (
        memory[0], ', '.join('%.1f' % one for one in memory[1:])))


if __name__ == '__main__':
    main(*sys.argv[1:])
