"""The parts of compare/terminal: what the library's calls say that a screen row has, what a pane of tmux has, and their comparison."""
import ctypes
import os
import random
import re
import subprocess
import sys
import tempfile
import termios
import time
import tty
from collections import Counter

NO_MATCH = ctypes.c_size_t(-1).value
BODY = 25
ATTRIBUTES = ('bold', 'dim', 'italic', 'underline', 'double underline', 'blink', 'reverse', 'hidden', 'strike', 'overline', 'foreground', 'background')
PLAIN = (False,) * 10 + (None, None)

# tmux 3.3a joins U+200D with the next scalar above 7F, in whatever row that comes: one stands between lines
JOINER, ABOVE_7F = '\u200d', 'é'


# ---- the library

class Answer(ctypes.Structure):
    _fields_ = [('number', ctypes.c_size_t), ('count', ctypes.c_size_t)]


class Span(ctypes.Structure):
    _fields_ = [(name, ctypes.c_size_t) for name in ('kind', 'place', 'len', 'matched')]


class Library:
    """The calls that `show` is made of, on buffers that are enough for every accepted line."""

    def __init__(self, path):
        self.calls = ctypes.CDLL(path)
        self.conv = (ctypes.c_uint8 * 32768)()
        self.spans = (Span * 4096)()
        self.rows = (ctypes.c_size_t * 16386)()
        self.list = (ctypes.c_uint8 * 524288)()
        self.cells = (ctypes.c_uint8 * 524288)()

    def call(self, name, *words):
        function = getattr(self.calls, 'console_' + name)
        function.restype = Answer
        return function(*[word if not isinstance(word, int) else ctypes.c_size_t(word) for word in words])

    def lent(self, *buffers):
        return [word for buffer in buffers for word in (buffer, len(buffer))]

    def line_rows(self, line, width, mode):
        """the rows of a line: each its cells, cluster and body; none where a call is refused"""
        if mode == 0:
            answer = self.call('draw_window', 0, line, len(line), None, 0, NO_MATCH, 0, width, *self.lent(self.conv, self.spans, self.list))
            return None if answer.number else [self.screen(answer.count, width)]
        answer = self.call('rows', line, len(line), width, mode, *self.lent(self.conv, self.spans, self.rows))
        if answer.number:
            return None
        columns = [self.rows[2 * i + 1] - self.rows[2 * i] for i in range(answer.count)]
        height = self.call('height', line, len(line), width, mode, *self.lent(self.conv, self.spans))
        if (height.number, height.count) != (0, len(columns)):
            sys.exit(f'height and rows differ: {line.hex()}')
        return self.drawn(line, width, mode, columns)

    def drawn(self, line, width, mode, columns):
        rows = []
        for i, n in enumerate(columns):
            answer = self.call('draw_row', 0, line, len(line), None, 0, NO_MATCH, i, 1, width, mode, *self.lent(self.conv, self.spans, self.list))
            if answer.number:
                return None
            rows.append(self.screen(answer.count, max(width, n)))
        return None if None in rows else rows

    def screen(self, count, columns):
        answer = self.call('screen_row', self.list, count, columns, *self.lent(self.cells))
        return None if answer.number else cells_of(bytes(self.cells[:answer.count]))


def cells_of(row):
    cells, at = [], 0
    while at < len(row):
        n = int.from_bytes(row[at:at + 4], 'little')
        cells.append((row[at + 4:at + 4 + n].decode(), row[at + 4 + n:at + 4 + n + BODY]))
        at += 4 + n + BODY
    return cells


def color_of(body, at):
    kind = body[at]
    return None if kind == 0 else body[at + 1] if kind == 1 else tuple(body[at + 1:at + 4])


def attributes_of(body):
    """what tmux tells of an attribute body; not how fast it blinks, its alignment, link and underline colour"""
    flag = [bool(body[3] >> i & 1) for i in range(5)]
    return (body[0] == 1, body[0] == 2, flag[0], body[1] == 1, body[1] == 2, body[2] > 0, flag[1], flag[2], flag[3], flag[4], color_of(body, 4), color_of(body, 8))


def expected(cells):
    """a row as scalars with attributes"""
    return [(scalar, attributes_of(body)) for cluster, body in cells for scalar in cluster]


def text_of(cells):
    return ''.join(cluster for cluster, body in cells)


# ---- tmux

class Pane:
    """A detached pane of tmux, with a server of its own."""
    servers = 0

    def __init__(self, folder, width, words):
        Pane.servers += 1
        self.tmux = ['tmux', '-S', os.path.join(folder, f'server{Pane.servers}'), '-u', '-f', os.path.join(folder, 'tmux.conf')]
        with open(self.tmux[-1], 'w') as conf:
            conf.write('set -g history-limit 1000000\nset -g status off\nset -g remain-on-exit on\nset -g default-terminal screen-256color\n')
        self.done = os.path.join(folder, 'done')
        if os.path.exists(self.done):
            os.remove(self.done)
        self.run('new-session', '-d', '-x', str(width), '-y', '50', *words, self.done)

    def wait(self):
        """until the pane's program has drawn everything"""
        while not os.path.exists(self.done):
            if self.run('list-panes', '-F', '#{pane_dead}').strip() == b'1' and not os.path.exists(self.done):
                sys.exit('the program in the pane ended: ' + self.run('capture-pane', '-p').decode())
            time.sleep(0.05)

    def run(self, *words):
        return subprocess.run(self.tmux + list(words), check=True, stdout=subprocess.PIPE).stdout

    def __enter__(self):
        try:
            self.wait()
        except BaseException:
            self.run('kill-server')
            raise
        return self

    def __exit__(self, *error):
        self.run('kill-server')

    def screen(self):
        """all rows of the pane, each its scalars with attributes; tmux carries attributes on from row to row"""
        state, rows = PLAIN, []
        for line in self.run('capture-pane', '-e', '-p', '-N', '-S', '-', '-E', '-').decode().split('\n'):
            state, row = read_row(state, line)
            rows.append(row)
        return rows


SEQUENCE = re.compile(r'\x1b\[([\d;:]*)m|\x1b\][^\x1b]*\x1b\\|\x1b.|(.)', re.S)


def read_row(state, line):
    row = []
    for match in SEQUENCE.finditer(line):
        if match.group(2):
            row.append((match.group(2), state))
        elif match.group(1) is not None:
            state = with_order(state, match.group(1))
        elif not match.group(0).startswith('\x1b]'):
            sys.exit(f'tmux printed {match.group(0)!r}')
    return state, row


# tmux 3.3a prints overline, 53, as 5:3
SETS = {'1': 0, '2': 1, '3': 2, '4': 3, '4:2': 4, '21': 4, '5': 5, '6': 5, '7': 6, '8': 7, '9': 8, '53': 9, '5:3': 9}
CLEARS = {'22': (0, 1), '23': (2,), '24': (3, 4), '25': (5,), '27': (6,), '28': (7,), '29': (8,), '55': (9,)}


def with_order(state, text):
    state, words = list(state), text.split(';')
    while words:
        word = words.pop(0)
        if word in ('', '0'):
            state = list(PLAIN)
        elif word in SETS:
            state[SETS[word]] = True
        elif word in CLEARS:
            for i in CLEARS[word]:
                state[i] = False
        elif word in ('38', '48', '58'):
            color = colour_in(words)
            if word != '58':
                state[10 if word == '38' else 11] = color
        elif word in ('39', '49', '59'):
            if word != '59':
                state[10 if word == '39' else 11] = None
        elif word.startswith('58:'):
            pass
        elif 30 <= int(word) <= 47 or 90 <= int(word) <= 107:
            base = int(word) // 10 * 10
            state[10 if base in (30, 90) else 11] = int(word) - base + (8 if base >= 90 else 0)
        else:
            sys.exit(f'tmux printed the order {text!r}')
    return tuple(state)


def colour_in(words):
    if words.pop(0) == '5':
        return int(words.pop(0))
    return tuple(int(words.pop(0)) for _ in range(3))


# ---- what runs inside a pane

def cursor_column(out, tty_in):
    """asks the terminal where its cursor is; it answers once it has drawn all before"""
    out.write(b'\x1b[6n')
    out.flush()
    answer = b''
    while not answer.endswith(b'R'):
        answer += os.read(tty_in, 1)
    return int(answer.split(b';')[-1][:-1]) - 1


def in_pane(words, done):
    """runs a program, or with `measure FILE` draws each text of a file in a row of its own and notes the terminal's columns"""
    out, tty_in = sys.stdout.buffer, sys.stdin.fileno()
    before = termios.tcgetattr(tty_in)
    columns = []
    if words[0] != 'measure':
        subprocess.run(words, check=True)
    tty.setraw(tty_in)
    if words[0] == 'measure':
        for text in read_texts(words[1]):
            out.write(text.encode())
            columns.append(cursor_column(out, tty_in))
            out.write(f'\r\n{ABOVE_7F}\r\x1b[K'.encode())
    cursor_column(out, tty_in)
    termios.tcsetattr(tty_in, termios.TCSADRAIN, before)
    with open(done + '.part', 'w') as file:
        file.write(' '.join(map(str, columns)))
    os.rename(done + '.part', done)
    time.sleep(1000)


def read_texts(name):
    with open(name, newline='') as file:
        return file.read().split('\n')[:-1]


class Measured:
    """How the terminal itself draws texts that are printed straight to it: the columns that it counts, and the scalars that it keeps."""

    def __init__(self, folder):
        self.folder = folder
        self.known = {}
        self.others = set()

    def learn(self, texts):
        texts = sorted({text for text in texts if not text.isascii() and text not in self.known})
        if not texts:
            return
        name = os.path.join(self.folder, 'texts')
        with open(name, 'w', newline='') as file:
            file.write(''.join(text + '\n' for text in texts))
        with Pane(self.folder, 400, [sys.executable, __file__, 'in-pane', 'measure', name]) as pane:
            rows = pane.screen()
        with open(os.path.join(self.folder, 'done')) as file:
            columns = [int(word) for word in file.read().split()]
        for text, column, row in zip(texts, columns, rows):
            self.known[text] = (column, ''.join(scalar for scalar, attributes in row).rstrip(' '))

    def columns(self, text):
        return len(text) if text.isascii() else self.known[text][0]

    def kept(self, text):
        return text.isascii() or self.known[text][1] == text.rstrip(' ')


# ---- the comparison

def clusters_of(cells):
    """each cluster with its columns"""
    found = []
    for cluster, body in cells:
        if cluster:
            found.append([cluster, 0])
        found[-1][1] += 1
    return found


def left_out(rows, i, width, measured):
    """why row i of a line cannot be compared, or none"""
    cells = rows[i]
    if len(cells) > width:
        return 'wider than the screen'
    if any(JOINER in text_of(before) for before in rows[:i + 1]):
        return 'with U+200D, or in its line behind it'
    others = {cluster for cluster, n in clusters_of(cells) if measured.columns(cluster) != n}
    if others:
        measured.others |= others
        return 'a cluster has another width on this terminal'
    if not measured.kept(text_of(cells)) or measured.columns(text_of(cells)) != len(cells):
        return 'clusters that this terminal joins or keeps otherwise'
    return None


def row_difference(cells, row):
    """what differs first between a row's cells and the pane's, or none"""
    wanted = expected(cells)
    got = row + [(' ', PLAIN)] * (len(wanted) - len(row))
    while len(got) > len(wanted) and got[-1] == (' ', PLAIN):
        got.pop()
    for i, (a, b) in enumerate(zip(wanted, got)):
        if a[0] != b[0]:
            return f'scalar {i}: {a[0]!r} wanted, {b[0]!r} shown'
        for name, x, y in zip(ATTRIBUTES, a[1], b[1]):
            if x != y:
                return f'scalar {i}, {a[0]!r}: {name} {x} wanted, {y} shown'
    return None if len(got) == len(wanted) else f'{len(wanted)} scalars wanted, {len(got)} shown'


class Report:
    def __init__(self):
        self.rows = 0
        self.cells = 0
        self.styled = Counter()
        self.reasons = Counter()
        self.differences = []

    def line(self, line, rows, shown, reasons):
        if rows is None:
            self.reasons['of a line that is refused'] += 1
            return
        if len(rows) != len(shown):
            if not any(reasons):
                self.differences.append(f'{line.hex()}: {len(rows)} rows wanted, {len(shown)} shown')
                return
            reasons = [reason or 'in a line with such a row, whose rows the terminal wrapped' for reason in reasons]
        for cells, row, reason in zip(rows, shown + [[]] * len(rows), reasons):
            self.row(line, cells, row, reason)

    def row(self, line, cells, row, reason):
        if reason:
            self.reasons[reason] += 1
            return
        self.rows += 1
        self.cells += len(cells)
        for cluster, body in cells:
            self.styled.update(name for name, value in zip(ATTRIBUTES, attributes_of(body)) if value not in (False, None))
        difference = row_difference(cells, row)
        if difference:
            self.differences.append(f'{line.hex()}: {difference}')

    def say(self, title):
        print(f'{title}: {self.rows:,} rows compared, {self.cells:,} cells, {len(self.differences):,} differences; left out {sum(self.reasons.values()):,} rows')

    def add(self, other):
        self.rows += other.rows
        self.cells += other.cells
        self.styled += other.styled
        self.reasons += other.reasons
        self.differences += other.differences


# ---- lines

def sample_lines(recorded, log):
    """the lines of the recorded cases of document 01's calls and of a log, each up to a newline, without repeats"""
    lines = []
    with open(recorded) as file:
        for words in map(str.split, file):
            if words and words[0] in ('convert', 'read', 'rows', 'height', 'draw_window', 'draw_row') and words[1] != '-':
                lines += bytes.fromhex(words[1]).split(b'\n')
    with open(log, 'rb') as file:
        lines += file.read().split(b'\n')
    return [line + b'\n' for line in dict.fromkeys(lines)]


def mark(i):
    """a row that tells where the rows of line i begin"""
    return f'=={i}==' + ABOVE_7F


def write_lines(folder, lines):
    name = os.path.join(folder, 'lines')
    with open(name, 'wb') as file:
        for i, line in enumerate(lines):
            file.write(mark(i).encode() + b'\n' + line)
        file.write(mark(len(lines)).encode() + b'\n')
    return name


def shown_lines(screen, n):
    """the pane's rows of each line, by the marks"""
    places = {''.join(scalar for scalar, attributes in row if scalar != JOINER).rstrip(' '): i for i, row in enumerate(screen)}
    at = [places[mark(i)] for i in range(n + 1)]
    return [screen[at[i] + 1:at[i + 1]] for i in range(n)]


class Trial:
    """One width and mode: the rows of each line by the library, and as the pane shows them."""

    def __init__(self, library, measured, folder, lines, program, width, mode):
        self.lines = lines
        self.rows = [library.line_rows(line, width, mode) for line in lines]
        texts = [cells for rows in self.rows if rows for cells in rows]
        measured.learn([text_of(cells) for cells in texts] + [cluster for cells in texts for cluster, body in cells])
        self.reasons = [[left_out(rows, i, width, measured) for i in range(len(rows or []))] for rows in self.rows]
        show = [program, str(width), str(mode), '0', write_lines(folder, lines)]
        with Pane(folder, width, [sys.executable, __file__, 'in-pane', *show]) as pane:
            self.shown = shown_lines(pane.screen(), len(lines))

    def report(self, rows=None):
        report = Report()
        for line, own, shown, reasons in zip(self.lines, rows or self.rows, self.shown, self.reasons):
            report.line(line, own, shown, reasons)
        return report


# ---- planted faults

def with_bit(place, value):
    def fault(cluster, body):
        return cluster, body[:place] + bytes([body[place] ^ value]) + body[place + 1:]
    return fault


FAULTS = {
    'another cluster': lambda cluster, body: ('!' if cluster != '!' else '?', body),
    'bold': with_bit(0, 1),
    'dim': with_bit(0, 2),
    'underline': with_bit(1, 1),
    'double underline': with_bit(1, 2),
    'blink': with_bit(2, 1),
    'italic': with_bit(3, 1),
    'reverse': with_bit(3, 2),
    'hidden': with_bit(3, 4),
    'strike': with_bit(3, 8),
    'overline': with_bit(3, 16),
    'foreground': lambda cluster, body: (cluster, body[:4] + bytes([1, body[5] ^ 7, 0, 0]) + body[8:]),
    'background': lambda cluster, body: (cluster, body[:8] + bytes([2, 1, 2, 3]) + body[12:]),
}


def plain_places(trial):
    """in rows that can be compared: cells of one scalar that have no intensity, underline, blink or flag"""
    for i, rows in enumerate(trial.rows):
        for j, cells in enumerate(rows or []):
            if len(rows) == len(trial.shown[i]) and not trial.reasons[i][j]:
                yield from ((i, j, k) for k, (cluster, body) in enumerate(cells) if len(cluster) == 1 and cluster != ' ' and body[:4] == bytes(4))


def faults_found(trial):
    """plants one fault after the other in the wanted cells, and says whether it is found there alone"""
    places, chosen, missed = list(plain_places(trial)), random.Random(1), 0
    for name, fault in FAULTS.items():
        i, j, k = chosen.choice(places)
        rows = [list(map(list, rows)) if rows else rows for rows in trial.rows]
        rows[i][j][k] = fault(*rows[i][j][k])
        report = trial.report(rows)
        found = len(report.differences) == 1 and report.differences[0].startswith(trial.lines[i].hex())
        missed += not found
        print(f'planted {name}: {"found: " + report.differences[0][-70:] if found else "NOT FOUND"}')
    return missed


def print_total(total, lines, measured):
    print(f'{len(lines):,} lines; {total.rows:,} rows and {total.cells:,} cells compared, {len(total.differences):,} differences')
    for reason, n in total.reasons.most_common():
        print(f'left out, {reason}: {n:,} rows')
    print(f'clusters of another width on this terminal: {len(measured.others):,}, such as ' + ', '.join(' '.join(f'U+{ord(scalar):04X}' for scalar in cluster) for cluster in sorted(measured.others)[:8]))
    print('cells compared with an attribute: ' + ', '.join(f'{name} {total.styled[name]:,}' for name in ATTRIBUTES))
    for difference in total.differences[:20]:
        print(difference)


def main(words):
    if words[0] == 'in-pane':
        return in_pane(words[1:-1], words[-1])
    library, program, recorded, log, widths, modes, faults = words
    lines, total = sample_lines(recorded, log), Report()
    with tempfile.TemporaryDirectory() as folder:
        calls, measured = Library(library), Measured(folder)
        for width in map(int, widths.split(',')):
            if width < len(mark(len(lines))):
                sys.exit(f'width {width} is too narrow for the marks between lines')
            for mode in map(int, modes.split(',')):
                trial = Trial(calls, measured, folder, lines, program, width, mode)
                report = trial.report()
                report.say(f'width {width}, mode {mode}')
                total.add(report)
        missed = faults_found(trial) if faults == 'faults' else 0
    print_total(total, lines, measured)
    return 1 if total.differences or missed else 0


if __name__ == '__main__':
    sys.exit(main(sys.argv[1:]))
