"""Real terminals, each behind the same three calls: open(rows, columns), send(bytes), which gives the cursor and the rows that are seen
then, and close(). Cursors count from 1."""
import importlib.metadata
import os
import pathlib
import re
import select
import subprocess
import sys
import tempfile


def packaged(package):
    """The version of an installed Debian package."""
    return subprocess.run(['dpkg-query', '-W', '-f', '${Version}', package], check=True, capture_output=True, text=True).stdout.split('-')[0]


class Tmux:
    """A pane of tmux, written to by its tty as a program in it would. One control client asks what the panes show."""

    def __init__(self):
        self.name = subprocess.run(['tmux', '-V'], check=True, capture_output=True, text=True).stdout.strip()
        self.folder = tempfile.TemporaryDirectory()
        self.server = ['tmux', '-S', os.path.join(self.folder.name, 'socket'), '-f', os.devnull]
        self.control = subprocess.Popen([*self.server, '-C', 'new-session', 'sleep 86400'], stdin=subprocess.PIPE,
                                        stdout=subprocess.PIPE, stderr=subprocess.STDOUT)
        self.block()
        # With the control client the server ends too, however this program ends.
        for option in ('status off', 'history-limit 0', 'exit-unattached on'):
            self.ask(f'set-option -g {option}')

    def ask(self, command):
        self.control.stdin.write(command.encode() + b'\n')
        self.control.stdin.flush()
        return self.block()

    def block(self):
        """The lines of the next answer, which stands between %begin and %end; notices may come before it."""
        lines = iter(self.control.stdout.readline, b'')
        begin = next((line for line in lines if line.startswith(b'%begin ')), b'')
        answer = []
        for line in lines:
            if line in (begin.replace(b'begin', b'end', 1), begin.replace(b'begin', b'error', 1)):
                if line.startswith(b'%error'):
                    raise OSError(f'tmux: {answer}')
                return answer
            answer.append(line.decode().rstrip('\n'))
        raise OSError(f'tmux ended: {answer}')

    def open(self, rows, columns):
        self.rows, self.columns = rows, columns
        # The program in the pane lets bytes through as they are, says so, and then neither reads nor writes.
        self.ask(f"new-session -d -s screen -x {columns} -y {rows} 'stty raw -echo; tmux wait-for -S ready; exec sleep 86400'")
        self.ask('wait-for ready')  # It holds back the answer to the next command.
        place, size = self.ask("display-message -p -t screen '#{pane_tty} #{pane_height}x#{pane_width}'")[0].split()
        if size != f'{rows}x{columns}':
            raise OSError(f'tmux made a pane of {size}')
        self.tty = os.open(place, os.O_RDWR | os.O_NOCTTY)

    def send(self, frame):
        # The terminal answers the request for a cursor report when it has read everything before it.
        waiting = memoryview(frame + b'\x1b[6n')
        while waiting:
            waiting = waiting[os.write(self.tty, waiting):]
        report = b''
        while not report.endswith(b'R'):
            if not select.select([self.tty], [], [], 10)[0]:
                raise OSError(f'tmux gave no cursor report: {report}')
            report += os.read(self.tty, 64)
        cursor = re.fullmatch(rb'\x1b\[(\d+);(\d+)R', report).groups()
        # Cells at the end of a row that were never written are left out.
        rows = [row.ljust(self.columns) for row in self.ask('capture-pane -p -N -t screen')]
        return tuple(map(int, cursor)), rows

    def close(self):
        os.close(self.tty)
        self.ask('kill-session -t screen')

    def end(self):
        subprocess.run([*self.server, 'kill-server'], check=False, stderr=subprocess.DEVNULL)
        self.control.communicate()
        self.folder.cleanup()


class Pyte:
    """The screen of python's pyte."""

    def __init__(self):
        try:
            import pyte
        except ImportError:
            # Debian's package lies beside Debian's own python3, which need not be the one that runs this.
            files = subprocess.run(['dpkg', '-L', 'python3-pyte'], check=True, capture_output=True, text=True).stdout.split('\n')
            sys.path.append(str(next(pathlib.Path(file).parent.parent for file in files if file.endswith('/pyte/__init__.py'))))
            import pyte
        self.pyte = pyte
        self.name = f'pyte {importlib.metadata.version("pyte")}'

    def open(self, rows, columns):
        self.screen = self.pyte.Screen(columns, rows)
        self.stream = self.pyte.ByteStream(self.screen)

    def send(self, frame):
        self.stream.feed(frame)
        screen = self.screen
        lines = [screen.buffer[row] for row in range(screen.lines)]
        return (screen.cursor.y + 1, screen.cursor.x + 1), [''.join(line[x].data for x in range(screen.columns)) for line in lines]

    def close(self):
        pass

    def end(self):
        pass


class Vterm:
    """libvterm, in the program that vterm.c is."""

    def __init__(self, program):
        self.program = program
        self.name = f'libvterm {packaged("libvterm-dev")}'

    def open(self, rows, columns):
        self.rows = rows
        self.child = subprocess.Popen([self.program, str(rows), str(columns)], stdin=subprocess.PIPE, stdout=subprocess.PIPE)

    def send(self, frame):
        self.child.stdin.write(b'%d\n%b' % (len(frame), frame))
        self.child.stdin.flush()
        row, column = self.child.stdout.readline().split()
        return (int(row), int(column)), [self.child.stdout.readline().decode()[:-1] for _ in range(self.rows)]

    def close(self):
        self.child.communicate()

    def end(self):
        pass
