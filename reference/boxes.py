"""A real box in a folder of its own, driven over two pipes. Used by two-boxes, kill-box and time-event."""
import os
import subprocess
import sys

ROOT = os.path.dirname(os.path.dirname(os.path.abspath(__file__)))
PROGRAM = os.path.join(ROOT, 'crates', 'housebox', 'out', 'housebox')


def built():
    """Builds the program on first use; called without words it says its use."""
    subprocess.run([os.path.join(ROOT, 'bin', 'box')], stderr=subprocess.DEVNULL, check=False)
    if not os.access(PROGRAM, os.X_OK):
        sys.exit('no program: ' + PROGRAM)


def sealed(body):
    """Bytes with their sum behind them."""
    return body + (sum(body) % 65536).to_bytes(2, 'big')


def packet(number, message):
    return sealed(bytes([71]) + number.to_bytes(4, 'big') + bytes(message)).hex()


def number_of(text):
    """The number in a packet or an answer."""
    return int(text[2:10], 16)


class Box:
    """House `number`, with a dictionary of neighbours and lengths, in the order of its lines."""

    # A line that is no command is answered by this one line: it shows that all before it is done.
    QUESTION = '?'
    UNDERSTOOD_NOT = 'refused 1 not understood'

    def __init__(self, number, lines, folder):
        self.number, self.lines, self.folder = number, lines, folder
        os.makedirs(folder, exist_ok=True)
        self.start()

    def start(self):
        words = [str(self.number)] + ['%d:%d' % line for line in self.lines.items()]
        self.process = subprocess.Popen([PROGRAM] + words, cwd=self.folder, stdin=subprocess.PIPE,
                                        stdout=subprocess.PIPE, text=True, bufsize=1)

    def write(self, line):
        self.process.stdin.write(line + '\n')
        self.process.stdin.flush()

    def read(self):
        line = self.process.stdout.readline()
        if not line:
            sys.exit('box %d has ended' % self.number)
        return line.rstrip('\n')

    def event(self, line):
        """What the box prints of one line."""
        self.write(line)
        self.write(self.QUESTION)
        said = []
        while True:
            said.append(self.read())
            if said[-1] == self.UNDERSTOOD_NOT:
                return said[:-1]

    def show(self):
        """The lamps by neighbour, and whether all is done."""
        said = self.event('show')
        lamps = {int(words[1]): words[2] for words in map(str.split, said) if words[0] == 'lamp'}
        return lamps, 'done' in said

    def kill(self):
        """Ends the box at once, and gives what it had still printed."""
        self.process.kill()
        rest = self.process.stdout.read()
        self.process.wait()
        self.close()
        return [line for line in rest.split('\n')[:-1] if line]

    def close(self):
        for pipe in (self.process.stdin, self.process.stdout):
            try:
                pipe.close()
            except BrokenPipeError:
                pass

    def end(self):
        self.process.stdin.close()
        self.process.stdout.read()
        return self.process.wait()
