"""What the scripts that ask another implementation have in common: its answers, and the commands and lines that the programs are held to."""
import struct
import subprocess


def command(call, slot, value, data):
    """A command of the program codec_vectors: a letter, three numbers of eight bytes, and as many bytes as the last of them says."""
    return call + struct.pack(">QQQ", slot, value, len(data)) + data


class Conversation:
    """Asks the oracle for one side, `e` or `r`, and collects the commands and the lines that are expected."""

    def __init__(self, side, oracle):
        self.side = side
        self.oracle = subprocess.Popen(oracle, stdin=subprocess.PIPE, stdout=subprocess.PIPE, text=True, bufsize=1)
        self.commands, self.lines, self.seen, self.count = b"", [], {}, 0

    def ask(self, words):
        self.oracle.stdin.write(words + "\n")
        self.oracle.stdin.flush()
        return self.oracle.stdout.readline().split()

    def saw(self, number):
        self.seen[number] = self.seen.get(number, 0) + 1

    def add(self, call, slot, value, data, *lines):
        self.commands += command(call, slot, value, data)
        self.lines += lines

    def open(self, slot, track):
        words = " ".join(map(str, track))
        n = self.ask(f"open {self.side} {slot} {words}")[0]
        self.add(b"o", slot, 0, struct.pack(">8Q", *track), n)
        return int(n)

    def close(self, slot):
        self.add(b"c", slot, 0, b"", self.ask(f"close {self.side} {slot}")[0])

    def group(self, slot):
        self.add(b"g", slot, 0, b"", self.ask(f"group {self.side} {slot}")[0])

    def poke(self, word, value):
        self.add(b"w", word, value, b"", "0")

    def tell(self, what, wanted):
        """How many calls there are, and which numbers they answered; numbers that are wanted and didn't come are named."""
        missing = wanted - set(self.seen)
        print(f"{self.count} {what}, {len(self.commands)} bytes, numbers {dict(sorted(self.seen.items()))}" + (f", MISSING {missing}" if missing else ""))
