"""Recorder's files of the programs here, and changes of them at random: what `fuzz` and `find` try."""

import os
import re
import shutil
import subprocess
from pathlib import Path

HERE = Path(__file__).resolve().parent
RECORDER = HERE.parent
# Programs, with their words, that end by themselves; and how long they may take.
PROGRAMS = ["reversal", "kinds", "helper", "handover", "again", "odd", "moved", "named", "orphans", "writers", "crew", "errands"]
# With their words; these with what --blocks loads.
BY_BLOCKS = [["blocks", "crossed"], ["blocks", "places"], ["blocks", "row"]]
PROGRAM_SECONDS = 2
NUMBERS = [b"0", b"1", b"2", b"255", b"256", b"257", b"1023", b"1024", b"65535", b"65536", b"65537", b"4294967295",
           b"4294967296", b"18446744073709551615", b"18446744073709551616", b"99999999999999999999999", b"-1", b"",
           b"0000000001", b"ffffffffffffffff", b"10000000000000000", b"7fffffff", b"x"]
PIECES = [b"\0", b"\0\0\0\0", b"\n", b" ", b"  ", b"\t", b'"', b"%s%n", b"\\", b"\x7f", b"\xff\xfe", b"\r", b"@:1", b"<", b">",
          b"(", b")", b"operator", b"operator<", b"::h0123456789abcdef", b"-", b"/", b"../", b"~", b"a" * 300, b"1 " * 600,
          b"<" * 700, b"_ZNSt" + b"3" * 40, b"_R" + b"x" * 80]


def words_of_format():
    """The words that recorder/format.h says."""
    return [word.encode() for word in re.findall(r'"([a-z]+)"', (RECORDER / "format.h").read_text())]


def environment_for(by_blocks):
    folder = subprocess.run([RECORDER / "build"], check=True, capture_output=True, text=True).stdout.strip()
    recorder = f"{folder}/recorder.so"
    if by_blocks:
        return dict(LD_PRELOAD=f"{folder}/blocks.so:{recorder}", RECORDER_BLOCKS="1")
    return dict(LD_PRELOAD=recorder)


def streams(work):
    """Recorder's files of the programs, condensed and full, each with a few of the zeroes that follow."""
    found = []
    for name, *words in [[name] for name in PROGRAMS] + BY_BLOCKS:
        source = shutil.copy(HERE / f"{name}.c", work)
        subprocess.run(["cc", "-g", "-pthread", f"-I{RECORDER}", "-o", work / name, source], check=True, cwd=work)
        records = work / f"{'.'.join([name] + words)}.records"
        records.mkdir()
        environment = dict(os.environ, RECORDER_DIRECTORY=str(records), RECORDER_STREAMS="both", RECORDER_FRAMES="8",
                           **environment_for(bool(words)))
        program = subprocess.Popen([work / name] + words, env=environment, stdout=subprocess.DEVNULL,
                                   stderr=subprocess.DEVNULL)
        try:
            program.wait(PROGRAM_SECONDS)
        except subprocess.TimeoutExpired:
            program.kill()
            program.wait()
        for path in sorted(records.iterdir()):
            text = path.read_bytes().rstrip(b"\0") if path.name[0].isdigit() else b""
            if text:
                found.append(text + b"\0" * 64)
    return found


class Changer:
    """Changes files by the random numbers that it is given."""

    def __init__(self, numbers, files):
        self.numbers, self.files = numbers, files
        self.words = words_of_format()

    def changed(self):
        text = self.numbers.choice(self.files)
        ways = [self.line, self.line, self.word, self.word, self.number, self.number, self.byte, self.piece, self.cut,
                self.splice, self.field]
        for _ in range(self.numbers.choice([1, 1, 2, 3, 5, 10, 30])):
            text = self.numbers.choice(ways)(text)
        return text[:1 << 20]

    def at(self, text):
        """A place in the text: mostly after the first line, by which it is known for a recorder's."""
        first = text.find(b"\n") + 1 if self.numbers.random() < 0.97 else 0
        return self.numbers.randint(min(first, len(text)), len(text))

    def line(self, text):
        """A line twice, or none, or elsewhere."""
        lines = text.splitlines(keepends=True)
        if len(lines) < 3:
            return text
        one, other = self.numbers.randrange(1, len(lines)), self.numbers.randrange(1, len(lines))
        way = self.numbers.randrange(4)
        if way == 0:
            del lines[one]
        elif way == 1:
            lines.insert(other, lines[one])
        elif way == 2:
            lines[one], lines[other] = lines[other], lines[one]
        else:
            lines[one:one] = [lines[one]] * self.numbers.choice([2, 20, 600])
        return b"".join(lines)

    def some_match(self, pattern, text, piece):
        """The text with the piece in place of a match of the pattern."""
        found = list(re.finditer(pattern, text[text.find(b"\n") + 1:] if self.numbers.random() < 0.97 else text))
        if not found:
            return text
        match, skipped = self.numbers.choice(found), 0
        if match.string is not text:
            skipped = text.find(b"\n") + 1
        return text[:skipped + match.start()] + piece + text[skipped + match.end():]

    def word(self, text):
        return self.some_match(rb"(?m)^[a-z]+", text, self.numbers.choice(self.words))

    def number(self, text):
        return self.some_match(rb"(?<= )[0-9a-f]+", text, self.numbers.choice(NUMBERS))

    def field(self, text):
        piece = self.numbers.choice(PIECES + NUMBERS + self.words)
        return self.some_match(rb" [^ \n]+", text, self.numbers.choice([b"", b" " + piece, b" " + piece + b" " + piece]))

    def byte(self, text):
        at = self.at(text)
        return text[:at] + bytes([self.numbers.randrange(256)]) + text[at + 1:]

    def piece(self, text):
        at = self.at(text)
        return text[:at] + self.numbers.choice(PIECES) + text[at + self.numbers.choice([0, 0, 1, 5]):]

    def cut(self, text):
        at = self.at(text)
        return text[:at] + self.numbers.choice([b"", b"\0" * 64, text[min(len(text), at + 40):]])

    def splice(self, text):
        other = self.numbers.choice(self.files)
        return text[:self.at(text)] + other[self.at(other):]
