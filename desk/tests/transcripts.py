#!/usr/bin/env python3
"""transcripts.py [--fill] DESK ROOT FILE..: runs the transcripts of documents and compares what is printed with what stands there.

A transcript is an indented block whose first line begins with '$ '. Each such line is a command for the shell; what it prints, on standard error too, follows
it. Where the desk's greeting follows, the desk is started on a terminal, and the lines that begin with its prompt are typed there one after another.
All transcripts of a document are run in one folder, which is empty at first but for `desk/run`, the program itself, `desk/evening` and `desk/tests`.
With --fill what is printed is put into the documents, and is then to be read. Without, every command of the desk and every refusal but 11 has to occur in the
documents together: 11 is for records, and the desk sends none.
"""
import difflib
import os
import pty
import re
import select
import subprocess
import sys
import tempfile
import time

GREETING, PROMPT = "Burgzemi's desk:", "desk> "
UNREACHABLE = {11}
HANG = 60  # seconds: guards against a hang and measures nothing


def blocks(lines):
    """First and end line of each indented block. A blank line belongs to it where the block goes on behind."""
    first = None
    for at, line in enumerate([*lines, "end"]):
        if line.startswith("    "):
            first, end = (at if first is None else first), at + 1
        elif line.strip() and first is not None:
            yield first, end
            first = None


def steps(lines):
    """The shell commands of a block, each with the lines that follow it."""
    found = []
    for line in lines:
        if line.startswith("$ "):
            found.append((line[2:], []))
        else:
            found[-1][1].append(line)
    return found


def in_shell(command, folder, environment):
    done = subprocess.run(["bash", "-c", command], cwd=folder, env=environment, stdin=subprocess.DEVNULL, stdout=subprocess.PIPE,
                          stderr=subprocess.STDOUT, timeout=HANG, check=False)
    return done.stdout.decode()


def awaited(terminal, ending):
    """What the terminal shows until it ends with this, or until the program has ended."""
    shown, limit = b"", time.monotonic() + HANG
    while not (ending and shown.endswith(ending)):
        if not select.select([terminal], [], [], limit - time.monotonic())[0]:
            raise TimeoutError(f"no {ending!r} behind {shown!r}")
        try:
            more = os.read(terminal, 65536)
        except OSError:  # the program has closed its end
            break
        shown += more
    return shown


def on_terminal(command, typed, folder, environment):
    terminal, slave = pty.openpty()
    with subprocess.Popen(["bash", "-c", command], cwd=folder, env=environment, stdin=slave, stdout=slave, stderr=slave) as program:
        os.close(slave)
        shown = b""
        for line in typed:
            shown += awaited(terminal, PROMPT.encode())
            os.write(terminal, f"{line}\n".encode())
        if typed[-1] != "quit":
            shown += awaited(terminal, PROMPT.encode())
            os.write(terminal, b"\4")  # end of input
        shown += awaited(terminal, None)
        os.close(terminal)
        program.wait(HANG)
    return shown.decode().replace("\r\n", "\n")


def printed(command, following, folder, environment):
    typed = [line[len(PROMPT):] for line in following if line.startswith(PROMPT)]
    if following[:1] and following[0].startswith(GREETING):
        text = on_terminal(command, typed, folder, environment)
    else:
        text = in_shell(command, folder, environment)
    lines = [line.rstrip() for line in text.split("\n")]
    while lines and not lines[-1].strip():
        lines.pop()
    # a prompt that was left by the end of input stands alone
    return lines[:-1] if lines and lines[-1] == PROMPT.strip() else lines


def set_up(folder, desk, root):
    os.mkdir(os.path.join(folder, "desk"))
    os.symlink(desk, os.path.join(folder, "desk", "run"))
    for name in ("evening", "tests"):
        os.symlink(os.path.join(root, "desk", name), os.path.join(folder, "desk", name))


class Documents:
    def __init__(self, desk, root, fill):
        self.desk, self.root, self.fill = desk, root, fill
        self.right = self.wrong = 0
        self.typed, self.shown = [], []

    def run(self, path):
        with open(path, encoding="utf-8") as file:
            lines = file.read().split("\n")
        new, last = [], 0
        environment = {**os.environ, "NO_COLOR": "1"}
        with tempfile.TemporaryDirectory() as folder:
            set_up(folder, self.desk, self.root)
            for first, end in blocks(lines):
                block = [line[4:] for line in lines[first:end]]
                if not block[0].startswith("$ "):
                    continue
                new += lines[last:first]
                last = end
                for command, following in steps(block):
                    blank = []
                    while following and not following[-1]:
                        blank.append(following.pop())
                    found = printed(command, following, folder, environment)
                    self.compare(path, command, following, found)
                    new += [f"    {line}".rstrip() for line in ["$ " + command, *found, *blank]]
        if self.fill:
            with open(path, "w", encoding="utf-8") as file:
                file.write("\n".join(new + lines[last:]))

    def compare(self, path, command, following, found):
        self.typed += [command, *following]
        self.shown += found
        if [line.rstrip() for line in following] == found:
            self.right += 1
            return
        self.wrong += 1
        if not self.fill:
            print(f"transcripts: {path}: {command}")
            print("\n".join(difflib.unified_diff(following, found, "as it stands there", "as it is printed", n=1, lineterm="")))

    def missing(self):
        """Commands and refusals that no transcript has."""
        listed = subprocess.run([self.desk, "help"], capture_output=True, text=True, check=True).stdout
        commands = re.findall(r"^  ([a-z]+) ", listed.split("\n\n")[0], re.M)
        text = "\n".join(self.typed)
        used = set(re.findall(r"^desk> ([a-z]+)", text, re.M)) | set(re.findall(r"desk/run (?:--[a-z]+ (?:\"[^\"]*\"|\S+) )*([a-z]+)", text))
        yield from (f"the command {name}" for name in commands if name not in used)
        refused = {int(number) for number in re.findall(r"refused (\d+):", "\n".join(self.shown))}
        yield from (f"refusal {number}" for number in range(1, 25) if number not in refused | UNREACHABLE)


def main():
    arguments = sys.argv[1:]
    fill = arguments[:1] == ["--fill"]
    desk, root, *paths = arguments[fill:]
    documents = Documents(desk, root, fill)
    for path in paths:
        documents.run(path)
    missing = [] if fill else list(documents.missing())
    for what in missing:
        print(f"transcripts: no transcript has {what}")
    print(f"transcripts: {documents.right} right, {documents.wrong} wrong")
    return 1 if documents.wrong or missing else 0


sys.exit(main())
