"""The commands of a Markdown page with their output, and shells that run them."""
import os
import re
import signal
import subprocess
import threading
import typing

# A command is a line that begins with `$ `, or with `2$ ` if it is typed into a second terminal.
PROMPT = re.compile(r"(\d?)\$ (.+)")
MARK = "== the command ended =="
# Runs each line of its standard input, and writes the mark after it. A command has no input.
LOOP = f"""\
exec 3<&0 </dev/null
while IFS= read -r -u 3 line; do
    eval "$line"
    printf '\\n{MARK}\\n'
done
"""


class Step(typing.NamedTuple):
    """A command of a page: its line number, the terminal (empty if there is one) and its output."""

    number: int
    terminal: str
    command: str
    lines: list


def code_lines(page):
    """The lines of code blocks with their numbers, and None for any other line."""
    in_fence = False
    for number, line in enumerate(page.splitlines(), 1):
        is_fence = line.startswith("```")
        in_fence ^= is_fence
        if in_fence and not is_fence:
            yield number, line
        elif line.startswith("    ") and not in_fence:
            yield number, line[4:]
        else:
            yield number, None


def steps(page):
    """Each command of a page's code blocks, with the output that the page gives."""
    found, current = [], None
    for number, line in code_lines(page):
        prompt = line is not None and PROMPT.fullmatch(line)
        if prompt:
            current = Step(number, prompt[1], prompt[2], [])
            found.append(current)
        elif line is None:
            current = None
        elif current:
            current.lines.append(line)
    return found


class Shell:
    """A terminal: its commands run one after another in one shell, which keeps variables."""

    def __init__(self, folder, env):
        self.bash = subprocess.Popen(
            ["bash", "-c", LOOP],
            cwd=folder,
            env=env,
            stdin=subprocess.PIPE,
            stdout=subprocess.PIPE,
            stderr=subprocess.STDOUT,
            text=True,
            start_new_session=True,
        )

    def run(self, command, seconds):
        """The lines that the command prints. After so many seconds the shell is killed."""
        patience = threading.Timer(seconds, self.kill)
        patience.start()
        self.bash.stdin.write(command + "\n")
        self.bash.stdin.flush()
        lines = []
        for line in self.bash.stdout:
            if line.rstrip("\n") == MARK:
                break
            lines.append(line.rstrip("\n"))
        patience.cancel()
        # The mark has an empty line before it, unless the output's last line had no end.
        return lines[:-1] if lines and not lines[-1] else lines

    def kill(self):
        os.killpg(self.bash.pid, signal.SIGKILL)

    def close(self):
        self.bash.stdin.close()
        self.bash.wait()
