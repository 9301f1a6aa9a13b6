"""A session of lv behind the pipes of `lv live CONFIG`: streams are pushed as bytes, and views read back as bytes.

As a program, with the built lv or the one that is named, it makes the report of examples/report and prints what it was answered.
"""
import os
import re
import subprocess
import sys


class Live:
    def __init__(self, config, lv="lv"):
        self.process = subprocess.Popen([lv, "live", config], stdin=subprocess.PIPE, stdout=subprocess.PIPE)
        self.line = 0

    def ask(self, words, held=b""):
        """Sends a line and the bytes behind it. Returns the answers, without the line's number, and the bytes of a view."""
        self.line += 1
        self.process.stdin.write(words.encode() + b"\n" + held)
        self.process.stdin.flush()
        answers, view = [], b""
        while True:
            came = self.process.stdout.readline().decode()
            if came == f"{self.line}.\n":
                return answers, view
            if not came.startswith(f"{self.line}: "):
                raise EOFError(came or "lv has ended")
            answers.append(came[len(f"{self.line}: ") : -1])
            if words.startswith("send ") and (wrote := re.fullmatch(r"wrote (\d+)", answers[-1])):
                view = self.process.stdout.read(int(wrote[1]))

    def push(self, feed, held):
        """Pushes a piece of a feed's stream. Returns the events that it completes, and the refusals."""
        return self.ask(f"bytes {feed} {len(held)}", held)[0]

    def view(self, name):
        """The stream of a view."""
        answers, view = self.ask(f"send {name}")
        if not answers[0].startswith("wrote "):
            raise ValueError(answers[0])
        return view

    def close(self):
        """Ends the input. Returns the status: 0, or 1 where something was refused."""
        self.process.stdin.close()
        status = self.process.wait()
        self.process.stdout.close()
        return status


def main():
    root = os.path.dirname(os.path.dirname(os.path.abspath(__file__)))
    report = os.path.join(root, "examples", "report")
    lv = sys.argv[1] if len(sys.argv) > 1 else os.path.join(root, "crates", "lv", "out", "lv")
    live = Live(os.path.join(report, "report.toml"), lv)
    for feed in ("ports", "calls"):
        with open(os.path.join(report, f"{feed}.arrows"), "rb") as file:
            print(feed, *live.push(feed, file.read()))
    print("countries", len(live.view("countries")))
    print(*live.ask("undo")[0])
    return live.close()


if __name__ == "__main__":
    sys.exit(main())
