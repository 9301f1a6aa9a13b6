"""What the benches of sessions share: a main table with a feed that appends to it, and a session of `lv live` to which many lines are sent at
once, with its memory."""
import os
import re
import subprocess
import sys

MAIN = """
[main]
key = "i"
columns = [["i", "int64"], ["n", "utf8"], ["a", "int64"], ["z", "int64"]]
[feed.rows]
role = "append"
"""


def push(feed, data):
    """The line that pushes some bytes to a feed, and the bytes."""
    return b"bytes %s %d\n" % (feed.encode(), len(data)) + data


class Live:
    def __init__(self, program, folder, config, schemas):
        """Runs a program over a configuration, which is written to the folder, and pushes the schema of each feed."""
        path = os.path.join(folder, "config")
        with open(path, "w") as file:
            file.write(config)
        self.process = subprocess.Popen([program, "live", path], stdin=subprocess.PIPE, stdout=subprocess.PIPE)
        self.line = 0
        for feed, schema in schemas.items():
            self.send([push(feed, schema)])

    def send(self, lines):
        """Sends lines at once, and waits until the last is answered. None may be refused."""
        self.process.stdin.write(b"".join(lines))
        self.process.stdin.flush()
        self.line += len(lines)
        while (said := self.process.stdout.readline()) != b"%d.\n" % self.line:
            if not said or b"refused" in said:
                sys.exit(f"bench: {said!r}")

    def resident(self):
        """The bytes of memory that the program holds."""
        with open(f"/proc/{self.process.pid}/status") as file:
            return 1024 * int(re.search(r"VmRSS:\s+(\d+)", file.read()).group(1))

    def end(self):
        self.process.kill()
        self.process.wait()
