#!/usr/bin/env python3
"""Kills the program loom_rows while it saves checkpoints, and tests that the file has a whole text each time.

usage: tools/killed_saves.py [PROGRAM]

PROGRAM is crates/loom_rows/out/loom_rows, which `rt run` makes there. A check of the row three_adds saves before each run, and is
killed after a time that grows from kill to kill. Then there is no file yet, or one whose text is JSON, and the program goes on from
it. A run that a kill cut off is made again; so the runs of all calls together are at least those of one check, and the last call is
complete. Prints how many kills there were, and ends with status 1 at the first file that is another.
"""
import json
import os
import signal
import subprocess
import sys
import tempfile
import time

PROGRAM = os.path.abspath(sys.argv[1] if len(sys.argv) > 1 else "crates/loom_rows/out/loom_rows")
ROW, FILE = "three_adds", "search.json"
CALL = [PROGRAM, ROW, FILE, "--checkpoint-interval", "1"]
KILLS = 200


def has_text(folder):
    """Whether there is a file. A text that isn't whole is no JSON."""
    path = os.path.join(folder, FILE)
    if not os.path.exists(path):
        return False
    with open(path) as file:
        json.load(file)
    return True


def main():
    with tempfile.TemporaryDirectory() as folder:
        kills = files = 0
        for kill in range(KILLS):
            call = subprocess.Popen(CALL, cwd=folder, stdout=subprocess.PIPE, text=True)
            time.sleep(0.002 + kill * 0.0001)
            call.send_signal(signal.SIGKILL)
            line, _ = call.communicate()
            kills += call.returncode == -signal.SIGKILL
            files += has_text(folder)
            if call.returncode not in (0, -signal.SIGKILL):
                print(f"kill {kill}: status {call.returncode}, {line!r}")
                return 1
            if line.startswith("complete"):
                os.remove(os.path.join(folder, FILE))
        last = subprocess.run(CALL, cwd=folder, capture_output=True, text=True)
        print(f"{kills} kills, {files} times a file with a whole text, at last: {last.stdout.strip()}")
        return 0 if last.stdout.startswith("complete") and files else 1


if __name__ == "__main__":
    sys.exit(main())
