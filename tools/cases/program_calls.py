"""The program `sst`, as it is built, on files in a folder of their own."""

import os
import subprocess
import tempfile


def written(folder, files):
    """Writes the files that can have their names into a folder."""
    for name, data in files.items():
        if name and b"/" not in name and len(name) < 256:
            with open(os.path.join(folder, name), "wb") as file:
                file.write(data)


def read(folder, files):
    """Takes the files of a folder, but for those with which the program guards others."""
    for name in os.listdir(folder):
        if not name.endswith(b".lock"):
            with open(os.path.join(folder, name), "rb") as file:
                files[name] = file.read()


class Programs:
    """The program `sst`."""

    def __init__(self, program):
        self.program = os.path.abspath(program).encode()

    def run(self, files, words, given):
        """Runs the program on files and an input. Returns what it prints, and the line of a fault."""
        with tempfile.TemporaryDirectory() as folder:
            folder = folder.encode()
            written(folder, files)
            how = {"cwd": folder, "input": given, "capture_output": True, "check": False}
            ran = subprocess.run([self.program, *words], **how)
            read(folder, files)
        return ran.stdout, ran.stderr
