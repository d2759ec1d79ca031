"""The Rust original: built from a copy of the oracle's crates, then one process that answers many files."""

import os
import shutil
import subprocess


def built(oracle, folder):
    """The oracle's program, made in a copy, since its folder may be read-only."""
    copy = os.path.join(folder, "rust")
    if not os.path.isdir(copy):
        shutil.copytree(os.path.join(oracle, "rust"), copy, ignore=shutil.ignore_patterns("target"))
        for path, folders, files in os.walk(copy):
            for name in folders + files:
                os.chmod(os.path.join(path, name), 0o755 if name in folders else 0o644)
        os.chmod(copy, 0o755)
    subprocess.check_call(["sha256sum", "--quiet", "-c", "ORIGINALS.sha256"], cwd=copy)
    subprocess.check_call(["cargo", "build", "--release", "--offline", "--quiet"], cwd=copy)
    return os.path.join(copy, "target", "release", "oracle")


class Original:
    """u32 length, a line with the mode, the file; answered by u32 length and bytes."""

    def __init__(self, program):
        self.process = subprocess.Popen([program, "serve"], stdin=subprocess.PIPE, stdout=subprocess.PIPE)

    def ask(self, line, data):
        request = line.encode("ascii") + b"\n" + data
        self.process.stdin.write(len(request).to_bytes(4, "big") + request)
        self.process.stdin.flush()
        n = int.from_bytes(self.process.stdout.read(4), "big")
        return self.process.stdout.read(n)

    def close(self):
        self.process.stdin.close()
        self.process.wait()
