"""The wheel that the build backend packs has every file, and names the checkout."""

import base64
import csv
import hashlib
import importlib
import io
import os
import subprocess
import sys
import tempfile
import unittest
import zipfile
from pathlib import Path

BRIDGE = Path(__file__).resolve().parent.parent
CHECKOUT = BRIDGE.parent.parent


class Wheel(unittest.TestCase):
    def setUp(self):
        sys.path.insert(0, str(BRIDGE / "backend"))
        self.addCleanup(sys.path.remove, str(BRIDGE / "backend"))
        folder = tempfile.TemporaryDirectory()
        self.addCleanup(folder.cleanup)
        self.folder = Path(folder.name)
        backend = importlib.import_module("wheel_of_checkout")
        with zipfile.ZipFile(self.folder / backend.build_wheel(str(self.folder))) as archive:
            self.files = {name: archive.read(name) for name in archive.namelist()}
            archive.extractall(self.folder)

    def test_the_record_has_every_file(self):
        record = next(name for name in self.files if name.endswith("/RECORD"))
        rows = list(csv.reader(io.StringIO(self.files[record].decode())))
        self.assertEqual([row[0] for row in rows], list(self.files))
        for path, digest, size in rows[:-1]:
            content = self.files[path]
            found = base64.urlsafe_b64encode(hashlib.sha256(content).digest()).decode().rstrip("=")
            self.assertEqual((digest, size), (f"sha256={found}", str(len(content))))

    def test_the_package_knows_its_checkout(self):
        paths = os.pathsep.join([str(self.folder), *filter(None, sys.path)])
        script = "from cpsolve import program, solve; print(program.BUILT)"
        done = subprocess.run(
            [sys.executable, "-c", script],
            env={**os.environ, "PYTHONPATH": paths},
            capture_output=True,
            text=True,
            check=True,
        )
        built = CHECKOUT / "crates" / "cpsolve" / "out" / "cpsolve"
        self.assertEqual(done.stdout.strip(), str(built))


if __name__ == "__main__":
    unittest.main()
