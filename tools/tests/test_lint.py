"""Lint refuses a copy in which a clause was renamed."""
import pathlib
import shutil
import subprocess
import sys
import tempfile
import unittest

ROOT = pathlib.Path(__file__).resolve().parent.parent.parent


class Lint(unittest.TestCase):
    def test_a_renamed_clause(self):
        with tempfile.TemporaryDirectory() as folder:
            copy = pathlib.Path(folder, "copy")
            shutil.copytree(ROOT, copy, ignore=shutil.ignore_patterns(".git", "out"))
            self.assertEqual(self.lint(copy).returncode, 0)
            for path in copy.glob("crates/driver/src/**/*.rt"):
                path.write_text(path.read_text().replace("headline", "renamed"))
            done = self.lint(copy)
        self.assertEqual(done.returncode, 1)
        self.assertIn("driver::run has no clause headline", done.stdout)

    def lint(self, folder):
        return subprocess.run([sys.executable, ROOT / "tools" / "lint", folder],
                              capture_output=True, text=True, check=False)


if __name__ == "__main__":
    unittest.main()
