"""The job maker on a compile_commands.json that CMake wrote, and on broken ones."""
import json
import pathlib
import subprocess
import sys
import tempfile
import unittest

TOOLS = pathlib.Path(__file__).resolve().parent.parent
EXAMPLE = TOOLS.parent / "examples" / "cmake"


def make(folder, *words):
    return subprocess.run([sys.executable, TOOLS / "job-from-compile-commands", *words],
                          cwd=folder, capture_output=True, text=True, check=False)


class Job(unittest.TestCase):
    def of_entries(self, text):
        with tempfile.TemporaryDirectory() as folder:
            pathlib.Path(folder, "commands.json").write_text(text.replace("ROOT", folder))
            return make(folder, "commands.json", "m.map")

    def test_what_cmake_wrote(self):
        done = make(EXAMPLE, "compile_commands.json", "modules.map", "--written-in", "/home/user/area")
        self.assertEqual(done.returncode, 0)
        self.assertEqual(done.stdout, (EXAMPLE / "job.txt").read_text())
        self.assertEqual(done.stderr, "left out: flag '-Wall'\nleft out: flag '-std=gnu11'\n")

    def test_definitions(self):
        words = ["cc", "-DA", "-D", "B=1 2", "-DF(x)=x", "-UC", "-c", "u.c", "-o", "u.o"]
        done = self.of_entries(json.dumps([{"directory": "ROOT", "file": "u.c", "arguments": words}]))
        self.assertEqual(done.stdout, "map m.map\ndefine A\ndefine B=1 2\nunit u.c\n")
        self.assertIn("definition 'F(x)=x'", done.stderr)
        self.assertIn("flag '-U C'", done.stderr)

    def test_broken_input(self):
        entry = '[{"directory": "ROOT", "file": "u.c", "command": "cc \'open"}]'
        for text in ("", "[", "{}", "[]", "[1]", '[{"file": "u.c"}]', entry,
                     '[{"directory": "ROOT", "file": "u.c", "arguments": [1]}]'):
            with self.subTest(text):
                done = self.of_entries(text)
                self.assertEqual((done.returncode, done.stdout), (1, ""))
                self.assertTrue(done.stderr.startswith("job-from-compile-commands: "), done.stderr)


if __name__ == "__main__":
    unittest.main()
