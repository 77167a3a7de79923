"""The pretty printer on each form of line, on bytes that are not UTF-8, and on long lines."""
import pathlib
import subprocess
import sys
import tempfile
import unittest

TOOL = pathlib.Path(__file__).resolve().parent.parent / "modc-pretty"


class Pretty(unittest.TestCase):
    def run_on(self, output, source=b"", *words):
        with tempfile.TemporaryDirectory() as folder:
            pathlib.Path(folder, "u.c").write_bytes(source)
            done = subprocess.run([sys.executable, TOOL, "--root", folder, *words],
                                  input=output, capture_output=True, check=False)
        self.assertEqual(done.stderr, b"")
        return done.returncode, done.stdout.decode()

    def test_every_form_of_line(self):
        plain = ("unit u.c\nimport u.c:1:1 M\ndecl u.c:2:5 none object x : int\n"
                 "decl u.c:2:5 none object p : pointer to int\nend u.c clean\n"
                 "module M\nend M failed\nend u.c failed\n")
        self.assertEqual(self.run_on(plain.encode()), (0, plain + "0 errors, 0 warnings\n"))

    def test_an_error_and_a_warning(self):
        output = b"error u.c:1:11 E110 'b' is not declared\nwarning u.c:1:1 W200 text\n"
        status, text = self.run_on(output, b"int *a = &b;\n", "--only")
        self.assertEqual(status, 1)
        self.assertEqual(text, "u.c:1:11: error: 'b' is not declared [E110]\n    int *a = &b;\n"
                         "              ^\nu.c:1:1: warning: text [W200]\n    int *a = &b;\n"
                         "    ^\n1 error, 1 warning\n")

    def test_a_place_without_a_source(self):
        for place in (b"absent.c:1:1", b"u.c:9:1", b"u.c:1:9999", b"u.c:0:0"):
            text = self.run_on(b"error " + place + b" E005 not built yet\n", b"int a;\n")[1]
            self.assertEqual(text.count("\n"), 2)

    def test_bytes_that_are_not_utf8(self):
        status, text = self.run_on(b"error u.c:1:3 E005 \xff\nunit \xfe\n", b"\xff\xfe;\n")
        self.assertEqual(status, 1)
        self.assertIn("\n    \ufffd\ufffd;\n      ^\n", text)

    def test_a_line_of_ten_thousand_columns(self):
        source = b"a" * 5000 + b"!" + b"b" * 5000
        text = self.run_on(b"error u.c:1:5001 E005 not built yet\n", source)[1].split("\n")
        self.assertLess(len(text[1]), 120)
        self.assertEqual(text[1][text[2].index("^")], "!")


if __name__ == "__main__":
    unittest.main()
