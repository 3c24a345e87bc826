"""The wheel is made without a network, is installed by pip, and is enough: python3 -m unittest in this folder."""
import importlib.util
import os
import subprocess
import sys
import tempfile
import unittest

import wheel_of_racl

OWN = os.path.dirname(os.path.abspath(__file__))
USE = """import racl
judge = racl.Judge("out permit ipv4 any any\\n")
print(racl.__file__, racl._LIBRARY._name, racl.__version__, judge.judge(bytes(12) + b"\\x08\\x06" + bytes(28)).verdict.name)
"""


def pip(*words):
    """pip as it is without a network, and without what a user has set."""
    words = [sys.executable, "-m", "pip", "--isolated", "--disable-pip-version-check", *words, "--no-index", "--no-build-isolation", "--no-deps"]
    subprocess.run(words, check=True, capture_output=True, text=True, env={**os.environ, "PYTHONDONTWRITEBYTECODE": "1"})


@unittest.skipUnless(importlib.util.find_spec("pip"), "this needs pip")
@unittest.skipUnless(wheel_of_racl.library(), "this needs the shared object")
class WheelTest(unittest.TestCase):
    def test_a_wheel_is_installed_and_is_enough(self):
        with tempfile.TemporaryDirectory() as folder:
            pip("wheel", "-w", folder, OWN)
            [wheel] = [it for it in os.listdir(folder) if it.endswith(".whl")]
            pip("install", "--target", f"{folder}/there", f"{folder}/{wheel}")
            others = {name: value for name, value in os.environ.items() if not name.startswith(("RACL_", "PYTHON"))}
            ran = subprocess.run([sys.executable, "-c", USE], cwd=folder, env={**others, "PYTHONPATH": f"{folder}/there"}, capture_output=True, text=True)
            own = f"{folder}/there/racl"
            self.assertEqual(ran.stdout, f"{own}/__init__.py {own}/libracl.so {wheel_of_racl.version()} NOT_IP\n", ran.stderr)
            self.assertTrue(os.path.exists(f"{own}/py.typed"))

    def test_a_file_that_is_no_such_library_is_told(self):
        for wrong in ("libc.so.6", "/nowhere/libracl.so"):
            ran = subprocess.run([sys.executable, "-B", "-c", "import racl"], cwd=OWN, env={**os.environ, "RACL_LIBRARY": wrong},
                                 capture_output=True, text=True)
            self.assertIn(f"ImportError: racl: {wrong}: ", ran.stderr)


if __name__ == "__main__":
    unittest.main()
