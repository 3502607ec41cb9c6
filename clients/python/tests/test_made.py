"""The blocking classes are as make_blocking.py makes them from those for asyncio."""

from __future__ import annotations

import importlib.util
import pathlib
import unittest
from types import ModuleType

SCRIPT = pathlib.Path(__file__).resolve().parents[1] / "make_blocking.py"


def script() -> ModuleType:
    """Return the script as a module."""
    spec = importlib.util.spec_from_file_location("make_blocking", SCRIPT)
    assert spec is not None and spec.loader is not None
    module = importlib.util.module_from_spec(spec)
    spec.loader.exec_module(module)
    return module


@unittest.skipUnless(SCRIPT.exists(), "make_blocking.py is not there")
class MadeTests(unittest.TestCase):
    """Files that are made."""

    def test_each_is_as_it_is_made(self) -> None:
        made = script().made()
        self.assertEqual(len(made), 3)
        for path, text in made.items():
            with self.subTest(path=pathlib.Path(path).name):
                self.assertEqual(pathlib.Path(path).read_text(encoding="utf-8"), text)

    def test_rules(self) -> None:
        text = '"""A group at all its members\' nodes, for asyncio."""\n\nasync def f(it: AsyncRoom):\n'
        text += "    async with it as other:\n        await other.say(1)\n"
        wanted = '"""A group at all its members\' nodes."""\n\n'
        wanted += "# Made from _async_group.py by make_blocking.py. Change that file, and run it again.\n"
        wanted += "\ndef f(it: Room):\n    with it as other:\n        other.say(1)\n"
        self.assertEqual(script().blocking("_async_group.py", text), wanted)

    def test_what_is_left_is_an_error(self) -> None:
        begin = '"""A group at all its members\' nodes, for asyncio."""\n'
        for text in ("x = 1\n", f"{begin}asyncio.sleep(1)\n", f"{begin}{begin}"):
            with self.subTest(text=text), self.assertRaises(ValueError):
                script().blocking("_async_group.py", text)


if __name__ == "__main__":
    unittest.main()
