"""docs/CLIENTS.md: its examples run, and its table of refusals is that of the driver."""
from __future__ import annotations

import contextlib
import io
import os
import re
import shutil
import socket
import tempfile
import unittest

import cjc
from cjc import refusals

from .served import CONFIGURATION, PATIENCE, PROGRAM, ROOT, OverServer

DOCUMENT = os.path.join(ROOT, "docs", "CLIENTS.md")


@unittest.skipUnless(os.path.exists(DOCUMENT), "docs/CLIENTS.md is not beside this folder")
class Document(OverServer):
    """What the document says."""

    def setUp(self) -> None:
        super().setUp()
        with open(DOCUMENT, encoding="utf-8") as file:
            self.text = file.read()

    def test_examples(self) -> None:
        blocks = re.findall(r"^```python\n(.*?)^```$", self.text, re.DOTALL | re.MULTILINE)
        self.assertEqual(len(blocks), 6)
        names: dict[str, object] = {"cjc": cjc}
        with contextlib.redirect_stdout(io.StringIO()) as shown:
            for block in blocks:
                if "Server(" not in block:
                    exec(compile(block.replace("7000", str(self.port)), DOCUMENT, "exec"), names)
        self.assertTrue(shown.getvalue().startswith("Ann O'Neil -350\nBob 4200\n27 Duplicate: "))
        with self.connect() as connection:
            rows = connection.cursor().execute("SELECT * FROM account").fetchall()
        self.assertEqual(rows, [(1, "Ann O'Neil", -250), (2, "Bob", 4100), (3, "Cid", 0)])

    @unittest.skipUnless(PROGRAM, "CJC_PROGRAM names no built program")
    def test_example_of_a_server(self) -> None:
        (block,) = (block for block in re.findall(r"^```python\n(.*?)^```$", self.text, re.DOTALL | re.MULTILINE)
                    if "Server(" in block)
        with tempfile.TemporaryDirectory() as folder, contextlib.redirect_stdout(io.StringIO()) as shown:
            conf = shutil.copy(CONFIGURATION, os.path.join(folder, "conf.toml"))
            block = block.replace("crates/cjc/out/cjc", str(PROGRAM)).replace("/tmp/cjc/c1.toml", conf)
            exec(compile(block, DOCUMENT, "exec"), {"cjc": cjc})
        self.assertRegex(shown.getvalue(), r"^\['ok'\] \['ok \d+'\]\n$")

    def test_session_in_hexadecimal(self) -> None:
        """What the client sends gets the replies that stand there."""
        lines = re.findall(r"^([<> ]) ((?:[0-9a-f]{2} )+) {2,}\S.*$", self.text, re.MULTILINE)
        frames: list[tuple[str, bytes]] = []
        for side, digits in lines:
            if side == " ":
                side, before = frames.pop()
                frames.append((side, before + bytes.fromhex(digits)))
            else:
                frames.append((side, bytes.fromhex(digits)))
        self.assertEqual("".join(side for side, _ in frames), "><" * 5 + ">")
        with socket.create_connection((self.host, self.port), PATIENCE) as one, one.makefile("rb") as replies:
            for side, data in frames:
                if side == ">":
                    one.sendall(data)
                else:
                    self.assertEqual(replies.read(len(data)), data)
            self.assertEqual(replies.read(), b"")

    def test_refusals(self) -> None:
        rows = re.findall(r"^\| (\d+) \| (\w+) \| (\w+Error) \| ", self.text, re.MULTILINE)
        self.assertEqual([(int(code), name, getattr(cjc, kind)) for code, name, kind in rows],
                         [(code, meaning.name, meaning.kind) for code, meaning in sorted(refusals.MEANINGS.items())])

    def test_sentences(self) -> None:
        prose = re.sub(r"^```.*?^```$|^\|.*$|^#.*$", "\n", self.text, flags=re.DOTALL | re.MULTILINE)
        for sentence in re.split(r"(?<=[.:?])\s+|\n\n|\n- ", prose):
            self.assertLessEqual(len(sentence.split()), 25, sentence)
        self.assertLess(max(map(len, self.text.split("\n"))), 120)
