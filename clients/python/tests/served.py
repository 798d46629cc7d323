"""What the tests share: a server, which is the built program or the toy, and connections to it."""
from __future__ import annotations

import os
import shutil
import tempfile
import unittest
from typing import Any

import cjc
from cjc.local import HOST, Server

from .toy import PASSWORD, USER, Toy

# The path of a built `cjc`, over whose `serve` the tests then run.
PROGRAM = os.environ.get("CJC_PROGRAM")
# A request or its reply takes no longer. (Programs that look for faults while they run are slow.)
PATIENCE = 60.0

ROOT = os.path.abspath(os.path.join(os.path.dirname(__file__), "..", "..", ".."))
CONFIGURATION = os.path.join(ROOT, "example", "c1.toml")


class Served(unittest.TestCase):
    """Tests over a server, which a class below starts."""

    host, user, password = HOST, USER, PASSWORD
    port: int

    def setUp(self) -> None:
        self.tables: list[str] = []
        self.addCleanup(self._drop)

    def connect(self, **more: Any) -> cjc.Connection:
        """A connection that is closed after the test."""
        more.setdefault("timeout", PATIENCE)
        connection = cjc.connect(self.host, self.port, self.user, self.password, **more)
        self.addCleanup(connection.close)
        return connection

    def create(self, name: str, columns: str = "k INTEGER PRIMARY KEY, v TEXT") -> str:
        """A new table, which is dropped after the test. Its name is made to differ from others."""
        name = f"{name}_{os.getpid()}"
        self.tables.append(name)
        with self.connect(autocommit=True) as connection:
            connection.cursor().execute(f"CREATE TABLE {name} ({columns})")
        return name

    def _drop(self) -> None:
        with cjc.connect(self.host, self.port, self.user, self.password, timeout=PATIENCE, autocommit=True) as one:
            for name in self.tables:
                one.cursor().execute(f"DROP TABLE {name}")


class OverToy(Served):
    """Tests over a toy of their own, which can be told to misbehave."""

    toy: Toy

    @classmethod
    def setUpClass(cls) -> None:
        cls.toy = Toy()
        cls.port = cls.toy.port

    @classmethod
    def tearDownClass(cls) -> None:
        cls.toy.close()


@unittest.skipUnless(PROGRAM, "CJC_PROGRAM names no built program")
class OverProgram(Served):
    """Tests over a `cjc serve` of their own, in a folder of its own."""

    server: Server
    folder: tempfile.TemporaryDirectory[str]

    @classmethod
    def setUpClass(cls) -> None:
        assert PROGRAM is not None
        cls.folder = tempfile.TemporaryDirectory()
        cls.server = Server(PROGRAM, shutil.copy(CONFIGURATION, os.path.join(cls.folder.name, "conf.toml")))
        cls.server.start()
        cls.port = cls.server.port

    @classmethod
    def tearDownClass(cls) -> None:
        cls.server.kill()
        cls.folder.cleanup()


# What any server has to do is tried over the program where one is named.
OverServer: type[Served] = OverProgram if PROGRAM else OverToy
