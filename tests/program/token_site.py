"""A folder with a token of SoftHSM, a configuration whose keys it wraps, and journals, for tests.

Components of keys are two custodians' here. What isn't installed is said by `is_ready`.
"""
import json
import os
import subprocess
import tempfile
from collections.abc import Iterator, Sequence
from contextlib import contextmanager
from typing import Any, Optional

from checks import Tally
from issuer_host.facts.paths import HOME

PYTHON = "/usr/bin/python3"
MODULE = "/usr/lib/softhsm/libsofthsm2.so"
KEYS = os.path.join(HOME, "deploy/keys")
START = os.path.join(HOME, "deploy/issuer-run")
NEEDED = "import PyKCS11, cryptography"
# The keys of examples/config and examples/aes.config, as two custodians have them.
MASTER_KEYS = {
    "ac": "000102030405060708090A0B0C0D0E0F",
    "smi": "101112131415161718191A1B1C1D1E1F",
    "aes_ac": "202122232425262728292A2B2C2D2E2F",
    "aes_smi": "303132333435363738393A3B3C3D3E3F",
    "smc": "202122232425262728292A2B2C2D2E2F",
}
FIRST = "8C1F3B5D7A9E2C4068F1D3B597E85A6C"
REFUSED, PASSES = 78, 75


def exclusive_or(one: str, other: str) -> str:
    return bytes(left ^ right for left, right in zip(bytes.fromhex(one), bytes.fromhex(other))).hex().upper()


def halves(key: str) -> tuple[str, str]:
    return FIRST, exclusive_or(FIRST, key)


class Site:
    """A folder with a token, a configuration and journals."""

    def __init__(self, tally: Tally, folder: str) -> None:
        self.tally = tally
        self.folder = folder
        os.mkdir(self.path("tokens"), 0o700)
        self.write("softhsm2.conf", f"directories.tokendir = {self.path('tokens')}\nobjectstore.backend = file\n")

    def path(self, name: str) -> str:
        return os.path.join(self.folder, name)

    def write(self, name: str, text: str) -> str:
        with open(self.path(name), "w", encoding="ascii") as file:
            file.write(text)
        return self.path(name)

    def read(self, name: str) -> str:
        with open(self.path(name), encoding="ascii") as file:
            return file.read()

    def uri(self, **more: str) -> str:
        """The token's URI, with other values of its attributes."""
        given = {"token": "service", "object": "kek", "module-path": MODULE, "pin": self.path("user.pin")} | more
        pin = f"&pin-source=file:{given['pin']}" if given["pin"] else ""
        return f"pkcs11:token={given['token']};object={given['object']}?module-path={given['module-path']}{pin}"

    def environment(self, uri: Optional[str] = None) -> dict[str, str]:
        token = {"SOFTHSM2_CONF": self.path("softhsm2.conf"), "ISSUER_TOKEN": self.uri() if uri is None else uri}
        return dict(os.environ) | token

    def keys(self, *words: str, components: Sequence[str] = (), uri: Optional[str] = None, **more: Any) -> Any:
        """Runs deploy/keys. Components come by a descriptor, each of a custodian."""
        self.tally.note_run(["deploy/keys", *words])
        names = ("Ann", "Bob", "Cyd", "Dan", "Eve", "Fay")
        text = "".join(f"{name} {digits}\n" for name, digits in zip(names, components))
        held, given = os.pipe()
        os.write(given, text.encode())
        os.close(given)
        command = [PYTHON, "-I", KEYS, *words]
        if components:
            command += ["--components", str(len(components)), "--components-from", str(held), "--yes"]
        try:
            return subprocess.run(
                command,
                env=self.environment(uri),
                pass_fds=[held],
                capture_output=True,
                text=True,
                check=False,
                **more,
            )
        finally:
            os.close(held)

    def begin(self) -> "Site":
        """Makes the token."""
        ran = self.keys("begin", "--officer-pin", self.path("officer.pin"))
        self.tally.expect((ran.returncode, ran.stdout), (0, "the token service has the key kek\n"), ran.stderr)
        return self

    def wrapped(self, example: str = "config", uses: Sequence[str] = ("ac", "smi")) -> str:
        """Writes an example's configuration whose keys the token wraps, after a ceremony for each."""
        with open(os.path.join(HOME, "examples", example), encoding="ascii") as file:
            members = json.load(file)
        for key_set in members["keys"]:
            for use in uses:
                key_set.pop(use, None)
        path = self.write("config.json", json.dumps(members))
        os.chmod(path, 0o600)
        for use in uses:
            parity = [] if use.startswith("aes_") else ["--set-parity"]
            words = ("join", "--into", path, "--dki", str(members["keys"][0]["dki"]), "--use", use, *parity)
            ran = self.keys(*words, "--log", self.path("ceremonies"), components=halves(MASTER_KEYS[use]))
            self.tally.expect(ran.returncode, 0, f"{use} is joined: {ran.stderr}")
        return path

    def wrap(self, members: dict[str, Any]) -> dict[str, Any]:
        """Returns a configuration with the keys of its first key set wrapped, after a ceremony for each."""
        found: dict[str, Any] = json.loads(json.dumps(members))
        keys = {use: found["keys"][0].pop(use) for use in MASTER_KEYS if use in found["keys"][0]}
        path = self.write("wrapped.json", json.dumps(found))
        os.chmod(path, 0o600)
        for use, key in keys.items():
            parity = [] if use.startswith("aes_") else ["--set-parity"]
            words = ("join", "--into", path, "--dki", str(found["keys"][0]["dki"]), "--use", use, *parity)
            ran = self.keys(*words, components=halves(key))
            self.tally.expect(ran.returncode, 0, f"{use} is joined: {ran.stderr}")
        wrapped: dict[str, Any] = json.loads(self.read("wrapped.json"))
        return wrapped

    def put_pin(self, pin: str) -> None:
        """Writes another PIN into the PIN's file, which stays the service's alone."""
        with open(os.open(self.path("user.pin"), os.O_WRONLY | os.O_TRUNC), "w", encoding="ascii") as file:
            file.write(pin)

    def start(self, *words: str, begins: bool = False, uri: Optional[str] = None, **more: Any) -> Any:
        """Runs the program by the careful start, over the wrapped configuration."""
        first = ["--begin"] if begins else []
        command = [START, *first, "--program", self.tally.program, *words]
        self.tally.note_run(command)
        environment = self.environment(uri)
        return subprocess.run(
            command, cwd=self.folder, env=environment, capture_output=True, text=True, check=False, **more
        )


@contextmanager
def new_site(tally: Tally) -> Iterator[Site]:
    with tempfile.TemporaryDirectory(prefix="issuer-keys-") as folder:
        yield Site(tally, folder)


def is_ready() -> bool:
    has_libraries = subprocess.run([PYTHON, "-I", "-c", NEEDED], capture_output=True, check=False).returncode == 0
    return has_libraries and os.path.exists(MODULE)
