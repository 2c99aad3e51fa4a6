"""Certificates for trials on the loopback, by the command openssl: an authority, and who it vouches for."""
import os
import shutil
import subprocess
from collections.abc import Sequence
from typing import Optional

KEY = ("-newkey", "ec", "-pkeyopt", "ec_paramgen_curve:P-256", "-nodes")


def why_absent() -> Optional[str]:
    return None if shutil.which("openssl") else "openssl isn't installed"


def openssl(*words: str) -> None:
    subprocess.run(["openssl", *words], check=True, stdout=subprocess.DEVNULL, stderr=subprocess.DEVNULL)


def make_revoked(folder: str, authority: str, owners: Sequence[str], path: str) -> None:
    """Writes the list of revoked certificates of an authority: those of the owners."""
    settings, database = os.path.join(folder, "authority.conf"), os.path.join(folder, "revoked.txt")
    with open(database, "w", encoding="ascii"):
        pass
    with open(settings, "w", encoding="ascii") as text:
        text.write(f"[ca]\ndefault_ca=own\n[own]\ndatabase={database}\ndefault_md=sha256\ndefault_crl_days=2\n")
    by = ["-config", settings, "-keyfile", f"{folder}/{authority}.key", "-cert", f"{folder}/{authority}.pem"]
    for owner in owners:
        openssl("ca", *by, "-revoke", f"{folder}/{owner}.pem")
    openssl("ca", *by, "-gencrl", "-out", path)


def make_authority(folder: str, name: str, owners: Sequence[str]) -> None:
    """Writes an authority's certificate and key, and a certificate with its key for each owner, all for localhost."""
    authority = os.path.join(folder, name)
    made = ["-keyout", f"{authority}.key", "-out", f"{authority}.pem"]
    openssl("req", "-x509", "-days", "2", "-subj", f"/CN={name}", *KEY, *made)
    extension = os.path.join(folder, "extension")
    with open(extension, "w", encoding="ascii") as text:
        text.write("subjectAltName=DNS:localhost,IP:127.0.0.1\n")
    for owner in owners:
        path = os.path.join(folder, owner)
        openssl("req", "-subj", f"/CN={owner}", *KEY, "-keyout", f"{path}.key", "-out", f"{path}.request")
        signed = ["-CA", f"{authority}.pem", "-CAkey", f"{authority}.key", "-CAcreateserial", "-days", "2"]
        openssl("x509", "-req", "-in", f"{path}.request", *signed, "-extfile", extension, "-out", f"{path}.pem")
