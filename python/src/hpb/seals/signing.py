"""The key of a front's seals: Ed25519, in a file of PEM that nobody but its owner may read. It needs python3-cryptography."""
import importlib.util
import os
import stat
from pathlib import Path
from typing import TYPE_CHECKING, Final

from hpb.own_files import SAFELY

if TYPE_CHECKING:
    from cryptography.hazmat.primitives.asymmetric.ed25519 import Ed25519PrivateKey

# systemd puts credentials of a service into this folder, which the service alone may read.
CREDENTIALS: Final = "CREDENTIALS_DIRECTORY"
_MODE: Final = 0o600
_OTHERS: Final = 0o077
_MOST_KEY: Final = 10_000


class NoKey(Exception):
    """There is no key, or it isn't kept as a key has to be."""


class Signer:
    """Signs statements. `public` has the 64 hexadecimal digits of the public key."""

    def __init__(self, key: "Ed25519PrivateKey") -> None:
        self._key = key
        self.public = _public_hex(key)

    def sign(self, text: str) -> str:
        """The signature of a statement: 128 hexadecimal digits."""
        return self._key.sign(text.encode("ascii")).hex()


def is_signed(public: str, text: str, signature: str) -> bool:
    """Whether this is the signature of a statement under a public key, as `hpb.seals.openssl.is_signed` finds by the program `openssl`."""
    from cryptography.exceptions import InvalidSignature
    from cryptography.hazmat.primitives.asymmetric.ed25519 import Ed25519PublicKey

    try:
        Ed25519PublicKey.from_public_bytes(bytes.fromhex(public)).verify(bytes.fromhex(signature), text.encode("ascii"))
    except (InvalidSignature, ValueError):
        return False
    return True


def read_key(path: str, is_credential: bool = False) -> Signer:
    """The key in a file. A NoKey says why there is none. Nobody but its owner may read it, unless it is a credential, which systemd keeps."""
    try:
        with open(os.open(path, os.O_RDONLY | SAFELY & ~os.O_NOFOLLOW), "rb") as file:
            status = os.fstat(file.fileno())
            if not stat.S_ISREG(status.st_mode):
                raise NoKey(f"{path} is no regular file")
            if status.st_mode & _OTHERS and not is_credential:
                raise NoKey(f"others may read or write {path}: `chmod 600` it")
            data = file.read(_MOST_KEY)
    except OSError as fault:
        raise NoKey(f"{path}: {fault.strerror}") from None
    return Signer(_key_in(data, path))


def _key_in(data: bytes, path: str) -> "Ed25519PrivateKey":
    _look_for_library()
    from cryptography.hazmat.primitives.asymmetric.ed25519 import Ed25519PrivateKey
    from cryptography.hazmat.primitives.serialization import load_pem_private_key

    try:
        key = load_pem_private_key(data, None)
    except Exception:  # Each version of the library has other faults, and none may show the key.
        raise NoKey(f"{path} has no key in PEM without a password") from None
    if not isinstance(key, Ed25519PrivateKey):
        raise NoKey(f"the key in {path} isn't one of Ed25519")
    return key


def make_key(path: str) -> Signer:
    """Makes a key in a new file of mode 600. A file that is there is never written over: then a FileExistsError is raised."""
    _look_for_library()
    from cryptography.hazmat.primitives.asymmetric.ed25519 import Ed25519PrivateKey
    from cryptography.hazmat.primitives.serialization import Encoding, NoEncryption, PrivateFormat

    key = Ed25519PrivateKey.generate()
    pem = key.private_bytes(Encoding.PEM, PrivateFormat.PKCS8, NoEncryption())
    file = os.open(path, os.O_WRONLY | os.O_CREAT | os.O_EXCL | SAFELY, _MODE)
    try:
        with open(file, "wb") as out:
            out.write(pem)
            out.flush()
            os.fsync(out.fileno())
    except OSError:
        os.unlink(path)
        raise
    return Signer(key)


def credential_path(name: str) -> str:
    """The file of a credential. A NoKey says that systemd gave none."""
    folder = os.environ.get(CREDENTIALS)
    if not folder:
        raise NoKey(f"systemd gave no credentials: LoadCredential={name}:FILE in the service hands one in")
    return str(Path(folder) / name)


def _public_hex(key: "Ed25519PrivateKey") -> str:
    from cryptography.hazmat.primitives.serialization import Encoding, PublicFormat

    return key.public_key().public_bytes(Encoding.Raw, PublicFormat.Raw).hex()


def _look_for_library() -> None:
    """Raises a NoKey if the library isn't there. Without a key nothing needs it."""
    if not importlib.util.find_spec("cryptography"):
        raise NoKey("seals need the library cryptography (in Debian python3-cryptography)")
