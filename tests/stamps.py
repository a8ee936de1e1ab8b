"""An authority that stamps by RFC 3161, made of `openssl`: a server of HTTP at a port of this machine, for the tests."""

from __future__ import annotations

import http.server
import subprocess
import threading
from pathlib import Path
from types import TracebackType

SECONDS = 60
CONFIG = """[req]
distinguished_name = dn
prompt = no
[dn]
CN = Stamps of a trial
[ca]
basicConstraints = critical,CA:TRUE
keyUsage = keyCertSign
[tsa]
extendedKeyUsage = critical,timeStamping
keyUsage = digitalSignature
[stamps]
serial = serial
signer_cert = tsa.pem
certs = ca.pem
signer_key = tsa.key
signer_digest = sha256
default_policy = 1.2.3.4.1
digests = sha256
ess_cert_id_alg = sha256
"""
NEW_KEY = "-newkey ec -pkeyopt ec_paramgen_curve:P-256 -nodes -config stamps.cnf"


class Authority:
    """An authority with a root certificate, `ca.pem`, and one for stamps. It answers while it is started, at the same port each time."""

    def __init__(self, folder: Path, days: int = 3_650) -> None:
        self.folder = folder
        (folder / "stamps.cnf").write_text(CONFIG)
        (folder / "serial").write_text("01\n")
        self.openssl(f"req -x509 {NEW_KEY} -keyout ca.key -out ca.pem -days {days} -extensions ca")
        self.openssl(f"req {NEW_KEY} -keyout tsa.key -out tsa.csr -subj /CN=Stamps")
        self.openssl(f"x509 -req -in tsa.csr -CA ca.pem -CAkey ca.key -CAcreateserial -out tsa.pem -days {days} -extfile stamps.cnf -extensions tsa")
        self.port = 0
        self.server: http.server.HTTPServer | None = None
        # Queries in their order; and whether the next replies are none.
        self.queries: list[bytes] = []
        self.lies = False

    @property
    def certificates(self) -> Path:
        return self.folder / "ca.pem"

    @property
    def url(self) -> str:
        return f"http://127.0.0.1:{self.port}/tsr"

    def openssl(self, words: str) -> bytes:
        return subprocess.run(["openssl", *words.split()], cwd=self.folder, check=True, capture_output=True, timeout=SECONDS).stdout

    def reply(self, query: bytes) -> bytes:
        self.queries.append(query)
        (self.folder / "query").write_bytes(b"" if self.lies else query)
        if self.lies:
            return b"no reply"
        self.openssl("ts -reply -config stamps.cnf -section stamps -queryfile query -out reply")
        return (self.folder / "reply").read_bytes()

    def start(self) -> Authority:
        authority = self

        class Handler(http.server.BaseHTTPRequestHandler):
            def do_POST(self) -> None:
                reply = authority.reply(self.rfile.read(int(self.headers["Content-Length"])))
                self.send_response(200)
                self.send_header("Content-Type", "application/timestamp-reply")
                self.send_header("Content-Length", str(len(reply)))
                self.end_headers()
                self.wfile.write(reply)

            def log_message(self, format: str, *words: object) -> None:
                pass

        self.server = http.server.HTTPServer(("127.0.0.1", self.port), Handler)
        self.port = self.server.server_address[1]
        threading.Thread(target=self.server.serve_forever, kwargs={"poll_interval": 0.05}, daemon=True).start()
        return self

    def stop(self) -> None:
        if self.server:
            self.server.shutdown()
            self.server.server_close()
            self.server = None

    def __enter__(self) -> Authority:
        return self.start()

    def __exit__(self, kind: type[BaseException] | None, fault: BaseException | None, trace: TracebackType | None) -> None:
        self.stop()
