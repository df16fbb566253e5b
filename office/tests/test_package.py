"""What the package lays: services that may do little beside their work, mails, settings, and a web server's example."""

import contextlib
import os
import pathlib
import re
import shutil
import socket
import socketserver
import subprocess
import threading
import urllib.error
import urllib.request
from typing import Dict, List

import pytest
from conftest import OFFICE

PACKAGING = OFFICE.parent / "packaging"
MAIL = "To: weber@example.org\nSubject: Meters\n\n.\nTwo lines\n"
MOST = 3.0  # of systemd's exposure level, from 0 to 10


@pytest.fixture(scope="module")
def tree(tmp_path_factory: pytest.TempPathFactory) -> pathlib.Path:
    made = tmp_path_factory.mktemp("tree")
    subprocess.run([PACKAGING / "lay", "office", made], check=True)
    return made


def test_services_are_hardened(tree: pathlib.Path) -> None:
    if shutil.which("systemd-analyze") is None:
        pytest.skip("needs Debian's systemd")
    units = tree / "usr/lib/systemd/system"
    users = set()
    for unit in sorted(units.glob("*.service")):
        said = subprocess.run(["systemd-analyze", "security", "--offline=true", "--no-pager", unit],
                              capture_output=True, text=True, check=False).stdout
        level = re.search(r"exposure level for \S+: ([0-9.]+)", said)
        assert level and float(level[1]) < MOST, (unit.name, level and level[0])
        users |= set(re.findall(r"^User=(.*)$", unit.read_text(), re.M))
    assert users == {"mbdc-collect", "mbdc-close", "mbdc-publish", "mbdc-desk"}  # and never the owner
    timed = {unit.stem for unit in units.glob("*.timer")}
    postinst = (PACKAGING.parent / "debian/mbdc-office.postinst").read_text()
    assert {word[:-len(".timer")] for word in re.findall(r"mbdc-billing-\w+\.timer", postinst)} == timed


class Letters(socketserver.StreamRequestHandler):
    """A mail server that takes one mail, and refuses those to `refused`."""
    said: List[str] = []

    def handle(self) -> None:
        self.wfile.write(b"220 here\r\n")
        for line in iter(self.rfile.readline, b""):
            self.said.append(line.decode().rstrip("\r\n"))
            if line.upper().startswith(b"DATA"):
                self.wfile.write(b"354 go on\r\n")
                self.said += [it.decode().rstrip("\r\n") for it in iter(self.rfile.readline, b".\r\n")]
            self.wfile.write(b"550 no such user\r\n" if b"refused@" in line else b"221 bye\r\n"
                             if line.upper().startswith(b"QUIT") else b"250 ok\r\n")


def test_mails_go_without_sendmail() -> None:
    with socketserver.TCPServer(("127.0.0.1", 0), Letters) as server:
        threading.Thread(target=server.serve_forever, daemon=True).start()
        environment = {**os.environ, "SMTP": f"127.0.0.1:{server.server_address[1]}"}
        done = [subprocess.run([OFFICE / "submit", "-t", "-i"], input=mail, capture_output=True, text=True, check=False,
                               env=environment)
                for mail in (MAIL, MAIL.replace("weber", "refused"))]
        server.shutdown()
    assert [it.returncode for it in done] == [0, 69] and "no such user" in done[1].stderr, done
    assert "rcpt TO:<weber@example.org>" in Letters.said and "Two lines" in Letters.said and ".." in Letters.said
    assert subprocess.run([OFFICE / "submit", "-t"], input=MAIL, capture_output=True, text=True, check=False,
                          env={**os.environ, "SMTP": "127.0.0.1:9"}).returncode == 69


@pytest.mark.parametrize("words", ["--decoder https://office.example/decode.html", '"--decoder'
                                   ' https://office.example/decode.html"'])
def test_settings_may_have_spaces(tree: pathlib.Path, tmp_path: pathlib.Path, words: str) -> None:
    """As systemd reads them; the shell would run the second word."""
    program = tmp_path / "mbdc-office"
    program.write_text((tree / "usr/bin/mbdc-office").read_text().replace("/usr/lib/mbdc-office",
                                                                          str(tmp_path)).replace("/etc/mbdc-office",
                                                                                                 str(tmp_path))
                       .replace("id -u", "echo 1"))
    conf = (tree / "etc/mbdc-office/office.conf").read_text()
    (tmp_path / "office.conf").write_text(re.sub("^SHEETS=.*", f"SHEETS={words}", conf, flags=re.M))
    (tmp_path / "show").write_text('#!/bin/sh\necho "$SHEETS|$PGDATABASE|$1"\n')
    (tmp_path / "show").chmod(0o755)
    done = subprocess.run(["sh", program, "show", "it"], capture_output=True, text=True, check=False)
    assert (done.stdout, done.stderr) == ("--decoder https://office.example/decode.html|office|it\n", "")


def test_a_sheet_is_served_for_its_reader_alone(tmp_path: pathlib.Path) -> None:
    """By nginx, with the example's location."""
    nginx = shutil.which("nginx", path="/usr/sbin:/usr/bin")
    if nginx is None:
        pytest.skip("needs Debian's nginx-light")
    example = (PACKAGING / "office/nginx.conf").read_text()
    location = re.search(r"^    location /sheets/ \{.*?^    \}", example, re.M | re.S)
    assert location
    folder = tmp_path / "sheets" / "0" / "2025-01.html"
    folder.parent.mkdir(parents=True)
    folder.write_text("<p>310.0</p>")
    for path in (folder, *folder.parents[:3], *tmp_path.parents[:3]):
        path.chmod(path.stat().st_mode | 0o555)
    with socket.create_server(("127.0.0.1", 0)) as free:
        address = f"127.0.0.1:{free.getsockname()[1]}"
    (tmp_path / "nginx.conf").write_text(f"daemon off; pid {tmp_path}/pid; error_log {tmp_path}/error; events {{}}"
                                         f" http {{ access_log off; "
                                         f"client_body_temp_path {tmp_path}/body; server {{ listen {address}; "
                                         f"{location[0].replace('/var/lib/mbdc-billing/out', str(tmp_path))} }} }}")
    server = subprocess.Popen([nginx, "-p", tmp_path, "-c", tmp_path / "nginx.conf", "-e", tmp_path / "error"])
    try:
        headers = fetched(f"http://{address}/sheets/0/2025-01.html")
    finally:
        server.terminate()
        server.wait()
    assert "noindex" in headers["X-Robots-Tag"] and "no-store" in headers["Cache-Control"]
    assert "default-src 'none'" in headers["Content-Security-Policy"] and headers["Referrer-Policy"] == "no-referrer"


def fetched(url: str) -> Dict[str, str]:
    """The headers of a page, once the server listens."""
    for _ in range(100):
        with contextlib.suppress(ConnectionRefusedError, urllib.error.URLError):
            with urllib.request.urlopen(url, timeout=5) as answer:
                return dict(answer.headers)
        threading.Event().wait(0.1)
    raise AssertionError("no web server, or no page")
