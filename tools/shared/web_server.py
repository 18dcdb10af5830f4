"""Web servers for a small network, for the files of a folder: Python's own, nginx, and Apache's httpd."""

from __future__ import annotations

import shutil
import subprocess
import sys
import tempfile
import time
from contextlib import contextmanager
from pathlib import Path
from typing import Callable, Iterator

from shared.command_line import Refused
from shared.namespaces import SERVER_ADDRESS, Network

PORT = 80
MOST_SECONDS_TO_START = 30.0
SECONDS_BETWEEN_LOOKS = 0.05
MOST_SECONDS_TO_END = 10.0
TCP_SOCKETS = "/proc/net/tcp"
# the state of a socket that listens (linux/include/net/tcp_states.h)
LISTENS = "0A"

NGINX = """\
daemon off;
user root;
pid {spare}/pid;
error_log {spare}/error.log;
events {{ }}
http {{
  access_log off;
  {paths}
  server {{ listen {address}:{port}; root {folder}; }}
}}
"""
NGINX_PATHS = ("client_body", "proxy", "fastcgi", "uwsgi", "scgi")
APACHE_MODULES = Path("/usr/lib/apache2/modules")
APACHE = """\
ServerRoot {spare}
ServerName {address}
Listen {address}:{port}
PidFile {spare}/pid
ErrorLog {spare}/error.log
DefaultRuntimeDir {spare}
LoadModule mpm_event_module {modules}/mod_mpm_event.so
LoadModule authz_core_module {modules}/mod_authz_core.so
DocumentRoot {folder}
<Directory {folder}>
  Require all granted
</Directory>
"""


def _python(folder: Path, spare: Path) -> list[str]:
    return [sys.executable, "-m", "http.server", str(PORT), "--bind", SERVER_ADDRESS, "--directory", str(folder)]


def _nginx(folder: Path, spare: Path) -> list[str]:
    paths = "".join(f"{name}_temp_path {spare}/{name}; " for name in NGINX_PATHS)
    text = NGINX.format(spare=spare, folder=folder, paths=paths, address=SERVER_ADDRESS, port=PORT)
    return ["nginx", "-c", _written(spare, text), "-p", str(spare)]


def _apache(folder: Path, spare: Path) -> list[str]:
    text = APACHE.format(spare=spare, folder=folder, modules=APACHE_MODULES, address=SERVER_ADDRESS, port=PORT)
    return ["apache2", "-D", "FOREGROUND", "-f", _written(spare, text)]


def _written(spare: Path, text: str) -> str:
    """The name of a file with a server's configuration."""
    path = spare / "server.conf"
    path.write_text(text)
    return str(path)


Words = Callable[[Path, Path], list[str]]
PYTHON, NGINX_PROGRAM = "python3", "nginx"
# what starts each server, by the program that has to be there
SERVERS: dict[str, Words] = {PYTHON: _python, NGINX_PROGRAM: _nginx, "apache2": _apache}


def usual() -> str:
    """The server for a boot: nginx, where it is there."""
    return NGINX_PROGRAM if shutil.which(NGINX_PROGRAM) else PYTHON


def _is_listening(network: Network) -> bool:
    seen = subprocess.run(network.in_server("cat", TCP_SOCKETS), capture_output=True, text=True, check=False)
    fields = [line.split() for line in seen.stdout.splitlines()]
    return any(len(each) > 3 and each[1].endswith(f":{PORT:04X}") and each[3] == LISTENS for each in fields)


@contextmanager
def web_server(network: Network, folder: Path, name: str = PYTHON) -> Iterator[None]:
    """Runs a web server at the server's address; Apache's needs a folder that everybody may read."""
    with tempfile.TemporaryDirectory(prefix="netboot-") as spare:
        Path(spare).chmod(0o755)
        words = network.in_server(*SERVERS[name](folder, Path(spare)))
        server = subprocess.Popen(words, stdout=subprocess.DEVNULL, stderr=subprocess.DEVNULL)
        try:
            _wait_for(network, server)
            yield
        finally:
            _end(server)


def _end(server: subprocess.Popen[bytes]) -> None:
    """Ends a server with the processes that it started."""
    server.terminate()
    try:
        server.wait(MOST_SECONDS_TO_END)
    except subprocess.TimeoutExpired:
        server.kill()
        server.wait()


def _wait_for(network: Network, server: subprocess.Popen[bytes]) -> None:
    until = time.monotonic() + MOST_SECONDS_TO_START
    while not _is_listening(network):
        if server.poll() is not None or time.monotonic() > until:
            raise Refused("the web server doesn't listen")
        time.sleep(SECONDS_BETWEEN_LOOKS)
