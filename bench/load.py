"""What both serving.py and costs_to_all.py measure with: who brings a board and edits it, nginx
beside the server, and what a process has used."""
import json
import os
import pathlib
import re
import subprocess
import sys
import time

sys.dont_write_bytecode = True

import paths
import built  # puts clients/ on the path
from served import free_port
from writers import Writer

WRITERS = 8
NGINX = """
daemon off; pid nginx.pid; error_log stderr crit; worker_processes auto;
events {{ worker_connections 64; }}
http {{
    client_body_temp_path body; proxy_temp_path proxy; fastcgi_temp_path fastcgi;
    uwsgi_temp_path uwsgi; scgi_temp_path scgi; access_log off; {more} default_type text/plain;
    keepalive_requests 10000;
    server {{ listen 127.0.0.1:{port}; location = /sheets {{ root {root}; }} }}
}}
"""


class Bringing(Writer):
    """Who brings the files of a board, and moves its first object to and fro."""

    def brings(self, files):
        for name, text in sorted(files.items(), reverse=True):
            kind = "add_symbol" if name.endswith(".sym") else "add_sheet"
            self.puts({"kind": kind, "name": name, "text": text}, 0)

    def moves(self):
        way = 100 - 200 * (self.number % 2)
        self.puts({"dx": 0, "dy": way, "ids": [0], "kind": "move"}, self.front)

    def puts(self, edit, base):
        status, told = self.tries(edit, base)
        if status != 200:
            raise SystemExit(f"{edit['kind']} was answered {status} {told}")

    def tries(self, edit, base):
        """The status of an edit, and what it is answered."""
        self.number += 1
        value = {"session": self.session, "number": self.number, "base": base, "edit": edit}
        status, self.front, text = self.ask("POST", "/edits", json.dumps(value).encode())
        return status, json.loads(text)


def spent(process):
    """The seconds of processors that a process has used."""
    fields = pathlib.Path(f"/proc/{process.pid}/stat").read_text().rpartition(")")[2].split()
    return (int(fields[11]) + int(fields[12])) / os.sysconf("SC_CLK_TCK")


def memory(process, name):
    """A field of the system's account of a process, in MiB."""
    told = pathlib.Path(f"/proc/{process.pid}/status").read_text()
    return int(re.search(rf"^{name}:\s*(\d+) kB", told, re.M)[1]) / 1024


class Nginx:
    """nginx with a file of these bytes, and with more words in its configuration."""

    def __init__(self, room, body, more=""):
        pathlib.Path(room, "sheets").write_bytes(body)
        os.chmod(room, 0o755)
        self.port = free_port()
        text = NGINX.format(port=self.port, root=room, more=more)
        pathlib.Path(room, "nginx.conf").write_text(text)
        self.words = ["nginx", "-p", room, "-c", room + "/nginx.conf"]

    def __enter__(self):
        self.process = subprocess.Popen(self.words)
        time.sleep(1)
        return self

    def __exit__(self, *_):
        self.process.terminate()
        self.process.wait()
