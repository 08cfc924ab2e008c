"""nginx with the site of deploy/ before a program that is kept, for the tests that ask through it."""
import base64
import contextlib
import functools
import http.client
import os
import shutil
import socket
import ssl
import subprocess

from beside import PLACES, Kept, changed, needs, text_of
from harness import TOP, same, write
import program
import replay

NAME = "books.example"
USER, PASSWORD = "cashier", "a-word"
ACCESS = {"Authorization": "Basic " + base64.b64encode(f"{USER}:{PASSWORD}".encode()).decode()}
JSON = {"Content-Type": "application/json", **ACCESS}

MAIN = """daemon off;
{user}
worker_processes 2;
pid {room}/nginx.pid;
error_log {room}/error.log;
events {{ worker_connections 2048; }}
http {{
    access_log off;
    client_body_temp_path {room}/body;
    proxy_temp_path {room}/proxy;
    fastcgi_temp_path {room}/fastcgi;
    uwsgi_temp_path {room}/uwsgi;
    scgi_temp_path {room}/scgi;
    include {room}/site.conf;
}}
"""


class Front:
    """nginx with the site of deploy/ before a port, under other ports and files and, if it is quick, with shorter
    times."""

    def __init__(self, room, behind, wait="10s", changes=(), is_quick=True):
        needs("nginx", "openssl")
        self.room, self.port, waiting = room, replay.free_port(), replay.free_port()
        shorter = [("timeout 10s", "timeout 2s"), ("keepalive_timeout 30s", "keepalive_timeout 2s")]
        site = changed(text_of("nginx", "jaqhendulu.conf"), ("443", str(self.port)), ("18079", str(waiting)),
                       ("127.0.0.1:18080", f"127.0.0.1:{behind}"), ("/etc/jaqhendulu/", room + "/"),
                       ("/usr/share/jaqhendulu", TOP), ("/var/log/nginx/", room + "/"),
                       *(shorter if is_quick else ()), ("read_timeout 30s", f"read_timeout {wait}"), *changes)
        write(site.encode(), room, "site.conf")
        write(MAIN.format(room=room, user="user root;" if os.getuid() == 0 else "").encode(), room, "main.conf")
        hashed = subprocess.run(["openssl", "passwd", "-apr1", PASSWORD], capture_output=True, check=True).stdout
        write(f"{USER}:{{PLAIN}}{PASSWORD}\nauditor:".encode() + hashed, room, "users")
        self.certificate()
        words = [shutil.which("nginx", path=PLACES), "-p", room, "-c", os.path.join(room, "main.conf")]
        checked = subprocess.run([*words, "-t"], capture_output=True)
        same(0, checked.returncode, checked.stderr)
        self.it = subprocess.Popen(words, stderr=subprocess.DEVNULL)
        replay.connect(self.port).close()

    def certificate(self):
        made = subprocess.run(
            ["openssl", "req", "-x509", "-newkey", "ec", "-pkeyopt", "ec_paramgen_curve:prime256v1", "-nodes", "-days",
             "2", "-subj", f"/CN={NAME}", "-addext", f"subjectAltName=DNS:{NAME}", "-keyout",
             os.path.join(self.room, "tls.key"), "-out", os.path.join(self.room, "tls.crt")], capture_output=True)
        same(0, made.returncode, made.stderr)

    @functools.cached_property
    def trusts(self):
        """What a client trusts: this site's certificate."""
        return ssl.create_default_context(cafile=os.path.join(self.room, "tls.crt"))

    def plain(self):
        """A TLS connection."""
        link = socket.create_connection(("127.0.0.1", self.port), timeout=20)
        return self.trusts.wrap_socket(link, server_hostname=NAME)

    def link(self):
        """The same by `http.client`."""
        link = http.client.HTTPConnection(NAME, timeout=20)
        link.sock = self.plain()
        return link

    def ask(self, method, target, body=None, headers=None):
        """A request over a connection of its own: status and body."""
        link = self.link()
        try:
            link.request(method, target, body, ACCESS if headers is None else headers)
            got = link.getresponse()
            return got.status, got.read()
        finally:
            link.close()

    def end(self):
        """Ends it, by a signal that its workers hear of."""
        self.it.terminate()
        self.it.wait(timeout=20)


@contextlib.contextmanager
def before(room, path, connections=100000, pause=0.3, **how):
    """nginx before a program that is kept; both are ended."""
    needs("nginx", "openssl")
    port = replay.free_port()
    kept = Kept([program.find(), path, "serve", str(port), str(connections)], room, port, pause)
    front = None
    try:
        front = Front(room, kept.port, **how)
        yield kept, front
    finally:
        if front:
            front.end()
        kept.close()
