"""Certificates that tests make by `openssl`, and TLS in front of a plain host."""
import functools
import os
import pathlib
import select
import shutil
import socket
import ssl
import subprocess
import threading

from window import Terminal

NEW_KEY = ("-newkey", "ec", "-pkeyopt", "ec_paramgen_curve:prime256v1", "-nodes")
AUTHORITY = """[ca]
default_ca = own
[own]
database = index.txt
new_certs_dir = .
serial = serial
default_md = sha256
policy = any
copy_extensions = copy
[any]
commonName = supplied
"""


@functools.cache
def has_tls():
    """Whether TLS can be tested here; it is told once where it can't."""
    told = subprocess.run([Terminal.program, "--version"], capture_output=True, text=True).stdout
    lacking = "libssl-dev" if "without TLS" in told else "openssl" if shutil.which("openssl") is None else None
    if lacking is not None:
        print(f"left out: TLS at the terminal, since {lacking} isn't here")
    return lacking is None


class Authority:
    """One who signs certificates, in a folder of its own: NAME.pem has each with its key."""

    def __init__(self, folder, name="A test authority"):
        self.folder = pathlib.Path(folder)
        self.folder.mkdir(exist_ok=True)
        self.run("req", "-x509", *NEW_KEY, "-keyout", "ca.key", "-out", "ca.pem", "-subj", f"/CN={name}", "-days", "2")
        for name, text in (("ca.cnf", AUTHORITY), ("index.txt", ""), ("serial", "1000\n")):
            (self.folder / name).write_text(text)

    def run(self, *words, password=None):
        done = subprocess.run(["openssl", *words], cwd=self.folder, capture_output=True, text=True, input=password)
        if done.returncode != 0:
            raise RuntimeError(done.stderr)

    def sign(self, name, names, begin="20200101000000Z", end="20491231235959Z"):
        """A certificate for some names, as `DNS:localhost`; the name of its file."""
        self.run("req", *NEW_KEY, "-keyout", f"{name}.key", "-out", f"{name}.csr", "-subj", f"/CN={name}",
                 "-addext", f"subjectAltName={names}")
        self.run("ca", "-config", "ca.cnf", "-batch", "-notext", "-in", f"{name}.csr", "-out", f"{name}.crt",
                 "-cert", "ca.pem", "-keyfile", "ca.key", "-startdate", begin, "-enddate", end)
        both = (self.folder / f"{name}.crt").read_text() + (self.folder / f"{name}.key").read_text()
        (self.folder / f"{name}.pem").write_text(both)
        return self.file(f"{name}.pem")

    def file(self, name):
        return os.path.join(self.folder, name)


def context_of(pem, clients=None, version=None):
    """What a server needs with a certificate; `clients` is a file of those who sign clients'."""
    context = ssl.SSLContext(ssl.PROTOCOL_TLS_SERVER)
    context.load_cert_chain(pem)
    if clients is not None:
        context.verify_mode = ssl.CERT_REQUIRED
        context.load_verify_locations(clients)
    if version is not None:
        context.maximum_version = version
    return context


class Front:
    """TLS at a port of its own, and what it carries in the clear at the port of a host."""

    def __init__(self, context, host_port, port=0):
        self.context, self.host_port = context, host_port
        self.listening = socket.create_server(("127.0.0.1", port))
        self.secured = None  # The last line that came.
        self.port = self.listening.getsockname()[1]
        threading.Thread(target=self.serve, daemon=True).start()

    def serve(self):
        try:
            while True:
                line = self.listening.accept()[0]
                threading.Thread(target=self.carry, args=(line,), daemon=True).start()
        except OSError:
            pass

    def carry(self, line):
        try:
            with self.context.wrap_socket(line, server_side=True) as secured, \
                    socket.create_connection(("127.0.0.1", self.host_port)) as clear:
                self.secured = secured
                while both_ways(secured, clear):
                    pass
        except OSError:
            line.close()

    def close(self):
        self.listening.close()

    def close_line(self):
        """Closes the line as it is, though a thread waits at it."""
        self.secured.shutdown(socket.SHUT_RD)


def both_ways(secured, clear):
    """Carries what is there; false where an end has closed."""
    ready = [secured] if secured.pending() else select.select([secured, clear], [], [])[0]
    for source in ready:
        data = source.recv(65536)
        (clear if source is secured else secured).sendall(data)
        if not data:
            return False
    return True
