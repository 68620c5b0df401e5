"""Certificates for tests of TLS, made by openssl: an authority, and those that it signs."""
import pathlib
import shutil
import ssl
import subprocess


def what_is_missing():
    """What this machine lacks to make them, or nothing."""
    return None if shutil.which("openssl") else "there is no openssl"


class Authority:
    """An authority with its folder. `files` gives the three paths that each side needs: certificate, key, authority."""

    def __init__(self, folder, name="authority"):
        self.folder = pathlib.Path(folder)
        self.folder.mkdir(parents=True, exist_ok=True)
        self.certificate, self.key = self.folder / f"{name}.pem", self.folder / f"{name}.key"
        # Python looks for the use of an authority's key from 3.13 on, and for the key's name.
        use = ("-addext", "keyUsage=critical,keyCertSign,cRLSign")
        made = ("-out", self.certificate, "-subj", f"/CN={name}", "-days", "2")
        self.run("req", "-x509", *self.new_key(self.key), *made, *use)

    def run(self, *words):
        subprocess.run(["openssl", *map(str, words)], check=True, stdout=subprocess.DEVNULL, stderr=subprocess.PIPE)

    def new_key(self, path):
        return ["-newkey", "ec", "-pkeyopt", "ec_paramgen_curve:prime256v1", "-nodes", "-keyout", path]

    def files(self, name, addresses=("127.0.0.1",)):
        """Signs a certificate of this name, for these addresses."""
        certificate, key, asked = (self.folder / f"{name}.{end}" for end in ("pem", "key", "csr"))
        about = self.folder / f"{name}.txt"
        names = ",".join(f"IP:{address}" for address in addresses)
        about.write_text(f"subjectAltName={names}\nauthorityKeyIdentifier=keyid\n", encoding="ascii")
        self.run("req", *self.new_key(key), "-out", asked, "-subj", f"/CN={name}")
        signed = ("-CA", self.certificate, "-CAkey", self.key, "-CAcreateserial", "-days", "2", "-extfile", about)
        self.run("x509", "-req", "-in", asked, *signed, "-out", certificate)
        return str(certificate), str(key), str(self.certificate)


def context_of(files):
    """The side of a caller."""
    certificate, key, authority = files
    found = ssl.create_default_context(ssl.Purpose.SERVER_AUTH, cafile=authority)
    found.load_cert_chain(certificate, key)
    return found
