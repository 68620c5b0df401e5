"""The words of the command line of a server of a cluster."""
from __future__ import annotations

import argparse
import importlib.util
import ipaddress
import os
import re
from typing import List, Optional, Tuple

from ..links import host_and_port
from ..server.words import Words

LEAST_TTL = 2  # seconds: etcd gives no shorter lease with its own election timeout
Files = Tuple[str, str, str]
_NAME = re.compile(r"[A-Za-z0-9_-]{1,64}")


class ClusterWords(Words):
    """What the command line says, once `--cluster` is given."""

    cluster: List[str]
    book: str
    journal: str
    listen: str
    ttl: int
    tls: Optional[Files]
    etcd_tls: Optional[Files]
    seed: bool
    cluster_status: bool


def checked(parser: argparse.ArgumentParser, words: argparse.Namespace) -> ClusterWords:
    """The words, if they are those of a cluster. Others end the process with status 2 and a sentence."""
    found = ClusterWords(**vars(words))
    urls = [url.strip().rstrip("/") for url in words.cluster.split(",")]
    if not all(re.fullmatch(r"https?://[^/\s]+:[0-9]+", url) for url in urls):
        parser.error("--cluster is the URLs of etcd's members, as http://10.0.0.1:2379, with commas between them")
    if words.journal is None or words.listen is None or words.book is None:
        parser.error("--cluster needs --journal, --book and --listen")
    if not _NAME.fullmatch(words.book):
        parser.error("--book is a name of 1 to 64 ASCII letters, digits, _ and -")
    if words.ttl < LEAST_TTL:
        parser.error(f"--ttl is at least {LEAST_TTL} seconds")
    found.cluster = urls
    found.tls = _files(parser, "--tls", words.tls)
    found.etcd_tls = _files(parser, "--etcd-tls", words.etcd_tls)
    _look_at_host(parser, found)
    if importlib.util.find_spec("aiohttp") is None:
        parser.error("--cluster needs aiohttp for this Python (on Debian the package python3-aiohttp)")
    return found


def _files(parser: argparse.ArgumentParser, word: str, text: Optional[str]) -> Optional[Files]:
    if text is None:
        return None
    parts = text.split(",")
    if len(parts) != 3:
        parser.error(f"{word} is CERT,KEY,CA: a certificate, its key, and the authority of the other side")
    for path in parts:
        if not os.access(path, os.R_OK):
            parser.error(f"{word}: {path} can't be read")
    return parts[0], parts[1], parts[2]


def _look_at_host(parser: argparse.ArgumentParser, words: ClusterWords) -> None:
    """Callers are given this address, and beyond the loopback only those with a certificate may connect."""
    place = host_and_port(words.listen)
    if place is None:
        parser.error("--listen is HOST:PORT")
    host = place[0]
    try:
        address = ipaddress.ip_address(host)
        if address.is_unspecified:
            parser.error(f"callers are given the address of --listen: name this machine's own, and not {host}")
        is_loopback = address.is_loopback
    except ValueError:
        is_loopback = host == "localhost"
    if not is_loopback and words.tls is None:
        parser.error("beyond the loopback a server listens only with --tls CERT,KEY,CA")
