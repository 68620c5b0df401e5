"""The words of the server's command line."""
from __future__ import annotations

import argparse
from typing import Any, Callable, List, Optional, Sequence, TypeVar

from ..runner.running import Options
from ..runner.words import add_runner_words, options_of
from .places import group_of, loopback, mode_of
from .speaking import NAME

T = TypeVar("T")


class Words(argparse.Namespace):
    """What the command line says."""

    journal: Optional[str]
    program: str
    callers: int
    socket: Optional[str]
    listen: Optional[str]
    mode: int
    group: Optional[int]
    log: Optional[str]
    grace: float
    idle: Optional[float]
    unread: int
    wait: float
    cluster: Any  # the further words are those of `..cluster.words`
    book: Any
    tls: Any
    etcd_tls: Any
    ask: bool
    graph: Optional[str]
    run: bool
    http: Optional[str]  # the further words are those of `..web.words`
    token: List[str]
    new_tokens: bool
    no_link: bool
    read_only: bool
    aws: bool  # the further words are those of `..aws.words`
    credentials: Optional[str]
    region: Any
    account: Any
    table: Any

    def runner_options(self) -> Options:
        """What the runner is told."""
        return options_of(self)


def _typed(read: Callable[[str], T], name: str) -> Callable[[str], T]:
    """A reading of a word whose `ValueError` argparse shows with its own sentence."""

    def typed(text: str) -> T:
        try:
            return read(text)
        except ValueError as fault:
            raise argparse.ArgumentTypeError(str(fault)) from None

    typed.__name__ = name
    return typed


def _seconds(text: str) -> float:
    found = float(text)
    if not 0 <= found < 1e9:
        raise ValueError(f"no number of seconds: {text}")
    return found


def _positive(text: str) -> int:
    found = int(text)
    if found < 1:
        raise ValueError(f"a number from 1 on, and not {text}")
    return found


def _add_cluster(parser: argparse.ArgumentParser) -> None:
    """The words of a server of a cluster, which `..cluster.words` looks at."""
    add = parser.add_argument_group("a book on three machines").add_argument
    add("--cluster", metavar="URL,URL,URL", help="members of the etcd that has the log, the nearest first")
    add("--book", metavar="NAME", help="the book's name in that etcd")
    add("--ttl", type=int, default=5, metavar="SECONDS", help="how long a leader may say nothing (5)")
    add("--tls", metavar="CERT,KEY,CA", help="listens with TLS, to callers with a certificate of CA")
    add("--etcd-tls", metavar="CERT,KEY,CA", help="speaks to etcd with this certificate")
    add("--seed", action="store_true", help="fills an empty log from the journal")
    add("--cluster-status", action="store_true", help="asks who leads and how far the others are, and ends")


def _add_web(parser: argparse.ArgumentParser) -> None:
    """The words of the console, which `..web.words` looks at."""
    add = parser.add_argument_group("a console in the browser").add_argument
    add("--http", metavar="HOST:PORT", help="serves it at a port of the loopback, or at a Unix socket, a path with a /")
    add(
        "--token",
        action="append",
        default=[],
        metavar="NAME",
        help="a person who gets a link (console); may be given again",
    )
    add("--new-tokens", action="store_true", help="makes new links, and the old ones are refused")
    add("--no-link", action="store_true", help="says in which file the links are, and shows none")
    add("--read-only", action="store_true", help="the console gives no line")


def _look_at_web(parser: argparse.ArgumentParser, words: Words) -> None:
    if words.http is not None:
        from ..web.words import look_at

        look_at(parser, words)
    elif words.token or words.new_tokens or words.no_link or words.read_only:
        parser.error("--token, --new-tokens, --no-link and --read-only are words of --http")
    _look_at_aws(parser, words)


def _add_aws(parser: argparse.ArgumentParser) -> None:
    """The words for Amazon's tools, which `..aws.words` looks at."""
    add: Callable[..., Any] = parser.add_argument_group("calls of Step Functions and DynamoDB").add_argument
    add("--aws", action="store_true", help="answers them at --http, with --run: boto3, the aws command, Terraform")
    add("--credentials", metavar="FILE", help="checks signatures by this file of lines KEY SECRET, of mode 0600")
    add("--region", help="the region in ARNs (us-east-1)")
    add("--account", help="the account in ARNs (000000000000)")
    add("--table", nargs="+", metavar="WORD", help="NAME KEY:TYPE [KEY:TYPE]: begins a book that has no table")


def _look_at_aws(parser: argparse.ArgumentParser, words: Words) -> None:
    if words.aws:
        from ..aws.words import look_at

        look_at(parser, words)
    elif words.credentials or words.region or words.account or words.table:
        parser.error("--credentials, --region, --account and --table are words of --aws")


def _of_cluster(parser: argparse.ArgumentParser, words: Words) -> Words:
    """The words as they count: with --cluster as that package has them, and without it none of these."""
    if words.cluster is not None:
        from ..cluster.words import checked

        return checked(parser, words)
    if words.book or words.tls or words.etcd_tls or words.seed or words.cluster_status:
        parser.error("--book, --tls, --etcd-tls, --seed and --cluster-status are words of a --cluster")
    if words.listen is not None:
        try:
            loopback(words.listen)
        except ValueError as fault:
            parser.error(f"argument --listen: {fault}")
    return words


def read_words(given: Optional[Sequence[str]] = None) -> Words:
    """Reads the command line. Wrong words end the process with status 2 and a sentence."""
    parser = argparse.ArgumentParser(
        prog=f"python3 -m {NAME}", description="Serves the lines of several callers by one program."
    )
    add: Callable[..., Any] = parser.add_argument
    add("--journal", metavar="FILE", help="the journal's file; in memory if it is left out")
    add("--program", default="rollback", help="the program, rollback on the path if it is left out")
    add("--callers", type=_typed(_positive, "number"), default=64, metavar="N", help="at most so many at a time (64)")
    places = parser.add_mutually_exclusive_group(required=True)
    places.add_argument("--socket", metavar="PATH", help="a Unix socket, which is made")
    places.add_argument("--listen", metavar="HOST:PORT", help="a port of the loopback")
    add("--mode", type=_typed(mode_of, "mode"), help="the socket's mode in octal (0600)")
    add("--group", type=_typed(group_of, "group"), help="the socket's group")
    add("--log", metavar="FILE", help="a line of JSON for each line answered is appended to it")
    seconds = _typed(_seconds, "seconds")
    add("--grace", type=seconds, default=30.0, metavar="SECONDS", help="at its end, for replies to be read (30)")
    add("--idle", type=seconds, metavar="SECONDS", help="a caller that idles so long makes room for another (never)")
    add("--unread", type=_typed(_positive, "number"), default=512, metavar="MB", help="of replies of all callers (512)")
    add("--wait", type=seconds, default=0.0, metavar="SECONDS", help="tries again while the journal is in use (0)")
    add("--ask", action="store_true", help="answers questions, by rollback_graph as a follower")
    add("--graph", metavar="PATH", help="rollback_graph; beside the program or on the path if it is left out")
    add("--run", action="store_true", help="runs the book: steps by turns and clocks; answers questions, too")
    add_runner_words(parser)
    _add_web(parser)
    _add_aws(parser)
    _add_cluster(parser)
    words = parser.parse_args(given, Words())
    if not words.run and words.runner_options() != Options():
        parser.error("--rate, --only, --except and --settle-at are those of --run")
    words.ask = words.ask or words.run
    if words.graph is not None and not words.ask:
        parser.error("--graph is that of --ask or --run")
    if words.socket is None and (words.mode is not None or words.group is not None):
        parser.error("--mode and --group are those of a --socket")
    if words.socket == "":
        parser.error("--socket is a path, and not empty")
    words.mode = 0o600 if words.mode is None else words.mode
    _look_at_web(parser, words)
    return _of_cluster(parser, words)
