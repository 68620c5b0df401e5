"""A server of lines: one program, many callers.

    python3 -m rollback_client.serve --journal orders.db --socket /run/rollback/orders
    python3 -m rollback_client.serve --journal orders.db --listen 127.0.0.1:7070

Each caller sends lines and gets the replies to its own lines, in its own order. Callers take turns, a line each, and at most 16 lines
are with the program at once. The last bytes of a caller that goes away in the middle of a line are dropped. A line of more than
1,048,576 bytes is answered `no 20`, as the program would.

A `drive` or a `work` of more than 256 steps is given in pieces of at most 256, between the lines of others, and answered as one. A
drive's pieces are shorter while the disk is slow, and it ends with the first one that takes fewer steps than it was given. After such a piece of a `work` all that is left is given as one
line. If a piece is refused after steps were taken, the reply is these steps. Each piece of a `work` is written into the journal
together, and not the whole. If the caller goes away, or the server ends, the line ends with the piece at hand.

The socket has mode 0600, or that of `--mode` and the group of `--group`, and never had a wider one. Over TCP the server listens on the
loopback alone, which every user of the machine can reach.

A caller too many is answered `busy`, and its connection ends. With `--idle SECONDS` the caller that has idled longest, and at least so
long, makes room for it; one that is owed a reply isn't idle. If callers leave more than `--unread` megabytes of replies unread, all
together, the one that leaves most is let go.

With `--log FILE` a line of JSON is appended for each line answered: `time`, `caller`, `line`, `reply` (its first line), both cut at 4 kB,
`length` and `milliseconds`. SIGHUP opens the file again. A line that begins with `!` is for the server itself: `!copy` is answered with
`ok`, the bytes of the journal and of its log, and then these files, as they were between two lines (`rollback_client.copy` asks).

With `--ask` a line that begins with `?` is a question, which `rollback_graph` answers as a follower that gets each accepted line. With
`--run` a runner takes steps, too, by turns and clocks (`rollback_client.runner`); `!pause`, `!resume` and `!waits` are for it, or for one
beside the server. FILE-clock, beside the journal, keeps when threads came to their Waits, and what is paused.

The server listens once the program has opened its journal. If it can't, the server ends with the program's status and words, and says
what they usually mean; with `--wait SECONDS` it tries again while another process has the file. The program ends with the server,
also if that is killed.

SIGTERM, SIGINT, SIGQUIT and, without a log, SIGHUP end the server: it takes no further lines, answers those at hand, closes the
journal, and waits `--grace SECONDS` for its replies to be read. Its status is then the program's. A second signal ends the waiting. If
the program ends by itself, each caller's connection ends, and so does the server, with status 1 at least.

With `--aws` it answers calls of Amazon's Step Functions and DynamoDB at `--http` (`rollback_client.aws`). FILE-aws, beside the journal, keeps
texts, roles, tags and times as they were given.

Without `--ask` and `--run` it keeps nothing of its own.
"""
from __future__ import annotations

import asyncio
import sys
from typing import cast

from .server.running import serve
from .server.speaking import say
from .server.words import read_words


def main() -> int:
    """Serves as the command line says, and gives the status."""
    words = read_words()
    try:
        if words.cluster is not None and words.cluster_status:
            from .cluster.status import show_status
            from .cluster.words import ClusterWords

            return asyncio.run(show_status(cast(ClusterWords, words)))
        return asyncio.run(serve(words))
    except (OSError, ValueError) as fault:
        say(str(fault))
        return 2
    except KeyboardInterrupt:
        return 130


if __name__ == "__main__":
    sys.exit(main())
