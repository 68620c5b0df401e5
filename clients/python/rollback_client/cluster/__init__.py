"""A book that survives the loss of one machine of three: servers of lines whose accepted lines are a log in etcd.

`rollback_client.serve --cluster` is its command. Nothing of this is imported without that word, and aiohttp is needed by `etcd` alone.

wire        bytes as the gateway takes them
etcd        the calls of etcd's JSON gateway, to whichever member answers
log         the log of a book and the key of the server that leads
entries     what the log gets of a line, and the hashes by which books are compared
journal     the rows of a server's own journal: whose they are, and those that are cut
replica     how far a server's own book is in the log
gate        replies that wait until the log has the lines before them
turns       callers' turns at a server that may lead, stand by, or have no book open
lines       what the console and Amazon's calls give and ask
http        the console and Amazon's calls, at the server that leads
standing    a server that stands by: it enters lines, answers questions, and tries to lead
leading     the server that leads
seeding     an empty log that is filled from a journal
member      one life after another: open, stand by, lead, give up
serving     the server's beginning, its callers and its end
status      who leads, and how far the others are
words       the words of the command line
"""
