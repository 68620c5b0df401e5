"""The server of lines: one program, many callers. `rollback_client.serve` is its command.

callers     connections, and the lines that come from them
turns       whose line is given to the program next, and whose reply came
pieces      a long drive or work in pieces
program     the program as a child, and what its words mean
places      sockets: their rights, and which of them are this server's own
unread      how much of replies may wait for callers that don't read
log         a line for each line answered
copy        a copy of the journal amid all that
follower    rollback_graph as a child that answers questions, and is fed what is accepted
inside      the runner within the server
runners     who runs the book, within the server or beside it, and what is paused
running     its beginning and its end
"""
