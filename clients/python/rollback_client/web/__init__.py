"""The console: an application of HTTP within the server of lines. aiohttp is needed, and imported only if `--http` is given.

words           the command line's words for it
tokens          who may: a token for each person, in a file of its own
guards          what each request has to be: its host, its origin, its token
serving         the application: where it listens, its routes, its end
requests        bodies that are read, and replies that are written
reads           what a page asks
gives           what a page gives
events          what a page hears of
seen            who gave which lines of the journal, and when
pages           the page, and the files that it loads
static          the console's own script and style; the viewer's are those of the follower's program
"""
