"""A runner: it decides when each thread's next step is asked for, by turns and clocks.

clocks        when a thread may be stepped: Wait, and retries with intervals
clock_file    when threads came to where they are, and what is paused, kept for the next start
schedule      which thread is next: executions take turns, and clocks hold threads up
running       what is asked and given, one after another, the same within a server and alone
alone         a runner that is a caller of a server; rollback_client.server.inside is the one within it
"""
from .running import Options, Running
from .schedule import Schedule

__all__ = ["Options", "Running", "Schedule"]
