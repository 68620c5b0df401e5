"""A shell for operators: the program's commands at a prompt, with replies in words.

    python3 -m rollback_client.shell /run/rollback/orders
"""
from .core import Command, Shell
from .output import Output
from .session import Gone, Place, Session

__all__ = ["Command", "Gone", "Output", "Place", "Session", "Shell"]
