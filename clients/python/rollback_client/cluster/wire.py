"""Bytes as etcd's JSON gateway takes and gives them."""
from __future__ import annotations

import base64
from typing import Any


def text(value: bytes) -> str:
    """Bytes as the gateway takes them."""
    return base64.b64encode(value).decode()


def bytes_of(pair: dict[str, Any], field: str = "value") -> bytes:
    """The bytes of a field of a pair. A field that is left out is empty."""
    return base64.b64decode(pair.get(field, ""))


def end_of(prefix: bytes) -> bytes:
    """The least key behind all keys that begin so."""
    return prefix[:-1] + bytes([prefix[-1] + 1])
