"""Pages of a long answer. A token says behind which row the next one begins, and to which call it belongs."""
from __future__ import annotations

import base64
import binascii
import json
from typing import Any, Dict, List, Optional

from .wire import Fault


def token_of(text: Optional[str], call: str) -> Any:
    """Behind which row a page begins; nothing if it is the first one. A token of another call is an `InvalidToken`."""
    if text is None:
        return None
    try:
        found = json.loads(base64.urlsafe_b64decode(text.encode()))
        if isinstance(found, list) and len(found) == 2 and found[0] == call:
            return found[1]
    except (ValueError, binascii.Error, RecursionError):
        pass
    raise Fault("InvalidToken", f"Invalid Token: '{text[:100]}'")


def page_of(name: str, rows: List[Any], last: Any, call: str) -> Dict[str, Any]:
    """A page with these rows. `last` is what its last row is known by, or nothing if no page follows."""
    if last is None:
        return {name: rows}
    return {name: rows, "nextToken": base64.urlsafe_b64encode(json.dumps([call, last]).encode()).decode()}
