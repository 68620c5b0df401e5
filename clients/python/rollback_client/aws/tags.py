"""Tags, as both services have them: kept as given, and without effect."""
from __future__ import annotations

from typing import Any, Dict, List, Mapping, Optional, Sequence

from .members import fault_of
from .wire import Fault

MOST_TAGS, MOST_KEY, MOST_VALUE = 50, 128, 256


def tags_of(given: Optional[Sequence[Any]], key: str, value: str, member: str) -> Dict[str, str]:
    """A list of tags by their keys. The two names are those of a tag's members."""
    found: Dict[str, str] = {}
    for tag in given or ():
        if not isinstance(tag, dict):
            raise Fault("SerializationException", f"{member} has to be a list of tags")
        name, text = tag.get(key), tag.get(value, "")
        if not isinstance(name, str) or not 1 <= len(name) <= MOST_KEY:
            raise fault_of(member, f"a tag's key has 1 to {MOST_KEY} characters")
        if not isinstance(text, str) or len(text) > MOST_VALUE:
            raise fault_of(member, f"a tag's value has at most {MOST_VALUE} characters")
        found[name] = text
    return found


def listed(tags: Mapping[str, str], key: str, value: str) -> List[Dict[str, str]]:
    """Tags as they are answered."""
    return [{key: name, value: text} for name, text in tags.items()]


def with_more(tags: Mapping[str, str], more: Mapping[str, str], error: str) -> Dict[str, str]:
    """Tags with further ones. Too many are refused by this error."""
    found = {**tags, **more}
    if len(found) > MOST_TAGS:
        raise Fault(error, f"a resource has at most {MOST_TAGS} tags, and would have {len(found)}")
    return found


def keys_of(given: Optional[Sequence[Any]], member: str) -> List[str]:
    """The keys of tags that are to be removed."""
    if given is None or not all(isinstance(key, str) for key in given):
        raise fault_of(member, "Member must be a list of keys")
    return list(given)
