"""The members of a request, each read with its kind and its bounds."""
from __future__ import annotations

from typing import Any, Dict, List, Mapping, Optional, Sequence

from .wire import Fault

MOST_ARN = 256


def fault_of(name: str, rule: str) -> Fault:
    """What is answered of a member that breaks a rule of its kind."""
    return Fault(
        "ValidationException", f"1 validation error detected: Value at '{name}' failed to satisfy constraint: {rule}"
    )


class Members:
    """The members of one request. A member of another kind or out of its bounds is a `ValidationException`."""

    def __init__(self, body: Mapping[str, Any]):
        self._body = body

    def has(self, name: str) -> bool:
        """Whether a member is there, and isn't null."""
        return self._body.get(name) is not None

    def __getitem__(self, name: str) -> Any:
        return self._body.get(name)

    def text(self, name: str, most: int = MOST_ARN, least: int = 1) -> str:
        """A required text."""
        found = self.maybe_text(name, most, least)
        if found is None:
            raise fault_of(name, "Member must not be null")
        return found

    def maybe_text(self, name: str, most: int = MOST_ARN, least: int = 0) -> Optional[str]:
        """A text, if it is there."""
        found = self._body.get(name)
        if found is None:
            return None
        if not isinstance(found, str):
            raise Fault("SerializationException", f"{name} has to be a text")
        if not least <= len(found) <= most:
            rule = f"greater than or equal to {least}" if len(found) < least else f"less than or equal to {most}"
            raise fault_of(name, f"Member must have length {rule}")
        return found

    def whole(self, name: str, least: int, most: Optional[int], otherwise: int) -> int:
        """A whole number, or the one that counts if it isn't there."""
        found = self._body.get(name)
        if found is None:
            return otherwise
        if isinstance(found, bool) or not isinstance(found, int):
            raise Fault("SerializationException", f"{name} has to be a whole number")
        if found < least:
            raise fault_of(name, f"Member must have value greater than or equal to {least}")
        if most is not None and found > most:
            raise fault_of(name, f"Member must have value less than or equal to {most}")
        return found

    def flag(self, name: str, otherwise: bool = False) -> bool:
        """A truth value."""
        found = self._body.get(name)
        if found is None:
            return otherwise
        if not isinstance(found, bool):
            raise Fault("SerializationException", f"{name} has to be true or false")
        return found

    def choice(self, name: str, choices: Sequence[str], otherwise: Optional[str] = None) -> Optional[str]:
        """One of these texts."""
        found = self._body.get(name)
        if found is None:
            return otherwise
        if found not in choices:
            raise fault_of(name, f"Member must satisfy enum value set: [{', '.join(choices)}]")
        return str(found)

    def fields(self, name: str) -> Optional[Dict[str, Any]]:
        """An object, if it is there."""
        found = self._body.get(name)
        if found is not None and not isinstance(found, dict):
            raise Fault("SerializationException", f"{name} has to be an object")
        return found

    def listed(self, name: str) -> Optional[List[Any]]:
        """A list, if it is there."""
        found = self._body.get(name)
        if found is not None and not isinstance(found, list):
            raise Fault("SerializationException", f"{name} has to be a list")
        return found
