"""Amazon's Signature Version 4: who signed a request, and whether the signature is right."""
from __future__ import annotations

import hashlib
import hmac
import os
import re
import stat
from dataclasses import dataclass
from datetime import datetime, timezone
from typing import Dict, List, Mapping, Optional, Sequence, Tuple
from urllib.parse import quote

from .wire import Fault

ALGORITHM = "AWS4-HMAC-SHA256"
MOST_SECONDS = 300.0  # between the time of a signature and the server's
_FORM = re.compile(rf"{ALGORITHM} +Credential=([^,\s]+), *SignedHeaders=([^,\s]+), *Signature=([0-9a-f]{{64}})")
_TIME = "%Y%m%dT%H%M%SZ"


@dataclass(frozen=True)
class Signature:
    """What the header `Authorization` says. The scope is the date, the region, the service and `aws4_request`."""

    key: str
    scope: Tuple[str, ...]
    headers: Tuple[str, ...]
    digest: str


@dataclass(frozen=True)
class Signed:
    """A request as a signature has it. The headers' names are lower, and the path is as it was sent."""

    method: str
    path: str
    query: Sequence[Tuple[str, str]]
    headers: Mapping[str, str]
    body: bytes


def signature_of(header: Optional[str]) -> Signature:
    """The signature of a request. None is a `MissingAuthenticationTokenException`, as of Amazon."""
    if not header:
        raise Fault("MissingAuthenticationTokenException", "the request is not signed: give the tool an access key")
    found = _FORM.fullmatch(header.strip())
    key, _, scope = found[1].partition("/") if found is not None else ("", "", "")
    parts = tuple(scope.split("/"))
    if found is None or not key or len(parts) != 4 or parts[3] != "aws4_request":
        raise Fault("IncompleteSignatureException", f"Authorization has to be one of {ALGORITHM}")
    return Signature(key, parts, tuple(found[2].split(";")), found[3])


class Credentials:
    """Secrets by their access keys."""

    def __init__(self, secrets: Mapping[str, str]):
        self._secrets = dict(secrets)

    @staticmethod
    def read(path: str) -> Credentials:
        """Those of a file of lines `KEY SECRET`. One that others can read, or another line, is a `ValueError`."""
        with open(path, encoding="utf-8") as stream:
            mode = stat.S_IMODE(os.fstat(stream.fileno()).st_mode)
            if mode & 0o077:
                raise ValueError(f"{path} has mode {mode:04o}: give it 0600, since whoever reads it may sign")
            lines = [line.split() for line in stream if line.strip() and not line.startswith("#")]
        if not lines:
            raise ValueError(f"{path} has no line KEY SECRET")
        secrets: Dict[str, str] = {}
        for words in lines:
            if len(words) != 2:
                raise ValueError(f"{path} has a line that isn't KEY SECRET")
            secrets[words[0]] = words[1]
        return Credentials(secrets)

    def check(self, signature: Signature, signed: Signed, now: float) -> None:
        """Refuses an unknown key, a time that is too far off, and a wrong signature."""
        secret = self._secrets.get(signature.key)
        if secret is None:
            raise Fault("UnrecognizedClientException", "The security token included in the request is invalid.")
        stamp = signed.headers.get("x-amz-date", "")
        _check_time(stamp, now)
        if signature.scope[0] != stamp[:8]:
            raise _invalid("the date of Credential isn't that of X-Amz-Date")
        if not {"host", "x-amz-date"} <= set(signature.headers):
            raise _invalid("Host and X-Amz-Date have to be signed")
        if not hmac.compare_digest(digest_of(secret, signature, signed, stamp), signature.digest):
            raise _invalid(
                "The request signature we calculated does not match the signature you provided. "
                "Check your AWS Secret Access Key and signing method."
            )


def _invalid(message: str) -> Fault:
    return Fault("InvalidSignatureException", message)


def _check_time(stamp: str, now: float) -> None:
    try:
        moment = datetime.strptime(stamp, _TIME).replace(tzinfo=timezone.utc).timestamp()
    except ValueError:
        raise _invalid(f"X-Amz-Date has to be a time as 20150830T123600Z, and not {stamp[:40]!r}") from None
    if abs(moment - now) > MOST_SECONDS:
        side = "expired" if moment < now else "not yet current"
        raise _invalid(f"Signature {side}: {stamp} is more than five minutes from the server's time")


def digest_of(secret: str, signature: Signature, signed: Signed, stamp: str) -> str:
    """The signature that this secret gives."""
    scope = "/".join(signature.scope)
    request = hashlib.sha256(canonical_request(signature, signed).encode()).hexdigest()
    text = "\n".join((ALGORITHM, stamp, scope, request))
    key = f"AWS4{secret}".encode()
    for part in signature.scope:
        key = hmac.new(key, part.encode(), hashlib.sha256).digest()
    return hmac.new(key, text.encode(), hashlib.sha256).hexdigest()


def canonical_request(signature: Signature, signed: Signed) -> str:
    """A request in the form that is signed."""
    query = "&".join(f"{_escaped(name)}={_escaped(value)}" for name, value in sorted(signed.query))
    headers: List[str] = []
    for name in signature.headers:
        headers.append(f"{name}:{' '.join(signed.headers.get(name, '').split())}\n")
    # the body that came counts, and no hash of it that a header claims
    body = hashlib.sha256(signed.body).hexdigest()
    return "\n".join((signed.method, signed.path or "/", query, "".join(headers), ";".join(signature.headers), body))


def _escaped(text: str) -> str:
    return quote(text, safe="-_.~")
