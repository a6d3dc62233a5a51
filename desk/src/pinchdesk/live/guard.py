"""Who may ask the live desk: this machine's own page alone, by an address that nobody can guess.

Whatever is wrong has one answer, 404: a foreign page that knows the address can neither read nor write."""
from __future__ import annotations

import secrets
from collections.abc import Mapping, MutableMapping
from dataclasses import dataclass
from hmac import compare_digest
from typing import Any

HOST = '127.0.0.1'
LONGEST_BODY = 20_000_000
HEADERS = {
    'Content-Security-Policy': "default-src 'none'; script-src 'self'; style-src 'self'; img-src 'self'; "
                               "connect-src 'self'; base-uri 'none'; form-action 'none'; frame-ancestors 'none'",
    'Cross-Origin-Resource-Policy': 'same-origin', 'Cross-Origin-Opener-Policy': 'same-origin',
    'Referrer-Policy': 'no-referrer', 'X-Content-Type-Options': 'nosniff', 'X-Frame-Options': 'DENY',
    'Cache-Control': 'no-store'}
# The page for the reviewer has its styles and its pictures inside of it.
OF_REPORT = "default-src 'none'; style-src 'unsafe-inline'; img-src data:; base-uri 'none'; form-action 'none'; " \
            "frame-ancestors 'none'"
Scope = MutableMapping[str, Any]


def fresh_token() -> str:
    """256 bits, as they stand in an address."""
    return secrets.token_urlsafe(32)


@dataclass(frozen=True)
class Guard:
    """The first part of the path of each address, and the port."""

    token: str
    port: int

    @property
    def host(self) -> str:
        return f'{HOST}:{self.port}'

    @property
    def origin(self) -> str:
        return f'http://{self.host}'

    @property
    def address(self) -> str:
        return f'{self.origin}/{self.token}/'

    def path(self, scope: Scope) -> str | None:
        """The path behind the token; None where the request is not one of the page's own."""
        parts = scope.get('path', '').split('/', 2)
        if len(parts) < 3:
            return None
        first, rest = parts[1:]
        token = compare_digest(first.encode('utf-8', 'replace'), self.token.encode())
        headers = one_each(scope)
        if not token or headers is None or not compare_digest(headers.get('host', '').encode(), self.host.encode()):
            return None
        if scope['type'] == 'websocket':
            allowed = headers.get('origin') == self.origin
        elif scope.get('method') == 'POST':
            allowed = self.is_own_post(headers)
        else:
            allowed = scope.get('method') == 'GET' and is_own_get(headers, rest)
        return rest if allowed else None

    def is_own_post(self, headers: Mapping[str, str]) -> bool:
        length = headers.get('content-length', '')
        kind = headers.get('content-type', '').partition(';')[0].strip().lower()
        return (headers.get('origin') == self.origin and kind == 'application/json' and length.isascii()
                and length.isdigit() and int(length[:12]) <= LONGEST_BODY
                and headers.get('sec-fetch-site', 'same-origin') == 'same-origin')


def is_own_get(headers: Mapping[str, str], path: str) -> bool:
    """Whether the page itself asks, or somebody goes to the page."""
    site = headers.get('sec-fetch-site', 'same-origin')
    if site == 'same-origin':
        return True
    goes = headers.get('sec-fetch-mode') == 'navigate' and headers.get('sec-fetch-dest') == 'document'
    return goes and path == ''


def one_each(scope: Scope) -> dict[str, str] | None:
    """The headers by their names; None where one that counts stands twice."""
    found: dict[str, str] = {}
    for name, value in scope.get('headers', ()):
        key = name.decode('latin-1').lower()
        if key in found and key in ('host', 'origin', 'content-type', 'content-length', 'sec-fetch-site'):
            return None
        found[key] = value.decode('latin-1')
    return found
