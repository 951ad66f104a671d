"""Refusals as answers: JSON with the status, a sentence, and what to do."""

import http
import json

from aiohttp import web

COMMON = {
    "Server": "tsumego-server",
    "X-Content-Type-Options": "nosniff",
    "Cache-Control": "no-store",
    "Referrer-Policy": "no-referrer",
    "Content-Security-Policy": "default-src 'none'; frame-ancestors 'none'; sandbox",
}


def body(status, line, remedy=None, **more):
    told = {"status": status, "error": line, **({"remedy": remedy} if remedy else {}), **more}
    return json.dumps(told).encode() + b"\n"


def refusal(status, line, remedy=None, allow=None, after=None, **more):
    """The answer of a refused request."""
    headers = {**COMMON, **({"Allow": allow} if allow else {}), **({"Retry-After": str(after)} if after else {})}
    return web.Response(status=status, body=body(status, line, remedy, **more), content_type="application/json", headers=headers)


def raw(status, line, remedy):
    """The same as bytes, for a connection that has sent no whole request."""
    text = body(status, line, remedy)
    head = (
        f"HTTP/1.1 {status} {http.HTTPStatus(status).phrase}\r\nContent-Type: application/json\r\nContent-Length: {len(text)}\r\n"
        "Connection: close\r\nRetry-After: 1\r\n\r\n"
    )
    return head.encode() + text
