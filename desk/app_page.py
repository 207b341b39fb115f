"""The page that does it all, for a tablet that gets it from the desk: it keeps it, and opens it without network."""

from __future__ import annotations

from pathlib import Path

from desk.farmbook import ROOT
from desk.http import HTML, Response

PLACES = (ROOT / "target" / "farmbook.html", ROOT / "dist" / "farmbook.html")
FILES = Path(__file__).resolve().parent / "files"

# What stands below /app: a file of the desk's own, and its content type.
OWN = {
    "/app/manifest.webmanifest": ("manifest.webmanifest", "application/manifest+json"),
    "/app/icon.svg": ("icon.svg", "image/svg+xml"),
    "/app/worker.js": ("worker.js", "text/javascript; charset=utf-8"),
}

# The page's own policy lets it talk to nobody. From the desk it may talk to the desk, and to nobody else.
POLICY = (
    "default-src 'none'; script-src 'self' 'unsafe-inline' 'wasm-unsafe-eval'; style-src 'unsafe-inline'; img-src 'self' data: blob:;"
    " connect-src 'self'; manifest-src 'self'; worker-src 'self'; frame-src blob: data:; form-action 'none'; frame-ancestors 'none'; base-uri 'none'"
)
CLOSED = b"<meta http-equiv=\"Content-Security-Policy\" content=\"default-src 'none'; "
TO_THE_DESK = b"connect-src 'self'; manifest-src 'self'; worker-src 'self'; img-src 'self'; "
TITLE = b"<title>"
LINKS = b'<link rel="manifest" href="/app/manifest.webmanifest" crossorigin="use-credentials">\n<link rel="icon" href="/app/icon.svg">\n'


def answer(path: str) -> Response | None:
    """What stands at a path below /app; None where nothing does."""
    if path == "/app":
        return _page()
    if path in OWN:
        name, kind = OWN[path]
        scope = (("Service-Worker-Allowed", "/app"),) if name == "worker.js" else ()
        return Response(200, (FILES / name).read_bytes(), kind, scope, POLICY)
    return None


def is_here() -> bool:
    """Whether there is a page to serve."""
    return any(place.is_file() for place in PLACES)


def _page() -> Response:
    for place in PLACES:
        if place.is_file():
            page = place.read_bytes()
            if page.count(CLOSED) != 1:
                return Response(404, f"{place.name} is no page of web/build\n".encode())
            return Response(200, page.replace(CLOSED, CLOSED + TO_THE_DESK).replace(TITLE, LINKS + TITLE, 1), HTML, policy=POLICY)
    return Response(404, b"the page is not here: web/build makes it\n")
