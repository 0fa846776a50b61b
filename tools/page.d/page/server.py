"""The page's server: on the loopback address alone, behind a token in its address."""
import hmac
import json
import pathlib
import socketserver
from typing import Any, Callable, Dict, Iterable, List, Set
from wsgiref.simple_server import WSGIRequestHandler, WSGIServer

import bottle  # type: ignore[import]

from page.folder import MOST_BYTES, Folder, Refused
from page.jobs import Desk, Task
from page.parts import CODEMIRROR, D3, missing

STATIC = pathlib.Path(__file__).resolve().parent.parent / "static"
MOST_BODY = 2 * MOST_BYTES
HEADERS = [
    ("Content-Security-Policy", "default-src 'none'; script-src 'self'; style-src 'self'; img-src 'self' data:; connect-src 'self'; "
     "base-uri 'none'; form-action 'none'; frame-ancestors 'none'"),
    ("X-Content-Type-Options", "nosniff"), ("Referrer-Policy", "no-referrer"), ("Cache-Control", "no-store"),
    ("Cross-Origin-Resource-Policy", "same-origin"),
]
# The files of other packages that the page takes, by the name under which it does.
PACKAGED = {
    "codemirror.js": CODEMIRROR / "lib/codemirror.js", "codemirror.css": CODEMIRROR / "lib/codemirror.css",
    "matchbrackets.js": CODEMIRROR / "addon/edit/matchbrackets.js", "d3.js": D3 / "d3.min.js",
}
Start = Callable[..., Any]
App = Callable[[Dict[str, Any], Start], Iterable[bytes]]


class Threaded(socketserver.ThreadingMixIn, WSGIServer):
    daemon_threads = True
    request_queue_size = 64


class Quiet(WSGIRequestHandler):
    def log_message(self, format: str, *args: Any) -> None:
        """Says nothing: the address has the token."""


def guarded(app: App, token: str, hosts: Set[str]) -> App:
    """Answers only what is asked by the token and of this host, and takes the token off the path."""

    def answer(environ: Dict[str, Any], start: Start) -> Iterable[bytes]:
        def begin(status: str, headers: List[Any], *rest: Any) -> Any:
            return start(status, headers + HEADERS, *rest)

        given, slash, path = environ.get("PATH_INFO", "")[1:].partition("/")
        is_right = hmac.compare_digest(given.encode("latin-1", "replace"), token.encode())
        origin = environ.get("HTTP_ORIGIN")
        if not (is_right and slash and environ.get("HTTP_HOST") in hosts and (origin is None or origin[len("http://"):] in hosts)):
            begin("404 Not Found", [("Content-Type", "text/plain; charset=utf-8")])
            return [b"There is nothing here. The address that tools/page printed is the right one.\n"]
        environ["SCRIPT_NAME"], environ["PATH_INFO"] = f"/{token}", "/" + path
        return app(environ, begin)

    return answer


def body() -> Dict[str, Any]:
    """The JSON text of a request."""
    if bottle.request.content_length > MOST_BODY:
        raise Refused(f"the request has more than {MOST_BODY >> 20} megabytes")
    try:
        found = json.loads(bottle.request.body.read(MOST_BODY))
    except (ValueError, RecursionError) as error:
        raise Refused("the request is no JSON text") from error
    if not isinstance(found, dict):
        raise Refused("the request is no JSON object")
    return found


def text_in(found: Dict[str, Any], key: str) -> str:
    value = found.get(key)
    if not isinstance(value, str):
        raise Refused(f"the request has no {key}")
    try:
        value.encode()
    except UnicodeEncodeError as error:
        raise Refused(f"the {key} is no Unicode text") from error
    return value


class Pages:
    """What each address answers."""

    def __init__(self, folder: Folder, desk: Desk) -> None:
        self.folder, self.desk = folder, desk

    def app(self) -> App:
        app = bottle.Bottle()
        app.route("/", "GET", callback=lambda: bottle.static_file("page.html", root=STATIC))
        app.route("/static/<name>", "GET", callback=lambda name: bottle.static_file(name, root=STATIC))
        app.route("/packaged/<name>", "GET", callback=self.packaged)
        app.route("/about", "GET", callback=self.about)
        app.route("/file", "GET", callback=refusing(self.file))
        app.route("/save", "POST", callback=refusing(self.save))
        app.route("/run", "POST", callback=refusing(self.run))
        found: App = app
        return found

    def packaged(self, name: str) -> Any:
        path = PACKAGED.get(name)
        return bottle.static_file(path.name, root=path.parent) if path else bottle.HTTPError(404)

    def about(self) -> Dict[str, Any]:
        limits = self.desk.runner.limits
        return {
            "folder": str(self.folder.root), "files": self.folder.names(), "missing": missing(), "modes": self.desk.program.modes(),
            "limits": {"seconds": limits.seconds, "memory": limits.memory, "output": limits.output, "atATime": limits.at_a_time},
        }

    def file(self) -> Dict[str, Any]:
        found = self.folder.open(bottle.request.query.getunicode("name") or "")
        return {"name": found.name, "text": found.text, "changed": str(found.changed), "ends": found.ends, "note": found.note}

    def save(self) -> Dict[str, Any]:
        given = body()
        since = given.get("changed")
        changed = self.folder.save(text_in(given, "name"), text_in(given, "text"), text_in(given, "ends"), int(since) if since else None)
        return {"changed": str(changed)}

    def run(self) -> Iterable[bytes]:
        given = body()
        name, text = text_in(given, "name"), text_in(given, "text")
        self.folder.place(name)
        bottle.response.content_type = "application/x-ndjson"
        return self.desk.answer(Task(name, text, given))


def refusing(answer: Callable[[], Any]) -> Callable[[], Any]:
    """Answers a refusal as JSON, with the status 400."""

    def call() -> Any:
        try:
            return answer()
        except (Refused, ValueError) as refused:
            bottle.response.status = 400
            return {"error": str(refused)}

    return call


def made_server(folder: Folder, desk: Desk, port: int, token: str) -> WSGIServer:
    """A server on the loopback address; port 0 takes any free one."""
    server = Threaded(("127.0.0.1", port), Quiet)
    hosts = {f"{host}:{server.server_port}" for host in ("127.0.0.1", "localhost")}
    server.set_app(guarded(Pages(folder, desk).app(), token, hosts))
    return server


def address(server: WSGIServer, token: str) -> str:
    return f"http://127.0.0.1:{server.server_port}/{token}/"


