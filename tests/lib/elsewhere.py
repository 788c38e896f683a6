"""Pages of another origin on this machine, as anybody may put them on the web."""

import contextlib
import html
import http.server
import threading

from program import sheet_of
from serving import HOST


def foreign_page(port):
    """A page that sends an edit sheet to nginx as soon as it is opened, as a form may from anywhere."""
    sheet = sheet_of("x1,link,4247,5").decode()
    (first, _, rest) = sheet.partition("=") if "=" in sheet else (sheet, "", "")
    return (
        f"<form action='http://{HOST}:{port}/v1/edits' method='post' enctype='text/plain'>"
        f"<textarea name='{html.escape(first)}'>{html.escape(rest)}</textarea></form><script>document.forms[0].submit()</script>"
    ).encode()


@contextlib.contextmanager
def elsewhere(text):
    """A server of another origin, which has this page alone."""

    class Handler(http.server.BaseHTTPRequestHandler):
        def do_GET(self):
            self.send_response(200)
            self.send_header("Content-Type", "text/html")
            self.end_headers()
            self.wfile.write(text)

        def log_message(self, *words):
            pass

    with http.server.ThreadingHTTPServer((HOST, 0), Handler) as server:
        threading.Thread(target=server.serve_forever, daemon=True).start()
        try:
            yield server.server_address[1]
        finally:
            server.shutdown()
