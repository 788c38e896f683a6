"""nginx and HAProxy before the program, with the lines of docs/SERVICE.md: only ports and folders are those of a test."""

import base64
import contextlib
import http.client
import os
import re
import signal
import subprocess
import time

from program import PATIENCE, TOP
from serving import HOST, connect, free_port

NGINX = "/usr/sbin/nginx"
HAPROXY = "/usr/sbin/haproxy"


def blocks_of_the_document(language):
    """The blocks of docs/SERVICE.md in this language, in their order."""
    return re.findall(rf"^```{language}\n(.*?)^```$", (TOP / "docs" / "SERVICE.md").read_text(), re.M | re.S)


def put(text, old, new):
    """The text with one place changed; that place must be there once."""
    assert text.count(old) == 1, old
    return text.replace(old, new)


def nginx_lines(folder, port, program_port, limited):
    """The server of the document and, where that is wanted, what limits who may edit."""
    server, limit = blocks_of_the_document("nginx")
    server = put(server, "listen 80;", f"listen {HOST}:{port};")
    server = put(server, "server 127.0.0.1:8080;", f"server {HOST}:{program_port};")
    server = put(server, "/srv/roads/page;", f"{folder};")
    if limited:
        place = "    location /v1/ {\n"
        server = put(server, place, place + put(limit, "/etc/nginx/roads.users", f"{folder}/roads.users"))
    return server


def nginx_configuration(folder, *settings):
    """All that nginx is told: everything that it writes goes into the folder."""
    places = ["client_body", "proxy", "fastcgi", "uwsgi", "scgi"]
    paths = "\n".join(f"{place}_temp_path {folder}/{place};" for place in places)
    user = "user root;" if os.getuid() == 0 else ""
    return (
        f"{user}\ndaemon off;\nworker_processes 1;\npid {folder}/nginx.pid;\nerror_log {folder}/error.log;\n"
        f"events {{ worker_connections 768; }}\nhttp {{\naccess_log off;\n{paths}\n{nginx_lines(folder, *settings)}\n}}\n"
    )


AUTH = "http-request auth realm roads if METH_POST !{ http_auth(editors) }"


def haproxy_configuration(folder, port, program_port, limited, health):
    """All that HAProxy is told: where that is wanted, what limits who may edit. The program is asked for `/health` only where that is wanted."""
    (lines,) = blocks_of_the_document("haproxy")
    lines = put(lines, "bind :80\n", f"bind {HOST}:{port}\n")
    lines = put(lines, " 127.0.0.1:8080 ", f" {HOST}:{program_port} ")
    lines = put(lines, "/srv/roads/page/", f"{folder}/")
    lines = put(lines, "    user haproxy\n    group haproxy\n", "")
    if limited:
        assert f"`{AUTH}` behind the line of 415" in (TOP / "docs" / "SERVICE.md").read_text()
        (guard,) = re.findall(r"^    http-request return status 415 .*\n", lines, re.M)
        lines = put(lines, guard, f"{guard}    {AUTH}\n") + "\nuserlist editors\n    user anna insecure-password secret\n"
    return lines if health else put(lines, " check inter 10s downinter 1s rise 1", "")


def listens(port):
    with contextlib.suppress(OSError), connect(port):
        return True
    return False


@contextlib.contextmanager
def proxy(words, port):
    """A proxy that was started by these words, once its port is answered; it is stopped in the end."""
    child = subprocess.Popen(words, stdin=subprocess.DEVNULL, stdout=subprocess.DEVNULL, stderr=subprocess.PIPE)
    try:
        limit = time.monotonic() + PATIENCE
        while not listens(port):
            if child.poll() is not None or time.monotonic() > limit:
                child.kill()
                raise AssertionError((words[0], "does not start", child.communicate()[1]))
            time.sleep(0.05)
        yield port
    finally:
        child.send_signal(signal.SIGTERM)
        child.wait(timeout=PATIENCE)
        child.stderr.close()


def web_server(folder, program_port, limited=False, health=False):
    """nginx before the program. It asks for no health by itself."""
    port, settings = free_port(), folder / "nginx.conf"
    settings.write_text(nginx_configuration(folder, port, program_port, limited))
    return proxy([NGINX, "-p", str(folder), "-e", f"{folder}/error.log", "-c", str(settings)], port)


def balancer(folder, program_port, limited=False, health=True):
    """HAProxy before the program. It reads the page when it starts."""
    port, settings = free_port(), folder / "haproxy.cfg"
    settings.write_text(haproxy_configuration(folder, port, program_port, limited, health))
    return proxy([HAPROXY, "-f", str(settings)], port)


def asked(port, method, path, body=None, kind="text/csv", user=None):
    """Status and body of a reply of a proxy."""
    fields = {} if body is None else {"Content-Type": kind}
    if user:
        fields["Authorization"] = "Basic " + base64.b64encode(user.encode()).decode()
    connection = http.client.HTTPConnection(HOST, port, timeout=PATIENCE)
    with contextlib.closing(connection):
        connection.request(method, path, body, fields)
        got = connection.getresponse()
        return got.status, got.read()


def posted(port, path, sheet, **settings):
    return asked(port, "POST", f"/v1/{path}", sheet, **settings)
