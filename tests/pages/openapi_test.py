"""docs/openapi.json says of each path what the program does: parameters, statuses, content types, and the members of each answer."""

import json
import re
import urllib.parse

import pytest

from program import FIRST, TOP, sheet_of
from schemas import API, examples, fits
from serving import answer, request, started

OPERATIONS = [(path, method, said) for path, methods in API["paths"].items() for method, said in methods.items()]
QUESTIONS = [(path, said) for path, method, said in OPERATIONS if method == "get"]
DRAFTS = [(path, said) for path, method, said in OPERATIONS if path.startswith("/v1/draft/")]
MORE = sheet_of("o1,enter,10,SPEED,A1,B,abs,3000,9000,80,0", "o2,ref,KM2,A1,abs,2000", "o3,retire,10,A1,abs,8000,8500")


@pytest.fixture(scope="module")
def port():
    with started() as server:
        for sheet in (FIRST, MORE):
            assert b" 200 " in answer(server.port, request("POST /v1/edits", sheet))
        yield server.port


def got(port, asked, body=None):
    """The status, the content type and the body of a reply."""
    head, _, body = answer(port, request(asked, body)).partition(b"\r\n\r\n")
    kind = re.search(rb"^Content-Type: (.*?)\r?$", head, re.M)
    return head.split()[1].decode(), kind and kind[1].decode(), body


# what is asked for in either way: a place, which has to be one of them, and rows, which on links are told in no pages
WAYS = {
    "/v1/where": [("route", "chainage"), ("link", "mm")],
    "/v1/rows": [("limit", "after", "exact"), ("on_links",)],
    "/v1/rows.csv": [("exact",), ("on_links",)],
}

# lengths of each value, and of combinations of values
WAYS |= dict.fromkeys(["/v1/lengths", "/v1/lengths.csv"], [(), ("by",)])


def of_another_way(path, name):
    """The parameters that are left out, beside this one or any."""
    ways = WAYS.get(path, [])
    taken = next((way for way in ways if name in way), ways[0] if ways else ())
    return {other: None for way in ways if way != taken for other in way}


def target(path, parameters, beside=None, /, **other):
    """A path with the examples of its parameters, some of which may be other ones or left out (None)."""
    other = of_another_way(path, beside) | other
    pairs = []
    for parameter in parameters:
        value = other.get(parameter["name"], parameter["example"])
        if parameter["in"] == "path":
            path = path.replace("{%s}" % parameter["name"], value)
        elif value is not None:
            pairs += [(parameter["name"], one) for one in (value if isinstance(value, list) else [value])]
    return path + ("?" + urllib.parse.urlencode(pairs) if pairs else "")


def malformed(name):
    return "400", "application/json", b'{"error":"Malformed:%s"}' % name.encode()


def is_said(said, status, kind, body):
    """Whether an operation says of this status, content type and body that it may answer so."""
    content = said["responses"][status].get("content", {})
    if kind is None:
        return content == {} and body == b""
    return kind in content and fits(json.loads(body) if kind == "application/json" else body.decode(), content[kind]["schema"])


def test_its_paths_are_those_of_the_program():
    page = (TOP / "crates" / "lrs_web_requests" / "specs" / "Paths.antt").read_text()
    routed = {path + "{name}" if path.endswith("/") else path for path in re.findall(r'codes "(/[a-z0-9/.]*)"', page)}
    assert set(API["paths"]) == routed and API["openapi"] == "3.1.0"


def test_each_operation_has_a_name_of_its_own():
    names = [said["operationId"] for _, _, said in OPERATIONS]
    assert len(set(names)) == len(names) and all(re.fullmatch("[a-z]+([A-Z][a-z]+)*", name) for name in names), names


def test_each_reply_is_the_example_of_it():
    """Asked one after the other, first the questions, of an inventory that was made so."""
    with started() as server:
        for sheet in (FIRST, MORE):
            assert b" 200 " in answer(server.port, request("POST /v1/edits", sheet))
        for path, method, said in sorted(OPERATIONS, key=lambda operation: operation[1]):
            if (path, said) in DRAFTS:
                continue
            sheet = said["requestBody"]["content"]["text/csv"]["example"].encode() if method == "post" else None
            status, kind, body = got(server.port, f"{method.upper()} {target(path, said['parameters'], resume=None, all=None)}", sheet)
            example = said["responses"]["200"]["content"][kind]["example"]
            assert (status, json.loads(body) if kind == "application/json" else body.decode()) == ("200", example), path


# what is drafted by the examples of forms
DRAFTED = sheet_of("d1,link,4,2000", "d2,route,A2,3:0:2000:+,0:9000 2000:11000", "d3,ref,KM10,A2,abs,10000")


def form_of(said):
    """The schema of the form that an operation takes, and the example of it, as it is sent."""
    form = said["requestBody"]["content"]["application/x-www-form-urlencoded"]
    return form["schema"], urllib.parse.urlencode(form["example"], doseq=True).encode()


def test_each_draft_is_the_example_of_it():
    with started() as server:
        for sheet in (FIRST, MORE, DRAFTED):
            assert b" 200 " in answer(server.port, request("POST /v1/edits", sheet))
        for path, said in DRAFTS:
            status, kind, body = got(server.port, f"POST {path}", form_of(said)[1])
            assert (status, kind, body.decode()) == ("200", "text/csv", said["responses"]["200"]["content"]["text/csv"]["example"]), path


@pytest.mark.parametrize("path, said", DRAFTS, ids=lambda x: x if isinstance(x, str) else "")
def test_a_form_has_the_parameters_that_the_file_says(port, path, said):
    schema, sent = form_of(said)
    for name in schema["properties"]:
        status, kind, body = got(port, f"POST {path}", sent + b"&" + urllib.parse.urlencode({name: "no word"}).encode())
        assert is_said(said, status, kind, body) and b"Unknown:" not in body, (path, name, body)
    for name in {"x", "asset", "route", "since", "key"} - set(schema["properties"]):
        status, kind, body = got(port, f"POST {path}", sent + b"&" + name.encode())
        assert (status, json.loads(body)) == ("400", {"error": f"Unknown:{name}"}) and is_said(said, status, kind, body)
    for name in schema.get("required", []):
        left = "&".join(pair for pair in sent.decode().split("&") if pair.partition("=")[0] != name).encode()
        status, kind, body = got(port, f"POST {path}", left)
        assert status in ("400", "409") and is_said(said, status, kind, body), (path, name, body)


@pytest.mark.parametrize("path, method, said", OPERATIONS, ids=lambda x: x if isinstance(x, str) else "")
def test_each_example_fits(path, method, said):
    for parameter in said["parameters"]:
        assert fits(parameter["example"], parameter["schema"]), parameter
    for response in said["responses"].values():
        for content in response.get("content", {}).values():
            assert fits(content["example"], content["schema"]), content


@pytest.mark.parametrize("path, said", QUESTIONS, ids=lambda x: x if isinstance(x, str) else "")
def test_an_answer_is_as_the_file_says(port, path, said):
    status, kind, body = got(port, "GET " + target(path, said["parameters"]))
    assert status == "200" and is_said(said, status, kind, body), (path, status, kind, body)
    assert body != b"" and b":[]" not in body.replace(b'"hits":[]', b""), (path, body)


def test_lengths_by_classes_are_the_example_of_their_schema(port):
    parameters = API["paths"]["/v1/lengths"]["get"]["parameters"]
    schema = API["components"]["schemas"]["Combinations"]
    status, kind, body = got(port, "GET " + target("/v1/lengths", parameters, "by"))
    assert (status, kind, json.loads(body)) == ("200", "application/json", schema["example"]) and fits(schema["example"], schema)


@pytest.mark.parametrize("path, said", QUESTIONS, ids=lambda x: x if isinstance(x, str) else "")
def test_what_is_missing_is_named(port, path, said):
    for parameter in said["parameters"]:
        if parameter["in"] == "query" and (parameter["required"] or path == "/v1/where"):
            if parameter["name"] == "link":
                continue  # without a link a place is asked for on a route
            left_out = target(path, said["parameters"], parameter["name"], **{parameter["name"]: None})
            assert got(port, "GET " + left_out) == malformed(parameter["name"]), left_out


@pytest.mark.parametrize("path, said", QUESTIONS, ids=lambda x: x if isinstance(x, str) else "")
def test_what_fits_a_schema_is_read_and_all_else_is_named(port, path, said):
    for parameter in said["parameters"]:
        if parameter["in"] == "path":
            continue
        name = parameter["name"]
        fitting, others = examples(parameter["schema"])
        for value in fitting if parameter["schema"] != {"type": "string"} else []:
            asked = target(path, said["parameters"], name, **{name: value})
            status, kind, body = got(port, "GET " + asked)
            # a position is read by its method, and a stretch may be empty
            assert (status != "400" or name == "method") and is_said(said, status, kind, body), (asked, status, body)
        for value in others:
            asked = target(path, said["parameters"], name, **{name: value})
            # of side B there are no segments
            assert got(port, "GET " + asked) == malformed(name) or (name, value) == ("side", "B"), asked


@pytest.mark.parametrize("path, said", QUESTIONS, ids=lambda x: x if isinstance(x, str) else "")
def test_a_parameter_that_is_not_there_is_named_or_passed_over_as_the_file_says(port, path, said):
    asked = target(path, said["parameters"])
    known = {parameter["name"] for parameter in said["parameters"]}
    for name in {"x", "", "claas", "Route", "route", "asset", "link", "from", "a b", '"'} - known:
        status, kind, body = got(port, f"GET {asked}{'&' if '?' in asked else '?'}{urllib.parse.urlencode({name: 1})}")
        if "Unknown:NAME" in said["responses"].get("400", {}).get("description", ""):
            assert (status, json.loads(body)) == ("400", {"error": f"Unknown:{name}"}), (asked, name, body)
            assert is_said(said, status, kind, body)
        else:
            assert (status, kind, body) == got(port, f"GET {asked}"), (asked, name)


# what the inventory does not have, and the status that says so
ABSENT = {"route": ("Z9", "404"), "name": ("Z9", "404"), "class": ("NONE", "422"), "by": ("NONE", "422"), "asset": (99, "422"), "edit": (999_999, "422"), "chainage": (8_001, "422")}


@pytest.mark.parametrize("path, said", QUESTIONS, ids=lambda x: x if isinstance(x, str) else "")
def test_what_is_not_there_has_the_status_that_the_file_says(port, path, said):
    for name in [parameter["name"] for parameter in said["parameters"] if parameter["name"] in ABSENT]:
        value, wanted = ABSENT[name]
        status, kind, body = got(port, "GET " + target(path, said["parameters"], name, **{name: value}))
        assert status == wanted and is_said(said, status, kind, body), (path, name, status, body)


@pytest.mark.parametrize("path, method, said", OPERATIONS, ids=lambda x: x if isinstance(x, str) else "")
def test_another_method_is_refused(port, path, method, said):
    asked = ("POST " if method == "get" else "GET ") + target(path, said["parameters"])
    status, _, _ = got(port, asked, b"" if method == "get" else None)
    assert status == "405", (path, status)


@pytest.mark.parametrize("path", ["/v1/edits", "/v1/surveys", "/v1/questions"])
def test_sheets_are_as_the_file_says(port, path):
    said = API["paths"][path]["post"]
    header = said["requestBody"]["content"]["text/csv"]["example"].encode().partition(b"\n")[0] + b"\n"
    assert got(port, f"POST {path}", header) == ("200", None, b"")
    status, kind, body = got(port, f"POST {path}", header + b"x\n")
    assert (status, kind, body) == ("422", "text/csv", b"-,fault,BadCsv\n") and kind in said["responses"]["422"]["content"]
    for switches in ["resume=2", "all=2", "resume=1&all=1"]:
        assert got(port, f"POST {path}?{switches}", header) == ("400", None, b"") and is_said(said, "400", None, b"")
    for switch in ["resume=1", "all=1"]:
        assert got(port, f"POST {path}?{switch}", header)[0] == "200"
    assert got(port, f"POST {path}")[0] == "411"
