"""What clients ask a server for the script serve.py beside this one, and what it has to answer.

In the texts of requests and responses `|` stands for the end of a line, as `GET /exceedances HTTP/1.1|Host: x||`. An answer in
short is the status of an error, which says that status alone, or a status and a text.
"""

import re

from office import TOP, compact, order, schedule

PHRASES = {
    200: "OK", 400: "Bad Request", 403: "Forbidden", 404: "Not Found", 405: "Method Not Allowed", 409: "Conflict",
    411: "Length Required", 413: "Payload Too Large", 422: "Unprocessable Entity", 501: "Not Implemented", 503: "Service Unavailable",
}  # fmt: skip
CONTINUE = b"HTTP/1.1 100 Continue\r\n\r\n"
LONGEST = 1_048_576  # bytes of a body

# ---- Requests and responses in bytes.


def wire(text):
    """The bytes of a text in which `|` stands for CR LF."""
    return text.replace("|", "\r\n").encode()


def get(path, method="GET"):
    return wire(f"{method} {path} HTTP/1.1|Host: x||")


def post(path, body, *fields):
    """A POST of a text or bytes, with more fields before its length."""
    body = body if isinstance(body, bytes) else body.encode()
    lines = [f"POST {path} HTTP/1.1", "Host: x", *fields, f"Content-Length: {len(body)}"]
    return wire("|".join(lines) + "||") + body


def body_of(number, line):
    """The body of a request, made of a line of tests/office.py."""
    return compact({"number": number, **order(line)})


def check(asked):
    """A line of tests/office.py with its number, as what is only checked."""
    number, _, line = asked.partition(" ")
    return "/checks", body_of(int(number), line)


def request_of(asked):
    """What is asked in short: a path of POST with its body, `GET` and a path, or a line of tests/office.py with its number."""
    if isinstance(asked, tuple):
        return post(*asked)
    word, _, rest = asked.partition(" ")
    return get(rest) if word == "GET" else post("/requests", body_of(int(word), rest))


TYPES = {"{": "application/json", "<": "text/html; charset=utf-8"}  # of a text that begins so


def response(status, text, advice=(), allow=None, method="GET"):
    """A response with a text, whose type is that of a report unless its first byte is in TYPES; `advice` are its fields for a browser."""
    lines = [
        f"HTTP/1.1 {status} {PHRASES[status]}",
        f"Content-Type: {TYPES.get(text[:1], 'text/plain; charset=utf-8')}",
        f"Content-Length: {len(text.encode())}",
        *([f"Allow: {allow}"] if allow else []),
        *advice,
        "Connection: close",
    ]
    return wire("|".join(lines) + "||") + (b"" if method == "HEAD" else text.encode())


def error(status, allow=None, method="GET"):
    """The response to a request that is refused before the book is asked."""
    return response(status, compact({"result": "error", "status": status}), (), allow, method)


def answer_of(short):
    """The response that an answer in short stands for."""
    return error(short) if isinstance(short, int) else response(*short)


# ---- Texts.


def refused(number, name, **more):
    """A refusal in JSON."""
    return compact({"name": name, "refusal": number, "result": "refused", **more})


def parts(*replies):
    """The reply to an import."""
    return f'{{"parts":[{",".join(replies)}]}}'


def many(*replies):
    """The reply to lines."""
    return f'{{"answers":[{",".join(replies)}]}}'


def report(value):
    """A report in JSON, in short."""
    return 200, compact(value) + "\n", UNKEPT


def constant(path):
    """The text of the first constant in a source."""
    return re.search(r'&str =\s+(r#+|)"(.*)"(#*);', (TOP / path).read_text(), re.S)[2]


# What a browser is told: of a report in JSON, and of the page of the desk.
OWN = ("X-Content-Type-Options: nosniff", "Cross-Origin-Resource-Policy: same-origin")
UNKEPT = ("Cache-Control: no-store", *OWN)
PAGE_ADVICE = (
    f"Content-Security-Policy: {constant('crates/desk/src/policy.rt')}",
    "Cache-Control: no-cache",
    "X-Frame-Options: DENY",
    "Referrer-Policy: no-referrer",
    "Cross-Origin-Opener-Policy: same-origin",
    *OWN,
)
DESK = (200, constant("crates/desk/src/page.rt"), PAGE_ADVICE)
ACCEPTED = '{"exceedances":[],"result":"accepted"}'
STORE = '{"name":"Store","refusal":90,"result":"refused"}'
MEMORY = '{"name":"Memory","refusal":91,"result":"refused"}'
CANCEL = '{"number":1,"do":"cancel-ground","ground":"G1"}'
HEADER = "pairing,period,report,release,flight,from,out,to,in\n"
JUNE = (TOP / "examples" / "june.csv").read_text()
ONE_PAIRING = schedule(["plan P1 10: 11:00 | 12:00-19:30 | 20:00"])
NO_BODY = (422, refused(31, "BadJson", field="body"))
NO_CREW = (404, refused(2, "NoSuchCrew"))
NO_PAIRING = (404, refused(4, "NoSuchPairing"))
NO_CREW_JSON = (*NO_CREW, UNKEPT)  # where the roster was asked for in JSON
NO_PAIRING_JSON = (*NO_PAIRING, UNKEPT)
NO_GROUND = (409, refused(15, "NoSuchGround"))
NONE_EXCEEDED = (200, "EXCEEDANCES 0\n")
NONE_EXCEEDED_JSON = report({"exceedances": []})
NONE_KEPT = report({"count": "0", "next": "1"})
HIRED = "ROSTER C1 captain Ada Ray\n"

# ---- On a book without crew.

# Whole exchanges, byte for byte: what is sent and, a line below, what is written.
EXCHANGES = """\
GET /exceedances HTTP/1.1|Host: x||
HTTP/1.1 200 OK|Content-Type: text/plain; charset=utf-8|Content-Length: 14|Connection: close||EXCEEDANCES 0_
HEAD /exceedances HTTP/1.1|Host: x||
HTTP/1.1 200 OK|Content-Type: text/plain; charset=utf-8|Content-Length: 14|Connection: close||
POST /requests HTTP/1.1|Host: x|Content-Length: 47||{"number":1,"do":"cancel-ground","ground":"G1"}
HTTP/1.1 409 Conflict|Content-Type: application/json|Content-Length: 55|Connection: close||{"name":"NoSuchGround","refusal":15,"result":"refused"}
POST /requests HTTP/1.1|Host: x|Content-Length: 47||{"number":1,"do":"cancel-ground","ground":"G1"
HTTP/1.1 400 Bad Request|Content-Type: application/json|Content-Length: 31|Connection: close||{"result":"error","status":400}
POST /requests HTTP/1.1|Host: x|Transfer-Encoding: chunked||
HTTP/1.1 501 Not Implemented|Content-Type: application/json|Content-Length: 31|Connection: close||{"result":"error","status":501}
GET /requests HTTP/1.1|Host: x||
HTTP/1.1 405 Method Not Allowed|Content-Type: application/json|Content-Length: 31|Allow: POST|Connection: close||{"result":"error","status":405}
PUT /pairings/P1 HTTP/1.1|Host: x||
HTTP/1.1 405 Method Not Allowed|Content-Type: application/json|Content-Length: 31|Allow: GET, HEAD|Connection: close||{"result":"error","status":405}
GET /crew/C9 HTTP/1.1|Host: x||
HTTP/1.1 404 Not Found|Content-Type: application/json|Content-Length: 52|Connection: close||{"name":"NoSuchCrew","refusal":2,"result":"refused"}
GET /json/exceedances HTTP/1.1|Host: x||
HTTP/1.1 200 OK|Content-Type: application/json|Content-Length: 19|Cache-Control: no-store|X-Content-Type-Options: nosniff|Cross-Origin-Resource-Policy: same-origin|Connection: close||{"exceedances":[]}_
HEAD /json/exceedances HTTP/1.1|Host: x||
HTTP/1.1 200 OK|Content-Type: application/json|Content-Length: 19|Cache-Control: no-store|X-Content-Type-Options: nosniff|Cross-Origin-Resource-Policy: same-origin|Connection: close||
GET /json/count HTTP/1.1|Host: x||
HTTP/1.1 200 OK|Content-Type: application/json|Content-Length: 25|Cache-Control: no-store|X-Content-Type-Options: nosniff|Cross-Origin-Resource-Policy: same-origin|Connection: close||{"count":"0","next":"1"}_
HEAD /json/count HTTP/1.1|Host: x||
HTTP/1.1 200 OK|Content-Type: application/json|Content-Length: 25|Cache-Control: no-store|X-Content-Type-Options: nosniff|Cross-Origin-Resource-Policy: same-origin|Connection: close||
GET /json/crew/C9 HTTP/1.1|Host: x||
HTTP/1.1 404 Not Found|Content-Type: application/json|Content-Length: 52|Cache-Control: no-store|X-Content-Type-Options: nosniff|Cross-Origin-Resource-Policy: same-origin|Connection: close||{"name":"NoSuchCrew","refusal":2,"result":"refused"}
POST / HTTP/1.1|Host: x|Content-Length: 0||
HTTP/1.1 405 Method Not Allowed|Content-Type: application/json|Content-Length: 31|Allow: GET, HEAD|Connection: close||{"result":"error","status":405}
POST /json/exceedances HTTP/1.1|Host: x|Content-Length: 0||
HTTP/1.1 405 Method Not Allowed|Content-Type: application/json|Content-Length: 31|Allow: GET, HEAD|Connection: close||{"result":"error","status":405}
GET /crew/c9 HTTP/1.1|Host: x||
HTTP/1.1 404 Not Found|Content-Type: application/json|Content-Length: 52|Connection: close||{"name":"NoSuchCrew","refusal":2,"result":"refused"}
HEAD /crew/C9 HTTP/1.1|Host: x||
HTTP/1.1 404 Not Found|Content-Type: application/json|Content-Length: 52|Connection: close||
POST /requests HTTP/1.1|Host: x||
HTTP/1.1 411 Length Required|Content-Type: application/json|Content-Length: 31|Connection: close||{"result":"error","status":411}
POST /requests HTTP/1.1|Host: x|Content-Length: 1048577||
HTTP/1.1 413 Payload Too Large|Content-Type: application/json|Content-Length: 31|Connection: close||{"result":"error","status":413}
POST /requests HTTP/1.1|Host: x|Content-Length: 0||
HTTP/1.1 422 Unprocessable Entity|Content-Type: application/json|Content-Length: 65|Connection: close||{"field":"body","name":"BadJson","refusal":31,"result":"refused"}
POST /requests HTTP/1.1|Host: x|Expect: 100-continue|Content-Length: 47||{"number":1,"do":"cancel-ground","ground":"G1"}
HTTP/1.1 100 Continue||HTTP/1.1 409 Conflict|Content-Type: application/json|Content-Length: 55|Connection: close||{"name":"NoSuchGround","refusal":15,"result":"refused"}
"""


def exchanges():
    """Each of them: its text, the bytes that are sent and those that are written. A `_` at an end stands for LF."""
    lines = EXCHANGES.splitlines()
    for sent, written in zip(lines[::2], lines[1::2]):
        yield sent, wire(sent), wire(written.removesuffix("_") + "\n" * written.endswith("_"))


def told(*fields, version="1.1", path="/exceedances"):
    """A request for the exceedances, or for another path, with these fields."""
    return wire("|".join([f"GET {path} HTTP/{version}", *fields]) + "||")


# Requests, with their answers in short.
ANSWERS = [
    # Bodies.
    (post("/requests", "[]"), NO_BODY),
    (post("/requests", CANCEL[:-1] + ',"note":' + "[" * 200 + "]" * 200 + "}"), NO_BODY),
    (post("/requests", b"\xff"), NO_BODY),
    (post("/imports/7", ""), (422, refused(30, "BadCsv", line=1))),
    (post("/imports/7", HEADER), (200, parts())),
    # Hosts.
    (wire("GET /exceedances HTTP/1.1||"), 400),
    (wire("GET /exceedances HTTP/1.1|Host: x|Host: x||"), 400),
    (wire("GET /exceedances HTTP/1.0||"), NONE_EXCEEDED),
    (wire("GET /exceedances HTTP/1.0|Host: x|Host: y||"), NONE_EXCEEDED),
    (wire("POST /requests HTTP/1.1|Transfer-Encoding: chunked||"), 400),
    # Hosts by which a page of another site could reach the server, and pages of other origins.
    *((told(f"Host: {host}"), NONE_EXCEEDED) for host in ["localhost:8117", "LocalHost", "127.0.0.1:8117", "127.0.0.1", "", "2130706433"]),
    *((told(f"Host: {host}"), 403) for host in [
        "evil.com", "evil.com:8117", "evil.com.", "x.", "x:8117", "x:", "127.0.0.1.evil.com", "localhost.evil.com", "localhost.",
        "127.0.0.2:8117", "0.0.0.0:8117", "[::1]:8117", "[::1]", "[::ffff:7f00:1]:8117", "2130706433:8117", "127.1:8117", "127.0.0.1.:8117",
        "localhost@evil.com", "localhost@evil:8117", "a b.c", ":8117",
    ]),
    (told("Host: x", "Origin: http://x"), NONE_EXCEEDED),
    (told("Host: LOCALHOST:8117", "Origin: \t HTTP://localhost:8117 \t"), NONE_EXCEEDED),
    *((told("Host: localhost:8117", f"Origin: {origin}"), 403) for origin in [
        "null", "", "http://localhost", "http://localhost:81", "http://localhost:8118", "http://127.0.0.1:8117", "localhost:8117",
        "https://localhost:8117", "http://localhost:8117/", "http://localhost:8117 http://evil.com", "http://evil.com",
    ]),
    (told("Host: x", "Origin: http://x", "origin: http://x"), 403),
    (told("Host: evil.com:8117", "Origin: http://evil.com:8117"), 403),
    (told("Origin: http://x", version="1.0"), 403),
    (told("Host: x", "Origin: http://x", version="1.0"), NONE_EXCEEDED),
    (told("Host: x", "Host: x", "Origin: http://x", version="1.0"), 403),
    (told("Host: x", "Host: evil.com", version="1.0"), 403),
    (told("Host: evil.com", "Host: x", version="1.0"), 403),
    (told("Origin: null"), 400),
    *((told("Host: localhost:8117", f"Sec-Fetch-Site: {site}"), NONE_EXCEEDED) for site in ["none", "same-origin", ""]),
    (told("Host: localhost:8117", "Sec-Fetch-Site: cross-site", "Sec-Fetch-Dest: script"), 403),
    (told("Host: x", "sec-fetch-site: \t Same-Site"), 403),
    (told("Host: x", "Sec-Fetch-Site: none", "Sec-Fetch-Site: cross-site", "Sec-Fetch-Dest: object"), 403),
    (told("Host: x", "Sec-Fetch-Site: cross-site", "Sec-Fetch-Dest: document"), NONE_EXCEEDED),
    (told("Host: x", "Origin: http://y", "Sec-Fetch-Site: cross-site", "Sec-Fetch-Dest: document"), 403),
    (post("/requests", CANCEL, "Content-Type: text/plain", "Origin: http://evil.com"), 403),
    (post("/nothing", CANCEL, "Origin: null", "Transfer-Encoding: chunked"), 403),
    (post("/requests", CANCEL, "Origin: null", "Expect: 100-continue"), 403),
    (wire("POST /requests HTTP/1.1|Host: x|Origin: null||"), 403),
    (wire("GET /requests HTTP/1.1|Host: x|Origin: null||"), 403),
    (wire("OPTIONS /requests HTTP/1.1|Host: x|Origin: http://evil.com|Access-Control-Request-Method: POST||"), 403),
    (wire("GET http://localhost/exceedances HTTP/1.1|Host: evil.com||"), 403),
    # Names in any case, blanks round values, lines that end in LF alone, and empty ones in front.
    (wire("GET /exceedances HTTP/1.1|hOsT:x||"), NONE_EXCEEDED),
    (wire("GET /exceedances HTTP/1.1|Host: \t x \t||"), NONE_EXCEEDED),
    (b"GET /exceedances HTTP/1.1\nHost: x\n\n", NONE_EXCEEDED),
    (wire("||GET /exceedances HTTP/1.1|Host: x||"), NONE_EXCEEDED),
    # What is no head.
    (wire("GET /exceedances HTTP/1.1|Host: x|A: b| c||"), 400),
    (wire("GET /exceedances HTTP/1.1|Host : x||"), 400),
    (b"GET /exceedances HTTP/1.1\r\nHost: x\0\r\n\r\n", 400),
    (b"GET /crew/\xff HTTP/1.1\r\nHost: x\r\n\r\n", 400),
    (wire("GET /exceedances HTTP/1.2|Host: x||"), 400),
    (wire("GET /exceedances|Host: x||"), 400),
    # Of 16,384 bytes and one more, of 64 fields and one more, and without an end.
    (wire("GET /exceedances HTTP/1.0|A: " + "a" * (16_384 - 34) + "||"), NONE_EXCEEDED),
    (wire("GET /exceedances HTTP/1.0|A: " + "a" * (16_385 - 34) + "||"), 400),
    (wire("GET /exceedances HTTP/1.0" + "|A: b" * 64 + "||"), NONE_EXCEEDED),
    (wire("GET /exceedances HTTP/1.0" + "|A: b" * 65 + "||"), 400),
    (wire("GET /exceedances HTTP/1.1|Host: x|A: " + "a" * (16_385 - 39)), 400),
    (wire("|" * 8_192), 400),
    # Paths.
    (get("/exceedances?of=C9"), NONE_EXCEEDED),
    (get("HTTP://a.b:80/exceedances"), NONE_EXCEEDED),
    (get("http://a.b/crew/C9?x=/y"), NO_CREW),
    (get("http://a.b"), DESK),
    (get("https://a.b/exceedances"), 404),
    (get("/crew/%439"), NO_CREW),
    (get("/crew/C234567890123"), NO_CREW),
    (get("/pairings/P9"), NO_PAIRING),
    (get("/pairings/p9"), NO_PAIRING),
    (get("/reports/limits/C9"), NO_CREW),
    (get("/reports/limits/c9"), NO_CREW),
    (get("/reports/limits/C9/P9"), NO_CREW),
    (get("http://a.b/reports/limits/C9/P9?x=/y"), NO_CREW),
    (get("/"), DESK),
    (get("/?x"), DESK),
    (get("http://a.b?/exceedances"), DESK),
    (get(""), 400),
    (get("//"), 404),
    (get("/."), 404),
    (get("/%2f"), 404),
    (get("/desk"), 404),
    (get("/index.html"), 404),
    (get("/favicon.ico"), 404),
    (told("Host: x", path="/"), DESK),
    (told("Host: evil.com", path="/"), 403),
    (told("Host: x", "Origin: http://y", path="/"), 403),
    (told("Host: x", "Sec-Fetch-Site: cross-site", "Sec-Fetch-Dest: iframe", path="/"), 403),
    (told("Host: x", "Sec-Fetch-Site: cross-site", "Sec-Fetch-Dest: document", path="/"), DESK),
    (get("/crew"), 404),
    (get("/crew/"), 404),
    (get("/crew/C9/"), 404),
    (get("//crew/C9"), 404),
    (get("/exceedances/"), 404),
    (get("/Exceedances"), 404),
    (get("/reports"), 404),
    (get("/reports/limits"), 404),
    (get("/reports/limits/"), 404),
    (get("/reports/limits/C9/"), 404),
    (get("/reports/limits//P9"), 404),
    (get("/reports/limits/C9/P9/"), 404),
    (get("/reports/limits/C9/P9/1"), 404),
    (get("/reports/crew/C9"), 404),
    (get("/reports/members"), (200, "MEMBERS 0\n")),
    (get("/reports/pairings?open"), (200, "PAIRINGS 0\n")),
    (get("http://a.b/reports/open"), (200, "PAIRINGS 0\n")),
    (get("/reports/member"), 404),
    (get("/reports/members/"), 404),
    (get("/reports/members/C1"), 404),
    (get("/reports/pairings/B101"), 404),
    (get("/reports/opened"), 404),
    (get("/reports/p"), 404),
    # Paths below /json, where there are reports, and the count of requests.
    (get("/json/exceedances?of=C9"), NONE_EXCEEDED_JSON),
    (get("HTTP://a.b:80/json/exceedances"), NONE_EXCEEDED_JSON),
    (get("/json/crew/C9"), NO_CREW_JSON),
    (get("/json/crew/%439"), NO_CREW_JSON),
    (get("/json/pairings/P9"), NO_PAIRING_JSON),
    (get("/json/reports/limits/C9"), NO_CREW_JSON),
    (get("/json/reports/limits/C9/P9"), NO_CREW_JSON),
    (get("/json/reports/pairings"), report({"pairings": []})),
    (get("/json/reports/open"), report({"pairings": []})),
    (get("/json/count?of=C9"), NONE_KEPT),
    (get("http://a.b/json/count"), NONE_KEPT),
    (get("/count"), 404),
    (post("/count", CANCEL), 404),
    (get("/json/count/"), 404),
    (get("/json/count/1"), 404),
    (get("/json/counts"), 404),
    (get("/json/coun"), 404),
    (get("/json/json/count"), 404),
    (get("/crew/json"), NO_CREW),
    (get("/json"), 404),
    (get("/json/"), 404),
    (get("/jsoncrew/C9"), 404),
    (get("/JSON/exceedances"), 404),
    (get("/json//exceedances"), 404),
    (get("/json/json/exceedances"), 404),
    (get("//json/exceedances"), 404),
    (get("/exceedances/json"), 404),
    (get("/json/exceedances/"), 404),
    (get("/json/crew"), 404),
    (get("/json/reports/members/C1"), 404),
    (get("/json/requests"), 404),
    (post("/json/requests", CANCEL), 404),
    (post("/json/checks", CANCEL), 404),
    (post("/json/imports/1", HEADER), 404),
    (post("/checks", CANCEL), NO_GROUND),
    (post("/checks?", CANCEL), NO_GROUND),
    (post("/checks", ""), NO_BODY),
    (post("/checks/", CANCEL), 404),
    (post("/checks/1", CANCEL), 404),
    (post("/check", CANCEL), 404),
    (post("/chec", CANCEL), 404),
    (get("/c"), 404),
    (post("/lines", ""), (200, many())),
    (post("/lines", CANCEL), (200, many(NO_GROUND[1]))),
    (post("/lines?", f"{CANCEL}\n\n[]\n"), (200, many(NO_GROUND[1], NO_BODY[1]))),
    (post("/lines/checks", f"{CANCEL}\n{CANCEL}"), (200, many(NO_GROUND[1], NO_GROUND[1]))),
    (post("/lines/checks", b"\xff"), (200, many(NO_BODY[1]))),
    (post("/lines/", CANCEL), 404),
    (post("/lines/1", CANCEL), 404),
    (post("/lines/check", CANCEL), 404),
    (post("/lines/checks/", CANCEL), 404),
    (post("/line", CANCEL), 404),
    (get("/l"), 404),
    (post("/json/lines", CANCEL), 404),
    (post("/json/lines/checks", CANCEL), 404),
    (post("/imports/0", HEADER), 404),
    (post("/imports/01", HEADER), 404),
    (post("/imports/+1", HEADER), 404),
    (post("/imports/9223372036854775808", HEADER), 404),
    (post("/imports/9223372036854775807", HEADER), (200, parts())),
    (get("/nothing", "DELETE"), 404),
    (wire("DELETE /nothing HTTP/1.1|Host: x|transfer-encoding: gzip||"), 501),
    # Lengths.
    (wire("POST /requests HTTP/1.1|Host: x|Content-Length: 5|Content-Length: 5||abcde"), 400),
    (wire("POST /requests HTTP/1.1|Host: x|Content-Length: +5||abcde"), 400),
    (wire("POST /requests HTTP/1.1|Host: x|Content-Length: 5, 5||abcde"), 400),
    (wire("POST /requests HTTP/1.1|Host: x|Content-Length:||abcde"), 400),
    (wire(f"POST /requests HTTP/1.1|Host: x|Content-Length: \t 047 \t||{CANCEL}"), NO_GROUND),
    (wire(f"POST /requests HTTP/1.0|Content-Length: {'0' * 38}47||{CANCEL}"), NO_GROUND),
    (wire(f"POST /requests HTTP/1.1|Host: x|Content-Length: {'9' * 40}||abc"), 413),
    (wire(f"POST /requests HTTP/1.1|Host: x|Content-Length: 47||{CANCEL}and more"), NO_GROUND),
    (wire("GET /exceedances HTTP/1.1|Host: x|Content-Length: 5||"), NONE_EXCEEDED),
    # Expectations of which nothing is said.
    (wire("GET /exceedances HTTP/1.1|Host: x|Expect: 100-continue|Content-Length: 5||"), NONE_EXCEEDED),
    (wire(f"POST /requests HTTP/1.0|Expect: 100-continue|Content-Length: 47||{CANCEL}"), NO_GROUND),
    (post("/requests", CANCEL, "Expect: 200-ok"), NO_GROUND),
    (post("/requests", "", "Expect: 100-continue"), NO_BODY),
]

# Paths, with methods that they don't have, and what is said to be allowed.
OTHER_METHODS = [
    ("/", "POST", "GET, HEAD"),
    ("/", "get", "GET, HEAD"),
    ("/?x", "OPTIONS", "GET, HEAD"),
    ("/requests", "GET", "POST"),
    ("/requests", "HEAD", "POST"),
    ("/requests", "post", "POST"),
    ("/requests", "A-METHOD-OF-MORE-THAN-FIFTEEN-BYTES", "POST"),
    ("/checks", "GET", "POST"),
    ("/checks", "PUT", "POST"),
    ("/lines", "GET", "POST"),
    ("/lines", "PUT", "POST"),
    ("/lines/checks", "HEAD", "POST"),
    ("/imports/3", "PUT", "POST"),
    ("/imports/3", "HEAD", "POST"),
    ("/crew/C1", "POST", "GET, HEAD"),
    ("/crew/C1", "get", "GET, HEAD"),
    ("/pairings/B101", "DELETE", "GET, HEAD"),
    ("/exceedances", "OPTIONS", "GET, HEAD"),
    ("/reports/limits/C1", "POST", "GET, HEAD"),
    ("/reports/members", "POST", "GET, HEAD"),
    ("/reports/pairings", "PUT", "GET, HEAD"),
    ("/reports/open", "POST", "GET, HEAD"),
    ("/reports/limits/C1/B101", "POST", "GET, HEAD"),
    ("/reports/limits/C1/B101", "head", "GET, HEAD"),
    ("/json/crew/C1", "POST", "GET, HEAD"),
    ("/json/reports/limits/C1/B101", "PUT", "GET, HEAD"),
    ("/json/reports/members", "get", "GET, HEAD"),
    ("/json/count", "POST", "GET, HEAD"),
    ("/json/count", "get", "GET, HEAD"),
]

# What is ended after each of its bytes but the last, and how it is answered whole.
HIRE = post("/requests", body_of(1, "hire C1 captain: Ada Ray"))
CUT = [
    (get("/exceedances"), response(*NONE_EXCEEDED)),
    (get("/json/exceedances"), response(*NONE_EXCEEDED_JSON)),
    (post("/requests", CANCEL), response(*NO_GROUND)),
    (post("/requests", CANCEL, "Expect: 100-continue"), CONTINUE + response(*NO_GROUND)),
    (post("/checks", body_of(1, "hire C1 captain: Ada Ray")), response(200, ACCEPTED)),
    (HIRE, response(200, ACCEPTED)),
    (post("/imports/2", ONE_PAIRING), response(200, parts(ACCEPTED))),
    (post("/lines", f"{body_of(4, 'hire C4 captain: Bo Lind')}\n{CANCEL}"), response(200, many(ACCEPTED, refused(1, "NumberUsed")))),
    (post("/requests", body_of(3, "outside X1 C1 10: 11:00 | 12:00-19:30 | 20:00")), response(200, ACCEPTED)),
]

# What has a body that isn't taken; the last is longer than what the system keeps of it while nobody reads.
LEFT = b"x" * 200_000
WITH_A_BODY_LEFT = [
    (wire("POST /requests HTTP/1.1|Host: x|Content-Length: 2000000||") + LEFT, error(413)),
    (wire("POST /requests HTTP/1.1|Host: x||") + LEFT, error(411)),
    (wire("POST /nothing HTTP/1.1|Host: x|Content-Length: 200000||") + LEFT, error(404)),
    (wire("PUT /requests HTTP/1.1|Host: x|Content-Length: 200000||") + LEFT, error(405, "POST")),
    (wire("POST /requests HTTP/1.1|Host: x|Transfer-Encoding: chunked||") + LEFT, error(501)),
    (wire("GET /exceedances HTTP/1.1|Host: x|Content-Length: 200000||") + LEFT, response(*NONE_EXCEEDED)),
    (LEFT, error(400)),
    (wire("POST /requests HTTP/1.1|Host: x|Content-Length: 8000000||") + LEFT * 40, error(413)),
]

# ---- An hour of an office, and then more: what is asked in short, with the answer.


def limit(section, minutes, most, duty=None, begin=None, exceeds=False):
    """What is nearest to a limit, in JSON."""
    return {"section": section, "minutes": minutes, "limit": most, "duty": duty, "from": begin, "exceeds": exceeds}


LATE = compact({
    "do": "actual", "pairing": "B101", "period": 1, "report": "2025-06-10T17:00Z", "release": "2025-06-11T05:45Z", "segments": [
        {"out": "2025-06-10T18:00Z", "in": "2025-06-10T19:45Z"},
        {"out": "2025-06-11T03:30Z", "in": "2025-06-11T05:15Z"},
    ],
})  # fmt: skip
EXCEEDED = '{"exceedances":[{"crew":"C1","section":"117.13(a)"},{"crew":"F1","section":"117.13(a)"}],"result":"accepted"}'
EASTERN = "EST5EDT,M3.2.0,M11.1.0"
SEGMENTS = [
    {"flight": "RB1", "from": "BOS", "out": "2025-06-10T18:00Z", "to": "IAD", "in": "2025-06-10T19:45Z"},
    {"flight": "RB2", "from": "IAD", "out": "2025-06-10T23:00Z", "to": "BOS", "in": "2025-06-11T00:45Z"},
]
FLOWN = {
    "report": "2025-06-10T17:00Z", "release": "2025-06-11T05:45Z", "segments": [
        {"out": "2025-06-10T18:00Z", "in": "2025-06-10T19:45Z"},
        {"out": "2025-06-11T03:30Z", "in": "2025-06-11T05:15Z"},
    ],
}  # fmt: skip
B101 = {
    "period": 1, "report": "2025-06-10T17:00Z", "release": "2025-06-11T01:15Z", "segments": SEGMENTS, "actual": FLOWN,
    "fdp": 735, "flight": 210,
}  # fmt: skip
SHORT_REST = '{"exceedances":[{"crew":"C1","section":"117.25(e)"}],"result":"accepted"}'
ANOTHER_B102 = schedule([
    "plan P10 20: 06:30 | 07:30-10:30 | 11:00",
    "plan B102 21: 06:30 | 07:30-10:30 | 11:00",
    "plan P30 22: 06:30 | 07:30-10:30 | 11:00",
])  # fmt: skip
TORN = "\ufeff" + HEADER.replace("\n", "\r\n") + "P1,1,2025-06-10T11:00Z,2025-06-1"

HOUR = [
    ("GET /crew/C1", NO_CREW),
    ("GET /json/crew/C1", NO_CREW_JSON),
    ("GET /", DESK),
    ("GET /json/count", NONE_KEPT),
    ("GET /reports/limits/C1", NO_CREW),
    ("GET /json/reports/members", report({"bases": [{"base": "HOME", "zone": EASTERN}], "members": []})),
    # What is only checked is answered, and not done.
    (check("1 hire C1 captain: Ada Ray"), (200, ACCEPTED)),
    (check("1 hire C1 captain: Ada Ray"), (200, ACCEPTED)),
    (check("1 hire C2 captain: Bo Lind"), (200, ACCEPTED)),
    ("GET /crew/C1", NO_CREW),
    ("1 hire C1 captain: Ada Ray", (200, ACCEPTED)),
    ("2 hire F1 first-officer: Zoë Roy", (200, ACCEPTED)),
    ("1 hire C1 captain: Ada Ray", (200, ACCEPTED)),
    ("1 hire C2 captain: Bo Lind", (409, refused(1, "NumberUsed"))),
    ("9 hire C1 captain: Ada Ray", (409, refused(3, "CrewExists"))),
    (check("1 hire C1 captain: Ada Ray"), (200, ACCEPTED)),
    (check("1 hire C2 captain: Bo Lind"), (409, refused(1, "NumberUsed"))),
    (check("9 hire C1 captain: Ada Ray"), (409, refused(3, "CrewExists"))),
    (("/lines/checks", f"{body_of(9, 'hire C3 captain: Bo Lind')}\n" * 2), (200, many(ACCEPTED, ACCEPTED))),
    (check("0 hire C3 captain: Bo Lind"), (422, refused(31, "BadJson", field="number"))),
    (check("9 plan p1"), (422, refused(18, "BadField", field="pairing"))),
    (check("9 plan P9"), (422, refused(19, "SegmentCount", period=0))),
    ("GET /crew/C1", (200, HIRED)),
    ("GET /crew/F1", (200, "ROSTER F1 first officer Zoë Roy\n")),
    ("GET /json/crew/F1", report({
        "crew": "F1", "name": "Zoë Roy", "seat": "first officer", "base": "HOME", "zone": EASTERN, "duties": [],
    })),
    (("/imports/3", JUNE), (200, parts(ACCEPTED, ACCEPTED, ACCEPTED))),
    (("/imports/3", JUNE), (200, parts(ACCEPTED, ACCEPTED, ACCEPTED))),
    (("/imports/500", ANOTHER_B102), (200, parts(ACCEPTED, refused(5, "PairingExists"), ACCEPTED))),
    (("/imports/7", TORN), (422, refused(30, "BadCsv", line=2))),
    (("/imports/7", JUNE.replace("B103,2", "B103,3")), (422, refused(30, "BadCsv", line=7))),
    # 1 and 2, three parts of 3, and the first and the third of 500.
    ("GET /json/count", report({"count": "7", "next": "501"})),
    ("GET /reports/members", (200, "MEMBERS 2\nC1 captain HOME Ada Ray\nF1 first officer HOME Zoë Roy\n")),
    ("4 assign B101 C1", (200, ACCEPTED)),
    ("5 assign B101 F1", (200, ACCEPTED)),
    # B101 is the one duty of C1. It reports at 13:00 in the zone of the book, and is on blocks at 00:45Z, by which each window ends.
    ("GET /reports/limits/C1", (200, """\
LIMITS C1 captain Ada Ray
117.11(a)(1) 3:30 of 9:00 B101/1 within
117.13(a) 7:45 of 12:00 B101/1 within
117.23(b)(1) 3:30 of 100:00 from 2025-05-14T00:45Z within
117.23(b)(2) 3:30 of 1000:00 from 2024-06-12T00:00Z within
117.23(c)(1) 7:45 of 60:00 from 2025-06-04T00:45Z within
117.23(c)(2) 7:45 of 190:00 from 2025-05-14T00:45Z within
117.25(b) 168:00 of 30:00 B101/1 within
117.25(e) 168:00 of 10:00 B101/1 within
""")),
    # With B102, which reports at 06:45 there, nine hours and a half after B101 is released, and is on blocks at 19:00Z.
    ("GET /reports/limits/C1/B102", (200, """\
LIMITS C1 captain Ada Ray with B102
117.11(a)(1) 3:30 of 9:00 B102/1 within
117.13(a) 8:15 of 13:00 B102/1 within
117.23(b)(1) 7:00 of 100:00 from 2025-05-14T19:00Z within
117.23(b)(2) 7:00 of 1000:00 from 2024-06-12T00:00Z within
117.23(c)(1) 16:00 of 60:00 from 2025-06-04T19:00Z within
117.23(c)(2) 16:00 of 190:00 from 2025-05-14T19:00Z within
117.25(b) 150:15 of 30:00 B102/1 within
117.25(e) 9:30 of 10:00 B102/1 exceeds
""")),
    ("GET /json/reports/limits/C1/B102", report({
        "crew": "C1", "name": "Ada Ray", "seat": "captain", "pairing": "B102", "limits": [
            limit("117.11(a)(1)", 210, 540, duty="B102/1"),
            limit("117.13(a)", 495, 780, duty="B102/1"),
            limit("117.23(b)(1)", 420, 6000, begin="2025-05-14T19:00Z"),
            limit("117.23(b)(2)", 420, 60000, begin="2024-06-12T00:00Z"),
            limit("117.23(c)(1)", 960, 3600, begin="2025-06-04T19:00Z"),
            limit("117.23(c)(2)", 960, 11400, begin="2025-05-14T19:00Z"),
            limit("117.25(b)", 9015, 1800, duty="B102/1"),
            limit("117.25(e)", 570, 600, duty="B102/1", exceeds=True),
        ],
    })),
    ("GET /reports/limits/C1/B999", NO_PAIRING),
    ("GET /json/reports/limits/C1/B999", NO_PAIRING_JSON),
    ("GET /json/reports/limits/C9/B999", NO_CREW_JSON),
    ("GET /reports/limits/C1/b102", NO_PAIRING),
    ("GET /reports/limits/C9/B102", NO_CREW),
    ("GET /reports/limits/C9/B999", NO_CREW),
    (check("6 assign B102 C1"), (409, refused(12, "Limits", limits=[{"crew": "C1", "section": "117.25(e)"}]))),
    (check("6 assign B102 F1"), (409, refused(12, "Limits", limits=[{"crew": "F1", "section": "117.25(e)"}]))),
    (check("6 assign B103 C1"), (200, ACCEPTED)),
    ("6 assign B102 C1", (409, refused(12, "Limits", limits=[{"crew": "C1", "section": "117.25(e)"}]))),
    ("6 assign B103 C9", (409, refused(2, "NoSuchCrew"))),
    ("GET /pairings/B102", (200, """\
PAIRING B102
captain -
first officer -
1 plan report 2025-06-11T10:45Z release 2025-06-11T19:30Z
1.1 RB3 BOS 2025-06-11T11:45Z IAD 2025-06-11T13:30Z
1.2 RB4 IAD 2025-06-11T17:15Z BOS 2025-06-11T19:00Z
""")),
    ("7 fly B101 2 10: 17:00 | 18:00-19:45, 23:00-+1 00:45 | +1 01:15", (409, refused(13, "NoSuchDuty"))),
    ("7 fly B101 1 10: 17:00 | 18:00-19:45 | 20:00", (422, refused(19, "SegmentCount", period=1))),
    (check(f"7 {LATE}"), (200, EXCEEDED)),
    ("GET /exceedances", NONE_EXCEEDED),
    (f"7 {LATE}", (200, EXCEEDED)),
    (f"7 {LATE}", (200, EXCEEDED)),
    (check(f"7 {LATE}"), (200, EXCEEDED)),
    ("GET /reports/pairings", (200, """\
PAIRINGS 5
B101 2025-06-10T17:00Z 2025-06-11T05:45Z flown C1 F1
B102 2025-06-11T10:45Z 2025-06-11T19:30Z plan - -
B103 2025-06-12T14:00Z 2025-06-13T23:30Z plan - -
P10 2025-06-20T06:30Z 2025-06-20T11:00Z plan - -
P30 2025-06-22T06:30Z 2025-06-22T11:00Z plan - -
""")),
    ("GET /reports/open", (200, """\
PAIRINGS 4
B102 2025-06-11T10:45Z 2025-06-11T19:30Z plan - -
B103 2025-06-12T14:00Z 2025-06-13T23:30Z plan - -
P10 2025-06-20T06:30Z 2025-06-20T11:00Z plan - -
P30 2025-06-22T06:30Z 2025-06-22T11:00Z plan - -
""")),
    ("8 release B101 C1", (409, refused(10, "Flown"))),
    ("0 release B101 C1", (422, refused(31, "BadJson", field="number"))),
    ("9 plan p1", (422, refused(18, "BadField", field="pairing"))),
    ("9 plan P9 10: 01:01 | 01:00-02:30, 03:20-04:50 | 05:00", (422, refused(16, "BadTimes", period=1))),
    ("9 plan P9", (422, refused(19, "SegmentCount", period=0))),
    ("9 plan P9 10: 00:00 | RB1/BOS/IAD 00:10-00:20, RB1/JFK/BOS 00:30-00:40 | 00:40", (422, refused(17, "BadChain", period=1))),
    ("GET /pairings/B101", (200, """\
PAIRING B101
captain C1
first officer F1
1 actual report 2025-06-10T17:00Z release 2025-06-11T05:45Z
1.1 RB1 BOS 2025-06-10T18:00Z IAD 2025-06-10T19:45Z
1.2 RB2 IAD 2025-06-11T03:30Z BOS 2025-06-11T05:15Z
""")),
    ("GET /json/pairings/B101", report({"pairing": "B101", "captain": "C1", "first_officer": "F1", "periods": [B101]})),
    ("GET /crew/C1", (200, """\
ROSTER C1 captain Ada Ray
2025-06-10T17:00Z 2025-06-11T05:45Z pairing B101/1 actual fdp 12:15 flight 3:30
""")),
    ("GET /json/crew/C1", report({
        "crew": "C1", "name": "Ada Ray", "seat": "captain", "base": "HOME", "zone": EASTERN, "duties": [
            {**B101, "kind": "pairing", "pairing": "B101", "begin": "2025-06-10T17:00Z", "end": "2025-06-11T05:45Z"},
        ],
    })),
    ("GET /exceedances", (200, "EXCEEDANCES 2\n7 C1 117.13(a) B101/1\n7 F1 117.13(a) B101/1\n")),
    ("GET /json/exceedances", report({"exceedances": [
        {"number": "7", "part": 0, "crew": "C1", "section": "117.13(a)", "kind": "pairing", "pairing": "B101", "period": 1},
        {"number": "7", "part": 0, "crew": "F1", "section": "117.13(a)", "kind": "pairing", "pairing": "B101", "period": 1},
    ]})),
    ("GET /crew/C9", NO_CREW),
    ("GET /pairings/B999", NO_PAIRING),
    ("10 base HOME: UTC0", (409, refused(21, "BaseExists"))),
    ("10 hire C9 captain DEN: Lee Roy", (409, refused(20, "NoSuchBase"))),
    ("10 hire C1 captain DEN: Lee Roy", (409, refused(3, "CrewExists"))),
    ("10 base DEN: MST7MDT,M3.2.0,M11.1.0", (200, ACCEPTED)),
    ("10 base DEN: MST7MDT,M3.2.0,M11.1.0", (200, ACCEPTED)),
    ("10 base DEN: MST7", (409, refused(1, "NumberUsed"))),
    ("11 base DEN: MST7MDT,M3.2.0,M11.1.0", (409, refused(21, "BaseExists"))),
    ("11 base LAX: PST8PDT", (422, refused(31, "BadJson", field="zone"))),
    ("11 base lax: PST8PDT,M3.2.0,M11.1.0", (422, refused(18, "BadField", field="base"))),
    ("11 hire C9 captain DEN: Lee Roy", (200, ACCEPTED)),
    ("GET /crew/C9", (200, "ROSTER C9 captain Lee Roy\nbase DEN\n")),
    # X1 reports nine hours and a quarter after B101 is released, and then ten.
    ("12 outside X1 C1 11: 15:00 | 15:30-17:00, 18:00-19:30 | 20:00", (200, SHORT_REST)),
    ("12 outside X1 C1 11: 15:00 | 15:30-17:00, 18:00-19:30 | 20:00", (200, SHORT_REST)),
    ("12 outside X1 C1 11: 15:00 | 15:30-17:00, 18:00-19:30 | 20:01", (409, refused(1, "NumberUsed"))),
    ("13 outside X1 F1 11: 15:00 | 15:30-17:00, 18:00-19:30 | 20:00", (409, refused(22, "OutsideTaken"))),
    ("13 outside X1 C7 11: 15:00 | 15:30-17:00, 18:00-19:30 | 20:00", (409, refused(2, "NoSuchCrew"))),
    ("13 outside x1 C1 11: 15:00 | 15:30-17:00, 18:00-19:30 | 20:00", (422, refused(18, "BadField", field="outside"))),
    ("13 outside X1 C1 11: 15:00 |  | 20:00", (422, refused(19, "SegmentCount", period=0))),
    ("13 outside X1 C1 11: 15:00 | 15:30-17:00, 18:00-19:30 | 19:00", (422, refused(16, "BadTimes", period=0))),
    (("/requests", '{"number":13,"do":"record-outside","outside":"X1","crew":"C1"}'), (422, refused(31, "BadJson", field="report"))),
    ("GET /crew/C1", (200, """\
ROSTER C1 captain Ada Ray
2025-06-10T17:00Z 2025-06-11T05:45Z pairing B101/1 actual fdp 12:15 flight 3:30
2025-06-11T15:00Z 2025-06-11T20:00Z outside X1 fdp 4:30 flight 3:00
""")),
    ("GET /exceedances", (200, "EXCEEDANCES 3\n7 C1 117.13(a) B101/1\n7 F1 117.13(a) B101/1\n12 C1 117.25(e) outside X1\n")),
    ("13 outside X1 C1 11: 15:45 | 16:00-17:00, 18:00-19:30 | 20:00", (200, ACCEPTED)),
    ("14 train G1 11: 19:59-21:00", (409, refused(11, "Overlap"))),
    ("GET /crew/C1", (200, """\
ROSTER C1 captain Ada Ray
2025-06-10T17:00Z 2025-06-11T05:45Z pairing B101/1 actual fdp 12:15 flight 3:30
2025-06-11T15:45Z 2025-06-11T20:00Z outside X1 fdp 3:45 flight 2:30
""")),
    ("GET /exceedances", (200, "EXCEEDANCES 3\n7 C1 117.13(a) B101/1\n7 F1 117.13(a) B101/1\n12 C1 117.25(e) outside X1\n")),
    # Then 4, 5, 7 and 10 to 13; and the last number that there is.
    ("GET /json/count", report({"count": "14", "next": "501"})),
    ("9223372036854775807 base LAX: PST8PDT,M3.2.0,M11.1.0", (200, ACCEPTED)),
    ("GET /json/count", report({"count": "15", "next": None})),
]  # fmt: skip


def hour():
    """Each request of the hour with its response; what is shown also as HEAD has it."""
    for asked, answer in HOUR:
        yield request_of(asked), response(*answer)
        if isinstance(asked, str) and asked.startswith("GET "):
            yield get(asked.removeprefix("GET "), "HEAD"), response(*answer, method="HEAD")
