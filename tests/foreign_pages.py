#!/usr/bin/env python3
"""Has a real browser show pages of other sites that try to change and to read a book that is served on the same machine.

    tests/foreign_pages.py

The pages are of another port and another name, and of names that mean this machine, as a name means that is bound anew. They try what
a page can do without a question to its visitor: `fetch`, forms, `sendBeacon`, a frame in a sandbox, scripts and pictures. No row of
the book may change, nothing may be read, and no page may learn which ids exist. A visitor who opens the server's own addresses, or
follows a link to them, is served. Afterwards other clients are answered at once, though a browser leaves connections open over which
nothing comes. Without Chromium, its driver and selenium the script is skipped. What differs is printed on standard error. The last line
is 'N passed, M failed', and the exit status 1 where M isn't 0.
"""

import sys
import tempfile
import threading
import time
from contextlib import contextmanager
from dataclasses import dataclass
from http.server import BaseHTTPRequestHandler, ThreadingHTTPServer

from browser import PATIENCE, asked, browser, lacks
from exchanges import ACCEPTED, NO_CREW, NONE_EXCEEDED, body_of, compact, get, order, response
from office import Book, build
from server import serving

FOREIGN = "evil.test"  # the name of another site
BARE = "roster"  # a name without a dot that was made to mean this machine
OWN = ("127.0.0.1", "localhost")
REFUSED = '{"result":"error","status":403}'
# Other names of this machine, which a page may ask too.
OTHERS = ("0.0.0.0", "[::ffff:127.0.0.1]", "localhost.", FOREIGN, BARE)


@dataclass
class Seen:
    passed: int = 0
    failed: int = 0
    number: int = 100  # of the last command that a page tried

    def expect(self, what, got, wanted):
        self.passed += got == wanted
        self.failed += got != wanted
        if got != wanted:
            print(f"tests/foreign_pages.py: {what}\n  wanted: {wanted}\n  got:    {got}", file=sys.stderr)

    @contextmanager
    def step(self, what):
        """What fails in the block counts once, as a page that isn't shown in time, and the next step is tried."""
        try:
            yield
        except Exception as fault:
            self.expect(f"{what}: what ends it", f"{type(fault).__name__}: {fault}".splitlines()[0], None)

    def command(self):
        """The text of a command that none has tried yet."""
        self.number += 1
        return body_of(self.number, f"hire X{self.number} captain: Eve Doe")


class Page(BaseHTTPRequestHandler):
    """An empty page, whatever is asked."""

    def do_GET(self):
        text = b"<!doctype html><title>another site</title><body></body>"
        self.send_response(200)
        self.send_header("Content-Type", "text/html")
        self.send_header("Content-Length", str(len(text)))
        self.end_headers()
        self.wfile.write(text)

    def log_message(self, *_):
        pass


@contextmanager
def other_site():
    """The port of a server of empty pages."""
    with ThreadingHTTPServer(("127.0.0.1", 0), Page) as site:
        site.daemon_threads = True
        threading.Thread(target=site.serve_forever, daemon=True).start()
        yield site.server_port
        site.shutdown()


# ---- What a page tries. Each is a promise of JavaScript.


def fetched(address, text=None, **more):
    """A request, and what is read of the answer."""
    options = {**({} if text is None else {"method": "POST", "body": text}), **more}
    return f"{{ const it = await fetch({compact(address)}, {compact(options)}); return it.type + ' ' + it.status + ' ' + await it.text(); }}"


def beacon(address, text):
    """A message that is sent without a look at the answer, and whose answer comes."""
    return f"""{{
        if (!navigator.sendBeacon({compact(address)}, {compact(text)})) return "not sent";
        const name = new URL({compact(address)}).href;
        while (!performance.getEntriesByName(name).length) await new Promise(done => setTimeout(done, 10));
        return "sent";
    }}"""


def form(address, text):
    """A form that is posted as a text: the name of its one field, a `=` and the value make the text."""
    name, value = text[:-1] + ',"note":"', '"}'
    quoted = (it.replace("&", "&amp;").replace('"', "&quot;") for it in (address, name, value))
    return '<form method="post" enctype="text/plain" action="{}"><input type="hidden" name="{}" value="{}"></form>'.format(*quoted)


def posted_in_frame(address, text):
    """A form whose answer is shown in a frame of the page."""
    return f"""{{
        const frame = document.createElement("iframe");
        frame.name = "answers";
        document.body.append(frame);
        const holder = document.createElement("div");
        holder.innerHTML = {compact(form(address, text))};
        document.body.append(holder);
        holder.firstChild.target = "answers";
        await new Promise(done => {{ frame.onload = done; holder.firstChild.submit(); }});
        return "sent";
    }}"""


def posted_from_sandbox(address, text):
    """A form of a page in a sandbox, which has no origin."""
    page = form(address, text) + "<script>onload = () => setTimeout(() => document.forms[0].submit())</script>"
    return f"""{{
        const frame = document.createElement("iframe");
        frame.sandbox = "allow-forms allow-scripts";
        frame.srcdoc = {compact(page)};
        let loads = 0;
        await new Promise(done => {{ frame.onload = () => ++loads === 2 && done(); document.body.append(frame); }});
        return "sent";
    }}"""


def embedded(tag, attribute, address, rel=""):
    """What a page notices of what it embeds."""
    return f"""{{
        const part = document.createElement({compact(tag)});
        if ({compact(rel)}) part.rel = {compact(rel)};
        const noticed = await new Promise(done => {{
            part.onload = () => done("load");
            part.onerror = () => done("error");
            part[{compact(attribute)}] = {compact(address)};
            document.body.append(part);
        }});
        const sizes = performance.getEntriesByName({compact(address)}).map(it => [it.transferSize, it.decodedBodySize, it.responseStatus]);
        return noticed + " " + part.offsetWidth + " " + JSON.stringify(sizes);
    }}"""


CHANGES = {
    "fetch without leave": (lambda address, text: fetched(address, text, mode="no-cors"), "opaque 0 "),
    "fetch of JSON": (lambda address, text: fetched(address, text, headers={"Content-Type": "application/json"}), "TypeError"),
    "fetch of a text": (fetched, "TypeError"),
    "a beacon": (beacon, "sent"),
    "a form in a frame": (posted_in_frame, "sent"),
    "a form in a sandbox": (posted_from_sandbox, "sent"),
}
PARTS = (("script", "src"), ("img", "src"), ("link", "href", "stylesheet"), ("object", "data"))


# ---- Who asks from where.


def shown(visitor):
    """The text of the page that is shown."""
    return visitor.execute_script("return document.documentElement.textContent")


def try_changes(seen, visitor, page, server):
    """A page of another origin sends commands, by each way to each name of this machine."""
    for host in (*OWN, *OTHERS):
        address = f"http://{host}:{server.port}/requests"
        for way, (promise, wanted) in CHANGES.items():
            with seen.step(f"{way} to {host}"):
                visitor.get(page)
                seen.expect(f"{way} to {host}", asked(visitor, promise(address, seen.command())), wanted)


def try_form(seen, visitor, page, server):
    """A form of another origin whose answer takes the place of its page."""
    for host in OWN:
        with seen.step(f"a form to {host}"):
            visitor.get(page)
            text = form(f"http://{host}:{server.port}/requests", seen.command())
            visitor.execute_script("document.body.innerHTML = arguments[0]; document.forms[0].submit()", text)
            wait_until(lambda: "result" in shown(visitor))
            seen.expect(f"a form to {host}", shown(visitor), REFUSED)


def wait_until(holds):
    until = time.monotonic() + PATIENCE
    while not holds() and time.monotonic() < until:
        time.sleep(0.01)


def try_reading(seen, visitor, page, server):
    """A page of another origin reads nothing, and can't tell a member who is there from one who isn't."""
    for host in OWN:
        here, missing = (f"http://{host}:{server.port}/crew/{crew}" for crew in ("C1", "C9"))
        for address in (here, missing):
            with seen.step(f"fetch of {address}"):
                visitor.get(page)
                seen.expect(f"fetch of {address}", asked(visitor, fetched(address)), "TypeError")
                seen.expect(f"fetch without leave of {address}", asked(visitor, fetched(address, mode="no-cors")), "opaque 0 ")
        for tag, attribute, *rel in PARTS:
            with seen.step(f"<{tag}> of {host}"):
                noticed = []
                for address in (here, missing):
                    visitor.get(page)
                    noticed.append(asked(visitor, embedded(tag, attribute, address, *rel)))
                seen.expect(f"<{tag}> of a member of {host} who isn't there, beside one who is", noticed[1], noticed[0])
                seen.expect(f"<{tag}> is loaded or not", noticed[0].split()[0] in ("load", "error"), True)


def try_names(seen, visitor, page, server):
    """A page that was loaded from the server itself by another name, as by one that is bound anew: it is of the same origin."""
    for host in (FOREIGN, BARE, "localhost.", "0.0.0.0"):
        with seen.step(f"a page of {host}"):
            visitor.get(f"http://{host}:{server.port}/nothing")
            seen.expect(f"a page of {host}", shown(visitor), REFUSED)
            seen.expect(f"GET by it, of {host}", asked(visitor, fetched("/crew/C1")), f"basic 403 {REFUSED}")
            for way in ({}, {"headers": {"Content-Type": "application/json"}}):
                got = asked(visitor, fetched("/requests", seen.command(), **way))
                seen.expect(f"POST by it, of {host}", got, f"basic 403 {REFUSED}")


def try_own(seen, visitor, page, server):
    """The server's own addresses are shown, also by a link of another site; and pages of them may ask."""
    for host in OWN:
        address = f"http://{host}:{server.port}/exceedances"
        with seen.step(f"{address}, typed"):
            visitor.get(address)
            seen.expect(f"{address}, typed", shown(visitor), NONE_EXCEEDED[1])
        with seen.step(f"{address}, by a link"):
            visitor.get(page)
            visitor.execute_script("document.body.innerHTML = '<a>a link</a>'; document.querySelector('a').href = arguments[0]", address)
            visitor.find_element("tag name", "a").click()
            wait_until(lambda address=address: visitor.current_url == address)
            seen.expect(f"{address}, by a link", shown(visitor), NONE_EXCEEDED[1])
        with seen.step(f"a page of {host}"):
            seen.expect(f"GET by a page of {host}", asked(visitor, fetched("/exceedances")), f"basic 200 {NONE_EXCEEDED[1]}")
            got = asked(visitor, fetched("/checks", body_of(1, "hire C2 captain: Bo Lind")))
            seen.expect(f"POST by a page of {host}", got, f"basic 200 {ACCEPTED}")


def try_next_client(seen, server):
    """The next client is answered at once, whatever the browser has left open."""
    begin = time.monotonic()
    seen.expect("the next client", server.exchange(get("/crew/C9")), response(*NO_CREW))
    seen.expect("at once", time.monotonic() - begin < 2, True)


def main():
    seen = Seen()
    if why := lacks():
        print(f"tests/foreign_pages.py: skipped, since {why}")
    elif not build():
        return 3
    else:
        with tempfile.TemporaryDirectory(prefix="foreign-") as room:
            try_all(seen, Book.made(room))
    print(f"{seen.passed} passed, {seen.failed} failed")
    return 1 if seen.failed else 0


def try_all(seen, book):
    for line in ("hire C1 captain: Ada Ray", "plan P1 10: 11:00 | 12:00-19:30 | 20:00", "assign P1 C1"):
        seen.expect(line, book.settle(line), "accepted")
    before = book.tables()
    with serving(book) as server, other_site() as port, browser(FOREIGN, BARE) as visitor:
        page = f"http://{FOREIGN}:{port}/"
        for tries in (try_own, try_changes, try_form, try_reading, try_names):
            tries(seen, visitor, page, server)
            try_next_client(seen, server)
    after = book.tables()
    for name, rows in before.items():
        seen.expect(f"the rows of {name}", after[name] - rows, set())
        seen.expect(f"the rows of {name} that are gone", rows - after[name], set())


if __name__ == "__main__":
    sys.exit(main())
