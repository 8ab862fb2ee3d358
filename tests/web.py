#!/usr/bin/env python3
"""Tests of the page in the browser (djq.web), beside the built program on loopback: over HTTP alone, and in headless
Chromium where it is there.

    python3 tests/web.py PROGRAM [NAME ..]
    python3 tests/web.py PROGRAM --picture LIGHT.png [DARK.png]

It needs the Debian package python3-aiohttp, as the page does; the tests in Chromium also chromium, chromium-driver and
python3-selenium. Without them the tests are skipped by name. A line is printed for each test that fails or is skipped,
and last `N passed, N failed`, with `, N skipped` and what they were without; the status is 0 where none failed. With
TIMES=1 in the environment it says how long each took. The second form takes pictures of the demo's page after it has
moved for a while.
"""

import contextlib
import copy
import http.client
import importlib.util
import json
import os
import random
import re
import shutil
import signal
import socket
import socketserver
import subprocess
import sys
import tempfile
import threading
import time
import traceback

from serving import HERE, SECONDS, Server, djq, raises, wait_until

DEBIAN = "/usr/bin/python3"  # which Debian's packages are for
PAGE = """
title = "Tests & <i>more</i>"
[[panel]]
kind = "table"
title = "Rows <b>here</b>"
query = "rows"
columns = ["key", "<u>text</u>"]
rows = 5
[[panel]]
kind = "count"
title = "How many"
query = "rows"
[[panel]]
kind = "newest"
title = "Newest"
query = "rows"
columns = ["key", "text"]
[[panel]]
kind = "chart"
title = "Both"
queries = ["rows", "keys"]
labels = ["<s>all</s>", "keys"]
minutes = 1
"""
MARKUP = "<script>document.title='taken'</script><img src=x onerror=\"document.title='taken'\">&amp;</td>"
TESTS = []
BROWSER_TESTS = []


def test(function):
    TESTS.append(function)
    return function


def in_browser(function):
    BROWSER_TESTS.append(function)
    return function


class Web:
    """The page's program on a free port of loopback."""

    def __init__(self, server, page=PAGE, *words, host="127.0.0.1", port=None):
        with socket.create_server(("127.0.0.1", 0)) as free:
            self.port = port or free.getsockname()[1]
        self._directory = tempfile.TemporaryDirectory()
        path = os.path.join(self._directory.name, "page.toml")
        with open(path, "w", encoding="utf-8") as file:
            file.write(page or "")
        self.shown = words[words.index("--name") + 1] if host == "0.0.0.0" else host
        command = [sys.executable, "-m", "djq.web", f"127.0.0.1:{server.port}", "--listen", f"{host}:{self.port}"]
        self.process = subprocess.Popen(
            [*command, *(("--page", path) if page else ()), *words],
            env=dict(os.environ, PYTHONPATH=os.path.join(HERE, "..", "clients", "python")),
            stdout=subprocess.PIPE,
            stderr=subprocess.DEVNULL,
        )

    def __enter__(self):
        line = self.process.stdout.readline().decode()
        assert line == f"djq-web: http://{self.shown}:{self.port}/\n", line
        return self

    def __exit__(self, *_):
        self.process.send_signal(signal.SIGINT)
        try:
            assert self.process.wait(SECONDS) == 0, "Ctrl-C doesn't end it well"
        finally:
            self.process.kill()
            self.process.communicate()
            self._directory.cleanup()

    def ask(self, path="/", method="GET", host=None, **headers):
        """The status, the headers and the text of what is answered; of a stream without its events."""
        connection = http.client.HTTPConnection("127.0.0.1", self.port, timeout=SECONDS)
        told = {"Host": host or f"127.0.0.1:{self.port}", **{k.replace("_", "-"): v for k, v in headers.items()}}
        connection.request(method, path, headers={k: v for k, v in told.items() if v is not None})
        reply = connection.getresponse()
        try:
            streams = reply.getheader("Content-Type", "").startswith("text/event-stream")
            return reply.status, dict(reply.getheaders()), "" if streams else reply.read().decode()
        finally:
            connection.close()

    def page(self, path="/"):
        status, _, text = self.ask(path)
        assert status == 200, status
        return text

    def live(self):
        """Waits until the page is up to date: the server answers, and no panel waits."""
        wait_until(lambda: 'class="live"' in self.page() and " lost" not in self.page())
        return self


class Events:
    """The stream of events: `views` is what each name shows, `count` how many events came, and `size` their bytes."""

    def __init__(self, web, path="/events"):
        self._connection = http.client.HTTPConnection("127.0.0.1", web.port, timeout=SECONDS)
        self._connection.request("GET", path, headers={"Accept": "text/event-stream"})
        reply = self._connection.getresponse()
        assert reply.status == 200 and reply.getheader("Content-Type").startswith("text/event-stream"), reply.status
        self._reply, self.views, self.count, self.size = reply, {}, 0, 0
        self._changed = threading.Condition()
        self._thread = threading.Thread(target=self._read, daemon=True)
        self._thread.start()

    def __enter__(self):
        return self

    def __exit__(self, *_):
        with contextlib.suppress(OSError):
            self._connection.sock and self._connection.sock.shutdown(socket.SHUT_RDWR)
        self._connection.close()

    def _read(self):
        name = None
        with contextlib.suppress(OSError, ValueError, AttributeError, http.client.HTTPException):
            while line := self._reply.readline():
                text = line.decode().rstrip("\n")
                word, _, rest = text.partition(": ")
                with self._changed:
                    self.size += len(line)
                    if word == "event":
                        name = rest
                    elif word == "data" and name not in ("page", "beat", None):
                        self.views[name] = shown_by(self.views.get(name), json.loads(rest))
                        self.count += 1
                        self._changed.notify_all()

    def until(self, holds):
        """Waits until what is shown is so, and gives the seconds."""
        begun = time.monotonic()
        with self._changed:
            assert self._changed.wait_for(lambda: holds(self.views), SECONDS), self.views
        return time.monotonic() - begun

    def until_whole(self, panels=4):
        """Waits until all panels have come, and are up to date."""
        names = [str(number) for number in range(panels)]
        self.until(lambda views: all(name in views and views[name]["state"] is None for name in names))
        return self

    def rows(self, number="0"):
        return [tuple(row["cells"]) for row in self.views[number]["rows"]]

    def now(self, number="1", line=0):
        """What a line reads."""
        return self.views[number]["lines"][line]["now"]


def shown_by(view, sent):
    """What a browser shows that had a view, and is sent this."""
    if not sent.pop("delta", None):
        return sent
    if "gone" in sent:
        gone, come = sent.pop("gone"), sent.pop("come")
        rows = [row for place, row in enumerate(view["rows"]) if place not in gone]
        for place, row in come:
            rows.insert(place, row)
        return {**view, **sent, "rows": rows}
    if "lines" in sent:
        lines = []
        for line, delta in zip(view["lines"], sent.pop("lines"), strict=True):
            values = [*line["values"][:-1], *delta.pop("push")][-view["points"] :]
            lines.append({**line, **delta, "values": values})
        return {**view, **sent, "lines": lines}
    return {**view, **sent}


def expect(got, wanted, *about):
    assert got == wanted, (got, wanted, *about)


def fill(server, *rows):
    """The relation and the queries of the page, and rows."""
    client = server.connect()
    client.relation("r", int, str)
    for row in rows:
        client.add("r", *row)
    client.query("rows(k,t) <- r(k,t)")
    client.query("keys(k) <- r(k,_)")
    return client


@contextlib.contextmanager
def shown(program, *rows, page=PAGE, words=()):
    """A server with these rows, a client of it, and the page."""
    with Server(program) as server, fill(server, *rows) as client, Web(server, page, *words) as web:
        yield client, web.live()


# Over HTTP alone


@test
def the_page_is_whole_without_a_script(program):
    with shown(program, (2, "two"), (1, "one")) as (_, web):
        text = web.page()
        assert "<title>Tests &amp; &lt;i&gt;more&lt;/i&gt;</title>" in text
        assert '<h2 id="title0">Rows &lt;b&gt;here&lt;/b&gt;</h2>' in text
        assert '<th scope="col" class="number">key</th><th scope="col">&lt;u&gt;text&lt;/u&gt;</th>' in text
        rows = re.findall(r'<tr><td class="mark"></td><td class="number">(.*?)</td><td>(.*?)</td></tr>', text)
        expect(rows, [("1", "one"), ("2", "two")])
        assert '<caption>2 rows</caption>' in text and '<p class="count some">2</p>' in text
        assert '<span class="label">&lt;s&gt;all&lt;/s&gt;</span>' in text
        assert "none has come since" in text and 'aria-live="polite"' in text


@test
def rows_of_another_session_come_and_go(program):
    with shown(program, (1, "one")) as (client, web), Events(web) as events:
        events.until_whole()
        expect((events.rows(), events.views["status"]), ([("1", "one")], {"live": True, "words": "live"}))
        client.add("r", 2, "two")
        events.until(lambda views: [row["cells"][0] for row in views["0"]["rows"]] == ["1", "2"])
        events.until(lambda views: events.now() == "2" and views["2"]["cells"] == ["2", "two"])
        expect([row["came"] is not None for row in events.views["0"]["rows"]], [False, True])
        assert events.views["latest"]["words"].endswith("Rows <b>here</b>, new: 2, two"), events.views["latest"]
        client.delete("r", 2, "two")
        events.until(lambda views: events.rows() == [("1", "one")] and events.now("3", 1) == "1")
        assert ", gone at " in events.views["2"]["words"], events.views["2"]
        assert '<td>one</td>' in web.page() and '<td>two</td>' not in web.page()
        # a row that replaces another one is told with it
        with client.transaction() as change:
            change.update("r", (1, "one"), (1, "uno"))
        events.until(lambda views: events.rows() == [("1", "uno")] and events.now("3", 1) == "1")
        assert events.views["latest"]["words"].endswith("Rows <b>here</b>, new: 1, uno; gone: 1, one"), events.views["latest"]
        expect(events.views["2"]["cells"], ["1", "uno"])


@test
def a_union_is_shown_as_a_query(program):
    with Server(program) as server, fill(server, (1, "one")) as client:
        client.query("large(k,t) <- r(k,t), k > 5")
        client.query("named(k,t) <- r(k,t), t != \"one\"")
        client.union("either", "large", "named")
        with Web(server, PAGE.replace('"rows"', '"either"')) as web, Events(web.live()) as events:
            events.until_whole()
            expect((events.rows(), events.now()), ([], "0"))
            client.add("r", 9, "nine")  # an answer of both
            events.until(lambda views: events.rows() == [("9", "nine")] and events.now() == "1")
            expect((events.views["0"]["columns"], events.views["2"]["cells"]), (["key", "<u>text</u>"], ["9", "nine"]))
            client.add("r", 6, "one")
            events.until(lambda views: events.rows() == [("6", "one"), ("9", "nine")])
            client.delete("r", 9, "nine")
            events.until(lambda views: events.rows() == [("6", "one")] and events.now() == "1")


@test
def changes_come_within_a_tenth_of_a_second(program):
    with shown(program) as (client, web), Events(web) as events:
        events.until_whole()
        took = []
        for key in range(15):
            time.sleep(0.05)
            client.add("r", key % 5, f"text {key}")
            took.append(events.until(lambda views: events.now() == str(key + 1)))
        middle = sorted(took)[len(took) // 2]
        assert middle < 0.1, took  # of most: a busy machine may hold up a few


@test
def a_flood_is_told_in_few_pieces(program):
    with shown(program) as (client, web), Events(web) as events:
        events.until_whole()
        before, begun = events.count, time.monotonic()
        client.load("r", [(key, "x") for key in range(5000)])
        events.until(lambda views: events.now() == "5,000")
        pieces = events.count - before
        # five views, each at most each 30 ms
        assert pieces < 170 * (time.monotonic() - begun) + 30, pieces
        expect(events.views["0"]["words"], "1 to 5 of 5,000 rows")
        with client.pipeline() as many:
            for key in range(4998):
                many.delete("r", key, "x")
        events.until(lambda views: events.rows() == [("4998", "x"), ("4999", "x")])


@test
def markup_is_shown_as_text(program):
    with shown(program, (1, MARKUP), (2, "a\nb"), (3, "\u202eback\x00\x1b")) as (client, web):
        text = web.page()
        assert "<script>d" not in text and "<img" not in text and "onerror=\"" not in text
        assert "&lt;script&gt;document.title=&#x27;taken&#x27;&lt;/script&gt;" in text
        assert "<td>\ufffdback\u2400\u241b</td>" in text
        with Events(web) as events:
            events.until_whole()
            expect(events.rows(), [("1", MARKUP), ("2", "a\nb"), ("3", "\ufffdback\u2400\u241b")])


@test
def other_names_origins_and_methods_are_refused(program):
    with shown(program, words=("--name", "factory.test")) as (_, web):
        for host in (f"127.0.0.1:{web.port}", f"LOCALHOST:{web.port}", f"[::1]:{web.port}", "factory.test",
                     f"factory.test:{web.port}"):  # fmt: skip
            expect(web.ask(host=host)[0], 200, host)
        own = f"127.0.0.1:{web.port}"
        for host in ("evil.test", f"evil.test:{web.port}", "127.0.0.1", "localhost:1", f"{own}.test", f"evil@{own}"):
            for path in ("/", "/events", "/page.js"):
                expect(web.ask(path, host=host)[0], 421, host, path)
        expect(web.ask("/events", Origin=f"http://{own}")[0], 200)
        for origin in ("http://evil.test", "null", f"http://evil.test:{web.port}", "http://localhost"):
            for path in ("/", "/events"):
                expect(web.ask(path, Origin=origin)[0], 403, origin, path)
        for site in ("cross-site", "same-site"):
            expect(web.ask("/events", Sec_Fetch_Site=site, Sec_Fetch_Mode="no-cors")[0], 403)
        followed = {"Sec_Fetch_Site": "cross-site", "Sec_Fetch_Mode": "navigate", "Sec_Fetch_Dest": "document"}
        expect(web.ask("/", **followed)[0], 200, "a link to the page is followed")
        expect(web.ask("/", **{**followed, "Sec_Fetch_Dest": "iframe"})[0], 403)
        for method in ("POST", "PUT", "DELETE", "OPTIONS", "PATCH"):
            status, headers, _ = web.ask(method=method)
            expect((status, headers["Allow"]), (405, "GET, HEAD"), method)
        for path in ("/other", "/../page.toml", "/page.py", "//x", "/events/"):
            expect(web.ask(path)[0], 404, path)
        expect(web.ask(method="HEAD")[2], "")


@test
def a_page_for_the_network_is_asked_for_by_its_name(program):
    with Server(program) as server, fill(server), Web(server, PAGE, "--name", "factory.test", host="0.0.0.0") as web:
        expect(web.ask(host=f"factory.test:{web.port}")[0], 200)
        for host in (f"127.0.0.1:{web.port}", f"0.0.0.0:{web.port}", f"localhost:{web.port}"):
            expect(web.ask(host=host)[0], 421, host)
        status, told = run_web("127.0.0.1:1", "--demo", "--listen", f"127.0.0.1:{web.port}")
        assert status == 1 and "Address already in use" in told, told


@test
def every_answer_says_what_a_browser_may_do(program):
    with shown(program) as (_, web):
        for path, status in (("/", 200), ("/page.css", 200), ("/page.js", 200), ("/icon.svg", 200), ("/events", 200),
                             ("/other", 404)):  # fmt: skip
            got, headers, _ = web.ask(path)
            policy = headers["Content-Security-Policy"]
            expect(got, status, path)
            assert policy.startswith("default-src 'none'; script-src 'self'; style-src 'self';"), policy
            assert "frame-ancestors 'none'" in policy and "unsafe" not in policy, policy
            expect(headers["X-Content-Type-Options"], "nosniff")
        assert "style=" not in web.page() and "onclick" not in web.page()


@test
def it_waits_for_the_server_and_finds_it_again(program):
    with Server(program) as server:
        port = server.port
    with Web(server) as web, Events(web) as events:
        events.until(lambda views: "doesn't answer" in views.get("status", {}).get("words", ""))
        with Server(program, port) as server, fill(server, (1, "one")):
            events.until(lambda views: views["status"]["live"] and events.rows() == [("1", "one")])
            server.__exit__()
            events.until(lambda views: not views["status"]["live"] and "Not up to date since" in views["0"]["state"])
            assert "doesn't answer" in events.views["status"]["words"], events.views["status"]
            expect(events.rows(), [("1", "one")], "what was shown stays, and says that it isn't up to date")
            assert 'class="waiting"' in web.page()
        with Server(program, port) as again, fill(again, (1, "one"), (3, "three")):
            events.until(lambda views: views["status"]["live"])
            events.until(lambda views: events.rows() == [("1", "one"), ("3", "three")])
            came = [row["came"] is not None for row in events.views["0"]["rows"]]
            expect(came, [False, True], "what was missed is marked")
            assert events.views["0"]["state"] is None, events.views["0"]


@test
def an_error_is_its_panels(program):
    page = PAGE + """
[[panel]]
kind = "table"
title = "Alarms"
query = "alarms"
columns = ["key"]
alarm = true
"""
    with Server(program) as server, fill(server, (1, "one")) as client, Web(server, page) as web, Events(web) as events:
        events.until_whole(4)
        events.until(lambda views: views.get("4", {}).get("state") is not None and "no query" in views["4"]["state"])
        expect(events.views["status"], {"live": True, "words": "live"})
        text = web.page()
        assert '<p class="why">There is no query alarms yet. It is shown here once it is registered.</p>' in text, text
        assert 'class="table alarm lost"' in text and 'class="table"' in text, text
        client.add("r", 2, "two")
        events.until(lambda views: events.rows() == [("1", "one"), ("2", "two")])
        client.query("alarms(k) <- r(k,\"two\")")
        events.until(lambda views: views["4"]["state"] is None and events.rows("4") == [("2",)])
        client.add("r", 3, "two")
        events.until(lambda views: events.rows("4") == [("2",), ("3",)])
        assert '<tr class="came"><td class="mark"><span>alarm</span></td><td class="number">3</td></tr>' in web.page()


@test
def it_is_live_only_while_the_server_answers(program):
    with Server(program) as server, fill(server, (1, "one")) as client, Web(server) as web, Events(web) as events:
        events.until_whole().until(lambda views: views["status"]["live"])
        time.sleep(4)  # in which nothing comes but what the page asks for
        expect(events.views["status"]["live"], True)
        server.process.send_signal(signal.SIGSTOP)
        try:
            took = events.until(lambda views: "no reply from the server for" in views["status"]["words"])
            assert took < 6 and not events.views["status"]["live"], took
        finally:
            server.process.send_signal(signal.SIGCONT)
        events.until(lambda views: views["status"]["live"])
        client.add("r", 2, "two")
        events.until(lambda views: events.rows() == [("1", "one"), ("2", "two")])


@test
def a_viewer_that_comes_again_is_told_all(program):
    with shown(program, (1, "one")) as (client, web):
        with Events(web) as events:
            events.until_whole()
        client.add("r", 2, "two")
        with Events(web) as events:
            events.until(lambda views: len(views) == 6 and events.rows() == [("1", "one"), ("2", "two")])


@test
def viewers_that_read_nothing_hold_nobody_up(program):
    with shown(program) as (client, web), contextlib.ExitStack() as stack:
        for _ in range(10):
            stuck = stack.enter_context(socket.create_connection(("127.0.0.1", web.port)))
            stuck.sendall(f"GET /events HTTP/1.1\r\nHost: localhost:{web.port}\r\n\r\n".encode())
        with Events(web) as events:
            events.until_whole()
            for turn in range(10):
                client.load("r", [(100 * turn + key, "x" * 200) for key in range(100)])
            events.until(lambda views: events.now() == "1,000")
        for _ in range(120):
            stack.enter_context(socket.create_connection(("127.0.0.1", web.port)))
        stack.close()
        wait_until(lambda: answers(web))


def answers(web):
    try:
        return web.ask()[0] == 200
    except (OSError, http.client.HTTPException):
        return False


@test
def tables_are_in_order(program):
    page = PAGE.replace("rows = 5", 'rows = 3\norder = ["<u>text</u>"]\ndescending = true')
    with shown(program, (5, "a"), (1, "c"), (2, "c"), page=page) as (client, web), Events(web) as events:
        events.until(lambda views: "0" in views and events.rows() == [("2", "c"), ("1", "c"), ("5", "a")])
        client.add("r", 9, "b")
        events.until(lambda views: events.rows() == [("2", "c"), ("1", "c"), ("9", "b")])
        expect(events.views["0"]["words"], "1 to 3 of 4 rows")
        client.delete("r", 2, "c")
        events.until(lambda views: events.rows() == [("1", "c"), ("9", "b"), ("5", "a")])
        client.load("r", [(key, "d") for key in range(500)])
        events.until(lambda views: events.rows() == [("499", "d"), ("498", "d"), ("497", "d")])


@test
def tables_have_pages(program):
    rows = [(key, f"text {key}") for key in range(23)]
    with shown(program, *rows) as (client, web), Events(web, "/events?p0=2") as second, Events(web) as first:
        first.until_whole()
        second.until_whole()
        expect([int(key) for key, _ in first.rows()], [0, 1, 2, 3, 4])
        expect([int(key) for key, _ in second.rows()], [5, 6, 7, 8, 9])
        expect([second.views["0"][name] for name in ("words", "page", "pages")], ["6 to 10 of 23 rows", 2, 5])
        client.delete("r", 0, "text 0")
        first.until(lambda views: [int(key) for key, _ in first.rows()] == [1, 2, 3, 4, 5])
        second.until(lambda views: [int(key) for key, _ in second.rows()] == [6, 7, 8, 9, 10])
        text = web.page("/?p0=5")
        assert "Page 5 of 5" in text and "text 22" in text and "text 1<" not in text, text
        with Events(web, "/events?p0=99") as last:  # what is past the end is the last one
            last.until_whole().until(lambda views: [int(key) for key, _ in last.rows()] == [21, 22])
        for place in ("0", "-1", "x", "9" * 30):
            with Events(web, f"/events?p0={place}") as other:
                other.until_whole().until(lambda views: len(other.rows()) in (2, 5))


@test
def a_change_is_sent_by_a_few_bytes(program):
    page = PAGE.replace("rows = 5", "rows = 500")
    with shown(program, page=page) as (client, web):
        client.load("r", [(key, f"some text of row {key}") for key in range(10_000)])
        with Events(web) as events:
            events.until(lambda views: events.until_whole() and events.now() == "10,000")
            time.sleep(1)  # what the load left is published
            took, sizes = [], []
            for key in range(20):
                before = events.size
                begun = time.monotonic()
                client.add("r", -1 - key, "x" * 255)
                events.until(lambda views: events.rows()[0][0] == str(-1 - key) and events.now() == f"{10_001 + key:,}")
                took.append(time.monotonic() - begun)
                sizes.append(events.size - before)
            assert sorted(sizes)[-1] < 5000, sizes
            assert sorted(took)[10] < 0.1, took
            expect(len(events.rows()), 500)


@test
def deltas_lead_from_any_version_to_the_present_one(program):
    """Random changes of a table and of lines: what a viewer shows that has taken the deltas, and what one that was away
    for some versions is sent, is what the panel shows."""
    from djq.web.lines import Chart
    from djq.web.page import read_page
    from djq.web.rows import Table

    page = read_page(
        "[[panel]]\nkind='table'\nquery='q'\ncolumns=['a','b']\norder=['b']\ndescending=true\nrows=4\n"
        "[[panel]]\nkind='chart'\nquery='q'\ncolumns=['a','b']\nvalue='a'\nby='b'\nfold='sum'\n"
    )
    chance = random.Random(7)
    for _ in range(20):
        panels = [(Table(page.panels[0], "0"), "1"), (Table(page.panels[0], "0"), "2"), (Chart(page.panels[1], "0"), "")]
        tracks = [panel.track(place) for panel, place in panels]
        for track in tracks:
            track.viewers = 1
        there = change_at_random([panel for panel, _ in panels], tracks, chance)
        rows = sorted(there, key=lambda row: (row[1], row), reverse=True)
        for at, track in ((0, tracks[0]), (4, tracks[1])):
            wanted = [[str(a), b] for a, b in (rows[at : at + 4] if len(rows) > at else rows[:4])]
            expect([row["cells"] for row in track.whole["rows"]], wanted)
        for line in tracks[2].whole["lines"]:
            wanted = [a for a, b in there if b == line["label"]]
            expect(line["now"], str(sum(wanted)) if wanted else None, line["label"])


def change_at_random(panels, tracks, chance):
    """Changes panels and publishes them now and then, looks at what each delta makes of an earlier view, and gives the
    answers at the end."""
    from djq.protocol import Change
    from djq.web.feeds import Feed

    feed, there = Feed("q"), set()
    views = [{track.version: json.loads(json.dumps(track.whole))} for track in tracks]
    for _ in range(chance.randrange(80)):
        row = (chance.randrange(5), chance.choice("abcdefgh"))
        came = frozenset([row] if row not in there else [])
        went = frozenset(chance.sample(sorted(there), min(len(there), chance.choice((0, 0, 1, 3)))))
        there = feed.answers = there - went | came
        for panel, track, seen in zip(panels, tracks, views):
            panel.change(feed, Change(1, came, went, restarted=chance.random() < 0.1))
            if chance.random() < 0.7:
                panel.publish()
            version = chance.choice(sorted(seen))
            view = copy.deepcopy(seen[version])
            events = track.since(version).decode() if version < track.version else ""
            for event in filter(None, events.split("\n\n")):
                view = shown_by(view, json.loads(event.partition("data: ")[2]))
            expect(view, json.loads(json.dumps(track.whole)), version, track.version)
            seen[track.version] = view
    for panel in panels:
        panel.publish()
    return there


@test
def lines_draw_values(program):
    page = """
[[panel]]
kind = "chart"
title = "Heat"
query = "heat"
columns = ["machine", "degrees"]
value = "degrees"
by = "machine"
[[panel]]
kind = "count"
title = "Sum"
query = "heat"
columns = ["machine", "degrees"]
value = "degrees"
fold = "sum"
"""
    with Server(program) as server, server.connect() as client:
        client.relation("heat_of", str, int)
        client.query("heat(m,d) <- heat_of(m,d)")
        client.add("heat_of", "oven", 200)
        with Web(server, page) as web, Events(web.live()) as events:
            events.until_whole(2).until(lambda views: len(views["0"]["lines"]) == 1)
            expect((events.views["0"]["lines"][0]["label"], events.now("0"), events.now("1")), ("oven", "200", "200"))
            client.add("heat_of", "fridge", -4)
            events.until(lambda views: [line["label"] for line in views["0"]["lines"]] == ["fridge", "oven"])
            expect(events.views["0"]["lines"][0]["values"][-1], -4)
            client.delete("heat_of", "oven", 200)
            client.add("heat_of", "oven", 210)
            events.until(lambda views: events.now("0", 1) == "210" and events.now("1") == "206")
            for number in range(9):  # six lines are drawn, and it says how many aren't
                client.add("heat_of", f"room {number}", number)
            events.until(lambda views: len(views["0"]["lines"]) == 6 and "5 further lines" in views["0"]["words"])
            client.delete("heat_of", "fridge", -4)
            events.until(lambda views: events.now("0") is None or views["0"]["lines"][0]["label"] != "fridge")


@test
def alone_it_offers_what_is_there(program):
    with Server(program) as server, fill(server, (1, "one")) as client:
        words = ("--query", "rows(key,text)")
        with Web(server, None, *words) as web:
            wait_until(lambda: "The server answers." in web.page())
            text = web.page()
            assert '<a href="/show/rows">rows</a>' in text and '<form action="/show"' in text, text
            status, headers, _ = web.ask("/show?name=keys")
            expect((status, headers["Location"]), (303, "/show/keys"))
            expect(web.ask("/show/keys")[0], 200)
            assert '<a href="/show/keys">keys</a>' in web.page(), "what was found is offered"
            with Events(web, "/show/rows/events") as events:
                events.until_whole(1).until(lambda views: events.rows() == [("1", "one")])
                expect(events.views["0"]["columns"], ["key", "text"])
                client.add("r", 2, "two")
                events.until(lambda views: events.rows() == [("1", "one"), ("2", "two")])
            expect(web.ask("/show/r")[0], 200, "a relation is a table too")
            with Events(web, "/show/web_r/events") as events:
                events.until_whole(1).until(lambda views: events.rows() == [("1", "one"), ("2", "two")])
            assert '<a href="/show/r">r</a>' in web.page()
            status, _, text = web.ask("/show/nothing")
            assert status == 404 and "no query and no relation named nothing" in text, text
            expect(web.ask("/show/Not%20a%20name")[0], 404)
        with Web(server) as web:
            expect(web.ask("/show/other")[0], 404, "with a page file only its queries are shown")
            expect(web.ask("/show/rows")[0], 200)


@test
def one_viewer_too_many_gets_a_page(program):
    with shown(program, (1, "one"), words=("--viewers", "3")) as (_, web), contextlib.ExitStack() as stack:
        streams = [stack.enter_context(Events(web)) for _ in range(3)]
        for events in streams:
            events.until_whole()
        status, headers, text = web.ask()
        expect((status, headers["Retry-After"]), (503, "5"))
        assert "This page has 3 viewers, which are the most" in text and 'http-equiv="refresh"' in text, text
        for path in ("/events", "/live/rows"):
            status, _, text = web.ask(path)
            assert status == 503 and "3 viewers" in text, (status, text)
        streams[0].__exit__()
        wait_until(lambda: web.ask()[0] == 200)


@test
def numbers_past_those_of_a_browser_are_exact(program):
    with shown(program, (2**63 - 1, "most"), (-(2**63), "least")) as (_, web), Events(web) as events:
        events.until_whole()
        expect(events.rows(), [("-9223372036854775808", "least"), ("9223372036854775807", "most")])


@test
def a_page_file_that_is_none_is_told_why(program):
    from djq.web.page import PageError, read_page

    for page, why in (
        ("title = 1", "panels"),
        ("[[panel]]\nkind = 'pie'", "panel 1: kind is one of table, newest, count, chart"),
        ("[[panel]]\nkind = 'table'", "panel 1: a table has a query"),
        ("[[panel]]\nkind = 'table'\nquery = 'Q'", "not a name"),
        ("[[panel]]\nkind = 'count'\nquery = 'q'\ncolums = []", "there is no 'colums'"),
        ("[[panel]]\nkind = 'table'\nquery = 'q'\ncolumns = ['a']\norder = ['b']", "order names 'b'"),
        ("[[panel]]\nkind = 'table'\nquery = 'q'\nrows = 0", "rows is a number from 1 to 500"),
        ("[[panel]]\nkind = 'chart'\nqueries = []", "queries are from 1 to 6"),
        ("[[panel]]\nkind = 'chart'", "a chart has a query, or queries"),
        ("[[panel]]\nkind = 'chart'\nquery = 'q'\ncolumns = ['a']\nvalue = 'b'", "value names 'b'"),
        ("[[panel]]\nkind = 'chart'\nquery = 'q'\ncolumns = ['a']\nby = 'a'", "by goes with one query and a value"),
        ("[[panel]]\nkind = 'count'\nquery = 'q'\ncolumns = ['a']\nvalue = 'a'\nfold = 'mean'", "fold is one of"),
        ("[[panel]", "not TOML"),
    ):
        error = raises(PageError, lambda: read_page(page))
        assert why in str(error), (page, error)
    with tempfile.NamedTemporaryFile("w", suffix=".toml") as file:
        status, told = run_web("127.0.0.1:1", "--page", file.name)
        expect((status, told), (1, f"djq-web: {file.name}: a page has panels, each under [[panel]]\n"))
    for words, why in (
        (("7007", "--demo"), "not HOST:PORT"),
        (("127.0.0.1:1", "--demo", "--listen", "0.0.0.0:0"), "--name"),
        (("127.0.0.1:1", "--query", "Q(x)"), "not a name"),
    ):
        status, told = run_web(*words)
        assert status == 2 and why in told, told


@test
def what_is_no_djq_server_is_said_so(program):
    handler = type("Other", (socketserver.StreamRequestHandler,), {"handle": answer_as_another})
    with socketserver.ThreadingTCPServer(("127.0.0.1", 0), handler) as other, tempfile.NamedTemporaryFile("w") as file:
        threading.Thread(target=other.serve_forever, daemon=True).start()
        file.write(PAGE)
        file.flush()
        server = f"127.0.0.1:{other.server_address[1]}"
        try:
            status, words = run_web(server, "--page", file.name, "--listen", "127.0.0.1:0")
        finally:
            other.shutdown()
    assert status == 1 and f"{server} answers, but not as a djq server does" in words, (status, words)


def answer_as_another(handler):
    """Answers the first line as a server of HTTP does."""
    handler.rfile.readline()
    handler.wfile.write(b"HTTP/1.1 400 Bad Request\r\n\r\n")


@test
def without_aiohttp_it_says_what_is_missing(program):
    script = "import sys; sys.modules['aiohttp'] = None; from djq.web import main; main()"
    done = subprocess.run(
        [sys.executable, "-c", script],
        env=dict(os.environ, PYTHONPATH=os.path.join(HERE, "..", "clients", "python")),
        stderr=subprocess.PIPE,
        timeout=3 * SECONDS,
    )
    words = "djq-web needs aiohttp, as by `apt install python3-aiohttp`\n"
    expect((done.returncode, done.stderr.decode()), (1, words))


def run_web(*words):
    done = subprocess.run(
        [sys.executable, "-m", "djq.web", *words],
        env=dict(os.environ, PYTHONPATH=os.path.join(HERE, "..", "clients", "python")),
        stdout=subprocess.DEVNULL,
        stderr=subprocess.PIPE,
        timeout=3 * SECONDS,
    )
    return done.returncode, done.stderr.decode()


@test
def the_demo_moves_and_minds_its_thresholds(program):
    with Server(program) as server, Web(server, "", "--demo") as web, Events(web) as events:
        events.until_whole(8).until(lambda views: views["status"]["live"])
        board = events.rows("5")
        events.until(lambda views: events.rows("5") != board)
        with server.connect() as client:
            client.delete("thresholds", "heat", 80)
            client.add("thresholds", "heat", 0)
            events.until(lambda views: events.now("2") == "8")
            events.until(lambda views: sum(row[2] == "heat" for row in events.rows("6")) == 8)
            client.delete("thresholds", "heat", 0)
            client.add("thresholds", "heat", 1000)
            events.until(lambda views: all(row[2] != "heat" for row in events.rows("6")))


# In a browser


class Browser:
    """Headless Chromium."""

    def __init__(self, width=1200, height=900):
        from selenium import webdriver
        from selenium.webdriver.chrome.options import Options
        from selenium.webdriver.chrome.service import Service

        options = Options()
        options.binary_location = shutil.which("chromium")
        for word in ("headless=new", "no-sandbox", "disable-gpu", "disable-dev-shm-usage", "hide-scrollbars"):
            options.add_argument(f"--{word}")
        options.set_capability("goog:loggingPrefs", {"browser": "ALL"})
        self.driver = webdriver.Chrome(service=Service(shutil.which("chromedriver")), options=options)
        self.resize(width, height)

    def resize(self, width, height):
        size = {"width": width, "height": height, "deviceScaleFactor": 1, "mobile": False}
        self.driver.execute_cdp_cmd("Emulation.setDeviceMetricsOverride", size)

    def open(self, web):
        self.driver.get(f"http://127.0.0.1:{web.port}/")
        self.complaints()  # those of an earlier page, whose server has ended

    def run(self, script):
        return self.driver.execute_script(script)

    def painted(self):
        """The seconds from the page's being asked for until it was painted first."""
        paints = "return performance.getEntriesByName('first-contentful-paint').map(paint => paint.startTime / 1000)"
        wait_until(lambda: self.run(paints))
        return self.run(paints)[0]

    def rows(self):
        return self.run(
            "return [...document.querySelectorAll('tbody tr')].map("
            "row => [...row.cells].map(cell => cell.textContent))"
        )

    def set_scheme(self, scheme):
        """What the reader prefers: `light` or `dark`."""
        wanted = {"features": [{"name": "prefers-color-scheme", "value": scheme}]}
        self.driver.execute_cdp_cmd("Emulation.setEmulatedMedia", wanted)

    def be_phone(self, width, height):
        """Shows pages as a telephone does."""
        size = {"width": width, "height": height, "deviceScaleFactor": 3, "mobile": True}
        self.driver.execute_cdp_cmd("Emulation.setDeviceMetricsOverride", size)

    def read_out(self):
        """What a screen reader is given: the role and the name of each part that has either, in order."""
        self.driver.execute_cdp_cmd("Accessibility.enable", {})
        nodes = self.driver.execute_cdp_cmd("Accessibility.getFullAXTree", {})["nodes"]
        by_id = {node["nodeId"]: node for node in nodes}

        def parts(node):
            if not node["ignored"]:
                yield node["role"]["value"], node.get("name", {}).get("value", "")
            for child in node.get("childIds", []):
                yield from parts(by_id[child])

        return [part for part in parts(nodes[0]) if part[0] not in ("generic", "InlineTextBox", "none")]

    def complaints(self):
        return [entry["message"] for entry in self.driver.get_log("browser")]


@in_browser
def a_browser_shows_what_comes_and_goes(program, browser):
    with shown(program, (1, "one")) as (client, web):
        browser.open(web)
        wait_until(lambda: browser.rows() == [["", "1", "one"]])
        browser.run("document.querySelector('tbody tr').kept = true")
        client.add("r", 0, MARKUP)
        wait_until(lambda: browser.rows() == [["new", "0", MARKUP], ["", "1", "one"]])
        expect(browser.run("return [document.title, document.images.length, document.scripts.length]"),
               ["Tests & <i>more</i>", 0, 1])  # fmt: skip
        expect(browser.run("return document.querySelectorAll('tbody tr')[1].kept"), True, "rows that stay are kept")
        expect(browser.run("return document.querySelector('p.count').textContent"), "2")
        expect(browser.run("return [...document.querySelectorAll('dd')].map(d => d.textContent)"), ["0", MARKUP])
        wait_until(lambda: MARKUP in browser.run("return document.getElementById('latest').textContent"))
        client.delete("r", 0, MARKUP)
        wait_until(lambda: browser.rows() == [["", "1", "one"]])
        client.add("r", 2, "two")
        wait_until(lambda: browser.rows()[-1] == ["new", "2", "two"])
        time.sleep(5)
        wait_until(lambda: browser.rows()[-1] == ["", "2", "two"])  # the mark goes by itself
        assert browser.run("return document.querySelector('.chart path.line1').getAttribute('d')").startswith("M")
        expect(browser.complaints(), [])


@in_browser
def a_browser_reads_well(program, browser):
    long = "a text that is as long as they come, " * 6
    with shown(program, (1, "one"), (2, long), (3, "w" * 250)) as (_, web):
        for width in (320, 390, 1200):
            browser.resize(width, 800)
            browser.open(web)
            wait_until(lambda: len(browser.rows()) == 3)
            wide = browser.run("return document.documentElement.scrollWidth")
            assert wide <= width, (wide, width)
        browser.resize(1200, 900)
        found = browser.run(
            "return {live: document.querySelectorAll('[aria-live=polite]').length,"
            " named: [...document.querySelectorAll('section')].every("
            "  s => document.getElementById(s.getAttribute('aria-labelledby')).textContent !== ''),"
            " tables: [...document.querySelectorAll('table')].every("
            "  t => t.caption.textContent !== '' && [...t.tHead.rows[0].cells].every("
            "   h => h.scope === 'col' && h.textContent !== '')),"
            " levels: [...document.querySelectorAll('h1,h2,h3')].map(h => h.tagName),"
            " lang: document.documentElement.lang}"
        )
        wanted = {"live": 1, "named": True, "tables": True, "levels": ["H1"] + ["H2"] * 4, "lang": "en"}
        expect(found, wanted)


# How far what is drawn stands out from what is behind it: the least contrast of a text, of a line of a chart, and how
# bright the ground is.
CONTRASTS = """
const channels = (color) => color.match(/[\\d.]+/g).map(Number);
const bright = (color) => {
  const [r, g, b] = channels(color).map((c) => c / 255)
    .map((c) => c <= 0.04045 ? c / 12.92 : ((c + 0.055) / 1.055) ** 2.4);
  return 0.2126 * r + 0.7152 * g + 0.0722 * b;
};
const ground = (element) => {
  for (; element; element = element.parentElement) {
    const color = getComputedStyle(element).backgroundColor;
    if ((channels(color)[3] ?? 1) === 1) return color;
  }
};
const contrast = (color, element) => {
  const [one, two] = [bright(color), bright(ground(element))].sort((a, b) => b - a);
  return (one + 0.05) / (two + 0.05);
};
const texts = [...document.querySelectorAll("body *")].filter((element) =>
  [...element.childNodes].some((node) => node.nodeType === 3 && node.data.trim() !== ""));
const style = (element) => getComputedStyle(element);
return {
  texts: Math.min(...texts.map((e) => contrast(e instanceof SVGElement ? style(e).fill : style(e).color, e))),
  lines: Math.min(...[...document.querySelectorAll("path")].map((e) => contrast(style(e).stroke, e))),
  ground: bright(ground(document.body)),
  number: texts.length,
};
"""


@in_browser
def a_browser_reads_well_in_light_and_in_dark(program, browser):
    lines = [f'[[panel]]\nkind = "chart"\nqueries = {json.dumps(["rows"] * 6)}\n']
    with shown(program, (1, "one"), page=PAGE + "".join(lines)) as (client, web):
        for key, scheme in enumerate(("light", "dark"), 2):
            browser.set_scheme(scheme)
            browser.open(web)
            wait_until(lambda: browser.run("return document.getElementById('status').className") == "live")
            client.add("r", key, "new")
            wait_until(lambda: "new" in [row[0] for row in browser.rows()])
            found = browser.run(CONTRASTS)
            assert found["texts"] >= 4.5 and found["lines"] >= 3 and found["number"] > 20, (scheme, found)
            assert (found["ground"] > 0.8) if scheme == "light" else (found["ground"] < 0.05), (scheme, found)
        browser.set_scheme("light")


@in_browser
def a_screen_reader_is_told_all(program, browser):
    with shown(program, (1, "one")) as (client, web), Events(web) as events:
        browser.open(web)
        events.until_whole()
        client.add("r", 2, "two")
        events.until(lambda views: views["2"]["cells"] == ["2", "two"])
        wait_until(lambda: len(browser.rows()) == 2)
        told = browser.read_out()
        expect(told[0], ("RootWebArea", "Tests & <i>more</i>"))
        expect([name for role, name in told if role == "heading"],
               ["Tests & <i>more</i>", "Rows <b>here</b>", "How many", "Newest", "Both"])  # fmt: skip
        for part in (("button", "Pause"), ("status", ""), ("table", "2 rows"), ("image", "Both the last 1 minute"),
                     ("term", "key"), ("definition", ""), ("listitem", "")):  # fmt: skip
            assert part in told, (part, told)
        for title in ("Rows <b>here</b>", "How many", "Newest", "Both"):
            assert ("region", title) in told, (title, told)
        cells = [part for part in told if part[0] in ("columnheader", "cell")]
        expect(cells, [("columnheader", "mark"), ("columnheader", "key"), ("columnheader", "<u>text</u>"),
                       ("cell", ""), ("cell", "1"), ("cell", "one"),
                       ("cell", "new"), ("cell", "2"), ("cell", "two")])  # fmt: skip
        # what lines show stands in words too, and so does what came last
        wanted = {"live", "<s>all</s>", "keys", "2"}

        def tells_all():
            words = {name for role, name in browser.read_out() if role == "StaticText"}
            newest = any(name.endswith("Rows <b>here</b>, new: 2, two") for name in words)
            return wanted <= words and newest and words & {"always 2 in 5 minutes", "1 to 2 in 5 minutes"}

        wait_until(tells_all)
        browser.run("document.getElementById('pause').focus()")
        expect(browser.run("return getComputedStyle(document.activeElement).outlineStyle"), "solid")


@in_browser
def a_phone_shows_all_in_its_width(program, browser):
    long = "a text that is as long as they come, " * 6
    try:
        with shown(program, (1, "one"), (2, long), (3, "w" * 250)) as (_, web):
            for width, height in ((320, 568), (390, 844), (844, 390)):
                browser.be_phone(width, height)
                browser.open(web)
                wait_until(lambda: len(browser.rows()) == 3)
                found = browser.run(
                    "const box = (e) => e.getBoundingClientRect();"
                    "const all = (words) => [...document.querySelectorAll(words)];"
                    "const button = box(document.getElementById('pause'));"
                    "return {inner: innerWidth, wide: document.documentElement.scrollWidth,"
                    " right: Math.max(...all('header, section, svg, #latest, .count').map(e => box(e).right)),"
                    " touch: Math.min(button.height, button.width),"
                    " small: Math.min(...all('body *').map(e => parseFloat(getComputedStyle(e).fontSize)))}"
                )
                expect((found["inner"], found["wide"]), (width, width))
                assert found["right"] <= width and found["touch"] >= 24 and found["small"] >= 12, found
    finally:
        browser.resize(1200, 900)


ALARMS = """
[[panel]]
kind = "table"
title = "Alarms"
query = "rows"
columns = ["key", "text"]
alarm = true
rows = 4
[[panel]]
kind = "count"
title = "How many"
query = "rows"
alarm = true
[[panel]]
kind = "table"
title = "Others"
query = "others"
"""


def is_red(browser, script):
    """Whether a color is much more red than green and blue."""
    red, green, blue = map(float, re.findall(r"[0-9.]+", browser.run(f"return {script}"))[:3])
    return red > green + 15 and red > blue + 15


@in_browser
def a_browser_shows_an_alarm_in_red(program, browser):
    with Server(program) as server, fill(server, (1, "one")) as client, Web(server, ALARMS) as web:
        for key, scheme in enumerate(("light", "dark"), 2):
            browser.set_scheme(scheme)
            browser.open(web)
            wait_until(lambda: len(browser.rows()) == key - 1)
            wait_until(lambda: browser.run("return document.getElementById('status').className") == "live")
            client.add("r", key, "new")
            wait_until(lambda: browser.rows()[-1] == ["alarm", str(key), "new"])
            assert is_red(browser, "getComputedStyle([...document.querySelectorAll('tr.came')].pop()).backgroundColor")
            assert is_red(browser, "getComputedStyle(document.querySelector('.count.some')).color")
            why = browser.run("return [...document.querySelectorAll('.why')].map(e => e.textContent)")
            expect((why[:2], "no query others" in why[2]), (["", ""], True), "an error is its panel's")
        browser.set_scheme("light")
        expect(browser.complaints(), [])


@in_browser
def a_browser_turns_pages(program, browser):
    rows = [(key, f"text {key}") for key in range(10)]
    page = "[[panel]]".join(ALARMS.split("[[panel]]")[:2])
    with shown(program, *rows, page=page) as (client, web):
        browser.open(web)
        keys = lambda: [int(row[1]) for row in browser.rows()]  # noqa: E731
        press = lambda rel: browser.run(f"document.querySelector('a[rel={rel}]').click()")  # noqa: E731
        wait_until(lambda: keys() == [0, 1, 2, 3])
        press("next")
        wait_until(lambda: keys() == [4, 5, 6, 7])
        client.delete("r", 0, "text 0")
        wait_until(lambda: keys() == [5, 6, 7, 8])
        press("next")
        wait_until(lambda: keys() == [9])
        press("next")  # there is no further one
        wait_until(lambda: browser.run("return document.querySelector('.pages span').textContent") == "Page 3 of 3")
        client.delete("r", 9, "text 9")
        wait_until(lambda: keys() == [5, 6, 7, 8])
        press("prev")
        wait_until(lambda: keys() == [1, 2, 3, 4])
        expect(browser.complaints(), [])


@in_browser
def a_browser_clamps_long_texts(program, browser):
    long = "\n".join(["a line"] * 30)
    with shown(program, (1, "one"), (2, long), (3, "w" * 250)) as (_, web):
        browser.open(web)
        wait_until(lambda: len(browser.rows()) == 3)
        heights = "return [...document.querySelectorAll('tbody tr')].map(row => row.offsetHeight)"
        one, *others = browser.run(heights)
        assert all(height < 4 * one for height in others), (one, others)
        browser.run("document.querySelectorAll('.long')[0].focus()")
        assert browser.run(heights)[1] > 20 * one, browser.run(heights)
        expect(browser.rows()[1][2], long, "the text is whole")


@in_browser
def a_browser_shows_ten_thousand_rows_at_once(program, browser):
    with shown(program) as (client, web):
        client.load("r", [(key, f"some text of row {key}") for key in range(10_000)])
        wait_until(lambda: "10,000" in web.page())
        browser.open(web)
        wait_until(lambda: len(browser.rows()) == 5)
        assert browser.painted() < 1, browser.painted()
        # when each row is the first of the table, by the browser's clock, which is this machine's
        browser.run(
            "window.seen = {};"
            "new MutationObserver(() => {"
            "  window.seen[document.querySelector('tbody tr').cells[1].textContent] ??= Date.now();"
            "}).observe(document.querySelector('tbody'), { childList: true });"
        )
        took = []
        for key in map(str, range(-1, -10, -1)):
            begun = time.time()
            client.add("r", int(key), "x" * 255)
            wait_until(lambda key=key: browser.run("return window.seen").get(key))
            took.append(browser.run("return window.seen")[key] / 1000 - begun)
        assert sorted(took)[4] < 0.1, took
        expect(browser.complaints(), [])


@in_browser
def a_browser_shows_any_query_in_two_clicks(program, browser):
    with Server(program) as server, fill(server, (1, "one")) as client, Web(server, None) as web:
        browser.open(web)
        browser.run("document.getElementById('name').value = 'rows'; document.querySelector('form button').click()")
        wait_until(lambda: [row[1:] for row in browser.rows()] == [["1", "one"]])
        client.add("r", 2, "two")
        wait_until(lambda: [row[1:] for row in browser.rows()] == [["1", "one"], ["2", "two"]])
        browser.run("document.querySelector('footer a').click()")
        wait_until(lambda: browser.run("return document.querySelectorAll('main li a').length") == 1)
        browser.run("document.querySelector('main li a').click()")
        wait_until(lambda: [row[1:] for row in browser.rows()] == [["1", "one"], ["2", "two"]])
        expect(browser.complaints(), [])


@in_browser
def a_browser_pauses_and_connects_again(program, browser):
    with Server(program) as server, fill(server, (1, "one")) as client:
        with Web(server) as web:
            browser.open(web.live())
            wait_until(lambda: len(browser.rows()) == 1)
            browser.run("document.getElementById('pause').click()")
            client.add("r", 2, "two")
            time.sleep(0.4)
            expect(len(browser.rows()), 1, "nothing moves while it is paused")
            browser.run("document.getElementById('pause').click()")
            wait_until(lambda: len(browser.rows()) == 2)
            port = web.port
        wait_until(lambda: "not connected" in browser.run("return document.getElementById('status').textContent"))
        client.add("r", 3, "three")
        with Web(server, port=port):
            wait_until(lambda: len(browser.rows()) == 3)
            wait_until(lambda: browser.run("return document.getElementById('status').className") == "live")


def take_pictures(program, paths, seconds=100):
    """The demo's page, once its lines are long enough: in light, and in dark where a second path is given. Where
    `pngquant` is there, it makes the files small."""
    with Server(program) as server, Web(server, "", "--demo") as web:
        time.sleep(seconds)
        browser = Browser(1080, 900)
        try:
            for path, scheme in zip(paths, ("light", "dark")):
                browser.set_scheme(scheme)
                browser.open(web)
                wait_until(lambda: browser.run("return document.querySelectorAll('tr.came').length") > 1)
                browser.resize(1080, min(1100, browser.run("return document.body.offsetHeight")))
                time.sleep(1)
                browser.driver.save_screenshot(path)
        finally:
            browser.driver.quit()
    for path in paths:
        if shutil.which("pngquant"):
            subprocess.run(["pngquant", "--force", "--speed", "1", "--output", path, "24", path], check=True)
        print(f"{path}: {os.path.getsize(path)} bytes")


BROWSER_NEEDS = "chromium, chromium-driver, python3-selenium"


def has_aiohttp():
    return importlib.util.find_spec("aiohttp") is not None


def has_browser():
    try:
        import selenium  # noqa: F401
    except ImportError:
        return False
    return bool(shutil.which("chromium") and shutil.which("chromedriver"))


def lacks(function):
    """The packages that a test needs and that aren't there."""
    if not has_aiohttp():
        return "python3-aiohttp"
    return BROWSER_NEEDS if function in BROWSER_TESTS and not has_browser() else ""


def main(program, names):
    passed = failed = skipped = 0
    missed = {}
    chosen = [function for function in TESTS + BROWSER_TESTS if not names or function.__name__ in names]
    with contextlib.ExitStack() as stack:
        browser = None
        for function in chosen:
            begun = time.monotonic()
            if missing := lacks(function):
                skipped += 1
                missed[missing] = True
                print(f"{function.__name__}: skipped, without {missing}")
                continue
            try:
                if function in BROWSER_TESTS and browser is None:
                    browser = Browser()
                    stack.callback(browser.driver.quit)
                function(program, *([browser] if function in BROWSER_TESTS else []))
                passed += 1
                if os.environ.get("TIMES"):
                    print(f"{function.__name__}: {time.monotonic() - begun:.1f} s", flush=True)
            except Exception:
                failed += 1
                print(f"{function.__name__}: {traceback.format_exc(limit=-2)}")
    without = f", {skipped} skipped, without {', '.join(missed)}" if skipped else ""
    print(f"{passed} passed, {failed} failed{without}")
    return 1 if failed or not chosen else 0


if __name__ == "__main__":
    if len(sys.argv) < 2:
        raise SystemExit(__doc__)
    # Debian's packages are for Debian's interpreter
    if not (has_browser() and has_aiohttp()) and os.path.exists(DEBIAN) and not os.environ.get("DJQ_WEB_AGAIN"):
        os.execve(DEBIAN, [DEBIAN, *sys.argv], dict(os.environ, DJQ_WEB_AGAIN="1"))
    if sys.argv[2:3] == ["--picture"]:
        take_pictures(os.path.abspath(sys.argv[1]), sys.argv[3:5])
        sys.exit(0)
    sys.exit(main(os.path.abspath(sys.argv[1]), sys.argv[2:]))
