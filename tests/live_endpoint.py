#!/usr/bin/env python3
"""Tests of a query's answers as server-sent events (`/live/QUERY` of djq.web), beside the built program on loopback.

    python3 tests/live_endpoint.py PROGRAM [NAME ..]

It needs the Debian package python3-aiohttp, as djq.web does; the test of examples/live.html also chromium,
chromium-driver and python3-selenium. Without them tests are skipped by name. A line is printed for each test that fails
or is skipped, and last `N passed, N failed`, with `, N skipped` and what they were without; the status is 0 where none
failed.
"""

import contextlib
import functools
import http.client
import http.server
import json
import os
import random
import selectors
import signal
import socket
import sys
import threading
import time
import traceback
import urllib.parse

from serving import HERE, SECONDS, Server, wait_until
from web import BROWSER_NEEDS, DEBIAN, Browser, Web, expect, has_aiohttp, has_browser

TESTS = []
BROWSER_TESTS = []
HEAD = ("--query", "rows(key,text)")


def test(function):
    TESTS.append(function)
    return function


def in_browser(function):
    BROWSER_TESTS.append(function)
    return function


class Stream:
    """A viewer of `/live/..`: the events that came, and the answers that they leave. One that comes again had an event
    of the id `last`, and `answers`."""

    def __init__(self, web, path="/live/rows", last=None, answers=None, **headers):
        sent = {"Accept": "text/event-stream", **{k.replace("_", "-"): v for k, v in headers.items()}}
        if last is not None:
            sent["Last-Event-ID"] = last
        self._connection = http.client.HTTPConnection("127.0.0.1", web.port, timeout=SECONDS)
        self._connection.request("GET", path, headers=sent)
        self._reply = self._connection.getresponse()
        assert self._reply.status == 200, (self._reply.status, self._reply.read())
        self.headers = dict(self._reply.getheaders())
        self.events, self.status, self.last, self.columns, self.error = [], {}, last, None, None
        self.answers = None if answers is None else set(answers)
        self.size = 0
        self._changed = threading.Condition()
        threading.Thread(target=self._read, daemon=True).start()

    def __enter__(self):
        return self

    def __exit__(self, *_):
        with contextlib.suppress(OSError):
            self._connection.sock and self._connection.sock.shutdown(socket.SHUT_RDWR)
        self._connection.close()

    def _read(self):
        name = ""
        with contextlib.suppress(OSError, ValueError, AttributeError, http.client.HTTPException):
            while line := self._reply.readline():
                word, _, rest = line.decode().rstrip("\n").partition(": ")
                with self._changed:
                    self.size += len(line)
                    if word == "event":
                        name = rest
                    elif word == "id":
                        self.last = rest
                    elif word == "data":
                        try:
                            self._take(name, json.loads(rest))
                        except AssertionError as error:
                            self.error = self.error or error
                    self._changed.notify_all()

    def _take(self, name, view):
        self.events.append((name, view))
        if name == "status":
            self.status = view
        elif name == "answers":
            self.columns, self.answers = view["columns"], {tuple(answer) for answer in view["answers"]}
            assert len(self.answers) == len(view["answers"]), "an answer twice"
        elif name == "change":
            went, came = ({tuple(answer) for answer in view[side]} for side in ("went", "came"))
            assert self.answers is not None, "a change before the answers"
            assert went <= self.answers and not came & (self.answers - went), (view, self.answers)
            self.answers = (self.answers - went) | came

    def until(self, holds):
        with self._changed:
            assert self._changed.wait_for(lambda: self.error or holds(), SECONDS), self.events[-5:]
        if self.error is not None:
            raise self.error
        return self

    def until_answers(self, *answers):
        return self.until(lambda: self.answers == set(answers))

    def names(self):
        return [name for name, _ in self.events if name != "status"]


def fill(server, *rows):
    client = server.connect()
    client.relation("r", int, str)
    for row in rows:
        client.add("r", *row)
    client.query("rows(k,t) <- r(k,t)")
    return client


@contextlib.contextmanager
def served(program, *rows, words=HEAD):
    """A server with these rows, a client of it, and djq-web without a page file."""
    with Server(program) as server, fill(server, *rows) as client, Web(server, None, *words) as web:
        yield client, web


@test
def first_all_answers_come_then_each_change(program):
    with served(program, (1, "one"), (2, 'a "b"\n\\c')) as (client, web), Stream(web) as stream:
        stream.until_answers((1, "one"), (2, 'a "b"\n\\c'))
        stream.until(lambda: stream.status == {"live": True, "words": "live"})
        expect(stream.columns, ["key", "text"])
        expect(stream.headers["Content-Type"], "text/event-stream; charset=utf-8")
        seq = client.add("r", 3, "three").seq
        stream.until_answers((1, "one"), (2, 'a "b"\n\\c'), (3, "three"))
        expect(stream.events[-1], ("change", {"seq": seq, "came": [[3, "three"]], "went": []}))
        with client.transaction() as change:  # one change is one event
            change.add("r", 4, "four")
            change.add("r", 5, "five")
        stream.until(lambda: (5, "five") in stream.answers)
        expect((stream.names(), len(stream.events[-1][1]["came"])), (["answers", "change", "change"], 2))
        client.delete("r", 1, "one")
        stream.until(lambda: (1, "one") not in stream.answers)


@test
def a_viewer_that_comes_again_gets_what_it_missed(program):
    with served(program, (1, "one")) as (client, web):
        with Stream(web) as stream:
            stream.until_answers((1, "one"))
            client.add("r", 2, "two")
            stream.until_answers((1, "one"), (2, "two"))
            last = stream.last
        client.add("r", 3, "three")
        client.delete("r", 2, "two")
        with Stream(web, last=last, answers=stream.answers) as again:
            again.until(lambda: len(again.names()) == 2)
            expect((again.names(), again.answers), (["change", "change"], {(1, "one"), (3, "three")}))
            client.add("r", 4, "four")
            again.until_answers((1, "one"), (3, "three"), (4, "four"))
        for unknown in ("", "x", "deadbeef-3", f"{last.partition('-')[0]}-999999", f"{last}0000", "é-1"):
            with Stream(web, last=unknown.encode("latin-1")) as other:
                other.until_answers((1, "one"), (3, "three"), (4, "four"))
                expect(other.names(), ["answers"], unknown)


@test
def who_missed_too_much_gets_all_anew(program):
    with served(program, (1, "one")) as (client, web):
        with Stream(web) as stream:
            stream.until_answers((1, "one"))
            last = stream.last
        with Stream(web) as other:
            other.until(lambda: other.answers is not None)
            for turn in range(1100):  # more changes than are held
                client.add("r", 2, "two") if turn % 2 == 0 else client.delete("r", 2, "two")
            client.add("r", 3, "three")
            other.until_answers((1, "one"), (3, "three"))
        with Stream(web, last=last) as again:
            again.until_answers((1, "one"), (3, "three"))
            expect(again.names(), ["answers"])


@test
def a_viewer_may_ask_for_a_value(program):
    rows = [(key % 4, f"text {key}") for key in range(12)]
    with served(program, *rows) as (client, web), contextlib.ExitStack() as stack:
        by_key = [stack.enter_context(Stream(web, f"/live/rows?key={key}")) for key in range(5)]
        for key, stream in enumerate(by_key):
            stream.until_answers(*[row for row in rows if row[0] == key])
        by_place = stack.enter_context(Stream(web, "/live/rows?2=" + urllib.parse.quote("text 7")))
        by_place.until_answers((3, "text 7"))
        by_both = stack.enter_context(Stream(web, "/live/rows?text=text+1&key=1"))
        by_both.until_answers((1, "text 1"))
        sizes = [len(stream.events) for stream in by_key]
        client.add("r", 2, "further")
        by_key[2].until(lambda: (2, "further") in by_key[2].answers)
        client.delete("r", 3, "text 7")
        by_place.until_answers()
        by_key[3].until_answers((3, "text 3"), (3, "text 11"))
        expect([len(stream.events) - size for stream, size in zip(by_key, sizes)], [0, 0, 1, 1, 0])
        expect([name for name, _ in by_both.events].count("change"), 0)
        last = by_key[2].last
        by_key[2].__exit__()
        client.add("r", 0, "of another")
        client.add("r", 2, "missed")
        with Stream(web, "/live/rows?key=2", last=last, answers=by_key[2].answers) as again:
            again.until(lambda: (2, "missed") in again.answers)
            expect(again.names(), ["change"])
        for path, why in (
            ("/live/rows?color=1", "no column color; its columns are key, text"),
            ("/live/rows?key=1&1=2", "1 is asked for twice"),
        ):
            status, _, text = web.ask(path)
            assert status == 400 and why in text, (status, text)


@test
def integers_that_javascript_rounds_are_texts(program):
    rows = [(2**53 - 1, "exact"), (2**53, "more"), (-(2**63), "least")]
    with served(program, *rows) as (_, web):
        with Stream(web) as stream:
            stream.until_answers((2**53 - 1, "exact"), (str(2**53), "more"), (str(-(2**63)), "least"))
        with Stream(web, f"/live/rows?key={2**53}") as stream:
            stream.until_answers((str(2**53), "more"))


@test
def a_query_that_comes_later_begins_by_itself(program):
    with Server(program) as server, server.connect() as client, Web(server, None) as web:
        with Stream(web, "/live/later") as stream:
            stream.until(lambda: "no query later yet" in stream.status.get("words", ""))
            expect((stream.status["live"], stream.answers), (False, None))
            client.relation("r", int)
            client.add("r", 1)
            client.query("later(x) <- r(x)")
            stream.until_answers((1,)).until(lambda: stream.status["live"])


@test
def a_viewer_stays_beyond_a_restart_of_the_server(program):
    with Server(program) as server, fill(server, (1, "one"), (2, "two")), Web(server, None) as web:
        with Stream(web) as stream:
            stream.until_answers((1, "one"), (2, "two"))
            server.__exit__()
            stream.until(lambda: not stream.status["live"])
            assert "doesn't answer" in stream.status["words"], stream.status
            with Server(program, server.port) as again, fill(again, (1, "one"), (3, "three")):
                stream.until_answers((1, "one"), (3, "three")).until(lambda: stream.status["live"])
                expect(stream.names(), ["answers", "change"], "what was missed is one change")


@test
def other_origins_are_let_in_by_a_list(program):
    allowed = "https://factory.example"
    with served(program, (1, "one"), words=(*HEAD, "--allow", allowed, "--allow", "null")) as (_, web):
        for origin in (allowed, "null"):
            with Stream(web, Origin=origin, Sec_Fetch_Site="cross-site") as stream:
                stream.until_answers((1, "one"))
                expect(stream.headers["Access-Control-Allow-Origin"], origin)
                expect(stream.headers["Cross-Origin-Resource-Policy"], "cross-origin")
                expect(stream.headers["Vary"], "Origin")
            expect(web.ask("/live/rows", "OPTIONS", Origin=origin)[0], 204)
            for path in ("/", "/show/rows", "/offer"):
                expect(web.ask(path, Origin=origin)[0], 403, path)
        for origin in ("https://other.example", f"{allowed}.evil", "http://factory.example", f"{allowed}:1"):
            status, headers, text = web.ask("/live/rows", Origin=origin)
            expect((status, "Access-Control-Allow-Origin" in headers), (403, False), origin)
            assert "--allow" in text, text
        expect(web.ask("/live/rows", Sec_Fetch_Site="cross-site", Sec_Fetch_Mode="no-cors")[0], 403)
        expect(web.ask("/live/rows", host="evil.test")[0], 421)
        expect(web.ask("/live/rows", "POST", Origin=allowed)[0], 405)
        with Stream(web, Origin=f"http://127.0.0.1:{web.port}") as stream:
            stream.until_answers((1, "one"))


@test
def with_a_page_its_queries_alone_are_sent(program):
    page = '[[panel]]\nkind = "table"\nquery = "rows"\ncolumns = ["key", "text"]\n'
    with Server(program) as server, fill(server, (1, "one")) as client:
        client.query("other(k) <- r(k,_)")
        with Web(server, page) as web:
            with Stream(web, "/live/rows?text=one") as stream:
                stream.until_answers((1, "one"))
            status, _, text = web.ask("/live/other")
            assert status == 404 and "--all would" in text, text
        with Web(server, page, "--all") as web, Stream(web, "/live/other") as stream:
            stream.until_answers((1,))
        for name in ("Rows", "a-b", "x" * 33):
            expect(status_of(server, name), 404, name)


def status_of(server, name):
    with Web(server, None) as web:
        return web.ask(f"/live/{name}")[0]


@test
def one_viewer_too_many_gets_a_page(program):
    words = (*HEAD, "--viewers", "2", "--allow", "https://factory.example")
    with served(program, (1, "one"), words=words) as (_, web), Stream(web) as one, Stream(web) as two:
        one.until_answers((1, "one"))
        two.until_answers((1, "one"))
        status, headers, text = web.ask("/live/rows", Origin="https://factory.example")
        expect((status, headers["Retry-After"]), (503, "5"))
        expect(headers["Access-Control-Allow-Origin"], "https://factory.example", "a page may read why")
        assert "2 viewers, which are the most" in text, text
        one.__exit__()
        wait_until(lambda: web.ask("/live/rows")[0] == 200)


@test
def a_viewer_that_reads_nothing_holds_nobody_up(program):
    with served(program, (0, "begin")) as (client, web), contextlib.ExitStack() as stack:
        for _ in range(5):
            stuck = stack.enter_context(socket.socket())
            stuck.setsockopt(socket.SOL_SOCKET, socket.SO_RCVBUF, 4096)
            stuck.connect(("127.0.0.1", web.port))
            stuck.sendall(f"GET /live/rows HTTP/1.1\r\nHost: localhost:{web.port}\r\n\r\n".encode())
        with Stream(web) as stream:
            stream.until(lambda: stream.answers is not None)
            for turn in range(3):
                client.load("r", [(1000 * turn + key, "x" * 200) for key in range(1, 1001)])
            stream.until(lambda: len(stream.answers) == 3001)


@test
def who_reads_slowly_gets_all_anew(program):
    """Random changes, of which viewers take what waits now and then, with little room for it: each has the answers of
    what it took last, and some were sent all answers anew."""
    from djq.protocol import Change
    from djq.web import live
    from djq.web.feeds import Feed
    from djq.web.names import Names

    chance, most = random.Random(3), live.MOST_PENDING
    live.MOST_PENDING = 300
    try:
        feed, there, anew = Feed("q"), set(), 0
        feed.began = True
        hub = live.Hub(feed, Names())
        asked = ({}, {}, {0: "1"}, {0: "2", 1: "a"})
        watchers = [live.Watcher(hub, wanted, lambda: None) for wanted in asked]
        has = [None] * len(watchers)
        for watcher in watchers:
            hub.join(watcher, "")
        for seq in range(600):
            row = (chance.randrange(3), chance.choice("abc"))
            came, went = frozenset([row] if row not in there else []), frozenset([row] if row in there else [])
            there = there - went | came
            feed.answers = there
            hub.change(feed, Change(seq, came, went))
            for place, watcher in enumerate(watchers):
                if chance.random() < 0.2:
                    has[place], all_came = taken(has[place], watcher.take())
                    anew += all_came
                    wanted = {row for row in there if watcher.asks_for(row)}
                    expect(has[place], wanted, place, seq)
        assert anew > 2 * len(watchers), anew
    finally:
        live.MOST_PENDING = most


def taken(answers, sent):
    """The answers of a viewer that had these and takes these events; and whether all answers came."""
    anew = False
    for event in filter(None, sent.decode().split("\n\n")):
        fields = dict(line.partition(": ")[::2] for line in event.split("\n"))
        view = json.loads(fields["data"])
        if fields["event"] == "answers":
            answers, anew = {tuple(answer) for answer in view["answers"]}, True
        elif fields["event"] == "change":
            answers = answers - {tuple(answer) for answer in view["went"]} | {tuple(answer) for answer in view["came"]}
    return answers, anew


@test
def what_viewers_have_is_what_the_server_has(program):
    """Random changes, and viewers that go and come again with the last id, some of them by key."""
    chance = random.Random(1)
    with served(program, (0, "begin")) as (client, web), contextlib.ExitStack() as stack:
        paths = ["/live/rows", *(f"/live/rows?key={key}" for key in range(3))]
        streams = [stack.enter_context(Stream(web, path)) for path in paths]
        for stream in streams:
            stream.until(lambda stream=stream: stream.answers is not None)
        there = {(0, "begin")}
        for _ in range(300):
            row = (chance.randrange(4), chance.choice("abcdefgh"))
            if row in there:
                client.delete("r", *row)
                there.discard(row)
            else:
                client.add("r", *row)
                there.add(row)
            if chance.random() < 0.1:
                place = chance.randrange(len(paths))
                old = streams[place]
                old.__exit__()
                streams[place] = stack.enter_context(Stream(web, paths[place], old.last, old.answers))
        for key, stream in zip((None, 0, 1, 2), streams):
            wanted = {row for row in there if key is None or row[0] == key}
            stream.until(lambda stream=stream, wanted=wanted: stream.answers == wanted)
        resumed = [stream for stream in streams if stream.names()[:1] == ["change"]]
        assert resumed, "no viewer was resumed"


@test
def two_thousand_viewers_are_served(program):
    """With a key each, and one more; over one connection to the server that holds the rows."""
    count = 2000
    with served(program, words=HEAD) as (client, web), contextlib.ExitStack() as stack:
        client.load("r", [(key, "first") for key in range(count)])
        many = stack.enter_context(Many(web.port, count))
        many.until(b"event: answers")
        status, _, text = web.ask("/live/rows?key=1")
        assert status == 503 and "2000 viewers" in text, (status, text)
        expect(web.ask()[0], 200, "a page without a stream is shown")
        client.add("r", 1234, "second")
        many.until(b"second", [1234])
        expect([key for key in range(count) if b"second" in many.got[key]], [1234], "nobody else was sent it")
        established = connections_to(web.process.pid, client.port)
        expect(established, 1, "connections to the server")


def connections_to(pid, port):
    """How many connections a process has to a port of loopback."""
    inodes = set()
    for name in os.listdir(f"/proc/{pid}/fd"):
        with contextlib.suppress(OSError):
            inodes.add(os.readlink(f"/proc/{pid}/fd/{name}").removeprefix("socket:[").removesuffix("]"))
    with open("/proc/net/tcp", encoding="ascii") as lines:
        rows = [line.split() for line in lines][1:]
    return sum(row[2].endswith(f":{port:04X}") and row[3] == "01" and row[9] in inodes for row in rows)


class Many:
    """So many viewers of one process, each of a key of its own: `got` is what each was sent."""

    def __init__(self, port, count, path="/live/rows?key={}"):
        self.got = [bytearray() for _ in range(count)]
        self._selector = selectors.DefaultSelector()
        self._sockets = []
        for number in range(count):
            one = socket.create_connection(("127.0.0.1", port), timeout=SECONDS)
            one.sendall(f"GET {path.format(number)} HTTP/1.1\r\nHost: 127.0.0.1:{port}\r\n\r\n".encode())
            one.setblocking(False)
            self._sockets.append(one)
            self._selector.register(one, selectors.EVENT_READ, number)
            if number % 50 == 0:
                self.read(0)

    def __enter__(self):
        return self

    def __exit__(self, *_):
        for one in self._sockets:
            one.close()

    def read(self, timeout):
        """Takes what has come: for each viewer to whom something did, how much it had before."""
        came = {}
        for key, _ in self._selector.select(timeout):
            piece = key.fileobj.recv(1 << 16)
            assert piece, f"viewer {key.data} was closed: {bytes(self.got[key.data][-200:])}"
            came[key.data] = len(self.got[key.data])
            self.got[key.data] += piece
        return came

    def until(self, mark, numbers=None):
        """Waits until all of these viewers, else all there are, were sent this."""
        until = time.monotonic() + 3 * SECONDS
        left = {number for number in numbers or range(len(self.got)) if mark not in self.got[number]}
        while left:
            assert time.monotonic() < until, f"waited too long for {len(left)} viewers"
            for number, before in self.read(0.05).items():
                if self.got[number].find(mark, max(0, before - len(mark))) >= 0:
                    left.discard(number)


@in_browser
def the_example_shows_a_live_table(program, browser):
    handler = functools.partial(Quiet, directory=os.path.join(HERE, "..", "examples"))
    with http.server.ThreadingHTTPServer(("127.0.0.1", 0), handler) as files:
        threading.Thread(target=files.serve_forever, daemon=True).start()
        origin = f"http://127.0.0.1:{files.server_address[1]}"
        try:
            with Server(program) as server, fill(server, (1, "one"), (2, "<b>two</b>")) as client:
                shows_a_live_table(server, client, browser, origin)
        finally:
            files.shutdown()


def shows_a_live_table(server, client, browser, origin):
    cells = "return [...document.querySelectorAll('tr')].map(row => [...row.cells].map(cell => cell.textContent))"
    rows = lambda: sorted(browser.run(cells))  # noqa: E731
    status = lambda: browser.run("return document.getElementById('status').textContent")  # noqa: E731
    with Web(server, None, "--allow", origin) as web:
        port = web.port
        browser.driver.get(f"{origin}/live.html?server=http://127.0.0.1:{port}&query=rows")
        wait_until(lambda: rows() == [["1", "one"], ["2", "<b>two</b>"]] and status() == "live")
        client.add("r", 3, "three")
        client.delete("r", 1, "one")
        wait_until(lambda: rows() == [["2", "<b>two</b>"], ["3", "three"]])
    wait_until(lambda: "trying again" in status())
    client.add("r", 4, "four")
    with Web(server, None, "--allow", origin, port=port):
        wait_until(lambda: rows() == [["2", "<b>two</b>"], ["3", "three"], ["4", "four"]] and status() == "live")


class Quiet(http.server.SimpleHTTPRequestHandler):
    """Serves files, and logs nothing."""

    def log_message(self, *_):
        pass


def main(program, names):
    passed = failed = skipped = 0
    missed = {}
    chosen = [function for function in TESTS + BROWSER_TESTS if not names or function.__name__ in names]
    for function in chosen:
        needs = "python3-aiohttp" if not has_aiohttp() else ""
        if function in BROWSER_TESTS and not has_browser():
            needs = BROWSER_NEEDS
        if needs:
            skipped += 1
            missed[needs] = True
            print(f"{function.__name__}: skipped, without {needs}")
            continue
        begun = time.monotonic()
        try:
            with contextlib.ExitStack() as stack:
                more = []
                if function in BROWSER_TESTS:
                    more = [Browser()]
                    stack.callback(more[0].driver.quit)
                function(program, *more)
            passed += 1
            if os.environ.get("TIMES"):
                print(f"{function.__name__}: {time.monotonic() - begun:.1f} s", flush=True)
        except Exception:
            failed += 1
            print(f"{function.__name__}: {traceback.format_exc(limit=-2)}")
    without = f", {skipped} skipped, without {', '.join(missed)}" if skipped else ""
    print(f"{passed} passed, {failed} failed{without}")
    return 1 if failed or not chosen else 0


if __name__ == "__main__":
    if len(sys.argv) < 2:
        raise SystemExit(__doc__)
    # Debian's packages are for Debian's interpreter
    if not (has_aiohttp() and has_browser()) and os.path.exists(DEBIAN) and not os.environ.get("DJQ_WEB_AGAIN"):
        os.execve(DEBIAN, [DEBIAN, *sys.argv], dict(os.environ, DJQ_WEB_AGAIN="1"))
    signal.signal(signal.SIGPIPE, signal.SIG_IGN)
    sys.exit(main(os.path.abspath(sys.argv[1]), sys.argv[2:]))
