"""Texts that mean harm, and texts with odd bytes: all of it is text, none of it runs, and nothing leaves the page."""

import base64

from pages import DATA, PUMP

MARKUP = b"</script><script>document.title = 'hit'</script><img src=x onerror=\"document.title = 'hit'\"><svg onload=alert(1)>"
LINES = [
    (b"600000 tick", None), (MARKUP, "BadLine"), (b"\xff\xfe\r", "BadLine"), (b"__proto__ constructor", "BadLine"),
    (b"600000 alarm __proto__", "UnknownName"), (b"600000 alarm toString", "UnknownName"), (b"x" * 4097, "TooLong"),
    (b"y" * 4096, "BadLine"),
    (b"nul \x00 and \x1b[31m", "BadLine"), (b"600000 tick\r", "BadLine"), (b"&lt;b&gt; &amp;", "BadLine"),
    ("\u202e right to left".encode(), "BadLine"), (b"<!-- <script>", "BadLine"), (b"1800000 tick", None),
]  # fmt: skip
HOSTILE = b"".join(line + b"\n" for line, _ in LINES)
FETCH = "const done = arguments[0]; fetch('http://192.0.2.1/').then(() => done('fetched'), () => done('refused'))"


def markup_of_a_log_is_text(view):
    log = view.maker.write("hostile.log", HOSTILE)
    view.show(PUMP[0], log)
    title = view.run("return document.title")
    view.open_tab("log")
    view.has(view.text("#log-lines [data-line='2']"), "</script><script>document.title", "the line with markup")
    view.same(view.count("#panel img, #panel script, #tracks img, #panel svg"), 0, "elements that a log made")
    view.same(view.run("return document.title"), title, "the title, which no script of a log has changed")
    view.same(view.values("#log-lines [data-line]", "refused"), [cause for _, cause in LINES], "the refusals")
    view.quiet()


def odd_bytes_are_carried_and_saved(view):
    log = view.maker.write("odd.log", HOSTILE)
    view.show(PUMP[0], log)
    view.same(view.saved_texts(["pump.tfpg", "odd.log"]), [PUMP[0].read_bytes(), HOSTILE], "what is saved again")


def names_of_files_are_text(view):
    name = "<img src=x onerror=document.title='hit'>&quot;.log"
    log = view.maker.write(name, PUMP[1].read_bytes())
    view.show(PUMP[0], log)
    view.has(view.run("return document.body.innerText + document.body.textContent"), "<img src=x", "the name of the file")
    view.same(view.count("main img, header img, body > img"), 0, "elements that a name made")
    view.same(view.run("return document.title") == "hit", False, "the title was changed by a name")
    view.quiet()


def names_of_javascript_are_names(view):
    """A graph whose nodes and modes are called as members of every object of JavaScript."""
    graph = view.maker.write("names.tfpg", (DATA / "names.tfpg").read_bytes())
    log = view.maker.write("names.log", (DATA / "names.log").read_bytes())
    view.show(graph, log)
    view.same(sorted(view.values("g.node", "node")), ["constructor", "hasOwnProperty", "p__proto__", "toString"], "the nodes")
    view.same(view.nodes("alarm"), ["hasOwnProperty", "toString"], "what has an alarm")
    view.quiet()


def no_other_script_runs(view):
    view.show(*PUMP)
    view.run("const s = document.createElement('script'); s.textContent = 'document.title = \"hit\"'; document.body.append(s)")
    view.run("document.body.insertAdjacentHTML('beforeend', '<img src=x onerror=\"document.title = 1 + 1\">')")
    view.same(view.run("return document.title").startswith(("hit", "2")), False, "a script that the page does not know has run")
    view.same(len(view.faults()) >= 2, True, "the policy names what it refused")


def no_request_leaves_the_page(view):
    view.show(*PUMP)
    view.requests()
    policy = view.run("return document.querySelector('meta[http-equiv=Content-Security-Policy]').content")
    view.same(policy.split(";")[0], "default-src 'none'", "the policy")
    view.same(view.driver.execute_async_script(FETCH), "refused", "a request to the network")
    view.faults()
    page = view.maker.page(*PUMP)
    view.load_right(page)
    for tab in view.values("[role=tab]", "tab"):
        view.open_tab(tab)
    view.same([address for address in view.requests() if not address.startswith(("data:", "blob:"))], [page.as_uri()], "what was asked for")
    view.quiet()


def a_page_names_no_address(view):
    """Nothing in the document would be fetched, but for names of namespaces, which no browser fetches."""
    page = view.maker.page(*PUMP).read_bytes()
    for word in (b"<link", b"<iframe", b"@import", b"url(http", b'src="', b"integrity="):
        view.same(page.count(word), 0, f"how often {word!r} stands in the page")
    view.same(base64.b64encode(b"tfpg 1") in page, False, "the graph in plain base 64, which is packed")
