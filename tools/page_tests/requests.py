"""What the server of the page answers, without a browser: its files and lists, who may ask, and the desk's own answers."""

import csv
import importlib.machinery
import io
import pathlib
import socket
import subprocess
import time
import types
import urllib.parse

from page_tests.desk import Desk, ROOT, STEPS, asked, holds, is_soon, same, sample, tally

TYPES = {".html": "text/html", ".css": "text/css", ".js": "text/javascript"}
FILES = {"/": "index.html", **{f"/page/{name}": name for name in ("page.css", "desk.js", "rows.js", "conllu.js", "tree.js", "edit.js", "find.js", "page.js")}}
OWN_FIELDS = [
    "Content-Security-Policy: default-src 'none'; script-src 'self'; style-src 'self'; connect-src 'self'; img-src data:; base-uri 'none'; "
    "form-action 'none'; frame-ancestors 'none'; require-trusted-types-for 'script'; trusted-types 'none'",
    "X-Content-Type-Options: nosniff",
    "Referrer-Policy: no-referrer",
    "Cross-Origin-Resource-Policy: same-origin",
    "Cross-Origin-Opener-Policy: same-origin",
    "Cache-Control: no-store",
]
COUNTS = "batches,sentences,moves"
BATCHES = "no,name,state,worker,first,sentences,words,pulled,pulled_words"
SENTENCES = "no,sent_id,rev,who,words,pulled,text"
SENTENCE = "no,batch,rev,words,pulled"
FAULTS = "line,code,sentence,rule,row,id,column,value,message"
# The most bytes of a body, and how many faults a check lists.
LONGEST, MOST = 4194304, 100


def split(answer):
    """The lines of the head of an answer, and its body."""
    head, _, body = answer.partition(b"\r\n\r\n")
    return head.decode("latin-1").split("\r\n"), body


def has(what, answer, status, kind, body, *fields):
    """An answer of the page's own, as a whole: its status, its fields in any order, and its body."""
    head, found = split(answer)
    wanted = [f"Content-Type: {kind}; charset=utf-8", f"Content-Length: {len(body)}", "Connection: close", *fields, *OWN_FIELDS]
    same(f"{what}: status", str(status), head[0].split()[1])
    same(f"{what}: fields", sorted(wanted), sorted(head[1:]))
    same(f"{what}: body", body, found)


def refuses(what, answer, status, line, *fields):
    has(what, answer, status, "text/plain", f"refused {line}\n".encode(), *fields)


def files_and_lists():
    """Each path of the page has its file or its list, and no other method."""
    desk = Desk()
    for path, name in FILES.items():
        kind = TYPES[pathlib.Path(name).suffix]
        has(path, desk.raw(desk.request(f"GET {path}")), 200, kind, (ROOT / "page" / name).read_bytes())
        refuses(path, desk.raw(desk.request(f"POST {path}", "Desk-User: ann")), 405, "method", "Allow: GET")

    def lists(path, *lines):
        has(path, desk.raw(desk.request(f"GET {path}")), 200, "text/plain", "".join(f"{line}\n" for line in lines).encode())
        refuses(path, desk.raw(desk.request(f"HEAD {path}")), 405, "method", "Allow: GET")
    lists("/page/now", COUNTS, "0,0,0")
    lists("/page/batches", BATCHES)
    desk.put("news", sample("english"), STEPS[0])
    desk.put("verse", sample("russian").replace(b"ru-1", 'p"r,\u00fc/#%?'.encode()))
    corrected = desk.ask("GET /sentences/1")[1].replace("\tJJ\t", "\tJJR\t").encode()
    same("a correction", (200, "corrected sentence=1 rev=2 words=6\n"), desk.ask("POST /sentences/1/after/1", corrected))
    same("a pull", (200, "pulled sentence=4 words=5\n"), desk.ask("POST /pull/4", user="ben"))
    lists("/page/now", COUNTS, "2,4,5")
    lists("/page/batches", BATCHES, "1,news,assigned,ann,1,2,13,0,0", "2,verse,open,,3,1,6,1,5")
    lists("/page/batches/1", SENTENCES, "1,en-1,2,ann,6,no,Small dogs don't bark.", "2,en-2,1,ann,7,no,Anna reads books and Tom newspapers.")
    lists("/page/batches/2", SENTENCES, '3,"p""r,\u00fc/#%?",1,ann,6,no,Кошка спит на старом стуле.', "4,ru-2,1,ann,5,yes,Я читаю новую книгу.")
    for escaped, line in (("en-1", "1,news,2,6,no"), ("ru-2", "4,verse,1,5,yes"), ("%72u%2D2", "4,verse,1,5,yes"), ("p%22r%2C%C3%BC%2F%23%25%3F", "3,verse,1,6,no")):
        lists(f"/page/sent-id/{escaped}", SENTENCE, line)
    for no in ("3", "9999999999"):
        refuses(no, desk.raw(desk.request(f"GET /page/batches/{no}")), 404, "2 NoSuchBatch")
    for escaped in ("ru-1", "EN-1", "", "en-1/", "en-1%20", "%FF"):
        refuses(escaped, desk.raw(desk.request(f"GET /page/sent-id/{escaped}")), 404, "3 NoSuchSentence")
    desk.close()


def faulty_texts():
    """Texts for a check: right ones, those with faulty lines, those that break rules, and those with more faults than are listed."""
    english, row = sample("english"), b"1\tGo\tgo\tVERB\t_\t_\t0\troot\t_\t_\n\n"
    yield from (sample(name) for name in ("english", "russian", "arabic", "chinese", "hindi"))
    yield from (b"", b"\n", b"\xff\n", b"\xef\xbb\xbf" + english, english.replace(b"\n", b"\r\n"), english[:100], english * 2)
    yield from (english.replace(b"\t2\tobj", b"\t_\tobj"), english.replace(b"\t5\tnsubj", b"\t9\tnsubj"), english.replace(b"\tVERB\t", b"\t\t"))
    yield english.replace(b"NOUN", b'"NN, \xe2\x80\xae').replace(b"en-1", b"a\tb")
    for count in (MOST - 1, MOST, MOST + 1):
        yield row.replace(b"VERB", b"") * count
        yield b"".join(b"# sent_id = %d\n# text = Go\n%s" % (n, row.replace(b"VERB", b"NN")) for n in range(count))


def checks():
    """A check lists what `deskview check` prints for the text, and saves nothing."""
    desk = Desk()
    desk.put("news", sample("english"), STEPS[0])
    before = desk.moves()

    def answer(body, *fields):
        return desk.raw(desk.request("POST /page/check", *fields, body=body))
    for text in faulty_texts():
        wanted = subprocess.run([asked.view, "check"], input=text, capture_output=True, check=False)
        holds(f"status of {text[:40]}", wanted.returncode in (0, 1))
        has(f"check of {text[:40]}", answer(text), 200, "text/plain", wanted.stdout)
    # (these are those of docs/guide/VIEW.md)
    english = sample("english")
    empty = "the column is empty; write _ where there is nothing"
    for text, lines in (
            (english, []), (b"", []),
            (english.replace(b"\t5\tnsubj", b"\t9\tnsubj").replace(b"\t2\tobj", b"\t_\tobj"),
             ["4,,1,4,2,2,HEAD,9,the sentence has no word of this number",
              '15,,2,4,3,3,HEAD,_,"a word has a HEAD; write the number of the word that it hangs from, or 0"']),
            (english.replace(b"\tVERB\t", b"\t\t"), [f"{line},4,,,,,UPOS,,{empty}" for line in (8, 14, 18)])):
        same("a list of faults", [FAULTS, *lines, ""], split(answer(text))[1].decode().split("\n"))
    same("moves", before, desk.moves())
    refuses("a check by GET", desk.raw(desk.request("GET /page/check")), 405, "method", "Allow: POST")
    for field in ("Content-Length: +1", "Content-Length: 3\r\nContent-Length: 3", "Transfer-Encoding: chunked"):
        refuses(field, answer(b"", field), 400, "length")
    for length in (LONGEST + 1, 10 ** 30):
        refuses(f"{length} bytes", answer(b"", f"Content-Length: {length}"), 413, "long")
    for path in ("/page/check/", "/page/check?x", "/page/Check", "/check"):
        refuses_of_the_desk(desk, f"POST {path}")
    desk.close()


def refuses_of_the_desk(desk, line):
    head, body = split(desk.raw(desk.request(line, body=b"x")))
    same(line, ("404", b"refused path\n"), (head[0].split()[1], body))


def texts_that_come_slowly():
    """The text of a check is awaited, beside others, and refused where it does not come."""
    desk = Desk()
    text = sample("english").replace(b"NOUN", b"NN")
    wanted = subprocess.run([asked.view, "check"], input=text, capture_output=True, check=False).stdout
    whole = desk.request("POST /page/check", body=text)
    at = whole.index(b"\r\n\r\n") + 4
    for pieces in ([whole[:at], whole[at:]], [whole[:at + 1], whole[at + 1:]], [whole[:20], whole[20:-1], whole[-1:]], [whole + b"more"]):
        has("a text in pieces", desk.raw(*pieces), 200, "text/plain", wanted)
    # While a text is awaited, others are answered.
    with socket.create_connection(("127.0.0.1", desk.port), timeout=30) as slow:
        slow.sendall(whole[:at + 10])
        begun = time.monotonic()
        for _ in range(10):
            same("a request beside a slow check", 200, desk.ask("GET /totals")[0])
        is_soon("ten requests beside a slow check", time.monotonic() - begun, 2)
        slow.sendall(whole[at + 10:])
        has("the slow check", b"".join(iter(lambda: slow.recv(65536), b"")), 200, "text/plain", wanted)
    for cut in (at, at + 10, len(whole) - 1):
        with socket.create_connection(("127.0.0.1", desk.port), timeout=30) as broken:
            broken.sendall(whole[:cut])
            broken.shutdown(socket.SHUT_WR)
            refuses("a text that broke off", b"".join(iter(lambda: broken.recv(65536), b"")), 400, "body")
    # The longest text has one long line, which is no file.
    longest = b"#" + b"x" * (LONGEST - 2) + b"\n"
    wanted = subprocess.run([asked.view, "check"], input=longest, capture_output=True, check=False).stdout
    has("the longest text", desk.raw(desk.request("POST /page/check", body=longest)), 200, "text/plain", wanted)
    desk.close()


def hosts_of_strangers(port):
    """Values of Host that are no name of this machine with this port."""
    here = f"127.0.0.1:{port}"
    return ["127.0.0.1", "localhost", "", f"127.0.0.1:{port % 65535 + 1}", f"evil.test:{port}", f"127.0.0.1.evil.test:{port}", f"evil.test@{here}",
            f"127.0.0.2:{port}", f"0.0.0.0:{port}", f"::1:{port}", f"localhost.:{port}", f"{here}0", f"{here},{here}", f"http://{here}"]


def fields_of_nobody(port):
    """Headers that do not have one Host, or another one."""
    here = f"Host: 127.0.0.1:{port}"
    yield from ([f"Host: {host}"] for host in hosts_of_strangers(port))
    yield from ([], [here, here], [here, "Host: evil.test"], ["Host: evil.test", here])
    yield from (["Host: evil.test", "Origin: http://evil.test"], ["Host: evil.test", f"Origin: http://127.0.0.1:{port}"])


def fields_of_others(host, hosts, port):
    """Headers with a right Host, that come from another page, or say twice where they come from."""
    own = f"Origin: http://{host}"
    origins = ["null", "", f"https://{host}", f"http://{host}/", "http://evil.test", f"http://localhost.evil.test:{port}"]
    for origin in origins + [f"http://{it}" for it in hosts if it.lower() != host.lower()]:
        yield [f"Origin: {origin}"]
    for site in ("same-site", "cross-site", "", "same-origin, none"):
        yield [f"Sec-Fetch-Site: {site}"]
    yield from ([own, own], [own, "origin: http://evil.test"], ["Origin: http://evil.test", own], [own, "Sec-Fetch-Site: cross-site"])
    yield from (["Sec-Fetch-Site: none"] * 2, ["Sec-Fetch-Site: none", "Sec-Fetch-Site: cross-site"])


def guard():
    """Who may ask: by Host, Origin and Sec-Fetch-Site, each once. What is refused does nothing."""
    desk = Desk()
    desk.put("news", sample("english"))
    before, port = desk.moves(), desk.port
    hosts = [f"127.0.0.1:{port}", f"localhost:{port}", f"LocalHost:{port}", f"[::1]:{port}"]

    def answer(line, fields):
        return desk.raw(desk.request(line, *fields, "Desk-User: eve", host=False))
    for line in ("GET /totals", "GET /page/now", "GET /page/page.js", "GET /nowhere", "POST /batches/news/assign", "POST /page/check"):
        for fields in fields_of_nobody(port):
            refuses(f"{line} {fields}", answer(line, fields), 403, "host")
        for host in hosts:
            for fields in fields_of_others(host, hosts, port):
                refuses(f"{line} {host} {fields}", answer(line, [f"Host: {host}", *fields]), 403, "origin")
    same("what was refused is not done", before, desk.moves())
    for line, status in (("GET /totals", "200"), ("GET /page/now", "200"), ("GET /page/page.js", "200"), ("GET /nowhere", "404"), ("POST /totals", "405"),
                         ("POST /page/check", "200")):
        for host in hosts:
            own = [f"Host: {host}"]
            for fields in (own, [f"host:{host}  "], [*own, f"Origin: http://{host}"], [*own, "Sec-Fetch-Site: same-origin"], [*own, "Sec-Fetch-Site: none"]):
                same(f"{line} {fields}", status, split(answer(line, fields))[0][0].split()[1])
    # A link from elsewhere leads to the page, since it is the same for all. It has the right Host, and no Origin.
    for site in ("Sec-Fetch-Site: cross-site", "Sec-Fetch-Site: same-site"):
        same(site, "200", split(desk.raw(desk.request("GET /", site)))[0][0].split()[1])
        refuses(site, desk.raw(desk.request("POST /", site)), 403, "origin")
        refuses(site, desk.raw(desk.request("GET /", "Host: evil.test", site, host=False)), 403, "host")
    refuses("GET /", desk.raw(desk.request("GET /", "Origin: http://evil.test")), 403, "origin")
    desk.close()


class Both:
    """A desk with the page, and one that `treedesk serve` serves. The same is asked of both."""

    def __init__(self):
        self.desks = [Desk(), Desk(asked.program, "serve")]

    def exchange(self, what, request):
        """The request is a function, since a right Host has the port."""
        found, wanted = (desk.raw(*request(desk)) for desk in self.desks)
        same(what, wanted, found)

    def asks(self, lines, body=b"", *fields):
        for line in filter(None, map(str.strip, lines.splitlines())):
            self.exchange(line, lambda desk: [desk.request(line, *(fields or ["Desk-User: ann"]), body=body)])


def work(both):
    """Commands and questions, done and refused."""
    english, query = sample("english"), b'[upos="NOUN"]'
    corrected = english.split(b"\n\n")[0].replace(b"\tJJ\t", b"\tJJR\t") + b"\n\n"
    both.asks("GET /totals\nGET /moves\nGET /released\nGET /batches/news\nGET /sentences/1\nPOST /batches/news/assign\nPOST /pull/1")
    both.asks("POST /batches/news\nPOST /batches/news\nPOST /batches/more", english)
    both.asks("POST /batches/..\nPOST /batches/a%20b", sample("hindi"))
    both.asks("POST /batches/cut", english[:100])
    both.asks("POST /batches/news/assign")
    both.asks("POST /sentences/1/after/1\nPOST /sentences/1/after/1", corrected)
    both.asks("POST /sentences/1/after/1", corrected.replace(b"\tJJR\t", b"\tJJS\t"))
    both.asks("GET /sentences/1\nGET /sentences/1/1\nGET /sentences/1/3\nGET /sentences/01\nGET /sentences/99\nGET /batches/news")
    both.asks("POST /pull/2\nPOST /pull/2\nPOST /restore/2\nPOST /batches/news/submit\nPOST /batches/news/adjudicate")
    both.asks("POST /batches/news/adjudicate", b"", "Desk-User: ben")
    both.asks("POST /batches/news/release", b"", "desk-user:\tcem ")
    both.asks("POST /search/longest/5\nPOST /search/every/0\nPOST /search/longest/21\nPOST /count/longest/lemma\nPOST /count/longest/form", query)
    for body in (b"[upos=", b"", b"\xff", b'"("', b"[" * 2001):
        both.asks("POST /search/longest/2", body)


def odd_targets(both):
    """Other methods, and paths that are nearly the page's or the desk's."""
    both.asks("GET /totals\nGET /moves\nGET /released\nGET /batches/..\nHEAD /totals\nOPTIONS /totals\nget /totals\nPUT /batches/news\nDELETE /sentences/1")
    both.asks("GET /totals?x=1\nGET /nowhere\nGET /?x\nGET //\nGET /page\nGET /page/\nGET /page/nowhere\nGET /page/page.css/\nGET /page/Page.css")
    both.asks("GET /page/../totals\nGET /page/..%2ftotals\nGET /page/now/\nGET /page/now?x\nGET /Page/now\nGET /page/sent-id\nGET /page/sent-id?x")
    both.asks("GET /page/batches/01\nGET /page/batches/0\nGET /page/batches/+1\nGET /page/batches/1/\nGET /page/batches/12345678901")
    both.asks("GET http://127.0.0.1/totals\nGET *\nOPTIONS *")


def odd_heads(both):
    """Fields that are refused, heads that are broken, and heads that are unusual."""
    for field in ("Content-Length: +1", "Content-Length: 1, 1", "Content-Length: 4194305", "Content-Length: 3\r\nContent-Length: 3", "Transfer-Encoding: chunked",
                  "Desk-User: ben", "X: " + "y" * 8000, "Expect: 100-continue", "Desk-User : ben", " folded"):
        both.asks("POST /batches/news/withdraw", b"", "Desk-User: ann", field)
    for user in ("", "bén", "a b", "x" * 33):
        both.asks("POST /batches/news/withdraw", b"", f"Desk-User: {user}")
    for count in (30, 31, 32, 33, 40):
        both.asks("GET /totals", b"", *(f"X{n}: y" for n in range(count)))
    for request in (b"\r\n\r\n", b"GET\r\n\r\n", b"NONSENSE\r\n\r\n", b"GET /totals HTTP/3\r\n\r\n", b"G\xc3\x89T /totals HTTP/1.1\r\n\r\n",
                    b"GET /to tals HTTP/1.1\r\n\r\n", b"GET /totals HTTP/1.1\r\nno colon\r\n\r\n", b"GET /" + b"x" * 9000 + b" HTTP/1.1\r\n\r\n", b"GET /totals HTTP/1.1\r\nHost : x\r\n\r\n"):
        both.exchange(request[:40], lambda _: [request])
    both.exchange("empty lines before a head", lambda desk: [b"\r\n\r\n" + desk.request("GET /totals")])
    both.exchange("lone line feeds", lambda desk: [desk.request("GET /totals").replace(b"\r\n", b"\n")])
    both.exchange("two requests at once", lambda desk: [desk.request("GET /totals") * 2])


def pieces(both):
    """The head is read once, however it comes, and all that follows it goes on to the desk."""
    for n, step in enumerate((7, 60, 400)):
        def request(desk):
            whole = desk.request(f"POST /batches/pieces{n}", "Desk-User: ann", body=sample("english").replace(b"en-", b"piece%d-" % n))
            return [*(whole[at:at + step] for at in range(0, 20 * step, step)), whole[20 * step:]]
        both.exchange(f"pieces of {step} bytes", request)


def the_same_bytes():
    """Whatever is not the page's has the answer of `treedesk serve`, byte by byte, and leaves the same desk."""
    both = Both()
    for part in (work, odd_targets, odd_heads, pieces):
        part(both)
    for desk in both.desks:
        desk.close()
    moves = [subprocess.run([asked.program, "moves", "--db", desk.path], capture_output=True, check=True).stdout for desk in both.desks]
    same("moves of both desks", moves[1], moves[0])


def silent_clients():
    """Connections that say nothing, or half a head, keep nobody waiting: browsers leave some at each view."""
    desk = Desk()
    held = [socket.create_connection(("127.0.0.1", desk.port)) for _ in range(3)]
    held[1].sendall(b"GET / HT")
    begun = time.monotonic()
    for _ in range(20):
        same("a request beside silent clients", 200, desk.ask("GET /totals")[0])
    is_soon("twenty requests beside silent clients", time.monotonic() - begun, 2)
    held[1].sendall(f"TP/1.1\r\nHost: 127.0.0.1:{desk.port}\r\n\r\n".encode())
    same("a head that comes later", "200", split(held[1].recv(65536))[0][0].split()[1])
    for connection in held:
        connection.close()
    desk.close()


def table(head, rows):
    """The bytes of a list."""
    text = io.StringIO()
    csv.writer(text, lineterminator="\n").writerows([head.split(","), *rows])
    return text.getvalue().encode()


def yes(truth):
    return "yes" if truth else "no"


def lists_of(model):
    """The lists of the page, as the plain model of tools/model-test has them: each path with its bytes."""
    yield "/page/now", table(COUNTS, [[len(model.batches), len(model.sentences), len(model.moves)]])
    lines = []
    for batch in model.batches:
        inside, pulled = ([it for it in batch.sentences if it.pulled == which] for which in (False, True))
        lines.append([batch.number, batch.name, batch.state, batch.worker, batch.sentences[0].number,
                      len(inside), sum(it.words for it in inside), len(pulled), sum(it.words for it in pulled)])
        yield f"/page/batches/{batch.number}", table(SENTENCES, [
            [it.number, it.text.sent_id, len(it.revisions), it.revisions[-1][0], it.words, yes(it.pulled), *it.text.values("text")] for it in batch.sentences])
    yield "/page/batches", table(BATCHES, lines)
    for it in model.sentences:
        line = [it.number, it.batch.name, len(it.revisions), it.words, yes(it.pulled)]
        yield "/page/sent-id/" + urllib.parse.quote(it.text.sent_id, safe=""), table(SENTENCE, [line])


def random_requests():
    """Random requests of tools/model-test have the answers of its model, and the lists are those of the model's state."""
    loader = importlib.machinery.SourceFileLoader("model_test", str(ROOT / "tools/model-test"))
    model = types.ModuleType("model_test")
    loader.exec_module(model)
    desk, walk = Desk(), model.Walk(41)
    for _ in range(6):
        walk.go(100, desk.port)
        for path, body in lists_of(walk.desk):
            has(path, desk.raw(desk.request(f"GET {path}")), 200, "text/plain", body)
    same("moves", walk.desk.tell_moves(), desk.moves())
    tally["compared"] += model.compared
    desk.close()


PARTS = [files_and_lists, checks, texts_that_come_slowly, guard, the_same_bytes, random_requests, silent_clients]
