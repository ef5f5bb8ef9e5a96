"""A day of three people with the page, in browsers of their own (docs/guide/DESK.md)."""

import pathlib
import tempfile
import time

from page_tests.desk import Desk, same, sample
from page_tests.page import at_board, at_sentence, cell, edit, is_quiet, say_who, says, shot, totals_agree


def written(folder, name, body):
    path = pathlib.Path(folder) / name
    path.write_bytes(body)
    return path


DROP = """
const data = new DataTransfer(), box = document.getElementById('import');
data.items.add(new File([arguments[0]], 'dropped file.conllu'));
for (const kind of ['dragover', 'drop']) box.dispatchEvent(new DragEvent(kind, { dataTransfer: data, bubbles: true, cancelable: true }));
"""


def import_chosen(browser, path, name=None):
    browser.choose_file("#import-file", path)
    if name:
        browser.type("#import-name", name)
    browser.click("#import button", "Import")


def imports(ann, desk, folder):
    """Ann imports by chooser and by drop. What is refused is explained, with its line."""
    english, chosen = sample("english"), "imported batch=1 first=1 sentences=2 words=13"
    path = written(folder, "news.conllu", english)
    ann.choose_file("#import-file", path)
    ann.see("#import-name", "news")
    ann.click("#import button", "Import")
    says(ann, "refused 1 BadName", "say first who you are")
    say_who(ann, "ann")
    ann.click("#import button", "Import")
    says(ann, chosen)
    ann.see("#state-open h3", "news")
    totals_agree(ann, desk)
    import_chosen(ann, path)
    says(ann, chosen)
    for name, body, line, words, shown in (
            ("cut", english[:100], "refused 8 Read 4 10", "the last sentence lacks its blank line", "line 4"),
            ("four", b"# sent_id = 1\n1\tGo\tgo\tVERB\n\n", "refused 8 Read 2 4", "ten fields", "1\tGo\tgo\tVERB"),
            ("tag", english.replace(b"NOUN", b"NN"), "refused 9 Rule 1 4 2", "UPOS is one of the 17", "line 4"),
            ("root", english.replace(b"0\troot\t0:root\tSpace", b"2\tacl\t0:root\tSpace"), "refused 9 Rule 1 9 0", "exactly one word has HEAD 0", "line 1"),
            ("news", english.replace(b"en-", b"em-"), "refused 15 NameTaken", "another batch has this name", ""),
            ("more", sample("russian") + english, "refused 16 SentIdTaken 3", "has its sent_id", "# sent_id = en-1")):
        import_chosen(ann, written(folder, name + ".conllu", body))
        says(ann, line, words)
        ann.until("return document.getElementById('import-told').textContent.includes(arguments[0])", shown)
    shot(ann, "import-refused")
    for name, body, line in (("windows", english.replace(b"\n", b"\r\n"), "refused 8 Read 1 3"),
                             ("apart", english.replace(b"dog\t", "do\u0301g\t".encode()), "refused 8 Read 4 2")):
        import_chosen(ann, written(folder, name + ".conllu", body))
        says(ann, line)
        ann.see("#repair")
    ann.type("#import-name", "..")
    ann.click("#import button", "Import")
    says(ann, "..", "a browser cannot send this name")
    ann.run(DROP, sample("hindi").decode())
    ann.see("#import-name", "dropped-file")
    ann.click("#import button", "Import")
    says(ann, "imported batch=2 first=3 sentences=2 words=12")


def repairs(driver, desk, folder):
    """A file with other line ends, and one whose accents are apart, are put right and imported."""
    browser = driver.browser()
    at_board(browser, desk)
    say_who(browser, "dan")
    chinese, arabic = sample("chinese"), sample("arabic").replace("\u0643\u062a\u0628".encode(), "e\u0301".encode())
    for number, name, body, wanted in ((3, "lines", chinese.replace(b"\n", b"\r\n"), chinese),
                                       (4, "accents", arabic, arabic.decode().replace("e\u0301", "\u00e9").encode())):
        import_chosen(browser, written(folder, name + ".conllu", body))
        says(browser, "refused 8 Read")
        browser.click("#repair")
        says(browser, f"imported batch={number}")
        same(f"the batch {name}", wanted.decode(), desk.ask(f"GET /batches/{name}")[1])
    is_quiet(browser)


def corrects(driver, ann, desk):
    """Ann corrects in the table, and her second window is stale."""
    ann.click("h3 a", "news")
    ann.see("h1", "Batch news")
    ann.click("td a", "en-1")
    ann.see(".word .form", "Small")
    second = driver.browser()
    at_sentence(second, desk, 1, "Small")
    say_who(second, "ann")
    drawn = "return [...document.querySelectorAll('.arcs path')].map(path => path.getAttribute('d')).join()"
    arcs = ann.run(drawn)
    edit(ann, 0, 6, "5")
    ann.until(drawn + " !== arguments[0]", arcs)
    edit(ann, 0, 6, "9")
    ann.see(".hints", "HEAD of Small is no other word")
    edit(ann, 0, 6, "2")
    ann.drag(".word .form", 0, 4)
    ann.until("return document.querySelector('.grid tbody').rows[0].cells[6].textContent === '5'")
    edit(ann, 0, 6, "2")
    edit(ann, 0, 4, "JJR")
    ann.see("#rev", "not saved yet")
    ann.keys("control+s")
    says(ann, "corrected sentence=1 rev=2 words=6")
    ann.see("#rev", "revision 2 is the current one")
    second.click(".tab", "CoNLL-U")
    second.run("const area = document.querySelector('textarea.conllu'); area.value = area.value.replace('\\tJJ\\t', '\\tJJS\\t');"
               "area.dispatchEvent(new Event('input'))")
    second.click("#save")
    says(second, "refused 7 Stale 2", "it was corrected since; revision 2 is the current one")
    second.see("#stale h2", "Revision 2 came in between, by ann")
    same("what differs", ["JJR", "JJS"], second.texts("#stale mark"))
    same("one field has no merge", [], second.texts("#both"))
    same("the text is still there", True, "\tJJS\t" in second.run("return document.querySelector('textarea.conllu').value"))
    shot(second, "stale")
    second.click("#take")
    second.until("return document.querySelector('textarea.conllu').value.includes('\\tJJR\\t')")
    is_quiet(second)


def looks_back(ann):
    """The revisions with their writers and differences; and a word more and a word less, which all numbers follow."""
    ann.click("#revisions")
    ann.see("#history .diff", "JJR")
    same("revisions", ["revision 1 by ann, move 1", "revision 2 by ann, move 6"], ann.texts("#history li"))
    same("what differs", ["JJ", "JJR"], ann.texts("#history mark"))
    shot(ann, "history")
    ann.run("document.querySelector('.grid tbody').rows[0].cells[1].focus()")
    ann.click(".tools button", "Add a word after this one")
    ann.until("return document.querySelector('.grid tbody').rows.length === 8")
    same("numbers with a word more", ["1", "2", "3", "4-5", "4", "5", "6", "7"], [cell(ann, row, 0) for row in range(8)])
    same("what refers to words that moved", ("6", "6:aux"), (cell(ann, 4, 6), cell(ann, 4, 8)))
    ann.click(".tools button", "Remove this row")
    ann.until("return document.querySelector('#save').disabled")


def reviews(driver, ann, ben, desk):
    """Handed in, Ann may not judge her work. Ben and Cem both correct it, and put their changes together."""
    at_board(ann, desk)
    ann.click("#e-1-submit")
    says(ann, "moved batch=1 state=submitted", "news is submitted now")
    ann.click("#e-1-adjudicate")
    says(ann, "refused 6 OwnWork", "may not do this")
    cem = driver.browser()
    for browser, name in ((ben, "ben"), (cem, "cem")):
        at_sentence(browser, desk, 2, "Anna")
        say_who(browser, name)
    edit(ben, 2, 9, "Gloss=bok")
    ben.click("#save")
    says(ben, "corrected sentence=2 rev=2 words=7")
    edit(cem, 2, 2, "Book")
    cem.click("#save")
    says(cem, "refused 7 Stale 2")
    cem.see("#stale h2", "by ben")
    cem.click("#both")
    cem.see("#save", "Save as revision 3")
    same("both changes", ("Book", "Gloss=bok"), (cell(cem, 2, 2), cell(cem, 2, 9)))
    cem.click("#save")
    says(cem, "corrected sentence=2 rev=3 words=7")
    at_sentence(ann, desk, 2, "Anna")
    edit(ann, 2, 2, "books")
    ann.click("#save")
    says(ann, "refused 6 OwnWork")
    ann.click("#undo")
    ann.until("return document.querySelector('#save').disabled")
    at_board(ben, desk)
    ben.click("#e-1-adjudicate")
    says(ben, "moved batch=1 state=adjudicated")
    at_board(cem, desk)
    cem.click("#e-1-release")
    says(cem, "moved batch=1 state=released sentences=2 words=13", "its sentences are searched")
    totals_agree(cem, desk)
    return cem


def pulls(cem, desk):
    at_sentence(cem, desk, 2, "Anna")
    cem.click("#pull", "Pull")
    says(cem, "pulled sentence=2 words=7")
    at_board(cem, desk)
    totals_agree(cem, desk)
    cem.see("#state-released .card", "1 pulled")
    cem.go(desk.url + "/#/batch/1")
    cem.see("tr.pulled td", "en-2")
    at_sentence(cem, desk, 2, "Anna")
    cem.click("#pull", "Restore")
    says(cem, "restored sentence=2 state=released words=7")


def searches(cem, desk, folder):
    """Searched, cited, looked at in the tree, refused, counted, saved."""
    cem.go(desk.url + "/#/search")
    cem.type("#context", "2")
    cem.type("#query", '[upos="NOUN"] [upos="AUX"]+')
    cem.click("#search")
    cem.see("#hits", "hits 1")
    same("a keyword line", ["en-1", "Small", "dogs do", "n't bark"], cem.texts(".line :is(.id, .left span, mark, .right > span)"))
    same("what is read out of it", "en-1, words 2 to 3: Small dogs do n't bark", cem.run("return document.querySelector('.line .id').title"))
    last = desk.moves().splitlines()[-1].split(",")[0]
    same("the citation", f'1 hit ([upos="NOUN"] [upos="AUX"]+, longest, after move {last})', cem.text("#cite"))
    cem.click(".line .id")
    cem.see(".word .form", "Small")
    same("marked words", ["dogs", "do"], cem.texts(".word.hit .form"))
    cem.run("history.back()")
    cem.see("#hits", "hits 1")
    cem.type("#query", "[upos=]")
    cem.keys("enter")
    cem.see("#fault", "refused 19 Query 2 6")
    cem.see("#fault", "byte 6: the query is outside the grammar")
    same("the cursor is at the fault", [6, True], cem.run("const q = document.getElementById('query'); return [q.selectionStart, document.activeElement === q]"))
    cem.type("#query", '[upos="INTJ"]')
    cem.keys("enter")
    cem.see("#found", "Only batches in the state released are searched.")
    same("a citation of no hits", f'0 hits ([upos="INTJ"], longest, after move {last})', cem.text("#cite"))
    query = '[upos="NOUN" | upos="PROPN"]'
    cem.type("#query", query)
    cem.run("document.getElementById('attribute').value = 'upos'")
    cem.click("#count")
    cem.see("#hits", "hits 5")
    same("the count", ["NOUN", "3", "60.0 %", "", "PROPN", "2", "40.0 %", ""], cem.texts(".counts td"))
    cem.save_in(folder)
    cem.click(".save", "CSV")
    saved = pathlib.Path(folder) / "count-upos.csv"
    for _ in range(600):
        if saved.exists():
            break
        time.sleep(0.05)
    same("the saved count", desk.ask("POST /count/longest/upos", query.encode())[1], saved.read_text())
    shot(cem, "count")


def sees_moves(cem, desk):
    cem.go(desk.url + "/#/moves")
    cem.see(".moves td", "release")
    moves = [line.split(",") for line in desk.moves().splitlines()[1:]]
    rows = cem.run("return [...document.querySelectorAll('.moves tbody tr')].map(row => [...row.cells].map(cell => cell.textContent))")
    same("moves", [[it[0], it[1], *it[4:]] for it in moves], [[it[0], it[1], *it[4:]] for it in reversed(rows)])
    cem.run("const user = document.getElementById('by-user'); user.value = 'ben'; user.dispatchEvent(new Event('change'))")
    same("moves of ben", sum(it[9] == "ben" for it in moves), len(cem.all(".moves tbody tr")))


def a_day(driver):
    """Three people: import, work, a correction, stale edits, review, release, pull, search, count, moves, withdrawal."""
    desk, ann, ben = Desk(), driver.browser(), driver.browser()
    with tempfile.TemporaryDirectory() as folder:
        at_board(ann, desk)
        ann.see("#main p", "no batch yet")
        totals_agree(ann, desk)
        imports(ann, desk, folder)
        repairs(driver, desk, folder)
        at_board(ben, desk)
        say_who(ben, "ben")
        ann.click("#e-1-assign")
        says(ann, "moved batch=1 state=assigned", "news is assigned now; next: corrections, then submit")
        ben.see("#state-assigned h3", "news")
        ben.click("#e-1-submit")
        says(ben, "refused 5 NotYours", "only the user who works on the batch")
        totals_agree(ann, desk)
        corrects(driver, ann, desk)
        looks_back(ann)
        cem = reviews(driver, ann, ben, desk)
        shot(cem, "board")
        pulls(cem, desk)
        searches(cem, desk, folder)
        sees_moves(cem, desk)
        at_board(cem, desk)
        cem.click("#e-2-withdraw")
        cem.see("#e-2-withdraw", "sure?")
        cem.click("#e-2-withdraw")
        says(cem, "moved batch=2 state=withdrawn")
        totals_agree(cem, desk)
        for browser in (ann, ben, cem):
            is_quiet(browser)
    desk.close()


PARTS = [a_day]
