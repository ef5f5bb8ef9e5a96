"""How the page looks: narrow and dark windows, names for a screen reader, and how long large things take."""

import pathlib
import subprocess
import time

from page_tests.desk import Desk, STEPS, asked, holds, is_soon, same, sample
from page_tests.driver import ELEMENT
from page_tests.page import at_board, at_sentence, is_quiet, say_who, says, shot

# Texts with too little contrast to what is behind them, but for disabled buttons. Colors are those that are shown.
PALE = """
const parts = color => color.match(/[\\d.]+/g).map(Number);
const linear = v => v <= 0.03928 ? v / 12.92 : ((v + 0.055) / 1.055) ** 2.4;
const light = ([r, g, b]) => 0.2126 * linear(r / 255) + 0.7152 * linear(g / 255) + 0.0722 * linear(b / 255);
const behind = node => {
  const color = parts(getComputedStyle(node).backgroundColor);
  return color.length === 4 && color[3] === 0 && node.parentElement ? behind(node.parentElement) : color;
};
const backOf = node => {
  const rect = node.closest('.word')?.querySelector('rect');
  const fill = rect && node.matches('.form') ? parts(getComputedStyle(rect).fill) : null;
  return fill && !(fill.length === 4 && fill[3] === 0) ? fill : behind(node);
};
const found = [], walk = document.createTreeWalker(document.body, NodeFilter.SHOW_TEXT);
while (walk.nextNode()) {
  const node = walk.currentNode.parentElement, text = walk.currentNode.data.trim();
  if (!text || !node.checkVisibility() || node.closest(':disabled, noscript, datalist')) continue;
  const style = getComputedStyle(node), front = parts(node instanceof SVGElement ? style.fill : style.color), back = backOf(node);
  const [x, y] = [light(front), light(back)].sort((p, q) => q - p), ratio = (x + 0.05) / (y + 0.05);
  if (ratio < 4.5) found.push(`${text.slice(0, 30)}: ${ratio.toFixed(2)} ${style.color} on ${back}`);
}
return found;
"""
NAMED = "button, input, select, textarea, a, [role=grid], [role=list], svg [role=listitem], [role=group], section[aria-label]"


def views(desk):
    return [f"{desk.url}/#/{view}" for view in ("", "batch/1", "sentence/1", "search", "moves")]


def filled(desk):
    """A desk on which every view has something to show."""
    desk.put("news", sample("english"), STEPS[0])
    desk.put("verse", sample("russian"), *STEPS)
    desk.put("gone", sample("hindi"), ("ann", "withdraw"))
    assert desk.ask("POST /pull/2")[0] == 200


def shows(browser, view, wait="h1"):
    """Loads a view, and has a search on it that finds something."""
    browser.go("about:blank")
    browser.go(view)
    browser.see("main " + wait)
    if view.endswith("search"):
        browser.type("#query", '[upos="NOUN"]')
        browser.keys("enter")
        browser.see("#hits", "hits 3")
    if view.endswith("sentence/1"):
        browser.see(".word .form", "Small")


def narrow_and_dark(driver):
    """No view is wider than a narrow window, and every text has enough contrast, light and dark."""
    desk, browser = Desk(), driver.browser()
    filled(desk)
    for is_dark in (False, True):
        browser.is_dark(is_dark)
        for view in views(desk):
            shows(browser, view)
            same("the colors that are asked for", is_dark, browser.run("return matchMedia('(prefers-color-scheme: dark)').matches"))
            if not view.endswith("search"):
                browser.run("document.querySelector('#revisions')?.click()")
            same(f"texts with little contrast, {view}, dark {is_dark}", [], browser.run(PALE))
            shot(browser, f"{'dark' if is_dark else 'light'}-{view.split('/#/')[1].replace('/', '-') or 'board'}")
        at_board(browser, desk)
        say_who(browser, "eve")
        browser.click("#e-1-submit")
        says(browser, "refused 5 NotYours")
        same(f"texts with little contrast, a refusal, dark {is_dark}", [], browser.run(PALE))
        browser.click("#e-1-withdraw")
        same(f"texts with little contrast, a question, dark {is_dark}", [], browser.run(PALE))
    browser.is_dark(False)
    browser.resize(400, 800)
    for view in views(desk):
        shows(browser, view)
        browser.until("return innerWidth === 400")
        holds(f"{view} is no wider than its window", browser.run("return document.documentElement.scrollWidth <= innerWidth"))
        if view.endswith("sentence/1"):
            browser.run("document.querySelector('.grid tbody').rows[0].cells[9].focus()")
            holds("the buttons stay where the table scrolls", browser.run(
                "return document.querySelector('.sideways').scrollLeft > 0 && document.querySelector('.tab').getBoundingClientRect().left > 0"))
        shot(browser, f"narrow-{view.split('/#/')[1].replace('/', '-') or 'board'}")
    is_quiet(browser)
    desk.close()


def drawn_anew(browser, desk):
    """Another works, so that the board is drawn anew. The link with the focus has it afterwards."""
    at_board(browser, desk)
    browser.run("window.before = document.querySelector('.card a[href=\"#/batch/2\"]'); window.before.focus()")
    same("another's command", 200, desk.ask("POST /restore/2")[0])
    browser.until("return !window.before.isConnected")
    same("the link with the focus", "#/batch/2", browser.run("return document.activeElement.getAttribute('href')"))


def for_screen_readers(driver):
    """Everything that can be used has a name; the tree is a list of words; the focus goes as the page is read."""
    desk, browser = Desk(), driver.browser()
    filled(desk)
    for view in views(desk):
        shows(browser, view)
        for element in browser.run("return [...document.querySelectorAll(arguments[0])].filter(node => node.checkVisibility())", NAMED):
            name, role = browser.name_and_role(element[ELEMENT])
            holds(f"{view}: a {role} has a name", name)
        same("headings of the first rank", 1, len(browser.all("h1")))
        places = browser.run("""
            const nodes = [...document.querySelectorAll('a, button, input, select, textarea, [tabindex="0"]')];
            return [nodes.some(n => n.tabIndex > 0), document.documentElement.lang]""")
        same("the order of focus is that of the page, and its language is known", [False, "en"], places)
    at_sentence(browser, desk, 1, "Small")
    same("the tree", ("Dependency tree, 6 words", "list"), browser.name_and_role(browser.find(".tree-picture")))
    names = [browser.name_and_role(element) for element in browser.all(".tree-picture .word")]
    same("words of the tree", [(name, "listitem") for name in (
        "1 Small, ADJ, amod of 2 dogs", "2 dogs, NOUN, nsubj of 5 bark", "3 do, AUX, aux of 5 bark", "4 n't, PART, advmod of 5 bark",
        "5 bark, VERB, root", "6 ., PUNCT, punct of 5 bark")], names)
    same("heads of the table that are cut", [], browser.run("return [...document.querySelectorAll('.grid th')].filter(th => th.scrollWidth > th.clientWidth).map(th => th.textContent)"))
    drawn_anew(browser, desk)
    at_sentence(browser, desk, 1, "Small")
    same("the field for the user has its label", ("I am", "textbox"), browser.name_and_role(browser.find("#me")))
    same("the message is read out", ("polite", "status"), tuple(browser.run("const told = document.getElementById('told'); return [told.ariaLive, told.role]")))
    shows(browser, desk.url + "/")
    browser.keys("tab")
    same("the first stop", "skip", browser.run("return document.activeElement.id"))
    browser.keys("enter")
    same("it leads to the content", "main", browser.run("return document.activeElement.id"))
    browser.click("header nav a", "Moves")
    browser.until("return document.activeElement.matches('h1') && document.activeElement.textContent === 'Moves'")
    same("the view that is shown is marked", ["Moves"], browser.texts("header nav a[aria-current]"))
    is_quiet(browser)
    desk.close()


def long_sentence(words):
    rows = [f"{n}\tword{n % 97}\tword\tNOUN\t_\t_\t{0 if n == 1 else max(1, n - 1 - n * 7 % 13)}\t{'root' if n == 1 else 'dep'}\t_\t_" for n in range(1, words + 1)]
    return "\n".join([f"# sent_id = long{words}", "# text = " + " ".join(row.split("\t")[1] for row in rows), *rows, "", ""]).encode()


PATHS = "return [...document.querySelectorAll(arguments[0])].map(path => path.getAttribute('d'))"

# Whether the first of some elements is laid out, and the last of them is not: it is only there.
NEAR_ALONE = """
const found = [...document.querySelectorAll(arguments[0])], isLaidOut = node => node.checkVisibility({ contentVisibilityAuto: true });
return isLaidOut(found.at(0)) && !isLaidOut(found.at(-1))"""


def far_words(browser, desk):
    """Of a long sentence only what is near the window is laid out. Words far off are marked, clicked and edited all the same."""
    browser.run("document.querySelector('.tree').scrollIntoView()")
    browser.until(NEAR_ALONE, ".word .form")
    browser.until(NEAR_ALONE, ".grid tbody td")
    browser.go(f"{desk.url}/#/sentence/1/900-901")
    browser.until("const box = document.querySelector('.word.hit .form')?.getBoundingClientRect(); return box && box.left > 0 && box.right < innerWidth")
    same("marked words", ["word27", "word28"], browser.texts(".word.hit .form"))
    heads = [row.split("\t")[6] for row in long_sentence(1000).decode().splitlines()[2:-1]]
    browser.run("document.querySelector('.word.hit').dispatchEvent(new PointerEvent('pointerover', { bubbles: true }))")
    same("lifted arcs, to the word and from it", 1 + heads.count("900"), "".join(browser.run(PATHS, ".lifted .arc")).count("M"))
    browser.run("document.querySelector('.tree-picture').dispatchEvent(new PointerEvent('pointerleave'))")
    same("lifted arcs, without a word", [], browser.run(PATHS, ".lifted path"))
    browser.click(".word.hit .form", "word28")
    same("the row of the word that was clicked", ["901", "word28"], browser.run("return [...document.activeElement.parentNode.cells].slice(0, 2).map(cell => cell.textContent)"))
    browser.keys("enter")
    browser.until("return document.activeElement.matches('.grid input')")
    browser.keys(*"other", "enter")
    browser.see(".word[data-at='900'] .form", "other")
    same("the next row, and the text", ["902", "901\tother"], browser.run(
        "const next = document.activeElement; document.querySelector('[value=text]').click(); const text = document.querySelector('.conllu').value;"
        "return [next.parentNode.cells[0].textContent, text.split('\\n')[902].split('\\t', 2).join('\\t')]"))
    browser.click("#undo")
    browser.click(".tab", "Table")
    browser.click("#revisions")
    browser.until("const box = document.querySelector('#history h2')?.getBoundingClientRect(); return box && box.top > 0 && box.bottom < innerHeight")


def sizes_and_stops(driver):
    """A tree of 1,000 words and 10,000 keyword lines are shown soon. A search can be stopped, and is no number then."""
    desk, browser = Desk(), driver.browser()
    desk.put("long", long_sentence(1000), *STEPS)
    desk.put("many", b"".join(sample("english").replace(b"en-", f"m{n}-".encode()) for n in range(3000)), *STEPS)
    begun = time.monotonic()
    at_board(browser, desk)
    board = time.monotonic() - begun
    begun = time.monotonic()
    browser.go(f"{desk.url}/#/sentence/1")
    browser.see(".word[data-at='999'] .form", "word")
    tree = time.monotonic() - begun
    same("words of the tree", 1000, len(browser.all(".tree-picture .word")))
    far_words(browser, desk)
    browser.go(desk.url + "/#/search")
    begun = time.monotonic()
    browser.type("#query", '[upos="NOUN"]')
    browser.keys("enter")
    browser.see("#hits", "hits 10000")
    lines = time.monotonic() - begun
    same("keyword lines", 10000, len(browser.all(".line")))
    print(f"board {board:.2f} s, tree of 1,000 words {tree:.2f} s, 10,000 keyword lines {lines:.2f} s", flush=True)
    for what, seconds, limit in (("a board", board, 3), ("a tree of 1,000 words", tree, 3), ("10,000 keyword lines", lines, 10)):
        is_soon(what, seconds, limit)
    browser.type("#query", "[]{1,32} [upos=\"PUNCT\"]")
    browser.run("document.getElementById('strategy').value = 'every'")
    # (both at once: on a busy machine the search may end between two calls of the driver)
    browser.run("for (const name of ['search', 'stop']) document.getElementById(name).click()")
    browser.see("#hits", "Stopped after")
    same("a number to cite", None, browser.text("#cite"))
    is_quiet(browser)
    desk.close()


def read_aloud(browser, cells):
    """What a screen reader has of the page, once it has so many cells: a browser may tell it bit by bit."""
    for _ in range(300):
        read = browser.all_names_and_roles()
        if sum(role == "gridcell" for _, role in read) >= cells:
            break
        time.sleep(0.1)
    return read


def far_words_are_read(driver):
    """A screen reader has all words and all cells of a long sentence, those too that are not laid out."""
    desk, browser = Desk(), driver.browser(is_read=True)
    desk.put("long", long_sentence(300))
    at_sentence(browser, desk, 1, "word1")
    browser.see(".grid tbody:last-child td", "300")
    read = read_aloud(browser, 3000)
    same("words", [f"{n} word{n % 97}, NOUN" for n in range(1, 301)], [name.rsplit(",", 1)[0] for name, role in read if role == "listitem" and " word" in name])
    rows = [line.split("\t") for line in long_sentence(300).decode().splitlines() if line[:1].isdigit()]
    same("cells", [field for row in rows for field in row], [name for name, role in read if role == "gridcell"])
    desk.close()


HOSTILE = (b"# sent_id = tags\n# text = a </pre><script>document.title='run'</script> &lt;\n"
           b"1\ta\ta\tX\t_\t_\t0\troot\t_\t_\n2\t</pre><script>document.title='run'</script>\t_\tSYM\t_\t_\t1\tdep\t_\t_\n"
           b"3\t&lt;\t&amp;\tSYM\t_\t_\t1\tdep\t_\t_\n\n")


def handouts(driver):
    """What `deskview tree` prints is a page that stands alone: a tree, and no text that runs."""
    desk, browser = Desk(), driver.browser()
    desk.put("tags", HOSTILE)
    desk.put("news", sample("english"))
    desk.put("rtl", sample("arabic"))
    desk.process.terminate()
    desk.process.wait(10)
    for number, forms in (1, ["a", "</pre><script>document.title='run'</script>", "&lt;"]), (2, ["Small", "dogs", "do", "n't", "bark", "."]):
        page = pathlib.Path(desk.folder.name) / f"{number}.html"
        page.write_bytes(subprocess.run([asked.view, "tree", "--db", desk.path, str(number)], check=True, capture_output=True).stdout)
        browser.go(page.as_uri())
        browser.see(".word .form", forms[0])
        same("forms of the tree", forms, browser.texts(".word .form"))
        same("its title", "Dependency trees", browser.run("return document.title"))
        same("arcs, one for each word but the root", len(forms) - 1, "".join(browser.run(PATHS, ".arcs .arc")).count("M"))
        same("the button for enhanced relations is there where there are any", number == 2, browser.run("return document.getElementById('enhanced').checkVisibility()"))
        same("texts with little contrast", [], browser.run(PALE))
        shot(browser, f"handout-{number}")
    browser.run("document.getElementById('enhanced').click()")
    page = pathlib.Path(desk.folder.name) / "file.html"
    page.write_bytes(subprocess.run([asked.view, "tree"], input=HOSTILE + sample("english"), check=True, capture_output=True).stdout)
    browser.go(page.as_uri())
    browser.see(".word .form", "a")
    same("sentences of a file, in their order", ["tags", "en-1", "en-2"], browser.texts("section h2"))
    browser.run("document.querySelector('section:last-of-type').scrollIntoView()")
    browser.see("section:last-of-type .word .form", "Anna")
    same("its title", "Dependency trees", browser.run("return document.title"))
    shot(browser, "handout-file")
    Desk.open.remove(desk)


PARTS = [narrow_and_dark, for_screen_readers, far_words_are_read, sizes_and_stops, handouts]
