"""What people do on the page, and what they see of it. Each takes a browser."""

import json
import pathlib

from page_tests.desk import asked, same


def shot(browser, name):
    if asked.shots:
        browser.shot(pathlib.Path(asked.shots) / f"{name}.png")


def is_quiet(browser):
    same("complaints of the console", [], browser.complaints())


def say_who(browser, name):
    browser.type("#me", name)
    browser.keys("enter")


def says(browser, line, words=""):
    """The page shows this answer of the desk, and these words."""
    browser.see("#told code", line)
    browser.see("#told", words)


def at_board(browser, desk):
    browser.go(desk.url + "/#/")
    browser.see(".state h2", "open")


def at_sentence(browser, desk, number, form):
    browser.go(f"{desk.url}/#/sentence/{number}")
    browser.see(".word .form", form)


def totals_agree(browser, desk):
    """The board shows what GET /totals answers, and its batches sum up to that."""
    counts = [line.split(",")[1:] for line in desk.ask("GET /totals")[1].splitlines()[1:]]
    wanted = [", ".join(f"{count} {noun}{'' if count == '1' else 's'}" for count, noun in zip(row, ("sentence", "word"))) for row in counts]
    browser.until("return JSON.stringify([...document.querySelectorAll('.total')].map(n => n.textContent)) === arguments[0]",
                  json.dumps(wanted, separators=(",", ":")))
    same("faults of the board", [], browser.texts(".state > .fault"))


def cell(browser, row, column):
    """The text of a cell of the table. Both are counted from 0."""
    return browser.run("return document.querySelector('.grid tbody').rows[arguments[0]].cells[arguments[1]].textContent", row, column)


def edit(browser, row, column, text):
    """Types into a cell, and keeps it."""
    browser.run("document.querySelector('.grid tbody').rows[arguments[0]].cells[arguments[1]].focus()", row, column)
    browser.keys(*text, "enter")
    browser.until("return document.querySelector('.grid tbody').rows[arguments[0]].cells[arguments[1]].textContent === arguments[2]", row, column, text)
