#!/usr/bin/python3
"""The whole page in a real browser, against a real gateway. usage: page/tests/browser.py [PICTURES]     the folder for the pictures of docs/PAGE.md"""
import base64
import json
import os
import re
import signal
import subprocess
import sys
import time

from selenium import webdriver
from selenium.webdriver.chrome.service import Service
from selenium.webdriver.common.by import By
from selenium.webdriver.common.keys import Keys
from selenium.webdriver.support.select import Select

from bench import BUSES, GATEWAY, HOSTILE_BUS, HOSTILE_USER, ROOT, Bench, Checks, Hand, wait_for

LISTS = "1 2 pass 65096 65097 65091 65254\n2 1 block 65399\n3 1 block 65296\n"
SCREENS = ["overview", "matrix", "list/1/2", "why", "queues", "addresses", "journal"]
PHONE = (390, 844)
checks = Checks("browser")
check = checks.check


class Browser:
    """A browser of its own, with a profile of its own."""

    def __init__(self, bench, language="en"):
        options = webdriver.ChromeOptions()
        for argument in ("--headless=new", "--no-sandbox", "--disable-gpu", "--disable-dev-shm-usage", "--hide-scrollbars", f"--lang={language}", "--window-size=1180,900"):
            options.add_argument(argument)
        options.set_capability("goog:loggingPrefs", {"browser": "ALL"})
        self.bench = bench
        self.driver = webdriver.Chrome(service=Service("/usr/bin/chromedriver"), options=options)
        # Whatever is run out of hostile text would leave this mark.
        self.driver.execute_cdp_cmd("Page.addScriptToEvaluateOnNewDocument", {"source":
            "window.hurt = () => { document.documentElement.dataset.hurt = 'yes'; };"
            "window.streams = []; window.EventSource = class extends EventSource { constructor(...words) { super(...words); streams.push(this); } };"})

    def find(self, selector):
        return self.driver.find_element(By.CSS_SELECTOR, selector)

    def all(self, selector):
        return self.driver.find_elements(By.CSS_SELECTOR, selector)

    def text(self, selector="body"):
        try:
            return self.driver.execute_script("return document.querySelector(arguments[0])?.innerText ?? ''", selector)
        except Exception:  # the page is just being left
            return ""

    def sees(self, words, selector="body", seconds=5.0):
        return bool(wait_for(lambda: words in self.text(selector), seconds))

    def run(self, script, *arguments):
        return self.driver.execute_script(script, *arguments)

    def fetch(self, method, path, body=None, headers=None):
        """A request by the browser itself, from the page: { status, body }."""
        return self.driver.execute_async_script(
            "const [method, path, body, headers, done] = arguments;"
            "fetch(path, { method, body: body === null ? undefined : JSON.stringify(body), headers: headers ?? {} })"
            ".then(async (r) => done({ status: r.status, body: await r.text(), headers: Object.fromEntries(r.headers) })).catch((e) => done({ status: 0, body: String(e) }))",
            method, path, body, headers)

    def command(self, request):
        """A command by the page's own code, whatever its forms offer."""
        return self.driver.execute_async_script(
            "const [request, done] = arguments; import('/api.js').then((api) => api.command(request)).then(done)", request)

    def sign_in(self, user, password=None):
        self.driver.get(self.bench.address)
        wait_for(lambda: self.all("[name=user]"))
        self.find("[name=user]").send_keys(user)
        self.find("[name=password]").send_keys(password or self.bench.passwords[user])
        self.find("form button").click()
        return self.sees("live", "#beat", 10)

    def go(self, screen):
        self.run("location.hash = arguments[0]", f"#/{screen}")
        time.sleep(0.4)

    def picture(self, folder, name):
        if folder:
            height = min(1000, self.run("return Math.max(document.documentElement.scrollHeight, 300)"))
            width = self.run("return innerWidth")
            shot = self.driver.execute_cdp_cmd("Page.captureScreenshot", {"format": "webp", "quality": 60, "captureBeyondViewport": True,
                                                                          "clip": {"x": 0, "y": 0, "width": width, "height": height, "scale": 0.85}})
            with open(os.path.join(folder, f"{name}.webp"), "wb") as file:
                file.write(base64.b64decode(shot["data"]))
            self.driver.save_screenshot(f"{name}.png")

    def unhurt(self):
        return self.run("return document.documentElement.dataset.hurt !== 'yes' && !document.querySelector('img, main svg[onload], b > b')")

    def close(self):
        self.driver.quit()


def players():
    """A morning's traffic on three of the buses."""
    return [subprocess.Popen(f"awk -v bus={bus} -f {ROOT}/gateway/morning.awk 2>/dev/null | {GATEWAY}/deorasaeng-bus play 2>/dev/null", shell=True, start_new_session=True)
            for bus in BUSES[:3]]


def signing_in(bench, browser, pictures):
    browser.driver.get(bench.address)
    check("without a session there is the form to sign in", wait_for(lambda: browser.all("[name=user]")))
    check("it says that port 1 on the bus has no password", "Port 1 on the bus itself has no password" in browser.text())
    browser.picture(pictures, "sign-in")
    browser.find("[name=user]").send_keys("anna")
    browser.find("[name=password]").send_keys("wrong")
    browser.find("form button").click()
    check("a wrong password is told in words", browser.sees("Name or password is wrong."), browser.text())
    check("one that is right, with quotes, a backslash and a letter beyond ASCII, signs in", browser.sign_in("anna"), browser.text())
    cookies = browser.driver.get_cookies()
    check("the cookie is HttpOnly and SameSite=Strict", len(cookies) == 1 and cookies[0]["httpOnly"] and cookies[0]["sameSite"] == "Strict", cookies)
    check("no script sees it", browser.run("return document.cookie") == "")


def overview(bench, browser, pictures):
    browser.go("overview")
    check("the claim is shown", browser.sees("Claimed", "#claim"))
    check("a card for each port", len(browser.all(".port")) == 4)
    rates = wait_for(lambda: [one for one in [browser.text(".port:nth-child(1) .big")] if one not in ("–", "0")], 8)
    check("with the rate of what arrives", rates and 30 <= float(rates[0]) <= 60, rates)
    check("a bar of 32 places told by rank", re.match(r"waiting by priority 0 to 7: (\d+ ?){8}$", browser.find(".bar").get_attribute("aria-label")))
    check("the name of an interface is text, whatever it is", HOSTILE_BUS in browser.text(".port:nth-child(4)") and browser.unhurt())
    check("no banner where all is well", browser.text("#banners") == "", browser.text("#banners"))
    check("said: port 1 on the bus has no password", "has no password" in browser.text("main"))
    browser.picture(pictures, "overview")


def matrix(bench, browser, pictures):
    browser.go("matrix")
    cell = "a[href='#/list/1/2']"
    check("each pair with its mode and entries of 32", "pass" in browser.text(cell) and "4 of 32" in browser.text(cell), browser.text(cell))
    check("twelve pairs", len(browser.all(".pair")) == 12)
    stopped = wait_for(lambda: [int(m[1].replace(",", "")) for m in [re.search(r"([\d,]+) stopped", browser.text(cell))] if m and m[1] != "0"], 5)
    check("with what was stopped", stopped, browser.text(cell))
    browser.picture(pictures, "lists")
    browser.find(cell).click()
    check("a click opens the list", browser.sees("List from 1 (tractor) to 2 (baler)", "h1"))


def paste(browser, text, action=None):
    if action:
        browser.find(f"#action-{action}").click()
    # As a paste does: all at once.
    browser.run("const box = document.querySelector('#paste'); box.value = arguments[0]; box.dispatchEvent(new Event('input', { bubbles: true }))", text)
    time.sleep(0.1)
    return browser.text(".judged")


def send(browser):
    browser.run("document.querySelector('#told').replaceChildren()")
    browser.find("#send").click()
    wait_for(lambda: browser.text("#told"))
    return browser.text("#told")


def lists_typed(bench, browser, pictures):
    browser.go("list/1/2")
    check("a seventh that is no PGN is told as it is typed", "The 7th, 70001, is no PGN." in paste(browser, "65265, 0xF004;65266\n65267|65268\t65269 70001"), browser.text(".judged"))
    check("and marked", browser.text(".typed .wrong") == "70001")
    many = " ".join(str(65280 + i) for i in range(30))
    check("34 of 32 is told", "34 of 32: too many." in paste(browser, many), browser.text(".judged"))
    check("what is no number is told, and cannot be sent", "is no number" in paste(browser, "65265 abcx 010") and not browser.find("#send").is_enabled(), browser.text(".judged"))
    paste(browser, "<img src=x onerror=hurt()> <script>hurt()</script> \"'`{{7*7}}")
    check("pasted markup stays text", browser.unhurt() and "onerror" in browser.text(".typed"))
    check("decimal, 0x, h, $ and bare hex are read alike", "2 PGNs" not in paste(browser, "FEF1 0xfef1 FEF1h $FEF1 65265") and browser.text(".judged").count("stands there twice") == 1)
    check("what will stand is beside what stands", "65265" in browser.text("#after") and "65265" not in browser.text("#now"))
    paste(browser, "65265 0xF004")
    browser.picture(pictures, "list")
    before = len(bench.tap.lines)
    check("sent: done", "Done." in send(browser), browser.text("#told"))
    asked = json.loads(bench.tap.lines[before][0])
    check("as one command of a tool on port 1, with the list that was shown and for whom", asked == {
        "do": "add", "port": 1, "who": "anna", "from": 1, "to": 2, "pgns": [65265, 61444], "if_list_is": {"mode": "pass", "pgns": [65096, 65097, 65091, 65254]}}, asked)
    check("the unit has it", bench.list_of(1, 2)["pgns"] == [65096, 65097, 65091, 65254, 65265, 61444], bench.list_of(1, 2))
    check("and what stands shows it", browser.sees("61444", "#now"))
    browser.find("#undo").click()
    check("undo", browser.sees("Undone.", "#told") and bench.list_of(1, 2)["pgns"] == [65096, 65097, 65091, 65254], bench.list_of(1, 2))


def lists_refused(bench, browser):
    paste(browser, "65265 65266 70001")
    check("refused with 22 in words, with the entry", "Refused with 22: an entry is no PGN. It is the 3rd: 70001." in send(browser), browser.text("#told"))
    check("which is marked", browser.text(".typed .marked") == "70001")
    paste(browser, " ".join(str(65280 + i) for i in range(30)))
    check("refused with 16 in words", "Refused with 16: more than 32 PGNs" in send(browser), browser.text("#told"))
    paste(browser, "65096 65300", "delete")
    check("refused with 17 in words, with the PGN and the port", "Refused with 17: a PGN is not on the list. It is the 2nd: 65300. 65300 is not in the list to port 2." in send(browser), browser.text("#told"))
    check("nothing was changed", bench.list_of(1, 2)["pgns"] == [65096, 65097, 65091, 65254])
    answer = browser.command({"do": "create", "from": 1, "to": 2, "mode": "block", "pgns": [65265]})
    check("14 where there is a list already", answer["number"] == 14, answer)
    answer = browser.command({"do": "add", "from": 3, "to": 4, "pgns": [65265]})
    check("15 where there is none", answer["number"] == 15, answer)
    answer = browser.command({"do": "read", "from": 2, "to": 2})
    check("10 for a pair that is none", answer["number"] == 10, answer)
    said = browser.driver.execute_async_script(
        "const done = arguments[0]; import('/list.js').then((list) => done([14, 15, 10, 6, 7, 9, 11, 12, 99].map((number) => list.answerWords({ number }).words[0])))")
    check("each of them has words", len(set(said)) == 9 and "the pair has a list already" in said[0] and "does not know" in said[8], said)


def lists_made(bench, browser):
    browser.find("[href='#/list/2/1']").click()
    check("the way back is a click away", browser.sees("List from 2 (baler) to 1 (tractor)", "h1"))
    time.sleep(0.5)
    browser.find("#now .x").click()
    check("a PGN's cross prepares to take it out", browser.find("#paste").get_attribute("value") == "65399" and browser.find("#action-delete").is_selected())
    check("taken out", "Done." in send(browser) and bench.list_of(2, 1)["pgns"] == [], bench.list_of(2, 1))
    paste(browser, "65265 65266", "pass")
    check("made a pass list", "Done." in send(browser) and bench.list_of(2, 1) == {"from": 2, "to": 1, "mode": "pass", "pgns": [65265, 65266], "names": []}, bench.list_of(2, 1))
    browser.find("#action-clear").click()
    check("cleared", "Done." in send(browser) and bench.list_of(2, 1)["mode"] == "cleared")
    time.sleep(0.3)
    check("a cleared pair takes a new list alone", not browser.find("#action-add").is_enabled() and not browser.find("#action-clear").is_enabled())
    browser.find("#undo").click()
    check("undo brings the list back", browser.sees("Undone.", "#told") and bench.list_of(2, 1)["pgns"] == [65265, 65266], bench.list_of(2, 1))
    browser.go("list/4/3")
    paste(browser, "65265", "block")
    check("made on a cleared pair", "Done." in send(browser) and bench.list_of(4, 3)["mode"] == "block", browser.text("#told"))


def lists_by_name(bench, browser, pictures):
    browser.go("list/2/1")
    time.sleep(0.5)
    form = browser.find(".nameform")
    picker = Select(form.find_element(By.TAG_NAME, "select"))
    offered = [option.text for option in picker.options]
    check("senders are picked by the NAMEs that were heard", any("A00E820000200003" in one and "130" in one for one in offered), offered)
    picker.select_by_value("A00E820000200003")
    check("their fields are shown", "130" in browser.text(".nameform .ticks") and "mask 0000FFF8FFE00000" in browser.text(".nameform"), browser.text(".nameform"))
    form.find_element(By.CSS_SELECTOR, "input").send_keys("0xFF01")
    form.find_element(By.CSS_SELECTOR, "button").click()
    check("an entry by NAME is done", browser.sees("Done.", "#told"), browser.text("#told"))
    check("the unit has it", bench.list_of(2, 1)["names"] == [{"pgn": 65281, "name": "A00E820000200003", "mask": "0000FFF8FFE00000"}], bench.list_of(2, 1))
    check("and it is shown by its fields", browser.sees("agrees in: function, function instance, maker", ".names"), browser.text(".names"))
    browser.picture(pictures, "list-by-name")
    for i in range(7):
        bench.control({"do": "name", "from": 2, "to": 1, "pgn": 65281, "name": "1", "mask": f"{i:X}"})
    answer = browser.command({"do": "name", "from": 2, "to": 1, "pgn": 65281, "name": "2", "mask": "FF"})
    check("a ninth is refused with 16", answer["number"] == 16, answer)


def why(bench, browser, pictures):
    browser.go("why")
    Select(browser.find("#why-port")).select_by_value("1")
    browser.find("#why-pgn").send_keys("65096")
    browser.find("#why-source").send_keys("240")
    browser.find(".ask button").click()
    wait_for(lambda: browser.all("#why-answer"))
    rows = browser.text("#why-answer")
    check("a line for each other port with the reason and the entry", all(words in rows for words in ("2 · baler", "crosses", "listed in pass", "entry 1 of 4", "the pair has no list")), rows)
    browser.find("#why-pgn").clear()
    browser.find("#why-pgn").send_keys("0xF004")
    browser.find(".ask button").click()
    check("what stops is told so", browser.sees("stops", "#why-answer") and browser.sees("not listed in pass", "#why-answer"), browser.text("#why-answer"))
    Select(browser.find("#why-port")).select_by_value("2")
    browser.find("#why-pgn").clear()
    browser.find("#why-pgn").send_keys("65281")
    browser.find("#why-source").clear()
    browser.find("#why-source").send_keys("130")
    browser.find(".ask button").click()
    check("an entry by NAME is found too", browser.sees("NAME entry 1 of", "#why-answer"), browser.text("#why-answer"))
    check("the tail has the engine's frames, stopped to 2", browser.sees("stopped to 2 (not listed in pass)", ".tail"))
    browser.picture(pictures, "why")
    browser.find("#hold").click()
    held = browser.text(".tail tbody")
    time.sleep(1.6)
    check("the display can be held", browser.text(".tail tbody") == held)
    browser.find(".tail button").click()
    check("a frame of the tail is asked about by a click", wait_for(lambda: browser.find("#why-source").get_attribute("value") != "130"))
    browser.find("#why-pgn").clear()
    browser.find("#why-pgn").send_keys("70001")
    browser.find(".ask button").click()
    check("what is no PGN is told", browser.sees("That is no PGN.", "#why-told"))


def queues(bench, browser, pictures):
    for _ in range(400):
        bench.buses[3].send(0x18FF2085, bytes(8))
    wait_for(lambda: bench.status()["unit"]["losses"] > 0, 5)
    browser.go("queues")
    check("a chart for each port", wait_for(lambda: len(browser.all(".chart")) == 4))
    check("told in words", re.match(r"Port 1: at most \d+ of 32 waited in the last ten minutes, [\d,]+ frames were lost\.", browser.find(".chart").get_attribute("aria-label")))
    check("with areas drawn and losses marked", wait_for(lambda: browser.run("return [...document.querySelectorAll('.chart .loss')].some((path) => /M\\d/.test(path.getAttribute('d')))"), 8))
    check("the last ten minutes are the program's, not the browser's", len(json.loads(browser.fetch("GET", "/api/history")["body"])["samples"]) > 10)
    counted = bench.status()["unit"]["losses"]
    check("the unit's counter", counted > 0 and browser.sees(f"{counted:,}", ".counters"), browser.text(".counters"))
    browser.picture(pictures, "queues")
    browser.find("[data-reset='']").click()
    check("is reset", browser.sees("whole unit: Done.", "#reset-told") and bench.status()["unit"]["losses"] == 0, browser.text("#reset-told"))
    check("and who did it is told", browser.sees("anna, by this page", ".counters"))
    pair = next(one for one in bench.status()["pairs"] if one["losses"])
    browser.find(f"[data-reset='{pair['from']}{pair['to']}']").click()
    check("a pair's too", wait_for(lambda: next(one for one in bench.status()["pairs"] if (one["from"], one["to"]) == (pair["from"], pair["to"]))["losses"] == 0))


def addresses(bench, browser, pictures):
    bench.buses[2].claim(0x90, 0xA00C83000AC12345)
    time.sleep(0.2)
    bench.buses[2].claim(0x90, 0xA00C83080AC12399)
    browser.go("addresses")
    check("NAMEs with their fields", browser.sees("A00E820000200003") and browser.sees("function 130"))
    check("since when", re.search(r"\d\d:\d\d:\d\d", browser.text("main")))
    check("and who contended for an address", browser.sees("with A00C83080AC12399", "main", 4), browser.text("main")[-900:])
    browser.picture(pictures, "addresses")


def journal(bench, browser, pictures):
    bench.buses[0].send(0x18ED8021, bytes([4, 0x34, 255, 255, 255, 255, 255, 255]))
    bench.buses[1].send(0x18ED8022, bytes([0, 0x31, 255, 255, 255, 255, 255, 255]))
    browser.go("journal")
    check("a tool on the bus is told by its address", browser.sees("tool at address 33"), browser.text("main")[:600])
    check("whose attack is there, refused with 11", browser.sees("Refused with 11: this pair or port is not yours."))
    check("a user of the page by name", browser.sees("anna, by this page"))
    check("another program by its process", browser.sees("program ") and browser.sees("of user 0") if os.geteuid() == 0 else browser.sees("program "))
    browser.find("#only-refused").click()
    time.sleep(0.2)
    check("what was refused alone, if one wants", "done" not in browser.text("tbody"), browser.text("tbody")[:300])
    browser.find("#only-refused").click()
    browser.picture(pictures, "journal")
    got = browser.fetch("GET", browser.find("#bundle").get_attribute("href"))
    bundle = json.loads(got["body"])
    check("the support bundle is one file: status, journal and lists", bundle["bundle"] == 1 and len(bundle["status"]["commands"]) > 8 and "1 2 pass 65096 65097" in bundle["lists_file"]
          and "2 1 name 65281 A00E820000200003" in bundle["lists_file"] and "attachment" in got["headers"]["content-disposition"], got["body"][:300])
    check("without a password or a hash", "$y$" not in got["body"] and "secret" not in got["body"])


def fitter(bench, pictures):
    browser = Browser(bench)
    try:
        browser.sign_in("ben")
        check("a fitter is told whose port it is", "fitter of port 2" in browser.text("header"))
        check("sees the own port's card alone", browser.sees("Port 2", "main") and len(browser.all(".port")) == 1, browser.text("main"))
        browser.go("matrix")
        links = sorted(link.get_attribute("href").split("#")[1] for link in browser.all(".pair"))
        check("and the own pairs alone", links == ["/list/1/2", "/list/2/1", "/list/2/3", "/list/2/4", "/list/3/2", "/list/4/2"], links)
        browser.picture(pictures, "fitter")
        before = len(bench.tap.lines)
        browser.go("list/3/1")
        check("the old attack by the page: refused with 11 in words", browser.sees("Refused with 11: this pair or port is not yours.", "#told"), browser.text("main"))
        asked, answer = bench.tap.lines[before]
        check("the bytes on the socket: port 2 asks, 11 is the answer", b'"port":2' in asked and b'"from":3,"to":1' in asked and answer.startswith(b'{"number":11,') and b'"lists":[]' in answer, (asked, answer))
        for request in ({"do": "add", "from": 3, "to": 1, "pgns": [65265]}, {"do": "clear", "from": 3, "to": 1}, {"do": "clear", "from": 1, "to": "all"}, {"do": "reset"},
                        {"do": "replace", "from": 3, "to": 1, "mode": "cleared", "pgns": []}, {"do": "name", "from": 3, "to": 1, "pgn": 65265, "name": "1", "mask": "0"}):
            check(f"{request['do']} of another's pair by the page's own code: 11", browser.command(request).get("number") == 11)
        check("that list is as it was", bench.list_of(3, 1)["pgns"] == [65296])
        browser.go("list/1/2")
        paste(browser, "65300")
        check("the own list is changed", "Done." in send(browser) and 65300 in bench.list_of(1, 2)["pgns"])
        asked = json.loads(bench.tap.lines[-1][0])
        check("as a tool on port 2", asked["port"] == 2 and asked["who"] == "ben", asked)
        browser.go("queues")
        check("no menu has the unit's counter", wait_for(lambda: browser.all(".counters tbody tr")) and not browser.all("[data-reset='']") and len(browser.all("[data-reset]")) == 6)
    finally:
        browser.close()


def fitter_by_hand(bench):
    hand = Hand(bench)
    hand.sign_in("ben")
    before = len(bench.tap.lines)
    status, answer = hand.ask("POST", "/api/command", {"do": "read", "from": 3, "to": 1})
    check("the old attack by hand: 11", status == 200 and answer["number"] == 11 and answer["lists"] == [], answer)
    check("and port 2 on the socket", json.loads(bench.tap.lines[before][0]) == {"do": "read", "port": 2, "who": "ben", "from": 3, "to": 1})
    before = len(bench.tap.lines)
    for body in ({"do": "read", "from": 3, "to": 1, "port": 1}, {"do": "read", "port": 3}, {"do": "clear", "from": 3, "to": 1, "who": "anna"}):
        status, answer = hand.ask("POST", "/api/command", body)
        check(f"whoever says a port or for whom is refused: {sorted(body)}", status == 400 and "error" in answer, answer)
    for raw in (b'{"do":"clear","from":3,"to":1}\n{"do":"clear","port":1,"from":3,"to":1}', b'{"do":"read"\n,"p\\u006frt":1}', b'[]', b'', b'{"do":"read","from":3,"to":1,"from":1}'):
        status, answer = hand.ask("POST", "/api/command", raw)
        check(f"what is no command goes nowhere: {raw[:40]}", status == 400, answer)
    status, _ = hand.ask("POST", "/api/command", b'{"do":\n"read",\r\n"from":1,"to":2}')
    check("line ends in a command are none on the socket", status == 200 and bench.tap.lines[-1][0].count(b"\n") == 1 and len(bench.tap.lines) == before + 1)
    whole = json.dumps(hand.ask("GET", "/api/status")[1]) + json.dumps(hand.ask("GET", "/api/bundle")[1]) + json.dumps(hand.ask("GET", "/api/history")[1])
    status = hand.ask("GET", "/api/status")[1]["status"]
    check("a fitter's documents have the own pairs, addresses and commands alone", all(2 in (one["from"], one["to"]) for one in status["lists"] + status["pairs"])
          and [one["port"] for one in status["addresses"]] == [2] and all(one["port"] == 2 for one in status["commands"])
          and all(frame["port"] == 2 or 2 in frame.get("stopped", []) + frame.get("lost", []) for frame in status["frames"]), str(status)[:300])
    check("and nothing of the others", "65296" not in json.dumps(status["lists"]) and HOSTILE_BUS not in whole and "A000840000200002" not in json.dumps(status["addresses"])
          and status["unit"]["losses"] is None and "loop" not in status and "3 1 block" not in whole)
    check("of the last ten minutes the own port alone", hand.ask("GET", "/api/history")[1]["ports"] == [2])


def viewer(bench, pictures):
    browser = Browser(bench)
    try:
        browser.sign_in("vera")
        browser.go("list/1/2")
        check("a viewer sees the list and no form", browser.sees("65096", "#now") and not browser.all("#paste") and not browser.all(".nameform"))
        browser.go("queues")
        check("and no reset", wait_for(lambda: browser.all(".counters tbody tr")) and not browser.all("[data-reset]"))
        before = len(bench.tap.lines)
        check("a command by the page's own code is refused", browser.command({"do": "clear", "from": 1, "to": 2}).get("error") == "viewer" and len(bench.tap.lines) == before)
        check("asking why is not", browser.command({"do": "ask", "from": 1, "pgn": 65265, "source": 1}).get("number") == 0)
    finally:
        browser.close()


def two_owners(bench, anna):
    otto = Browser(bench)
    try:
        otto.sign_in("otto")
        otto.go("list/3/2")
        anna.go("list/3/2")
        paste(otto, "65265", "block")
        check("the second owner makes a list", "Done." in send(otto))
        check("the first sees it, and that it was somebody else", anna.sees("65265", "#now", 4) and anna.sees("has just been changed by somebody else"), anna.text("main"))
        # The first owner's page does not hear of the second's next change: its documents are held back.
        paste(anna, "65266", "add")
        anna.run("streams.forEach((stream) => stream.close())")
        bench.control({"do": "add", "from": 3, "to": 2, "pgns": [65267]})
        said = send(anna)
        check("a change that was made for another list is not done", "Somebody else has changed this list." in said, said)
        check("nothing of it stands", bench.list_of(3, 2)["pgns"] == [65265, 65267], bench.list_of(3, 2))
        check("without documents the page says that it lost the connection", anna.sees("The connection to the page is lost.", "#banners"))
        check("what stands now is shown, what was typed is kept", anna.sees("65267", "#now") and anna.find("#paste").get_attribute("value") == "65266")
        check("sent again: done", "Done." in send(anna) and bench.list_of(3, 2)["pgns"] == [65265, 65267, 65266], anna.text("#told"))
        anna.driver.refresh()
        anna.sees("live", "#beat")
    finally:
        otto.close()


def hostile_user(bench):
    browser = Browser(bench)
    try:
        check("a user whose name is markup signs in", browser.sign_in(HOSTILE_USER))
        browser.command({"do": "clear", "from": 4, "to": 3})
        browser.go("journal")
        check("and the name is text, in the head and in the journal", HOSTILE_USER in browser.text("header") and browser.sees(HOSTILE_USER, "main") and browser.unhurt())
    finally:
        browser.close()


def gateway_goes(bench, browser, pictures):
    browser.go("overview")
    begin = time.monotonic()
    bench.stop_gateway(signal.SIGKILL)
    said = wait_for(lambda: "The bridge does not answer." in browser.text("#banners"), 6)
    check("a gateway that was killed is said within 3 s", said and time.monotonic() - begin < 3.0, time.monotonic() - begin)
    check("and the last state is greyed, and there", browser.run("return document.body.classList.contains('stale') && getComputedStyle(document.querySelector('main')).filter.includes('grayscale')")
          and len(browser.all(".port")) == 4)
    browser.picture(pictures, "silent")
    answer = browser.command({"do": "read", "from": 1, "to": 2})
    check("a command is told as unanswered", answer.get("error") == "gateway", answer)
    bench.run_gateway("--lists", "lists")
    check("started again, it is live again", browser.sees("live", "#beat", 6) and browser.text("#banners") == "", browser.text("#banners"))
    bench.gateway.send_signal(signal.SIGSTOP)
    begin = time.monotonic()
    said = wait_for(lambda: "The bridge does not answer." in browser.text("#banners"), 6)
    check("one that hangs is said within 3 s too", said and time.monotonic() - begin < 3.2, time.monotonic() - begin)
    bench.gateway.send_signal(signal.SIGCONT)
    check("and live when it goes on", browser.sees("live", "#beat", 6))


def banners(bench, browser, pictures):
    browser.go("overview")
    with open("lists", "a", encoding="ascii") as file:
        file.write("# edited\n")
    bench.control({"do": "clear", "from": 4, "to": 1})
    bench.control({"do": "create", "from": 4, "to": 1, "mode": "block", "pgns": [65265]})
    check("lists that are not saved have a banner", browser.sees("The lists file was edited", "#banners", 6), browser.text("#banners"))
    bench.stop_gateway()
    bench.start_gateway(None)
    check("and so has a bridge without a lists file", browser.sees("started without a lists file", "#banners", 6), browser.text("#banners"))
    bench.buses[2].claim(0x80, 0x1000000000000003)
    check("Lost is in red, with what follows from it", browser.sees("Lost", "#claim", 5) and "bad" in browser.find("#claim").get_attribute("class") and browser.sees("has lost its address", "#banners"))
    browser.picture(pictures, "lost")
    browser.go("addresses")
    check("no addresses are told then", browser.sees("tells no addresses"))
    answer = browser.command({"do": "clear", "from": 1, "to": 2})
    check("and commands are refused with 6", answer.get("number") == 6, answer)
    bench.stop_gateway()
    bench.start_gateway(LISTS)
    browser.sees("Claimed", "#claim", 6)


CONTRAST = """
const luminance = (c) => { const f = c.map((v) => { v /= 255; return v <= 0.03928 ? v / 12.92 : ((v + 0.055) / 1.055) ** 2.4; }); return 0.2126 * f[0] + 0.7152 * f[1] + 0.0722 * f[2]; };
const parse = (text) => { const m = text.match(/[\\d.]+/g).map(Number); return m.length > 3 ? m : [...m, 1]; };
const ground = (node) => { for (let n = node; n; n = n.parentElement) { const c = parse(getComputedStyle(n).backgroundColor); if (c[3] > 0.99) return c; } return [255, 255, 255, 1]; };
const bad = [];
const walker = document.createTreeWalker(document.body, NodeFilter.SHOW_TEXT);
while (walker.nextNode()) {
  const node = walker.currentNode.parentElement;
  if (!walker.currentNode.textContent.trim() || !node.checkVisibility() || node.closest('.sr, .skip, noscript, option, :disabled')) continue;
  const style = getComputedStyle(node);
  const inSvg = node.namespaceURI.endsWith('svg');
  const a = luminance(parse(inSvg ? style.fill : style.color)), b = luminance(ground(inSvg ? node.closest('svg').parentElement : node));
  const ratio = (Math.max(a, b) + 0.05) / (Math.min(a, b) + 0.05);
  if (ratio < 4.5) bad.push(`${ratio.toFixed(2)} ${walker.currentNode.textContent.trim().slice(0, 30)}`);
}
return bad;
"""
UNLABELLED = """
return [...document.querySelectorAll('input, select, textarea, button, a, [role=img]')].filter((node) => {
  if (node.matches('[role=img]')) return !node.getAttribute('aria-label');
  const words = node.getAttribute('aria-label') || node.innerText || (node.labels && [...node.labels].map((l) => l.innerText).join(''));
  return node.checkVisibility() && !words?.trim();
}).map((node) => node.outerHTML.slice(0, 80));
"""


def looks(bench, browser, pictures):
    for scheme in ("light", "dark"):
        browser.driver.execute_cdp_cmd("Emulation.setEmulatedMedia", {"features": [{"name": "prefers-color-scheme", "value": scheme}]})
        poor = []
        for screen in SCREENS:
            browser.go(screen)
            time.sleep(0.3)
            poor += [f"{screen}: {one}" for one in browser.run(CONTRAST)]
        check(f"every text has a contrast of 4.5 to 1, {scheme}", not poor, poor[:5])
        if scheme == "dark":
            browser.go("overview")
            browser.picture(pictures, "dark")
    browser.driver.execute_cdp_cmd("Emulation.setEmulatedMedia", {"features": []})
    unlabelled = []
    for screen in SCREENS:
        browser.go(screen)
        unlabelled += [f"{screen}: {one}" for one in browser.run(UNLABELLED)]
    check("every field, button, link and chart has words", not unlabelled, unlabelled[:5])


def phone(bench, browser, pictures):
    browser.driver.execute_cdp_cmd("Emulation.setDeviceMetricsOverride", {"width": PHONE[0], "height": PHONE[1], "deviceScaleFactor": 1, "mobile": True})
    wide = []
    for screen in SCREENS:
        browser.go(screen)
        time.sleep(0.4)
        if browser.run("return document.documentElement.scrollWidth > innerWidth"):
            wide.append(screen)
        if screen in ("overview", "matrix", "list/1/2"):
            browser.picture(pictures, f"phone-{screen.split('/')[0]}")
    check("no screen is wider than a phone", not wide, wide)
    small = browser.run("return [...document.querySelectorAll('nav a, button')].filter((n) => n.checkVisibility() && n.getBoundingClientRect().height < 24).map((n) => n.outerHTML.slice(0, 60))")
    check("what is to be touched is 24 px high at least", not small, small)
    browser.driver.execute_cdp_cmd("Emulation.clearDeviceMetricsOverride", {})


def keyboard(bench):
    browser = Browser(bench)
    try:
        browser.driver.get(bench.address)
        wait_for(lambda: browser.all("[name=user]"))
        keys = browser.driver.switch_to.active_element
        keys.send_keys("anna", Keys.TAB, bench.passwords["anna"][:0])
        browser.driver.switch_to.active_element.send_keys(bench.passwords["anna"], Keys.ENTER)
        check("signed in by keys alone", browser.sees("live", "#beat", 8))

        def tab_to(selector, most=80):
            for _ in range(most):
                browser.driver.switch_to.active_element.send_keys(Keys.TAB)
                if browser.run("return document.activeElement.matches(arguments[0])", selector):
                    return True
            return False
        check("a key leads past the head", tab_to(".skip", 3))
        check("to the lists", tab_to("nav a[data-screen=matrix]"))
        browser.driver.switch_to.active_element.send_keys(Keys.ENTER)
        browser.sees("What may cross")
        check("to a pair", tab_to("a[href='#/list/1/2']"))
        check("where the focus is seen", browser.run("return getComputedStyle(document.activeElement).outlineStyle !== 'none'"))
        browser.driver.switch_to.active_element.send_keys(Keys.ENTER)
        browser.sees("List from 1")
        check("to the box", tab_to("#paste"))
        browser.driver.switch_to.active_element.send_keys("65310")
        check("to send", tab_to("#send", 3))
        browser.driver.switch_to.active_element.send_keys(Keys.ENTER)
        check("sent by keys alone", browser.sees("Done.", "#told") and 65310 in bench.list_of(1, 2)["pgns"], browser.text("#told"))
        check("and signed out", tab_to("#sign-out", 120))
        browser.driver.switch_to.active_element.send_keys(Keys.ENTER)
        check("which shows the form again", wait_for(lambda: browser.all("[name=user]")))
        check("and ends the session", browser.fetch("GET", "/api/status")["status"] == 401)
    finally:
        browser.close()


def german(bench, pictures):
    browser = Browser(bench, "de")
    try:
        browser.run("1")
        browser.driver.get(bench.address)
        wait_for(lambda: browser.all("[name=user]"))
        if "Anmelden" not in browser.text():
            browser.find("header button").click()
        check("in German too", browser.sees("Port 1 hat am Bus selbst kein Passwort"))
        browser.sign_in("anna")
        for screen, words in zip(SCREENS, ("Übersicht", "Listen", "Was dasteht", "Warum", "Warteschlangen", "Adressen", "Protokoll")):
            browser.go(screen)
            check(f"{screen} in German", browser.sees(words, "main"), browser.text("main")[:200])
        browser.go("list/1/2")
        check("what is typed is judged in German", "Die 2., 70001, ist keine PGN." in paste(browser, "65265 70001"), browser.text(".judged"))
        check("a refusal is German", "Abgelehnt mit 22: ein Eintrag ist keine PGN." in send(browser), browser.text("#told"))
        browser.picture(pictures, "german")
        check("the language is told to whoever reads aloud", browser.run("return document.documentElement.lang") == "de")
        wrong = browser.driver.execute_async_script(
            "const done = arguments[0]; import('/words.js').then(({ WORDS }) => done(Object.entries(WORDS).filter(([key, words]) => words.length !== 2 || words.some((word) => !word.trim())"
            " || String(words[0].match(/\\{\\d\\}/g)?.sort()) !== String(words[1].match(/\\{\\d\\}/g)?.sort())).map(([key]) => key)))")
        check("every word is in both languages, with the same places to fill", wrong == [], wrong)
    finally:
        browser.close()


def quiet_console(browser):
    complaints = [entry for entry in browser.driver.get_log("browser") if entry["level"] == "SEVERE" and "Failed to load resource" not in entry["message"]]
    check("the browser has nothing to complain of", not complaints, complaints[:3])


def main():
    pictures = os.path.abspath(sys.argv[1]) if len(sys.argv) > 1 else None
    bench = Bench("target/page/browser")
    bench.start_gateway(LISTS)
    bench.make_users()
    bench.start_page()
    traffic = players()
    anna = Browser(bench)
    try:
        signing_in(bench, anna, pictures)
        for part in (overview, matrix, lists_typed):
            part(bench, anna, pictures)
        lists_refused(bench, anna)
        lists_made(bench, anna)
        for part in (lists_by_name, why, queues, addresses, journal):
            part(bench, anna, pictures)
        fitter(bench, pictures)
        fitter_by_hand(bench)
        viewer(bench, pictures)
        two_owners(bench, anna)
        hostile_user(bench)
        gateway_goes(bench, anna, pictures)
        banners(bench, anna, pictures)
        looks(bench, anna, pictures)
        phone(bench, anna, pictures)
        keyboard(bench)
        german(bench, pictures)
        check("nothing that was text was ever run", anna.unhurt())
        quiet_console(anna)
    finally:
        anna.close()
        for one in traffic:
            os.killpg(one.pid, signal.SIGTERM)
        status = bench.stop_page()
        bench.close()
    check("the page ends with status 0", status == 0, status)
    check("the sanitizers have nothing to say", bench.sanitizer_words() == "", bench.sanitizer_words())
    return checks.end()


if __name__ == "__main__":
    sys.exit(main())
