"""The plan page in chromium, opened from the disk: the bundled machine, a ring, 16 units of 8 ports, umlauts, a
megabyte of garbage, files in and out.

usage: plan_chromium.py ROOT FOLDER, the clone, and where screenshots and downloads go. The proved program has to be
there. Lines that begin with ok or FAIL.
"""
import os
import pathlib
import random
import subprocess
import sys
import time
import xml.etree.ElementTree

from selenium import webdriver
from selenium.webdriver.chrome.service import Service
from selenium.webdriver.common.by import By
from selenium.webdriver.support.ui import WebDriverWait

ROOT, FOLDER = pathlib.Path(sys.argv[1]), pathlib.Path(sys.argv[2])
TEXTS = pathlib.Path(__file__).parent / "plan_texts"
failed = 0


def judge(name, right, detail=""):
    global failed
    failed += not right
    print(f"ok {name}" if right else f"FAIL {name}: {str(detail)[:2000]}", flush=True)


def browser():
    options = webdriver.ChromeOptions()
    words = ["headless=new", "disable-gpu", "disable-dev-shm-usage", "window-size=1500,1000", "hide-scrollbars"]
    for word in words:
        options.add_argument(f"--{word}")
    if os.getuid() == 0:  # it runs without a sandbox or not at all
        options.add_argument("--no-sandbox")
    automatic = "profile.default_content_setting_values.automatic_downloads"
    options.add_experimental_option("prefs", {"download.default_directory": str(FOLDER), automatic: 1})
    options.set_capability("goog:loggingPrefs", {"browser": "ALL", "performance": "ALL"})
    driver = webdriver.Chrome(service=Service("/usr/bin/chromedriver"), options=options)
    driver.set_script_timeout(120)
    return driver


def printed(text):
    """What the proved program prints for a text."""
    run = subprocess.run([ROOT / "target/bin/plan"], input=text.encode(), capture_output=True, check=True)
    return run.stdout.decode(errors="replace")


class Page:
    def __init__(self, driver):
        self.driver = driver
        driver.get(f"file://{ROOT}/page/plan.html")
        WebDriverWait(driver, 20).until(lambda _: driver.find_elements(By.CSS_SELECTOR, "body[data-ready]"))

    def put(self, text):
        """Types a text, all at once; gives the seconds until it is drawn."""
        begin = time.monotonic()
        self.driver.execute_script(
            "const box = document.getElementById('text'); box.value = arguments[0];"
            "box.dispatchEvent(new Event('input'));",
            text,
        )
        return time.monotonic() - begin

    def told(self):
        return self.driver.execute_script("return document.getElementById('lines').textContent") + "\n"

    def all(self, selector):
        return self.driver.find_elements(By.CSS_SELECTOR, selector)

    def texts(self, selector):
        script = "return [...document.querySelectorAll(arguments[0])].map(one => one.textContent)"
        return self.driver.execute_script(script, selector)

    def click(self, selector):
        self.driver.execute_script(
            "const one = document.querySelector(arguments[0]); one.scrollIntoView();"
            "one.dispatchEvent(new MouseEvent('click', { bubbles: true }));",
            selector,
        )

    def choose_unit(self, unit):
        self.driver.execute_script("document.getElementById('unit').value = arguments[0]", unit)

    def shot(self, name):
        self.driver.execute_script("for (const id of ['right', 'picture']) document.getElementById(id).scrollTo(0, 0)")
        self.driver.set_window_size(1500, 1250)
        time.sleep(0.5)
        self.driver.save_screenshot(str(FOLDER / f"{name}.png"))

    def download(self, name, button):
        for old in FOLDER.glob(f"{name}*"):
            old.unlink()
        self.click(button)
        WebDriverWait(self.driver, 20).until(lambda _: (FOLDER / name).exists())
        return (FOLDER / name).read_text()

    def drop(self, name, content):
        """A file dropped on the page."""
        self.driver.execute_script(
            "const data = new DataTransfer(); data.items.add(new File([Uint8Array.from(arguments[1])], arguments[0]));"
            "window.dispatchEvent(new DragEvent('drop', { dataTransfer: data, bubbles: true, cancelable: true }));",
            name,
            list(content),
        )
        time.sleep(0.5)


def bundled(page):
    machine = (ROOT / "reference/scripts/machine.plan").read_text()
    judge("the bundled machine is told as by the program", page.told() == printed(machine), page.told())
    judge("6 buses and 3 boxes are drawn", (len(page.all("#picture .bus")), len(page.all("#picture .box"))) == (6, 3))
    size = (len(page.all("tbody tr")), len(page.all("tbody tr:first-child td")))
    judge("a table of 7 questions by 6 buses", size == (7, 9), size)
    page.click("#pgns [data-value='51968']")
    page.click("#picture .bus[data-segment='4']")
    buses = sorted(page.all("#picture .bus"), key=lambda bus: int(bus.get_attribute("data-segment")))
    kinds = [bus.get_attribute("class").split()[1] for bus in buses]
    wanted = ["stopped", "heard", "stopped", "sent", "stopped", "nopath"]
    judge("a PGN and a bus that are clicked colour who hears", kinds == wanted, kinds)
    verdicts = {box: page.texts(f"#picture .box[data-unit='{box}'] .verdict text") for box in (1, 2, 3)}
    wanted = {1: ["\u2715 2 to 1 stopped", "as listed"], 2: ["\u2715 3 to 2 stopped", "as not listed"], 3: []}
    judge("the pair and the reason stand in the box where it stops", verdicts == wanted, verdicts)
    page.click("tbody tr:nth-child(2)")
    page.shot("plan-page")
    caption = page.texts("#picture .caption")
    judge("a row of the table is shown", caption == ["PGN 65267 sent on segment 1 tractor"], caption)
    page.click("#nothing")
    judge("no question", page.texts("#picture .caption, #picture .verdict") == [])


def files(page):
    machine = page.driver.execute_script("return document.getElementById('text').value")
    judge("the text is saved", page.download("machine.plan", "#save-text") == machine)
    page.click("tbody tr:nth-child(2)")
    picture = xml.etree.ElementTree.fromstring(page.download("machine.svg", "#save-picture"))
    judge("the picture is saved whole", picture.tag.endswith("svg") and len(picture.findall(".//{*}rect")) > 9)
    page.choose_unit(2)
    lists = page.download("lists-2.txt", "#save-lists")
    wanted = ["1 2 block 65267", "1 3 pass 65097 65267", "2 3 pass", "3 2 pass"]
    judge("the lists file of a unit is saved", lists.splitlines()[1:] == wanted, lists)
    told = page.told()
    page.put("\n".join(line for line in machine.splitlines() if not line.startswith("  pair 1 2 block 65267")))
    judge("without a list another bus hears", page.told() != told)
    page.choose_unit(2)
    page.drop("lists-2.txt", lists.encode())
    judge("the lists file is put in again", page.told() == told, page.texts("#message"))
    page.drop("lists-2.txt", b"1 2 block 65267 0xEF01\n")
    said = page.texts("#message")
    wanted = ['Lists file: line 1: "0xEF01" is no PGN. Nothing is changed.']
    judge("a wrong lists file changes nothing and is told", page.told() == told and said == wanted, said)
    page.drop("other.plan", b"segment 1 tractor\r\nask 65097 segment 1\r\n")
    judge("a plan is dropped", page.told() == printed("segment 1 tractor\nask 65097 segment 1\n"), page.told())


def wrong_lines(page):
    for text in (TEXTS / "ring.plan").read_text(), (TEXTS / "wrong.plan").read_text():
        page.put(text)
        judge("a wrong text is told as by the program", page.told() == printed(text), page.told())
    words = page.texts("#marks .word")
    judge("each wrong word is marked where it stands", words == ["loader", "65267,65256", "0xEF01", "trailer"], words)
    judge("each wrong line is listed", len(page.all("#wrong li")) == 4 and not page.all("#save-lists:enabled"))
    page.put((TEXTS / "ring.plan").read_text())
    names = set(page.texts("#picture .box.ringed .name") + page.texts("#picture .bus.ringed text"))
    drawn = page.all("#picture .closing") and page.all("#picture .around")
    judge("the ring is drawn with its names", drawn and {"1 tractor", "1 cab", "3 drawbar"} <= names, names)
    page.shot("plan-ring")


def large(page):
    text = (TEXTS / "large.plan").read_text()
    seconds = page.put(text)
    told = page.told()
    judge("16 units, two of 8 ports with all lists, are told as by the program", told == printed(text), told[-300:])
    judge("they are drawn within two seconds", seconds < 2 and len(page.all("#picture .box")) == 16, seconds)
    page.click("tbody tr:nth-child(1)")
    page.shot("plan-large")
    lines = [f"segment {segment}" for segment in range(1, 17)]
    for unit in range(1, 17):
        lines += [f"unit {unit}"] + [f"port {port} segment {(unit + port) % 16 + 1}" for port in range(1, 9)]
    full = "\n".join(lines)
    seconds = page.put(full)
    told = page.told()
    is_same = told == printed(full) and told.count("(29)") > 90
    judge("16 units with 8 ports each are told as by the program, ring by ring", is_same, told[-300:])
    judge("they are told within five seconds", seconds < 5, seconds)


def umlauts(page):
    text = (TEXTS / "umlauts.plan").read_text()
    page.put(text)
    judge("umlauts are told as by the program", page.told() == printed(text), page.told())
    drawn = page.texts("#picture .bus text")
    judge("umlauts are drawn", {"1 Schlepper-Ü", "2 Anhänger"} <= set(drawn), drawn)
    page.drop("old.plan", text.encode("windows-1252"))
    said = page.texts("#message")
    is_read = page.told() == printed(text) and "Windows-1252" in said[0]
    judge("a file of Windows-1252 is read and told so", is_read, said)


def garbage(page):
    made = random.Random(44)
    letters = "".join(map(chr, range(32, 127))) + "\n\t\u00e4\u0416\u4e2d\U0001f69c"
    words = ["segment", "unit", "port", "pair", "ask", "1", "2", "pass", "block", "65097", "\n", "#", '"', "0xFEF1"]
    megabyte = {
        "letters": "".join(made.choices(letters, k=1_000_000)),
        "words": " ".join(made.choices(words, k=250_000)),
        "one line": "x" * 1_000_000,
        "blanks before a letter": " " * 1_000_000 + "x",
        "empty lines": "\n" * 1_000_000,
    }
    for name, text in megabyte.items():
        # the browser's own box takes its time with a million lines
        most = 100 if name == "empty lines" else 20
        seconds = page.put(text)
        is_same = page.told() == printed(text)
        judge(f"1 MB of {name}: told as by the program, within {most} s", is_same and seconds < most, f"{seconds} s")
    small = "segment 1\nask 0 segment 1\n"
    judge("behind it the page goes on", page.put(small) < 20 and page.told() == printed(small))


def every_example(page):
    texts = (ROOT / "crates/plan_examples/stdin").read_bytes().split(b"\f")[:-1]
    shown = [text.decode() for text in texts if is_utf8(text)]
    differing = []
    for text in shown:
        # the box has no carriage return
        page.put(text.replace("\r\n", "\n").replace("\r", " "))
        if page.told() != printed(text):
            differing.append(text)
    name = f"{len(shown)} texts of plan_examples, typed into the page, are told as by the program"
    judge(name, len(shown) > 80 and not differing, differing[:1])


def is_utf8(text):
    try:
        text.decode()
        return True
    except UnicodeDecodeError:
        return False


def main():
    driver = browser()
    try:
        page = Page(driver)
        for part in (bundled, files, wrong_lines, large, umlauts, garbage, every_example):
            part(page)
        log = [entry["message"] for entry in driver.get_log("performance")]
        asked = [message for message in log if 'Network.requestWillBeSent"' in message]
        away = [one for one in asked if not any(f'"url":"{kind}:' in one for kind in ("file", "blob", "data"))]
        judge("nothing is asked of a network", len(asked) > 0 and not away, away)
        errors = [entry["message"] for entry in driver.get_log("browser") if entry["level"] == "SEVERE"]
        judge("no error in the console", not errors, errors)
        print(f"chromium {driver.capabilities['browserVersion']}")
    finally:
        driver.quit()
    sys.exit(failed > 0)


main()
