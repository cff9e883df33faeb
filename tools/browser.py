"""The browser of tools/check_page: headless Chromium at the pages of a counter. It is no script of its own."""
import base64
import contextlib
import shutil
import subprocess
from pathlib import Path

from program import METER
from servers import NAME, OTHER_SITE, WAIT
from shared import same, wrong

# What `when` and others may use of a page.
WORDS = """
const by = (id) => document.getElementById(id);
const isShown = (id) => by(id)?.checkVisibility();
const textOf = (id) => isShown(id) ? by(id).innerText.trim() : '';
const answerOf = (id) => {
  const found = document.querySelector(`#${id} .answer`);
  return found?.checkVisibility() ? found.innerText.trim() : '';
};
const isIdle = () => !document.body.classList.contains('busy');
"""
# Counts what a page asks the desk: the requests under way, and the most at a time.
COUNT_REQUESTS = """
const real = window.fetch.bind(window);
window.requests = window.most = 0;
window.fetch = async (...words) => {
  if (!words[0].url?.includes("/api/")) return real(...words);
  window.most = Math.max(window.most, ++window.requests);
  try { return await real(...words); } finally { window.requests -= 1; }
};"""


class Browser:
    """Headless Chromium, which knows the two names and trusts the one certificate."""

    def __init__(self, folder, proxy, pictures):
        from selenium import webdriver
        from selenium.webdriver.chrome.service import Service
        self.pictures = pictures
        self.width = None  # of the window, where it has not its own size
        self.home = f"https://{NAME}:{proxy.port}"
        self.proxy = proxy
        options = webdriver.ChromeOptions()
        options.binary_location = shutil.which("chromium")
        hash_of_key = subprocess.run(
            f"openssl x509 -in {proxy.folder}/tls.crt -pubkey -noout | openssl pkey -pubin -outform der"
            " | openssl dgst -sha256 -binary | openssl base64", shell=True, check=True,
            capture_output=True, text=True).stdout.strip()
        for word in ("--headless=new", "--no-sandbox", "--disable-gpu", "--disable-dev-shm-usage",
                     "--disable-background-networking", "--disable-component-update", "--disable-sync",
                     "--no-first-run", "--no-default-browser-check", "--disable-extensions",
                     "--disable-popup-blocking",
                     "--disable-background-timer-throttling", "--disable-renderer-backgrounding",
                     "--disable-backgrounding-occluded-windows", "--window-size=900,1000", "--hide-scrollbars",
                     f"--user-data-dir={folder}/chromium",
                     f"--host-resolver-rules=MAP {NAME} 127.0.0.1, MAP {OTHER_SITE} 127.0.0.1",
                     f"--ignore-certificate-errors-spki-list={hash_of_key}"):
            options.add_argument(word)
        options.set_capability("goog:loggingPrefs", {"browser": "ALL"})
        self.driver = webdriver.Chrome(options=options, service=Service(shutil.which("chromedriver")))
        self.driver.set_page_load_timeout(WAIT)
        self.driver.set_script_timeout(2 * WAIT)

    def quit(self):
        with contextlib.suppress(Exception):
            self.driver.quit()

    def sign_in(self, user):
        """As a person does in the browser's dialog, once for the cashier's page and once for the manager's."""
        for page in ("/index.html", "/office.html"):
            self.open_with_password(user, page)

    def open_with_password(self, user, page="/"):
        """Loads a page by an address that has a name and a password in it."""
        name, word = user
        self.driver.get(self.home.replace("//", f"//{name}:{word}@") + page)

    def open(self, page="/"):
        self.driver.get(self.home + page)

    def run(self, script, *words):
        return self.driver.execute_script(script, *words)

    def when(self, expression, what, *words):
        """Waits in the page until an expression over `words` holds, and gives what it is."""
        script = ("const end = arguments[arguments.length - 1]; const words = [...arguments].slice(0, -1);"
                  f"const ends = Date.now() + 1000 * words.shift(); {WORDS} const look = () => {expression};"
                  "const go = () => { const found = look(); if (found || Date.now() > ends) end(found || null);"
                  "else setTimeout(go, 20); }; go();")
        found = self.driver.execute_async_script(script, WAIT, *words)
        return found or wrong(f"{what}: not within {WAIT} seconds; on the screen is {self.screen()}")

    def text(self, name):
        """What is on the screen of an element, or nothing where it is hidden."""
        return self.run("const it = document.getElementById(arguments[0]);"
                        "return it && it.checkVisibility() ? it.innerText.trim() : ''", name)

    def screen(self):
        return self.run("return document.body.innerText")

    def is_shown(self, name):
        return self.run("return document.getElementById(arguments[0]).checkVisibility()", name)

    def are_shown(self, *names):
        return [name for name in names if self.is_shown(name)]

    def at(self, name):
        from selenium.webdriver.common.by import By
        return self.driver.find_element(By.ID, name)

    def fill(self, **fields):
        self.run("for (const [id, text] of Object.entries(arguments[0])) document.getElementById(id).value = text",
                 {name.replace("_", "-"): text for name, text in fields.items()})

    def type(self, **fields):
        """Writes into fields key by key, faster than anybody does."""
        self.run("""
            for (const [id, text] of Object.entries(arguments[0])) {
              const field = document.getElementById(id);
              for (let end = 0; end <= text.length; end += 1) {
                field.value = text.slice(0, end);
                field.dispatchEvent(new Event("input", {bubbles: true}));
              }
            }""", fields)

    def send(self, form, **fields):
        """Fills a form and presses its own button."""
        self.fill(**fields)
        self.run("[...document.getElementById(arguments[0]).querySelectorAll('button:not([type])')].at(-1).click()",
                 form)

    def press(self, name):
        self.run("document.getElementById(arguments[0]).click()", name)

    def keys(self, *keys):
        """Presses keys, wherever the keyboard is."""
        from selenium.webdriver.common.action_chains import ActionChains
        ActionChains(self.driver, duration=0).send_keys(*keys).perform()

    def says(self, form, *words):
        """Waits until the answer at a form has these words. It is in the window, and screen readers say it. So is the
        field that it is about, if any, which names it."""
        self.when("words.slice(1).every((it) => answerOf(words[0]).includes(it)) && isIdle()",
                  f"at {form}: {words}", form, *words)
        role, field = self.run("""
            const form = document.getElementById(arguments[0]);
            const answer = form.querySelector(".answer"), field = form.querySelector("[aria-invalid]");
            const isNamed = () => field.getAttribute("aria-describedby") === answer.id;
            return [answer.role, field && [field === document.activeElement, isNamed()]];""", form)
        same((role, field or [True, True]), ("alert", [True, True]), f"{form}: how {words} is announced")
        self.is_seen(f"#{form} .answer", words)
        if field:
            self.is_seen(f"#{form} [aria-invalid]", words)
        self.fits(words)

    def shows(self, name, what):
        self.when("isShown(words[0]) && isIdle()", what, name)
        self.fits(what)

    def is_seen(self, selector, where):
        """The whole of an element is in the window, and nothing is in front of it."""
        found = self.run("""
            const it = document.querySelector(arguments[0]);
            const {left, top, right, bottom} = it.getBoundingClientRect();
            const front = document.elementFromPoint((left + right) / 2, (top + bottom) / 2);
            const isInside = left >= 0 && top >= -1 && right <= innerWidth + 1 && bottom <= innerHeight + 1;
            return isInside && right > left && it.contains(front) ? null
              : {left, top, right, bottom, innerWidth, innerHeight, front: front?.outerHTML.slice(0, 80)};""", selector)
        same(found, None, f"{where}: whether {selector} is in the window")

    def fits(self, where):
        """The page is no wider than the window, and nothing on it reaches over its edges."""
        found = self.run("""
            const wide = arguments[0] ?? innerWidth;
            const isBeyond = (it) => {
              const {left, right} = it.getBoundingClientRect();
              return right > left && (left < -1 || right > wide + 1);
            };
            return [document.scrollingElement.scrollWidth, wide,
              [...document.body.querySelectorAll("*")].filter((it) => it.checkVisibility() && isBeyond(it))
                .map((it) => it.outerHTML.slice(0, 80))];""",
                         self.width)
        same((found[0] <= found[1], found[2]), (True, []), f"{where}: the width of the page, {found[0]} of {found[1]}")

    def is_usable(self):
        """Whatever can be used has a name for screen readers, and letters that are read at arm's length. Each text
        stands out from its ground, and each form has one place for its answer."""
        found = self.run("""
            return [...document.querySelectorAll("input, select, button, a")].filter((it) => it.checkVisibility()).map(
              (it) => [it.outerHTML, it.labels?.length ? it.labels[0].innerText : it.innerText,
                       parseFloat(getComputedStyle(it).fontSize)]);""")
        for control, name, size in found:
            same((bool(name.strip()), size >= 20), (True, True), f"the name and the {size} pixels of {control}")
        pale = self.run("""
            const partsOf = (color) => color.match(/[\\d.]+/g).map(Number);
            const light = (color) => partsOf(color).slice(0, 3).map((it) => it / 255)
              .map((it) => (it <= 0.04045 ? it / 12.92 : ((it + 0.055) / 1.055) ** 2.4))
              .reduce((sum, it, place) => sum + it * [0.2126, 0.7152, 0.0722][place], 0.05);
            const groundOf = (it) => {
              const ground = getComputedStyle(it).backgroundColor;
              return partsOf(ground)[3] === 0 ? groundOf(it.parentElement) : ground;
            };
            const hasText = (it) => [...it.childNodes].some((part) => part.nodeType === 3 && part.textContent.trim());
            const isPale = (it) => {
              const [one, other] = [light(getComputedStyle(it).color), light(groundOf(it))];
              return Math.max(one, other) / Math.min(one, other) < 4.5;
            };
            return [...document.body.querySelectorAll("*")].filter((it) => it.checkVisibility() && hasText(it))
              .filter(isPale).map((it) => it.outerHTML);""")
        same(pale, [], "texts that hardly stand out")
        answers = self.run("return [...document.forms].map((it) => it.querySelectorAll('.answer[role=alert]').length)")
        same({*answers}, {1}, "the places for answers in each form")

    def size(self, width, height):
        """Gives the window another size, a narrow one as on a phone."""
        self.width = width
        self.driver.execute_cdp_cmd("Emulation.setDeviceMetricsOverride", {
            "width": width, "height": height, "deviceScaleFactor": 1, "mobile": width < 500})

    def own_size(self):
        self.width = None
        self.driver.execute_cdp_cmd("Emulation.clearDeviceMetricsOverride", {})

    def receipt(self, tender):
        """Waits for a receipt on the screen, asking again where the page says so, and gives what it says."""
        rows = self.when("""{
            if (isIdle() && isShown('doubt')) by('retry').click();
            if (!isIdle() || isShown('doubt') || !textOf('content').includes('Paid')) return null;
            const rows = [...document.querySelectorAll('#content dt')].map(
              (it) => [it.innerText, it.nextElementSibling.innerText]);
            const token = document.querySelector('#content .token').innerText.split(/\\s+/).join(' ');
            return {...Object.fromEntries(rows), Token: token}; }""", "a receipt")
        same(rows["Paid"], tender, "the receipt")
        return rows

    def next(self):
        self.press("next")
        self.shows("sale", "the next sale")

    def sell(self, tender, meter=METER):
        """Enters a sale and presses the button."""
        self.send("order-form", meter=meter, tender=tender)

    def new_tab(self, page="/"):
        self.driver.switch_to.new_window("tab")
        self.open(page)
        return self.driver.current_window_handle

    def before_each_page(self, script):
        """Has a script run in this tab before the scripts of each page that is loaded."""
        self.driver.execute_cdp_cmd("Page.addScriptToEvaluateOnNewDocument", {"source": script})

    def turn_to(self, tab):
        self.driver.switch_to.window(tab)

    def close_tab(self, back):
        self.driver.close()
        self.driver.switch_to.window(back)

    def picture(self, name):
        """Keeps what the screen shows, without the edge below it."""
        if self.pictures:
            height = self.run("return Math.ceil(document.body.getBoundingClientRect().bottom)")
            shot = self.driver.execute_cdp_cmd("Page.captureScreenshot", {
                "captureBeyondViewport": True,
                "clip": {"x": 0, "y": 0, "width": 900, "height": height, "scale": 0.6}})
            Path(self.pictures, f"{name}.png").write_bytes(base64.b64decode(shot["data"]))
