"""The page of `cspwatch-web` in a browser: Debian's chromium with its driver, by selenium. CSPWATCH names the program."""
import os
import shutil
import sys
import unittest

sys.path[:0] = [os.path.dirname(os.path.abspath(__file__))]

from test_watching_web import WithPage  # noqa: E402
from watching_folder import BOTH, IS_SERVICE, SECONDS, header, journal, needs, soon  # noqa: E402

WIDTHS = (400, 700, 1200, 2000)
BROWSER = unittest.skipUnless(shutil.which("chromium") and shutil.which("chromedriver"), "chromium isn't installed")
SERVICE = unittest.skipUnless(IS_SERVICE, "the program has no service")

CONTRAST = """
const channel = (value) => { value /= 255; return value <= 0.03928 ? value / 12.92 : ((value + 0.055) / 1.055) ** 2.4; };
const numbers = (color) => color.match(/[\\d.]+/g).map(Number);
const light = ([red, green, blue]) => 0.2126 * channel(red) + 0.7152 * channel(green) + 0.0722 * channel(blue);
function behind(element) {
  if (!element) return [255, 255, 255];
  const [red, green, blue, alpha = 1] = numbers(getComputedStyle(element).backgroundColor);
  const below = alpha < 1 ? behind(element.parentElement) : [0, 0, 0];
  return [red, green, blue].map((value, at) => value * alpha + below[at] * (1 - alpha));
}
const found = [];
for (const element of document.querySelectorAll("body *")) {
  const own = [...element.childNodes].some((node) => node.nodeType === 3 && node.data.trim());
  if (!own || !element.getClientRects().length || element.className === "skip") continue;
  const pair = [light(numbers(getComputedStyle(element).color)), light(behind(element))].sort((one, other) => other - one);
  const ratio = (pair[0] + 0.05) / (pair[1] + 0.05);
  if (ratio < 4.5) found.push(element.tagName + " " + element.textContent.slice(0, 20) + " " + ratio.toFixed(2));
}
return found;
"""
"""Finds text whose contrast is less than 4.5."""


@needs("aiohttp", "selenium")
@BROWSER
class Page(WithPage):
    @classmethod
    def setUpClass(cls):
        from selenium import webdriver
        from selenium.webdriver.chrome.service import Service

        options = webdriver.ChromeOptions()
        for word in ("--headless", "--no-sandbox", "--disable-gpu", "--disable-dev-shm-usage"):
            options.add_argument(word)
        options.binary_location = shutil.which("chromium")
        options.set_capability("goog:loggingPrefs", {"browser": "ALL"})
        cls.driver = webdriver.Chrome(service=Service(shutil.which("chromedriver")), options=options)
        cls.addClassCleanup(cls.driver.quit)
        cls.driver.set_page_load_timeout(SECONDS)

    def tearDown(self):
        complaints = [one["message"] for one in self.driver.get_log("browser") if "/events" not in one["message"]]
        self.driver.get("about:blank")
        self.assertEqual(complaints, [])

    def open(self, port):
        self.driver.get("http://127.0.0.1:%d/" % port)

    def text(self, selector):
        """The text of the first such element, with single blanks."""
        return self.driver.execute_script("const one = document.querySelector(arguments[0]); return one ? one.innerText.replace(/\\s+/g, ' ').trim() : null", selector)

    def reads(self, selector, wanted):
        """Waits until an element has this text in it."""
        soon(lambda: wanted in (self.text(selector) or ""), "%r in %s, where there is %r" % (wanted, selector, self.text(selector)))

    def press(self, key):
        from selenium.webdriver import ActionChains

        ActionChains(self.driver).send_keys(key).perform()

    def focus(self):
        return self.driver.execute_script("return document.activeElement.id || document.activeElement.className || document.activeElement.tagName")

    def test_what_it_shows(self):
        self.write("j", journal(BOTH + ["2 2 R- 1 2"]))
        _, port = self.start("j")
        self.reaches(port, "following", 5)
        self.open(port)
        self.reads("#word", "Closed")
        self.reads("#about", "No server has the journal open")
        self.reads("#next", "May come a Must be offered a")
        self.reads("#rejections", "Rejected reports 2")
        self.assertEqual(self.text("#rejections tbody tr:nth-child(1)"), "5 2 refused a b must offer a")
        self.assertEqual(self.text("#rejections tbody tr:nth-child(2)"), "2 1 a expected b")
        self.assertEqual(self.text("#newest tbody tr:nth-child(2)"), "4 1 b OK")
        self.assertIn("Never came c", self.text("#coverage"))
        self.assertTrue(self.text("#seats tbody tr").startswith("1 > "))
        self.assertEqual(self.driver.title, "Closed · 2 NO · j")

    def test_an_empty_journal_and_one_that_waits(self):
        _, port = self.start("j")
        self.open(port)
        self.reads("#word", "Waiting")
        self.write("j", journal([]))
        self.reads("#rejections", "None: all that was reported is allowed.")
        self.reads("#newest", "Nothing was reported yet.")
        self.write("j", journal(["1 7 E+ 1"]))
        self.reads("#word", "Refused")
        self.reads("#about", "j: 52 record 1")

    def test_odd_names_are_shown_and_not_obeyed(self):
        name = "<img src=x onerror=alert(1)>"
        script = "channel a', b\nP = a' -> b -> P\n"
        self.write(name, (header(script).replace("root P", "root P -- </script><script>alert(1)</script>") + "+1 1 E- 2\n.").encode())
        _, port = self.start(name)
        self.open(port)
        self.reads("#journal", name)
        self.assertEqual(self.driver.execute_script("return document.images.length + document.scripts.length"), 1)

    def test_widths_and_contrast(self):
        names = ["channel_with_a_long_name_%s.%d" % ("x" * 60, number) for number in range(60)]
        script = "channel channel_with_a_long_name_%s : {0..59}\nP = [] x : {0..59} @ channel_with_a_long_name_%s.x -> P\n" % ("x" * 60, "x" * 60)
        records = ["%d %d R- %s" % (seat, number, " ".join(map(str, range(1, 31)))) for number in (1, 2) for seat in range(1, 11)]
        self.write("j", journal(records + ["1 3 E+ 3"], script))
        self.write("log", b'{"what":"listening"}\n{"what":"not judged","code":11}\n')
        _, port = self.start("j", "--log", "log")
        self.reaches(port, "following", len(records) + 1)
        for scheme in ("light", "dark"):
            self.driver.execute_cdp_cmd("Emulation.setEmulatedMedia", {"features": [{"name": "prefers-color-scheme", "value": scheme}]})
            self.open(port)
            self.reads("#next", names[0])
            for width in WIDTHS:
                self.driver.execute_cdp_cmd("Emulation.setDeviceMetricsOverride", {"width": width, "height": 900, "deviceScaleFactor": 1, "mobile": False})
                wide = self.driver.execute_script("return document.documentElement.scrollWidth - document.documentElement.clientWidth")
                self.assertLessEqual(wide, 0, (scheme, width))
                top = self.driver.execute_script("return document.getElementById('word').getBoundingClientRect().bottom")
                self.assertLess(top, 200)
                self.assertEqual(self.driver.execute_script(CONTRAST), [], (scheme, width))
        self.driver.execute_cdp_cmd("Emulation.clearDeviceMetricsOverride", {})

    def test_by_keyboard(self):
        from selenium.webdriver.common.keys import Keys

        self.write("j", journal(BOTH))
        _, port = self.start("j")
        self.reaches(port, "following", 4)
        self.open(port)
        self.reads("#newest", "b OK")
        for key, section in (("n", "next"), ("r", "rejections"), ("e", "newest"), ("s", "seats"), ("c", "coverage")):
            self.press(key)
            self.assertEqual(self.focus(), section)
        self.open(port)
        self.reads("#newest", "b OK")
        self.press(Keys.TAB)
        self.assertEqual(self.focus(), "skip")
        self.press(Keys.ENTER)
        self.assertEqual(self.focus(), "rejections")
        reached = set()
        for _ in range(12):
            self.press(Keys.TAB)
            reached.add(self.focus())
        self.assertIn("hold", reached)

    @SERVICE
    def test_it_is_live_and_can_be_held(self):
        from cspwatch_client import Client

        service, address = self.serve()
        _, port = self.start("j")
        self.open(port)
        self.reads("#word", "Open")
        with Client(address, SECONDS, seat=7) as client:
            client.event("a")
            self.reads("#newest", "1 7 a OK")
            self.reads("#next", "May come b")
            self.reads("#seats tbody tr", "7 ")
            self.assertNotIn(">", self.text("#seats tbody tr"))
            self.press("h")
            self.reads("#hold", "Held: go on")
            client.event("a")
            self.reaches(port, "following", 2)
            # Longer than a message takes; what is held stays as it is.
            self.driver.execute_async_script("setTimeout(arguments[0], 1500)")
            self.assertEqual(self.text("#rejections h2"), "Rejected reports")
            self.press("h")
            self.reads("#rejections", "2 7 a expected b")
            self.assertEqual(self.driver.title, "Open · 1 NO · j")
        self.end(service)
        self.reads("#word", "Closed")

    def test_a_connection_that_is_lost(self):
        self.write("j", journal(BOTH))
        run, port = self.start("j")
        self.open(port)
        self.reads("#newest", "b OK")
        self.end(run)
        self.reads("#lost", "No connection to cspwatch-web")
        self.assertTrue(self.driver.title.startswith("Lost"))
        self.write("j", journal(BOTH + ["1 4 E+ 1"]))
        self.start("j", "--listen", "127.0.0.1:%d" % port)
        self.reads("#newest", "5 1 a OK")
        soon(lambda: self.driver.execute_script("return document.getElementById('lost').hidden"))
        # The browser itself says that the connection was refused.
        self.driver.get_log("browser")


if __name__ == "__main__":
    unittest.main()
