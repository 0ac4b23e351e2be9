#!/usr/bin/env python3
"""Screenshots of the picture of a journal, in light and dark, to be looked at.

    picture_screenshots.py PAGE.html FOLDER [--browser PROGRAM] [--width 1200] [--height 900]

For each colour scheme it takes the top of the page, what is seen after three clicks on "Next rejected", the place in the middle, the rejected
entries only, and the coverage. It talks to a headless Chromium (Debian's package `chromium`) over a pipe, and needs nothing else. It prints what
the browser complained of, and ends with status 1 if there was anything.
"""
import argparse
import base64
import fcntl
import json
import os
import pathlib
import subprocess
import sys

STEPS = [
    ("top", "scrollTo(0, 0)"),
    ("next", "for (let turn = 0; turn < 3; turn++) document.getElementById('next').click()"),
    ("middle", "(() => { const groups = document.querySelectorAll('#entries ol'), rows = document.querySelectorAll('#entries li');"
               " const middle = groups.length > 1 ? groups[groups.length >> 1].dataset.first : rows[rows.length >> 1].id.slice(1);"
               " document.getElementById('place').value = middle; document.querySelector('#to button').click(); })()"),
    ("only", "scrollTo(0, 0); document.getElementById('only')?.click()"),
    ("coverage", "document.querySelector('a[href=\"#coverage\"]')?.click()"),
]


class Browser:
    """A headless Chromium at the other end of a pipe."""

    def __init__(self, program):
        to_read, self.to = os.pipe()
        self.come, from_write = os.pipe()

        def hand_over():
            # The browser reads from 3 and writes to 4, which may be ends of these pipes themselves.
            ends = [fcntl.fcntl(end, fcntl.F_DUPFD, 10) for end in (to_read, from_write)]
            os.dup2(ends[0], 3)
            os.dup2(ends[1], 4)

        words = [program, "--headless", "--no-sandbox", "--disable-gpu", "--hide-scrollbars", "--remote-debugging-pipe"]
        self.process = subprocess.Popen(words, preexec_fn=hand_over, close_fds=False, stderr=subprocess.DEVNULL)
        os.close(to_read)
        os.close(from_write)
        self.rest, self.number, self.session, self.complaints = b"", 0, None, []
        target = self.call("Target.createTarget", url="about:blank")["targetId"]
        self.session = self.call("Target.attachToTarget", targetId=target, flatten=True)["sessionId"]
        for domain in ("Page", "Runtime", "Log"):
            self.call(domain + ".enable")

    def next(self):
        while b"\0" not in self.rest:
            more = os.read(self.come, 1 << 20)
            if not more:
                raise EOFError("the browser has ended")
            self.rest += more
        text, _, self.rest = self.rest.partition(b"\0")
        message = json.loads(text)
        if message.get("method") == "Runtime.exceptionThrown":
            self.complaints.append(message["params"]["exceptionDetails"]["text"])
        if message.get("method") == "Log.entryAdded":
            self.complaints.append(message["params"]["entry"]["text"])
        return message

    def call(self, method, **parameters):
        self.number += 1
        message = {"id": self.number, "method": method, "params": parameters}
        if self.session:
            message["sessionId"] = self.session
        os.write(self.to, json.dumps(message).encode() + b"\0")
        while True:
            answer = self.next()
            if answer.get("id") == self.number:
                if "error" in answer:
                    raise RuntimeError("%s: %s" % (method, answer["error"]))
                return answer["result"]

    def open(self, url):
        self.call("Page.navigate", url=url)
        while self.next().get("method") != "Page.loadEventFired":
            pass

    def do(self, script):
        # The page may scroll again in its next frames.
        done = self.call("Runtime.evaluate", expression=script + "; new Promise((done) => setTimeout(done, 700))", awaitPromise=True)
        if "exceptionDetails" in done:
            self.complaints.append(done["exceptionDetails"]["exception"]["description"])

    def picture(self, path):
        path.write_bytes(base64.b64decode(self.call("Page.captureScreenshot")["data"]))
        print(path)

    def end(self):
        self.session = None
        self.call("Browser.close")
        self.process.wait(20)


def main():
    parser = argparse.ArgumentParser(description=__doc__.split("\n")[0])
    parser.add_argument("page", type=pathlib.Path)
    parser.add_argument("folder", type=pathlib.Path)
    parser.add_argument("--browser", default="chromium")
    parser.add_argument("--width", type=int, default=1200)
    parser.add_argument("--height", type=int, default=900)
    options = parser.parse_args()
    options.folder.mkdir(parents=True, exist_ok=True)
    browser = Browser(options.browser)
    browser.call("Emulation.setDeviceMetricsOverride", width=options.width, height=options.height, deviceScaleFactor=1, mobile=False)
    for scheme in ("light", "dark"):
        browser.call("Emulation.setEmulatedMedia", features=[{"name": "prefers-color-scheme", "value": scheme}])
        browser.open(options.page.resolve().as_uri())
        for name, script in STEPS:
            browser.do(script)
            browser.picture(options.folder / ("%s-%s-%s.png" % (options.page.stem, scheme, name)))
    browser.end()
    for complaint in browser.complaints:
        print("the browser: " + complaint)
    return 1 if browser.complaints else 0


if __name__ == "__main__":
    sys.exit(main())
