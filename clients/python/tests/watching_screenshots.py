#!/usr/bin/env python3
"""Screenshots of the page of `cspwatch-web`, in light and dark and three widths, to be looked at.

    watching_screenshots.py URL FOLDER [--name NAME] [--browser PROGRAM] [--widths 400 1200 2000] [--height 1000]

Each has the whole page. It ends with status 1 where the browser complained.
"""
import argparse
import base64
import pathlib
import sys

from picture_screenshots import Browser


def main():
    parser = argparse.ArgumentParser(description=__doc__.split("\n")[0])
    parser.add_argument("url")
    parser.add_argument("folder", type=pathlib.Path)
    parser.add_argument("--name", default="page")
    parser.add_argument("--browser", default="chromium")
    parser.add_argument("--widths", type=int, nargs="+", default=[400, 1200, 2000])
    parser.add_argument("--height", type=int, default=1000)
    options = parser.parse_args()
    options.folder.mkdir(parents=True, exist_ok=True)
    browser = Browser(options.browser)
    for scheme in ("light", "dark"):
        browser.call("Emulation.setEmulatedMedia", features=[{"name": "prefers-color-scheme", "value": scheme}])
        for width in options.widths:
            browser.call("Emulation.setDeviceMetricsOverride", width=width, height=options.height, deviceScaleFactor=1, mobile=False)
            browser.open(options.url)
            browser.do("1")
            taken = browser.call("Page.captureScreenshot", captureBeyondViewport=True)
            path = options.folder / ("%s-%s-%d.png" % (options.name, scheme, width))
            path.write_bytes(base64.b64decode(taken["data"]))
            print(path)
    browser.end()
    for complaint in browser.complaints:
        print("the browser: " + complaint)
    return 1 if browser.complaints else 0


if __name__ == "__main__":
    sys.exit(main())
