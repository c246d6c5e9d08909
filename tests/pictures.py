#!/usr/bin/env python3
"""Makes the pictures of the documents anew, by a headless Chromium: pictures.py PROGRAM

docs/images/six-commands.png is the page that the six commands of README.md write, docs/images/three-nodes.png that of
examples/repaired-node.txt at step 9.
"""
import base64
import os
import subprocess
import sys
import tempfile

# No file is left behind.
sys.dont_write_bytecode = True
sys.path.append(os.path.join(os.path.dirname(os.path.abspath(__file__)), "companions"))
from browser import Browser  # noqa: E402
from six_commands import PICTURE, made, screenshot  # noqa: E402
from support import TOP  # noqa: E402


def repaired_node(program, folder, browser):
    """The picture of the rehearsal on the front page."""
    path = os.path.join(folder, "repaired-node.html")
    companion, example = os.path.join(TOP, "companions", "page"), os.path.join(TOP, "examples", "repaired-node.txt")
    subprocess.run([companion, "--rehearse", program, "-o", path, example], check=True)
    browser.open(path, "#step=9")
    browser.call("Emulation.setDeviceMetricsOverride", width=1280, height=505, deviceScaleFactor=1, mobile=False)
    return base64.b64decode(browser.call("Page.captureScreenshot", format="png")["data"])


def main():
    if len(sys.argv) != 2:
        sys.exit(__doc__)
    program = os.path.abspath(sys.argv[1])
    with tempfile.TemporaryDirectory(ignore_cleanup_errors=True) as folder:
        made(program, folder)
        browser = Browser(folder)
        try:
            pictures = {PICTURE: screenshot(folder, browser),
                        os.path.join(TOP, "docs", "images", "three-nodes.png"): repaired_node(program, folder, browser)}
        finally:
            browser.close()
    for path, picture in pictures.items():
        with open(path, "wb") as file:
            file.write(picture)


main()
