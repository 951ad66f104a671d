"""Counts what passes, asks for what a test needs, and opens pages in a real browser."""

import os
import pathlib
import shutil
import subprocess
import sys

TOP = pathlib.Path(__file__).resolve().parent.parent.parent
LETTERS = "ABCDEFGHJKLMNOPQRSTUVWXYZ"
counts = {"passed": 0, "failed": 0}


def expect(what, came, wanted=True):
    if came == wanted:
        counts["passed"] += 1
    else:
        counts["failed"] += 1
        print(f"FAILED: {what}\n  wanted: {wanted!r:.500}\n  came:   {came!r:.500}", flush=True)


def end():
    """The last line, and the status."""
    print(f"{counts['passed']} passed, {counts['failed']} failed")
    sys.exit(1 if counts["failed"] else 0)


def install(script, commands, modules):
    """Installs what is missing, where that may be done; else says it, and the tests end. Both are names with their packages."""
    missing = [package for command, package in commands.items() if not shutil.which(command)]
    for module, package in modules.items():
        try:
            __import__(module)
        except ImportError:
            missing.append(package)
    if missing and os.geteuid() == 0:
        quiet = {"stdout": subprocess.DEVNULL, "stderr": subprocess.DEVNULL}
        subprocess.run(["apt-get", "update"], **quiet)
        command = ["apt-get", "install", "-y", "--no-install-recommends", "fonts-dejavu-core", *missing]
        if subprocess.run(command, env={**os.environ, "DEBIAN_FRONTEND": "noninteractive"}, **quiet).returncode == 0:
            missing = []
    if missing:
        print(f"{script}: these packages are missing, and nothing was tried: {' '.join(missing)}", file=sys.stderr)
        sys.exit(4)


def program(script, name):
    """The whole path of a program: that of the environment, of the PATH, or one that was built here."""
    built = TOP / f"crates/{name}/out/{name}"
    found = shutil.which(os.environ.get(name.upper()) or shutil.which(name) or built)
    if not found:
        print(f"{script}: there is no {name}; {name.upper()} names one\n0 passed, 1 failed")
        sys.exit(1)
    return os.path.abspath(found)


def new_browser():
    from selenium import webdriver
    from selenium.webdriver.chrome.service import Service

    options = webdriver.ChromeOptions()
    options.binary_location = shutil.which("chromium")
    for word in ("--headless=new", "--no-sandbox", "--disable-gpu", "--disable-dev-shm-usage", "--hide-scrollbars"):
        options.add_argument(word)
    return webdriver.Chrome(options=options, service=Service(shutil.which("chromedriver")))


def set_size(browser, width, height, dark=False, touch=False):
    """The size of the page, its colours, and whether a finger is what points."""
    shape = {"width": width, "height": height, "deviceScaleFactor": 1, "mobile": touch}
    browser.execute_cdp_cmd("Emulation.setDeviceMetricsOverride", shape)
    browser.execute_cdp_cmd("Emulation.setTouchEmulationEnabled", {"enabled": touch})
    scheme = {"name": "prefers-color-scheme", "value": "dark" if dark else "light"}
    still = {"name": "prefers-reduced-motion", "value": "reduce"}
    browser.execute_cdp_cmd("Emulation.setEmulatedMedia", {"features": [scheme, still]})
