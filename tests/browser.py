"""A real browser for the scripts beside this one: Chromium of the distribution, without a window, steered by selenium.

    if why := lacks(): ..                                   why there is none, or an empty text
    with browser("evil.test", "roster") as visitor:         these names mean 127.0.0.1 for it
        visitor.get("http://evil.test:8000/")
        asked(visitor, "fetch('/x').then(it => it.text())") what a promise comes to in the page, or its fault
    console(visitor)                                        what came on the console
"""

import importlib.util
import shutil
import sys
from contextlib import contextmanager

PATIENCE = 20  # seconds for a page, and for a script in it

# Where Debian's packages stand, which a Python that isn't Debian's doesn't look into.
sys.path.append("/usr/lib/python3/dist-packages")


def lacks():
    """Why no browser can be started, or an empty text."""
    for program in ("chromium", "chromedriver"):
        if not shutil.which(program):
            return f"no {program} is on the PATH"
    return "" if importlib.util.find_spec("selenium") else "Python has no selenium"


@contextmanager
def browser(*names):
    """A browser with a new profile, for which these names mean 127.0.0.1."""
    from selenium import webdriver
    from selenium.webdriver.chrome.service import Service

    options = webdriver.ChromeOptions()
    options.binary_location = shutil.which("chromium")
    rules = ", ".join(f"MAP {name} 127.0.0.1" for name in names)
    for word in ("--headless=new", "--no-sandbox", "--disable-dev-shm-usage", f"--host-resolver-rules={rules}"):
        options.add_argument(word)
    options.set_capability("goog:loggingPrefs", {"browser": "ALL"})
    visitor = webdriver.Chrome(options=options, service=Service(shutil.which("chromedriver")))
    try:
        visitor.set_page_load_timeout(PATIENCE)
        visitor.set_script_timeout(PATIENCE)
        yield visitor
    finally:
        visitor.quit()


def console(visitor):
    """What came on the console of its pages since this was asked last."""
    return [it["message"] for it in visitor.get_log("browser")]


def asked(visitor, promise):
    """What a promise comes to in the page that is shown, or the name of its fault."""
    return visitor.execute_async_script(f"const done = arguments[0]; (async () => {promise})().then(done, fault => done(fault.name))")
