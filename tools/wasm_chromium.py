"""Runs jobs of tools/wasm-test in headless Chromium: a page with js/isp.js and tools/wasm_page.js, from a server of this process."""
import functools
import http.server
import json
import os
import shutil
import sys
import threading

ROOT = os.path.dirname(os.path.dirname(os.path.realpath(__file__)))
PAGE = '<!doctype html><meta charset="utf-8"><title>isp</title><script type="module" src="wasm_page.js"></script>'
# so many jobs go to the page at once, and so many seconds it has for them
JOBS, SECONDS = 200, 300


class Quiet(http.server.SimpleHTTPRequestHandler):
    extensions_map = {**http.server.SimpleHTTPRequestHandler.extensions_map, ".wasm": "application/wasm", ".js": "text/javascript"}

    def log_message(self, *_):
        pass


def with_selenium():
    """Begins anew by Debian's Python where this one has no selenium."""
    try:
        import selenium  # noqa: F401
    except ImportError:
        if os.environ.get("ISP_PYTHON") or not os.path.exists("/usr/bin/python3"):
            sys.exit("tools/wasm-test: Python has no selenium: page/test --install installs it")
        os.execve("/usr/bin/python3", ["/usr/bin/python3", *sys.argv], {**os.environ, "ISP_PYTHON": "1"})


def browser():
    from selenium import webdriver
    from selenium.webdriver.chrome.service import Service

    options = webdriver.ChromeOptions()
    options.binary_location = shutil.which("chromium")
    # (256 calls of a function with many locals need more than the megabyte that a page has)
    for it in ("--headless=new", "--no-sandbox", "--disable-dev-shm-usage", "--js-flags=--stack-size=6000"):
        options.add_argument(it)
    found = webdriver.Chrome(service=Service(shutil.which("chromedriver")), options=options)
    found.set_script_timeout(SECONDS)
    return found


def ran(jobs, folder):
    """Returns a line for each job, of which the modules lie in the folder."""
    for it in ("js/isp.js", "tools/wasm_page.js"):
        shutil.copy(f"{ROOT}/{it}", folder)
    with open(f"{folder}/index.html", "w", encoding="utf-8") as file:
        file.write(PAGE)
    told = [{**json.loads(it), "wasm": os.path.basename(json.loads(it)["wasm"])} for it in jobs]
    lines = []
    with http.server.ThreadingHTTPServer(("127.0.0.1", 0), functools.partial(Quiet, directory=folder)) as server:
        threading.Thread(target=server.serve_forever, daemon=True).start()
        page = browser()
        try:
            page.get(f"http://127.0.0.1:{server.server_port}/index.html")
            for at in range(0, len(told), JOBS):
                lines += page.execute_async_script("ran(arguments[0]).then(arguments[1]);", told[at:at + JOBS])
        finally:
            page.quit()
            server.shutdown()
    return lines
