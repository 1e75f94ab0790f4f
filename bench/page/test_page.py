#!/usr/bin/env python3
"""Tests the page in headless Chromium.

    test_page.py [--if-installed] [unittest's words]

Requires Chromium, its driver and selenium (Debian: chromium, chromium-driver, python3-selenium). With --if-installed, the script
says so and succeeds if one of them is missing. The reports here are made up or copied from the documents: the program is not needed.
"""
import http.server
import json
import os
import re
import sys
import tempfile
import threading
import time
import unittest

import assemble
from browser import Browser, Keys

SIZE_LIMIT = 50_000  # bytes of page.css and page.js together
TIME_LIMIT = 10      # seconds of a processor in which the largest page is drawn, and used as a test does

SOURCE = b"""int sum_to(int n) {
  int half = 0;
  if (n < 2) {
    return n;
  }
  half = cilk_spawn sum_to(n - 1); // "one" < 'two' & more
  cilk_sync;
  return half + n;
}

int main(int n) {
  int r = 0;
  region whole { r = sum_to(n); }
  return r;
}
"""
ABOUT = b"name,value\nversion,0.1.0\narguments,9\nburden,15000\nedges,spawn\nvalue,-45\noutput_lines,1\n"
SCALE = b"""tag,work,span,parallelism,burdened_span,burdened_parallelism
,2597719,476401,5.452,656338,3.957
whole,2517690,396372,6.351,576309,4.368
"""
SITES = b"""site,kind,line,callee,calls,own_work,own_span,work,span
0,root,11,main,1,80030,80030,2597719,476401
1,spawn,6,sum_to,3999,2517670,396353,2121381,397296
2,call,13,sum_to,1,19,18,2517689,396371
"""
GAIN = b"""function,line,calls,own_work,own_span,span_if_free,parallelism_if_free,burdened_span_if_free
,0,0,2597719,476401,476401,5.452,656338
sum_to,1,4000,2517689,396371,80267,32.363,260267
main,11,1,80030,80030,396371,6.553,576308
"""
SPEEDUP = b"""processors,steps,speedup,speedup_bound,burdened_steps,burdened_speedup
1,2597719,1.000,1.000,2597719,1.000
2,1521012,1.707,2.000,1627028,1.596
4,1002000,2.592,4.000,1141683,2.275
8,729429,3.561,5.452,899010,2.889
64,480000,5.411,5.452,686671,3.783
"""
TEXTS = {"TITLE": b"sum.cilk 9", "HEADING": b"sum.cilk 9", "ABOUT": ABOUT, "SCALE": SCALE, "SPEEDUP": SPEEDUP, "GAIN": GAIN, "SITES": SITES,
         "OUTPUT": b"return -45\n", "SOURCE": SOURCE}
HACK = b"window.hacked=1"
PATIENCE = 60  # seconds until a page must have done what it was asked


def counts(most: int) -> list:
    """Returns the processors of the speedup report: the powers of two up to `most`, and `most`."""
    powers = [1 << i for i in range(most.bit_length()) if 1 << i <= most]
    return powers if powers[-1] == most else powers + [most]


def rows_of(csv: bytes) -> list:
    return [line.split(",") for line in csv.decode().splitlines()[1:]]


def shown(source: bytes) -> str:
    """Returns what a page shows of these bytes: what `escape` says, without its HTML."""
    return "".join(chr(b) if b in b"\t\n\r" or 32 <= b < 127 else chr(0x2400 + b) if b < 32 else "\u2421" if b == 127 else "\ufffd"
                   for b in source)


class Pages(unittest.TestCase):
    @classmethod
    def setUpClass(cls):
        cls.browser = Browser()
        cls.driver = cls.browser.driver
        cls.driver.execute_cdp_cmd("Performance.enable", {"timeDomain": "threadTicks"})
        cls.folder = tempfile.TemporaryDirectory()

    @classmethod
    def tearDownClass(cls):
        cls.browser.close()
        cls.folder.cleanup()

    def setUp(self):
        self.quiet = True
        self.driver.get_log("browser"), self.driver.get_log("performance")
        self.media()
        self.width(1280)

    def tearDown(self):
        if self.quiet:
            self.assertEqual(self.driver.get_log("browser"), [])
        requests = [json.loads(entry["message"])["message"] for entry in self.driver.get_log("performance")]
        urls = {message["params"]["request"]["url"].split("#")[0] for message in requests
                if message["method"] == "Network.requestWillBeSent"} - {"data:,"}
        self.assertLessEqual(urls, {self.url})

    def media(self, **features):
        self.browser.media(**features)

    def width(self, width):
        self.browser.width(width)

    def wait(self, condition):
        """Waits until a condition of the page holds."""
        end = time.monotonic() + PATIENCE
        while not self.js(condition):
            self.assertLess(time.monotonic(), end, condition)
            time.sleep(0.02)

    def drawn(self):
        """Waits until the plot is drawn for the width that it has."""
        self.wait("(() => { const plot = document.querySelector('[role=slider]'); return plot.firstChild?.viewBox.baseVal.width === "
                  "Math.max(plot.clientWidth, 260); })()")

    def write(self, name, data):
        path = os.path.join(self.folder.name, name)
        with open(path, "wb") as file:
            file.write(data)
        return path

    def open(self, data=None, fragment="", **texts):
        data = assemble.page({**TEXTS, **texts}) if data is None else data
        self.url = "file://" + self.write("page.html", data)
        self.driver.get("about:blank")
        self.driver.get(self.url + fragment)
        return data

    def seconds(self):
        """Returns the processor time of the page's main thread so far."""
        metrics = self.driver.execute_cdp_cmd("Performance.getMetrics", {})["metrics"]
        return next(metric["value"] for metric in metrics if metric["name"] == "ThreadTime")

    def since(self, start):
        """Returns the processor time since then, also where the page has got a process of its own."""
        now = self.seconds()
        return now - start if now >= start else now

    def js(self, script, *words):
        return self.driver.execute_script("return " + script, *words)

    def text(self, selector):
        return self.js("document.querySelector(arguments[0]).textContent", selector)

    def table(self, selector):
        """Returns the texts of a table's cells, without separators of thousands."""
        rows = self.js("[...document.querySelectorAll(arguments[0] + ' tbody tr')].map(tr => [...tr.cells].map(td => td.textContent))",
                       selector)
        return [[cell.replace(",", "") for cell in row] for row in rows]

    def compare_with(self, data, name="before.html"):
        self.js("document.getElementById('load-message').replaceChildren('waiting')")
        self.driver.find_element("css selector", "input[type=file]").send_keys(self.write(name, data))
        self.wait("document.getElementById('load-message').textContent !== 'waiting'")

    # What is shown

    def test_numbers_are_those_of_the_reports(self):
        self.open()
        self.assertEqual(self.table("#speedup"), rows_of(SPEEDUP))
        sites = sorted(self.table("#sites"))
        self.assertEqual([row[:6] + [row[7], row[9], row[10]] for row in sites], rows_of(SITES))
        self.assertEqual([[row[0], row[1], row[3], row[5], row[6], row[7]] for row in self.table("#regions")], rows_of(SCALE)[1:])
        functions = self.table("#functions")
        self.assertEqual([row[:4] + [row[5]] + row[8:] for row in functions], rows_of(GAIN)[1:])
        figures = self.js("[...document.querySelectorAll('.figure')].map(e => e.textContent)")
        self.assertEqual(figures, ["2,597,719", "476,401", "5.452", "3.957", "-45"])
        self.assertIn("5.452 times", self.text(".verdict"))
        self.assertEqual(self.text(".output"), "return -45")

    def test_shares_add_up(self):
        self.open()
        functions = self.table("#functions")
        self.assertEqual([row[4] for row in functions], ["96.9", "3.1"])
        self.assertEqual([row[6] for row in functions], ["83.2", "16.8"])

    def test_large_counts_keep_their_digits(self):
        large = str(2 ** 62 - 1).encode()  # no Number
        self.open(SCALE=SCALE.replace(b"2597719", large), SITES=SITES.replace(b"2517670", large))
        self.assertIn("4,611,686,018,427,387,903", self.js("[...document.querySelectorAll('.figure')].map(e => e.textContent)"))
        self.assertIn(large.decode(), [row[5] for row in self.table("#sites")])
        self.assertEqual(self.table("#functions")[0][3], str(2 ** 62 + 18))

    def test_source_is_annotated(self):
        self.open()
        line = lambda n: self.js("[...document.getElementById('L' + arguments[0]).cells].map(td => td.textContent)", n)
        self.assertEqual(line(6)[:6], ["3,999", "2,121,381", "397,296", "96.9", "83.2", "6"])
        self.assertEqual(line(1)[:6], ["4,000", "", "", "96.9", "83.2", "1"])
        self.assertEqual(line(2)[:6], ["", "", "", "", "", "2"])
        code = self.js("[...document.querySelectorAll('#source .code')].slice(1).map(td => td.textContent)")
        self.assertEqual(code, SOURCE.decode().splitlines())

    def test_verdict(self):
        for scale, sentence, advice in (
            ("1000,1000,1.000,1000,1.000", "Nothing runs in parallel", "Move each cilk_sync"),
            ("257707,22746,11.329,30022009,0.008", "slower on many processors than on one", "about 2,000 continuations. Many parallel parts"),
            ("2597719,22746,114.205,60007746,0.043", "slower on many processors than on one", "The spawns of line 6 follow one another"),
            ("2597719,26401,98.394,156338,16.616", "falls from 98.394 to 16.616", "about 9 continuations. Make the pieces larger"),
            ("2597719,476401,5.452,656338,3.957", "The span limits this run to 5.452 times", "Look at sum_to first"),
            ("100000000,1000000,100.000,1700000,58.823", "64 processors (100.000), but not with 15,000 instructions", "about 47 continuations"),
            ("100000000,1000000,100.000,1100000,90.909", "There is parallelism for 64 processors: 100.000.", "Look at sum_to first"),
            ("100000000,10000,10000.000,11000,9090.909", "to spare: 10,000.000, for 64", "sum_to has 2.5% of it"),
            ("100000000,10000,10000.000,100000,1000.000", "for each continuation on a path, 1,000.000 is left.", "reduce its work"),
        ):
            self.open(SCALE=SCALE.split(b"\n")[0] + b"\n," + scale.encode() + b"\n")
            self.assertIn(sentence, self.text(".verdict"))
            self.assertIn(advice, self.text(".advice"))

    def test_without_schedule(self):
        rows = [row[:1] + ["", ""] + row[3:] for row in rows_of(SPEEDUP)]
        csv = SPEEDUP.split(b"\n")[0] + b"\n" + "\n".join(map(",".join, rows)).encode() + b"\n"
        self.open(SPEEDUP=csv)
        self.assertEqual(self.table("#speedup"), rows)
        self.assertIn("too many strands", self.text("#speedup figcaption"))
        self.assertEqual(self.js("document.querySelectorAll('circle.greedy').length"), 0)

    # Text stays text

    def test_hostile_source(self):
        source = (b"\n\n// </pre></script><!-- <script>" + HACK + b"</script> <img src=x onerror=" + HACK + b"> &amp; &lt; \"'` {{SITES}} \xe2\x80\xa8\n"
                  b"// ]]> --> </title></style> " + bytes(b for b in range(256) if b != 10) + b"\n" + SOURCE)
        data = self.open(SOURCE=source)
        self.assertTrue(data.isascii())
        self.assertEqual(self.text("#data-source"), shown(source))
        self.assertEqual(self.js("document.querySelectorAll('#data-source *, img').length"), 0)
        code = self.js("[...document.querySelectorAll('#source .code')].slice(1).map(td => td.textContent)")
        self.assertEqual(code, shown(source)[:-1].split("\n"))
        self.assertIsNone(self.js("window.hacked ?? null"))

    def test_hostile_names(self):
        name = b"</title><script>" + HACK + b"</script>\"'&\xff\r.cilk 9"
        self.open(TITLE=name, HEADING=name, OUTPUT=b"</pre><script>" + HACK + b"</script><b>&</b>")
        self.assertEqual(self.text("h1"), shown(name))
        self.assertEqual(self.js("document.querySelectorAll('b').length"), 0)
        self.assertIsNone(self.js("window.hacked ?? null"))

    def test_other_scripts_do_not_run(self):
        self.quiet = False
        self.open(assemble.page(TEXTS).replace(b"<main", b"<script>" + HACK + b"</script><p onclick='" + HACK + b"'></p><main"))
        self.js("document.querySelector('[onclick]').click()")
        self.assertIsNone(self.js("window.hacked ?? null"))
        self.assertEqual(self.table("#speedup"), rows_of(SPEEDUP))

    def test_no_request_to_a_server(self):
        asked = []

        class Handler(http.server.BaseHTTPRequestHandler):
            def do_GET(self):
                asked.append(self.path)
                self.send_response(200)
                self.send_header("Content-Type", "text/html")
                self.end_headers()
                self.wfile.write(assemble.page(TEXTS))

            def log_message(self, *words):
                pass

        server = http.server.ThreadingHTTPServer(("127.0.0.1", 0), Handler)
        threading.Thread(target=server.serve_forever, daemon=True).start()
        self.url = "http://127.0.0.1:%d/page.html" % server.server_port
        self.driver.get(self.url)
        self.assertEqual(self.table("#speedup"), rows_of(SPEEDUP))
        time.sleep(0.5)
        server.shutdown()
        server.server_close()
        self.assertEqual(asked, ["/page.html"])

    # Use

    def test_comparison(self):
        self.quiet = False  # Chromium reports what it did not run
        self.open()
        before = {**TEXTS, "HEADING": b"old.cilk 9", "SCALE": SCALE.replace(b"476401,5.452", b"952802,2.726").replace(b"2517690,396372", b"2517700,396372") + b"old,7,7,1.000,7,1.000\n",
                  "SOURCE": SOURCE.replace(b"n < 2", b"n < 3").replace(b"  cilk_sync;\n", b"")}
        self.compare_with(assemble.page(before).replace(b"<main", b"<script>" + HACK + b"</script><img src=x onerror='" + HACK + b"'><main"))
        self.assertEqual(self.text("#comparison-heading"), "Compared with old.cilk 9")
        whole = {row[0]: row[1:] for row in self.table("#comparison")}
        self.assertEqual(whole["span"], ["952802", "476401", "\u221250.0%", "better"])
        self.assertEqual(whole["work"], ["2597719", "2597719", "same", ""])
        self.assertEqual(whole["whole: work"], ["2517700", "2517690", "less than 0.1%", "better"])
        self.assertEqual(whole["old: work"], ["7", "", "gone", ""])
        self.assertEqual(whole["steps on 8 processors"], ["729429", "729429", "same", ""])
        self.assertEqual(whole["sum_to: own span"], ["396371", "396371", "same", ""])
        changed = self.js("[...document.querySelectorAll('.difference .added, .difference .removed')].map(e => e.textContent)")
        self.assertEqual([line for line in changed], ["-   if (n < 3) {", "+   if (n < 2) {", "+   cilk_sync;"])
        self.assertIsNone(self.js("window.hacked ?? null"))
        self.assertEqual(self.js("document.activeElement.id"), "comparison-heading")
        self.driver.find_element("xpath", "//button[.='Remove the comparison']").click()
        self.assertEqual(self.js("document.querySelectorAll('#comparison').length"), 0)

    def test_comparison_warns(self):
        self.open()
        self.compare_with(assemble.page({**TEXTS, "ABOUT": ABOUT.replace(b"arguments,9", b"arguments,8").replace(b"-45", b"-36")}))
        self.assertIn("arguments (8 before, 9 now)", self.text("#comparison"))
        self.assertIn("value changed from -36 to -45", self.text("#comparison"))

    def test_comparison_refuses_other_files(self):
        self.open()
        for data in (b"", b"<p>not a page</p>", bytes(range(256)), assemble.page(TEXTS).replace(b'cilkwork-page="1"', b'cilkwork-page="2"')):
            self.compare_with(data)
            self.assertIn("before.html is not a page with reports", self.text("#load-message"))
        self.compare_with(assemble.page({**TEXTS, "SCALE": b""}))
        self.assertIn("before.html is not a page with reports", self.text("#load-message"))

    def test_drop(self):
        self.open()
        self.js("""(() => { const files = new DataTransfer();
            files.items.add(new File([arguments[0]], "old.html", { type: "text/html" }));
            dispatchEvent(new DragEvent("drop", { dataTransfer: files, cancelable: true })); })()""", assemble.page(TEXTS).decode())
        self.wait("document.getElementById('comparison')")
        self.assertEqual(self.text("#comparison-heading"), "Compared with sum.cilk 9")

    def test_keyboard(self):
        self.open()
        plot = self.driver.find_element("css selector", "[role=slider]")
        self.assertIn("8 processors", plot.get_attribute("aria-valuetext"))
        plot.send_keys(Keys.ARROW_LEFT)
        self.assertIn("4 processors", plot.get_attribute("aria-valuetext"))
        plot.send_keys(Keys.END)
        self.assertIn("64 processors", plot.get_attribute("aria-valuetext"))
        head = self.driver.find_element("xpath", "//section[@id='sites']//button[.='Callee']")
        head.send_keys(Keys.ENTER)
        self.assertEqual([row[3] for row in self.table("#sites")], ["main", "sum_to", "sum_to"])
        head.send_keys(Keys.ENTER)
        self.assertEqual([row[3] for row in self.table("#sites")], ["sum_to", "sum_to", "main"])
        self.assertEqual(self.js("document.querySelector('#sites th[aria-sort=descending]').textContent"), "Callee")

    def test_links_to_lines(self):
        self.open(fragment="#L13")
        self.assertEqual(self.js("document.querySelector('.here').id"), "L13")
        self.driver.find_element("xpath", "//section[@id='sites']//a[.='6']").click()
        self.assertEqual(self.js("document.activeElement.id"), "L6")

    def test_names_for_all_controls(self):
        self.open()
        bare = self.js("""[...document.querySelectorAll("button, a[href], input, [tabindex='0'], section, nav")].filter(e =>
            !(e.getAttribute("aria-label") || e.getAttribute("aria-labelledby") || e.textContent.trim() || e.labels?.length)).map(e => e.outerHTML)""")
        self.assertEqual(bare, [])
        ids = self.js("[...document.querySelectorAll('[id]')].map(e => e.id)")
        self.assertEqual(len(ids), len(set(ids)))

    def test_without_script(self):
        self.driver.execute_cdp_cmd("Emulation.setScriptExecutionDisabled", {"value": True})
        try:
            self.open()
            for name in ("about", "scale", "speedup", "gain", "sites", "output", "source"):
                element = self.driver.find_element("id", "data-" + name)
                self.assertTrue(element.is_displayed())
                self.assertEqual(element.text.split("\n")[0], TEXTS[name.upper()].decode().split("\n")[0])
        finally:
            self.driver.execute_cdp_cmd("Emulation.setScriptExecutionDisabled", {"value": False})

    # Limits

    def test_large_tables(self):
        count = 65_000
        sites = [b"%d,call,%d,f%d,%d,%d,%d,%d,%d\n" % (i, i % 50_000 + 1, i % 1000, i + 7, i * 37 % count, i % 10, i, i) for i in range(count)]
        source = b"".join(b"void f%d(int n) { } //%s\n" % (i, b"x" * 2) for i in range(50_000))[:1 << 20]
        regions = b"".join(b"t%d,1,1,1.000,1,1.000\n" % i for i in range(64))
        start = self.seconds()
        self.open(SITES=SITES.split(b"\n")[0] + b"\n" + b"".join(sites), SOURCE=source, SCALE=SCALE + regions, OUTPUT=b"12345\n" * 150_000)
        self.assertLess(self.since(start), TIME_LIMIT)
        self.assertEqual(len(self.table("#sites")), 1000)
        self.assertEqual(self.text("#sites caption"), "Call sites: rows 1 to 1,000 of 65,000")
        self.assertIn("lines 1 to 1,000", self.text("#source caption").lower())
        start = self.seconds()
        self.driver.find_element("xpath", "//section[@id='sites']//button[.='Own work']").click()
        self.assertEqual(self.table("#sites")[0][5], "64999")
        self.driver.find_element("xpath", "//section[@id='sites']//button[.='Next']").click()
        self.assertEqual(self.table("#sites")[0][5], "63999")
        self.js("showLine(30123)")
        self.assertEqual(self.js("document.activeElement.id"), "L30123")
        self.assertLess(self.since(start), TIME_LIMIT)

    def test_large_lines(self):
        for source in (b"//" + b"x" * ((1 << 20) - 2), b"\n" * (1 << 20), b"int main(){return 0;}" + b"{" * 1_000_000, b"; " * (1 << 19)):
            start = self.seconds()
            self.open(SOURCE=source)
            self.assertEqual(self.table("#speedup"), rows_of(SPEEDUP))
            self.assertLess(self.since(start), TIME_LIMIT)

    def test_large_comparison(self):
        lines = [b"// %d\n" % i for i in range(60_000)]
        self.open(SOURCE=b"".join(lines))
        start = self.seconds()
        self.compare_with(assemble.page({**TEXTS, "SOURCE": b"".join(reversed(lines))}))
        self.assertIn("too many to show", self.text("#comparison"))
        self.compare_with(assemble.page({**TEXTS, "SOURCE": b"".join(lines[:30_000] + lines[30_001:])}))
        self.assertEqual(self.js("[...document.querySelectorAll('.added')].map(e => e.textContent)"), ["+ // 30000"])
        self.assertLess(self.since(start), TIME_LIMIT)

    # Looks

    def test_no_sideways_scroll(self):
        for width in (360, 400, 800, 1280):
            self.width(width)
            self.open()
            self.compare_with(assemble.page(TEXTS))
            self.assertLessEqual(self.js("document.documentElement.scrollWidth"), width)
            self.drawn()
            outside = self.js("""[...document.querySelectorAll("svg text")].filter(e => { const box = e.getBoundingClientRect();
                return box.width > 0 && (box.right > innerWidth || box.left < 0); }).map(e => e.textContent)""")
            self.assertEqual(outside, [])

    def test_plot_labels_do_not_overlap(self):
        shapes = {"1.001": (1.001, 0.9), "3.000": (3, 2.999), "60.000": (40, 39), "1000.000": (63, 62), "987654.321": (9e5, 8e5)}
        for parallelism, (greedy, burdened) in shapes.items():
            most = 64 if greedy < 64 else 1_000_000
            rows = ["%d,1,%.3f,%.3f,1,%.3f" % (p, min(p, greedy), min(p, float(parallelism)), min(p, burdened)) for p in counts(most)]
            for width in (400, 1280):
                self.width(width)
                self.open(SPEEDUP=SPEEDUP.split(b"\n")[0] + b"\n" + "\n".join(rows).encode(), SCALE=SCALE.replace(b"5.452", parallelism.encode()))
                self.drawn()
                boxes = self.js("""[...document.querySelectorAll("#speedup svg text")].map(e => { const b = e.getBBox();
                    return [b.x, b.y + 2, b.x + b.width, b.y + b.height - 2, e.textContent]; })""")
                self.assertGreater(len(boxes), 10)
                over = [(a[4], b[4]) for i, a in enumerate(boxes) for b in boxes[:i]
                        if a[0] < b[2] and b[0] < a[2] and a[1] < b[3] and b[1] < a[3]]
                self.assertEqual(over, [], (parallelism, width))
                self.assertLessEqual(self.js("document.documentElement.scrollWidth"), width)

    def test_print(self):
        self.media(media="print")
        self.open()
        pdf = self.driver.execute_cdp_cmd("Page.printToPDF", {"preferCSSPageSize": True})
        self.assertGreater(len(pdf["data"]), 10_000)
        self.assertEqual(self.js("getComputedStyle(document.querySelector('nav')).display"), "none")
        self.assertNotEqual(self.js("getComputedStyle(document.querySelector('.source')).display"), "none")

    def test_contrast(self):
        def luminance(color):
            parts = [int(color[i:i + 2], 16) / 255 for i in (1, 3, 5)]
            r, g, b = (c / 12.92 if c <= 0.03928 else ((c + 0.055) / 1.055) ** 2.4 for c in parts)
            return 0.2126 * r + 0.7152 * g + 0.0722 * b
        css = assemble.read("page.css").decode()
        themes = [dict(re.findall(r"--([\w-]+): (#[0-9a-f]{6});", block)) for block in re.findall(r":root \{(.*?)\}", css, re.S)]
        self.assertEqual(len(themes), 2)
        pairs = [(ink, "paper") for ink in ("ink", "soft", "work", "span", "burden", "better", "worse")]
        pairs += [("ink", fill) for fill in ("wash", "work-fill", "span-fill", "burden-fill", "added", "removed")] + [("soft", "wash")]
        self.open()
        for theme in themes:
            for ink, ground in pairs:
                light, dark = sorted((luminance(theme[ink]), luminance(theme[ground])), reverse=True)
                self.assertGreaterEqual((light + 0.05) / (dark + 0.05), 4.5, (ink, ground))

    def test_dark(self):
        self.media(prefers_color_scheme="dark")
        self.open()
        self.assertEqual(self.js("getComputedStyle(document.body).backgroundColor"), "rgb(21, 24, 28)")

    def test_files(self):
        data = self.open()
        self.assertEqual(data, assemble.page(TEXTS))
        parts = [assemble.read(name) for name in ("page.css", "page.js")]
        self.assertTrue(all(part.isascii() for part in parts + [assemble.read("template.html")]))
        self.assertLess(sum(map(len, parts)), SIZE_LIMIT)
        self.assertNotIn(b"</", parts[0] + parts[1])
        self.assertNotIn(b"\r", b"".join(parts))
        holes = ["TITLE", "STYLE", "SCRIPT", "HEADING", "ABOUT", "SCALE", "SPEEDUP", "GAIN", "SITES", "OUTPUT", "SOURCE"]
        self.assertEqual([name for name in assemble.constants() if name.startswith("BEFORE_")], ["BEFORE_" + hole for hole in holes])
        self.assertNotRegex(parts[1], rb"innerHTML|outerHTML|insertAdjacentHTML|document\.write|eval\(|fetch\(|XMLHttpRequest|import\(")
        self.assertEqual(len(re.findall(rb"https?://", b"".join(parts))), 1)  # the name space of SVG
        self.assertNotIn(b"url(http", parts[0])
        with open(os.path.join(assemble.TOP, "docs", "LANGUAGE.md"), encoding="utf-8") as file:
            keywords = re.search(r"The keywords are\n\n(.*?)\n\n", file.read(), re.S)[1].split()
        highlighted = re.search(r"KEYWORD = /\^\((.*?)\)", parts[1].decode())[1].split("|")
        self.assertEqual(highlighted, [word for word in keywords if not word.startswith("cilk_")])


if __name__ == "__main__":
    if missing := Browser.missing():
        print("skipped the browser tests, because these are not installed: " + missing)
        sys.exit("--if-installed" not in sys.argv)
    unittest.main(argv=[word for word in sys.argv if word != "--if-installed"])
