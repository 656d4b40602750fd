"""Looks at charts that look_at_charts.sh has drawn: makes pictures of them in a headless browser, drives the scrubber of
each page, holds what it shows to what lockrun prints, and checks traces. Each check is a function of its own, which
raises a Complaint where something isn't as it ought to be.

    look_at_charts.py BROWSER LOCKRUN FOLDER NAME..

FOLDER has NAME.script, NAME.svg, NAME.html and NAME.json, and gets the pictures."""
import json
import subprocess
import sys
import xml.etree.ElementTree as xml

from browser import Browser

LEFT, RIGHT, HOME, END, PAGE_UP, PAGE_DOWN = 37, 39, 36, 35, 33, 34

# the most that a browser makes a picture of, and the rows that are gone through one by one
WIDEST = 8000
ROWS = 60


class Complaint(Exception):
    """What isn't as it ought to be."""


def want(holds, what):
    if not holds:
        raise Complaint(what)


# ---- traces

def check_trace(path):
    """Slices of a track nest or are disjoint, and each arrow has one start and one end, each in a slice."""
    with open(path) as file:
        events = json.load(file)["traceEvents"]
    tracks = {}
    for e in events:
        if e["ph"] == "X":
            tracks.setdefault((e["pid"], e["tid"]), []).append((e["ts"], e["ts"] + e["dur"]))
    for track, slices in tracks.items():
        check_nesting(path, track, slices)
    starts = flows(path, events, "s", tracks)
    ends = flows(path, events, "f", tracks)
    want(starts.keys() == ends.keys(), f"{path}: arrows without a start or an end: {starts.keys() ^ ends.keys()}")
    for name, at in starts.items():
        want(at <= ends[name], f"{path}: arrow {name} ends before it starts")
    return sum(len(s) for s in tracks.values()), len(starts)


def check_nesting(path, track, slices):
    opened = []
    for begin, end in sorted(slices, key=lambda s: (s[0], -s[1])):
        while opened and opened[-1] <= begin:
            opened.pop()
        want(not opened or end <= opened[-1], f"{path}: slices overlap on track {track} at {begin}")
        opened.append(end)


def flows(path, events, kind, tracks):
    found = {}
    for e in events:
        if e["ph"] == kind:
            name = (e.get("cat"), e["id"])
            want(name not in found, f"{path}: two of {kind} for arrow {name}")
            slices = tracks.get((e["pid"], e["tid"]), [])
            want(any(b <= e["ts"] <= f for b, f in slices), f"{path}: arrow {name} touches no slice at {e['ts']}")
            found[name] = e["ts"]
    return found


# ---- pictures

def look_at_picture(browser, path):
    """A picture in light and in dark; words that lie on each other."""
    root = xml.parse(path).getroot()
    width, height = min(int(root.get("width")), WIDEST), min(int(root.get("height")), WIDEST)
    for dark, name in ((False, "light"), (True, "dark")):
        browser.open(path, width, height, dark)
        browser.shoot(f"{path}.{name}.png")
    want(not browser.messages, f"{path}: {browser.messages}")
    want(all(a.startswith("file:") for a in browser.asked), f"{path} asks for {browser.asked}")
    beyond = browser.value("""(() => {
      const svg = document.documentElement, w = +svg.getAttribute('width'), h = +svg.getAttribute('height');
      return [...document.querySelectorAll('text')].filter(t => { const b = t.getBoundingClientRect();
        return b.left < 0 || b.top < 0 || b.right > w || b.bottom > h; }).map(t => t.textContent); })()""")
    want(not beyond, f"{path}: words beyond the edge: {beyond}")
    return browser.value("""(() => {
      const boxes = [...document.querySelectorAll('text')].map(t => [t.textContent, t.getBoundingClientRect()]);
      const found = [];
      if (boxes.length > 1000) return found;
      boxes.forEach(([a, r], i) => boxes.slice(i + 1).forEach(([b, s]) => {
        const across = Math.min(r.right, s.right) - Math.max(r.left, s.left);
        const down = Math.min(r.bottom, s.bottom) - Math.max(r.top, s.top);
        if (across > 1 && down > 4) found.push(a + ' / ' + b); }));
      return found; })()""")


# ---- pages

def row_of(browser):
    return int(browser.value("document.getElementById('row').value"))


def cells_of(browser, table, rows="tr:not(.gone)"):
    """The rows of a table of the page, without its head; those that the last turn took away are no part of it."""
    return browser.value(f"[...document.querySelectorAll('#{table} {rows}')].filter(r => r.querySelector('td'))"
                         ".map(r => [...r.cells].map(c => c.textContent))")


def printed_at(lockrun, script, row):
    """What lockrun prints of the state behind so many turns: queues, priorities and tables; and its last word."""
    with open(script) as file:
        text = subprocess.run([lockrun, "step", "--turns", str(row)], stdin=file, capture_output=True, text=True).stdout
    lines = [line.split(" ") for line in text.splitlines()]
    queues = [[w[1], w[3], w[5], w[7], w[9], w[11]] for w in lines if w[0] == "queue"]
    threads = [[w[1], w[3], w[5]] for w in lines if w[0] == "thread"]
    tables = [w[1:] for w in lines if w[0] == "table"]
    return queues, threads, tables, lines[-1][0]


def check_row(browser, lockrun, script, row):
    """The page shows in a row what lockrun prints behind so many turns; a queue that the last turn emptied is struck
    out; and the cursor is in view."""
    queues, threads, tables, _ = printed_at(lockrun, script, row)
    shown = [[cell.replace(", ", ",") for cell in cells] for cells in cells_of(browser, "queues")]
    want(sorted(shown) == sorted(queues), f"{script}, row {row}: queues {shown}, printed {queues}")
    shown = [cells[:3] for cells in cells_of(browser, "threads")]
    want(shown == threads, f"{script}, row {row}: threads {shown}, printed {threads}")
    shown = cells_of(browser, "tables")
    want(sorted(shown) == sorted(tables), f"{script}, row {row}: tables {shown}, printed {tables}")
    # lockrun makes at least one turn
    if row > 1:
        emptied = {q[0] for q in printed_at(lockrun, script, row - 1)[0]} - {q[0] for q in queues}
        shown = {cells[0] for cells in cells_of(browser, "queues", "tr.gone")}
        want(shown == emptied, f"{script}, row {row}: queues {shown} are struck out, and {emptied} were emptied")
    want(browser.value("""(() => { const c = document.getElementById('cursor').getBoundingClientRect(),
      b = document.getElementById('picture').getBoundingClientRect();
      return c.left >= b.left && c.right <= b.left + document.getElementById('picture').clientWidth; })()"""),
         f"{script}, row {row}: the cursor is out of view")


def check_end(browser, lockrun, script, row):
    """Where a run came to its end in order, all its threads are done in its last row."""
    states = [cells[3] for cells in cells_of(browser, "threads")]
    if printed_at(lockrun, script, row)[3] == "ok":
        want(all(state == "done" for state in states), f"{script}: at the end its threads are {states}")


def check_width(browser, path, width):
    """In a window so wide the whole width of a picture is seen, unless it had to be made smaller than to 60 percent."""
    browser.open(path, width, 1000)
    room, drawn, own = browser.value("(() => { const b = document.getElementById('picture'), s = b.querySelector('svg');"
                                     " return [b.clientWidth, s.clientWidth, +s.getAttribute('width')]; })()")
    want(drawn <= room or room < own * 0.6, f"{path}: of {drawn} pixels a window shows {room}")
    want(own * 0.59 < drawn <= own, f"{path}: {own} pixels are drawn as {drawn}")


def drive_page(browser, lockrun, script, path):
    """The scrubber, by keys and by clicks; and each row is what lockrun prints. Of a long run, the first rows, and then
    some."""
    browser.open(path, 1400, 1000)
    last = int(browser.value("document.getElementById('row').max"))
    want(row_of(browser) == 0, f"{path} doesn't begin at row 0")
    drive_keys(browser, path, last)
    choose_turn(browser, path, min(last, 1))
    browser.press("Home", HOME)
    for row in range(1, min(last, ROWS) + 1):
        browser.press("ArrowRight", RIGHT)
        want(row_of(browser) == row, f"{path}: the right arrow leads to row {row_of(browser)}, not {row}")
        check_row(browser, lockrun, script, row)
    for row in range(ROWS, last, max(1, last // 20)):
        slide(browser, row)
        check_row(browser, lockrun, script, row)
    slide(browser, last)
    if last > 0:
        check_row(browser, lockrun, script, last)
        check_end(browser, lockrun, script, last)
    browser.shoot(f"{path}.last.png")
    drive_controls(browser, path, last)
    for width in (2200, 1200, 700):
        check_width(browser, path, width)
    check_narrow(browser, path)
    check_paper(browser, path)
    middle = last // 2
    browser.open(path, 1400, 1000, fragment=f"#row={middle}")
    want(row_of(browser) == middle, f"{path}: the fragment leads to row {row_of(browser)}, not {middle}")
    browser.shoot(f"{path}.middle.png")
    browser.open(path, 1400, 1000, dark=True, fragment=f"#row={middle}")
    browser.shoot(f"{path}.dark.png")
    want(not browser.messages, f"{path}: {browser.messages}")
    want(all(a.startswith(("file:", "about:", "data:")) for a in browser.asked), f"{path} asks for {browser.asked}")
    return last


def drive_keys(browser, path, last):
    """Keys, where nothing has the focus; and the address keeps the row."""
    for key, code, row in (("End", END, last), ("PageUp", PAGE_UP, max(last - 10, 0)), ("Home", HOME, 0),
                           ("PageDown", PAGE_DOWN, min(10, last))):
        browser.press(key, code)
        want(row_of(browser) == row, f"{path}: {key} leads to row {row_of(browser)}, not {row}")
    wait(browser, 400)
    address = browser.value("location.hash")
    want(address == f"#row={row}", f"{path}: at row {row} the address ends in {address}")
    browser.press("Home", HOME)


def choose_turn(browser, path, row):
    """A click in the picture's column of a turn."""
    if row == 0:
        return
    x, y = browser.value(f"""(() => {{ const svg = document.querySelector('#picture svg');
      const r = svg.getBoundingClientRect(), by = r.width / svg.getAttribute('width');
      return [r.left + (+svg.dataset.left + ({row} - 0.5) * svg.dataset.column) * by, r.top + 30 * by]; }})()""")
    browser.click(x, y)
    want(row_of(browser) == row, f"{path}: a click on turn {row - 1} leads to row {row_of(browser)}")


def check_narrow(browser, path):
    """In a narrow window the page doesn't scroll sideways, and the names stay in view while the picture does."""
    browser.open(path, 400, 800)
    width = browser.value("document.documentElement.scrollWidth")
    want(width <= 400, f"{path}: in 400 pixels the page is {width} wide")
    away = browser.value("""(() => { const box = document.getElementById('picture'); box.scrollLeft = 150;
      return document.getElementById('names').getBoundingClientRect().left - box.getBoundingClientRect().left; })()""")
    want(abs(away) < 2, f"{path}: the names are {away} pixels away from the edge")
    browser.shoot(f"{path}.narrow.png")


def check_paper(browser, path):
    """On paper there are enough sheets for the whole picture."""
    browser.open(path, 1200, 1000, dark=True)
    wide = browser.value("+document.querySelector('#picture svg').getAttribute('width')")
    sheets = browser.print_to(f"{path}.pdf")
    want(sheets * 960 >= wide, f"{path}: {sheets} sheets for a picture of {wide} pixels")


def slide(browser, row):
    browser.value(f"row.value = {row}; row.dispatchEvent(new Event('input')); 0")


def drive_controls(browser, path, last):
    """Keys and clicks from the last row, and from the first one."""
    def at(row, what):
        row = min(max(row, 0), last)
        want(row_of(browser) == row, f"{path}: {what} leads to row {row_of(browser)}, not {row}")

    browser.press("ArrowRight", RIGHT)
    at(last, "the right arrow at the end")
    browser.press("ArrowLeft", LEFT)
    at(last - 1, "the left arrow")
    browser.click_on("#back")
    at(last - 2, "a click on back")
    browser.click_on("#on")
    at(max(last - 2, 0) + 1, "a click on on")
    browser.click_on("#row", 0.999)
    want(row_of(browser) * 100 >= last * 99, f"{path}: a click on the right end of the slider leads to {row_of(browser)}")
    browser.press("End", END)
    at(last, "End on the slider")
    browser.press("ArrowLeft", LEFT)
    at(last - 1, "the left arrow on the slider")
    browser.press("Home", HOME)
    at(0, "Home on the slider")
    browser.press("ArrowLeft", LEFT)
    at(0, "the left arrow at the begin")
    if last > 4:
        play(browser, path)


def play(browser, path):
    """The button that plays goes on by itself until it is clicked again."""
    at = row_of(browser)
    browser.click_on("#play")
    wait(browser, 1600)
    browser.click_on("#play")
    stopped = row_of(browser)
    want(stopped > at, f"{path}: a click on play leads nowhere")
    wait(browser, 900)
    want(row_of(browser) == stopped, f"{path}: a second click on play doesn't stop it")


def wait(browser, milliseconds):
    browser.call("Runtime.evaluate", awaitPromise=True,
                 expression=f"new Promise(done => setTimeout(done, {milliseconds}))")


def main(words):
    program, lockrun, folder, names = words[0], words[1], words[2], words[3:]
    browser = Browser(program)
    complaints = 0
    try:
        for name in names:
            at = f"{folder}/{name}"
            try:
                slices, arrows = check_trace(f"{at}.json")
                overlaps = look_at_picture(browser, f"{at}.svg")
                rows = drive_page(browser, lockrun, f"{at}.script", f"{at}.html")
                print(f"{name}: {rows} turns, {slices} slices and {arrows} arrows of the trace: fine")
                for pair in overlaps:
                    print(f"    words that lie on each other: {pair}")
            except Complaint as complaint:
                complaints += 1
                print(f"{name}: {complaint}")
    finally:
        browser.close()
    print(f"{len(names)} charts, {complaints} with a complaint; pictures in {folder}")
    return 1 if complaints else 0


if __name__ == "__main__":
    sys.exit(main(sys.argv[1:]))
