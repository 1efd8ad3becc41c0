"""Opens the pages that .ci/view has made in a headless browser, driven over its debugging pipe, and compares what they show with what the program writes.

    python3 browser.py BROWSER
"""

import gzip
import os
import re
import subprocess
import sys
import time

from chromium import Browser

FRAME, BEGIN, END = 3668, 1092, 2912
PICTURE = len(b"P4\n64 128\n") + 1024
SECONDS = 3

# What the page shows: the line and its number, that of the source, the fields that are marked, the frame, and the dots, as they are drawn and as text.
SHOWN = r"""(() => {
  const line = document.querySelector('[aria-selected=true]'), dots = document.getElementById('picture').getContext('2d').getImageData(0, 0, 64, 128).data;
  document.getElementById('text').open = true;
  document.getElementById('text').dispatchEvent(new Event('toggle'));
  const source = line.querySelector('.source')?.textContent ?? '', marked = document.querySelector('#source [aria-current]');
  const changedIn = tables => Array.from(document.querySelectorAll(tables), cell => [cell.title, cell.textContent]);
  return {
    line: Array.from(line.childNodes, node => node.className === 'source' ? '' : node.textContent).join(''), source, number: +line.dataset.line,
    frame: +document.getElementById('frame').value, marked: marked && [+marked.dataset.source, marked.textContent],
    changed: changedIn('#line-table .changed, #variables-table .changed'), stored: changedIn('#memory-table .changed'),
    dots: Array.from({ length: 8192 }, (_, dot) => dots[4 * dot] ? '#' : '.').join('').match(/.{64}/g), text: document.getElementById('as-text').textContent,
    words: document.querySelector('#line-table td[title="in words"]')?.textContent, said: document.getElementById('said').textContent,
    keys: Array.from(document.querySelectorAll('#keypad .down'), key => key.textContent).sort().join(''),
    isWhole: !document.getElementById('picture').className, frameIs: document.getElementById('frame-is').textContent,
    plotIs: document.getElementById('plot-is').textContent, end: document.querySelector('#lines .end')?.textContent,
  };
})()"""

bad = []


def check(what, is_right):
    if not is_right:
        bad.append(what)
        print(f"view: {what}")


def run_of(*words):
    return subprocess.run(["./vip", *words], capture_output=True, check=False).stdout


def lines_of(name):
    with open(name, encoding="ascii") as file:
        return file.read().splitlines()


def listed(line):
    """A line as the page lists it, without that of the source: the words behind the opcode."""
    found = re.fullmatch(r"(.{4} .{4})( V .*?)(?:  ; (.*?))?(?:  \| .*)?", line)
    if found:
        return found[1] + (found[3] or "") + found[2]
    found = re.fullmatch(r"(.{10} [0-9A-F]{4} [0-9A-F ]{6}) (.{11})( P .*?)(?:  \| .*)?", line)
    return found[1] + found[2].strip() + found[3] if found else line


class Listing:
    """What `vip list` says: the texts of the lines, and which line gave the byte at an address."""

    def __init__(self, *words):
        self.texts, self.bytes, self.names = [], {}, {}
        for line in run_of("list", *words).decode().splitlines():
            if re.match(" {6}[0-9A-F]{4} ", line):
                address, digits = int(line[6:10], 16), line[11:]
            elif re.match(r" *\d+ ", line):
                _, value, rest = line.lstrip().split(" ", 2) if line.lstrip().split(" ", 2)[1][0] != "V" else (0, "0", "      ")
                address, digits = int(value, 16), re.match("[0-9A-F]*", rest)[0] if rest[:1] != " " else ""
                self.texts.append(line[max(5, len(line) - len(line.lstrip()) + len(line.lstrip().split(" ")[0])) + 13:])
            else:
                self.names.update([line.split()] if line else [])
                continue
            for at in range(0, len(digits), 2):
                self.bytes[address + at // 2] = (len(self.texts), digits[at:at + 2])

    def source_of(self, address, digits):
        """The number of the line and its text, where the bytes are those of the source."""
        given = [self.bytes.get(address + at // 2, (0, ""))[1] == digits[at:at + 2] for at in range(0, len(digits), 2)]
        number = self.bytes[address][0] if all(given) else 0
        return number and f"{number}: {self.texts[number - 1].strip()}" or ""


def fields_of_game(line):
    values = line.split()
    fields = {f"V{at:X}": values[3 + at] for at in range(16)}
    behind = re.search(r" S((?: [0-9A-F]{4})*) N (....) AT", line)
    fields |= dict(zip(("I", "DT", "ST", "tone"), (values[at] for at in (20, 22, 24, 26))))
    return fields | {"stack": behind[1].strip() or "empty", "ticks": behind[2]}


def fields_of_program(line):
    words = line[35:].split()
    fields = dict(zip(words[0:10:2], words[1:10:2])) | {"R(X)": words[11], "byte there": words[12]}
    if len(words) > 13:
        fields[words[13]] = words[14]
    if len(words) > 15:
        fields[f"byte at {words[13]}"] = words[15]
    return fields


def changed_between(before, here):
    return sorted([name, value] for name, value in here.items() if name in before and before[name] != value)


def keys_down(script, cycle):
    down = set()
    for line in lines_of(script):
        words = line.split("#")[0].split()
        if words and int(words[0]) <= cycle:
            (down.add if words[1] == "down" else down.discard)(words[2])
    return "".join(sorted(down))


def rows_of(picture):
    return ["".join(f"{byte:08b}" for byte in picture[10 + 8 * row:18 + 8 * row]).replace("0", ".").replace("1", "#") for row in range(128)]


def look_at_game(browser):
    """Three places of a game: by the page's address, by a cycle that is typed, and by keys. The screen is that of `trace --screen` up to the line."""
    lines, words = lines_of("pen.trace"), ("examples/pen.ch8", "--keys", "examples/pen.keys")
    cycles = [int(re.search(r" AT (\d+)", line)[1]) for line in lines]

    def compare(place, number):
        shown, before, here = browser.ask(SHOWN), lines[max(0, number - 1)], lines[number]
        screen = run_of("trace", words[0], str(cycles[number]), *words[1:], "--screen").decode().splitlines()[-32:]
        check(f"pen, {place}: the line is {shown['line']} and not {here}", shown["line"] == listed(here) and shown["number"] == number)
        check(f"pen, {place}: marked are {shown['changed']}", sorted(shown["changed"]) == changed_between(fields_of_game(before), fields_of_game(here)))
        check(f"pen, {place}: the screen", shown["dots"] == [row for row in screen for _ in range(4)] and shown["text"].split() == screen)
        frame, points = shown["frame"], [(cycle + FRAME - END) // FRAME for cycle in cycles].count(shown["frame"])
        check(f"pen, {place}: {shown['frameIs']}", shown["frameIs"].endswith(f" {frame}: cycle {frame * FRAME + BEGIN:,} to {frame * FRAME + END:,}"))
        check(f"pen, {place}: {shown['plotIs']}", f" {points} here" in shown["plotIs"])
        check(f"pen, {place}: in words it is {shown['words']}", shown["words"] == here.split("  ; ")[1])
        check(f"pen, {place}: the keys are {shown['keys']}", shown["keys"] == keys_down("examples/pen.keys", cycles[number]))

    first = next(at for at, line in enumerate(lines) if line[5] == "D")
    browser.open("pen.html", f"#line={first + 2}")
    compare("the line behind the first sprite", first + 1)
    browser.write_in("cycle", "600000")
    compare("cycle 600000", max(at for at, cycle in enumerate(cycles) if cycle <= 600000))
    browser.ask("document.getElementById('lines').focus()")
    at = browser.ask(SHOWN)["number"]
    browser.press("ArrowDown", 7)
    compare("seven lines on", at + 7)
    browser.press("ArrowRight", 2)
    shown = browser.ask(SHOWN)
    compare("two frames on", max(at for at, cycle in enumerate(cycles) if cycle <= FRAME * shown["frame"] + BEGIN))
    check("pen: the report isn't shown", lines_of("pen.report")[0] in browser.ask("document.getElementById('ending').textContent"))
    same = next(at for at in range(shown["number"] + 1, len(lines)) if lines[at][:4] == shown["line"][:4])
    browser.ask("document.getElementById('same-on').click()")
    compare("the next line with this pc", same)
    browser.press("End")
    shown = browser.ask(SHOWN)
    check(f"pen: at its end stands {shown['end']}", shown["number"] == len(lines) - 1 and shown["end"] == lines_of("pen.report")[0])


def play_film(browser):
    """The film is played at 60 frames a second, from Space to Space. (A busy machine shows some of them late.)"""
    browser.open("pen.html")
    browser.press(" ")
    moved, due = browser.ask("""new Promise(resolve => {
      const from = performance.now(), first = place.frame;
      setTimeout(() => resolve([place.frame - first, (performance.now() - from) * 60 / 1000]), 2000);
    })""")
    browser.press(" ")
    frame = browser.ask("place.frame")
    time.sleep(0.2)
    check(f"of the film {moved} frames are played where {due:.0f} are due", abs(moved - due) < 0.3 * due)
    check("the film goes on behind a pause", browser.ask("place.frame") == frame)


def look_at_program(browser):
    """Three places of a program. The picture of frame m is the last one that `play` writes up to its end."""
    # (a label is no line of its own)
    lines, listing = [line for line in lines_of("keypad.trace") if not line.endswith(":")], Listing("examples/keypad.asm")

    def compare(place, number, frame):
        shown = browser.ask(SHOWN)
        before = next((line for line in reversed(lines[:number]) if line[35:36] == "P"), None)
        is_instruction = lines[number][35:36] == "P"
        changed = changed_between(fields_of_program(before), fields_of_program(lines[number])) if before and is_instruction else []
        until = run_of("play", "keypad.bin", str(FRAME * frame + END), "--ram", "--keys", "examples/keypad.keys")
        check(f"keypad, {place}: the line is {shown['line']} and not {lines[number]}", shown["line"] == listed(lines[number]) and shown["number"] == number)
        steps = sum(line[35:36] == "P" and (int(line[:10]) + FRAME - END) // FRAME == frame for line in lines)
        check(f"keypad, {place}: {shown['plotIs']}", f"Instructions a frame: {steps:,} here" in shown["plotIs"])
        source = listing.source_of(int(lines[number][11:15], 16), lines[number][16:22].strip()) if is_instruction else ""
        check(f"keypad, {place}: the source is {shown['source']} and not {source}", shown["source"] == source)
        check(f"keypad, {place}: marked is {shown['marked']}", (shown["marked"] or [0])[0] == int(source.split(":")[0] or 0))
        check(f"keypad, {place}: marked are {shown['changed']} and not {changed}", sorted(shown["changed"]) == changed)
        check(f"keypad, {place}: the picture", shown["frame"] == frame and shown["isWhole"] and shown["dots"] == rows_of(until[-PICTURE:]))

    cycles = [int(line[:10]) for line in lines]
    browser.open("keypad.html", "#frame=3")
    compare("frame 3", max(at for at, cycle in enumerate(cycles) if cycle <= 3 * FRAME + BEGIN), 3)
    browser.write_in("cycle", "30000")
    compare("cycle 30000", max(at for at, cycle in enumerate(cycles) if cycle <= 30000), 8)
    here = browser.ask(SHOWN)["number"]
    there = next(at for at in range(here + 1, len(lines)) if "OUT 2" in lines[at])
    browser.write_in("pc", lines[there][11:15].lstrip("0").lower())
    compare("the next OUT 2, by its address", there, (cycles[there] + FRAME - END) // FRAME)


def look_at_source(browser):
    """A game's source: a name as a place, a click on a line of the source, names of variables, and a place that is none."""
    lines, listing = lines_of("source.trace"), Listing("examples/pen.asm", "--chip8")
    label, address = next((name, value) for name, value in listing.names.items() if any(line.startswith(value) for line in lines[9:]))
    first = next(at for at, line in enumerate(lines) if line.startswith(address))
    browser.open("source.html", f"#pc={label}")
    shown = browser.ask(SHOWN)
    source = listing.source_of(int(address, 16), lines[first][5:9])
    check(f"the first line of {label} is {shown['line']}", shown["number"] == first and shown["source"] == source)
    check(f"the source's marked line is {shown['marked']} and not {source}", shown["marked"][0] == int(source.split(":")[0]))
    numbers = [listing.source_of(int(line[:4], 16), line[5:9]).split(":")[0] for line in lines]
    number = next(number for number in numbers[first + 1:] if number and number != source.split(":")[0])
    browser.ask(f"document.querySelector('#source [data-source=\"{number}\"]').click()")
    shown = browser.ask(SHOWN)
    check(f"a click on line {number} of the source goes to {shown['line']}", shown["number"] == numbers.index(number, first + 1))
    browser.write_in("pc", "no_such_name")
    time.sleep(0.6)
    said = browser.ask("document.getElementById('said').textContent")
    check(f"a name that is none: the page says: {said}", "is no name of the source" in said)
    names = {value: name for name, value in listing.names.items() if value[0] == "V"}
    heads = browser.ask("Array.from(document.querySelectorAll('#variables-table th[scope=col]'), cell => cell.textContent)")
    check(f"the variables are {heads}", heads == [f"V{at:X}" + (f" {names[f'V{at:X}']}" if f"V{at:X}" in names else "") for at in range(16)])


def look_at_registers(browser):
    """A program without a display has its registers where the picture would be, and the bytes that its source names."""
    browser.open("sum.html")
    shown = browser.ask("""[document.getElementById('picture').hidden, !!document.querySelector('#left #variables-table:not([hidden])'),
      document.querySelector('.display:not([hidden])') === null]""")
    check(f"a program without a display shows {shown}", shown == [True, True, True])
    at = next(at for at, line in enumerate(line for line in lines_of("sum.trace") if not line.endswith(":")) if " STR R7 " in line)
    browser.open("sum.html", f"#line={at + 2}")
    stored = browser.ask(SHOWN)["stored"]
    check(f"behind the store the memory shows {stored}", stored == [["total", "0C"]])


def look_at_changed(browser):
    """A program that stores over its first instruction: the line of the source is shown the first time, and not for the changed byte."""
    browser.open("over.html", "#pc=start")
    shown = browser.ask(SHOWN)
    check(f"an instruction of the source has {shown['source']}", shown["source"] == "1: start: LDI 0" and shown["marked"][0] == 1)
    browser.ask("document.getElementById('same-on').click()")
    shown = browser.ask(SHOWN)
    check(f"a changed one, {shown['line']}, has {shown['source']}", "INC RA" in shown["line"] and not shown["source"] and not shown["marked"])


def fit_narrow(browser):
    """In a window of 420 points nothing is cut off, and nothing has to be moved sideways."""
    browser.call("Emulation.setDeviceMetricsOverride", width=420, height=800, deviceScaleFactor=1, mobile=False)
    for name in ("pen.html", "source.html", "keypad.html", "sum.html"):
        browser.open(name, "#line=40")
        wide = browser.ask("""Array.from(document.querySelectorAll('html, .tables, ol, li, section, form, .row'))
          .filter(part => part.scrollWidth > part.clientWidth + 1 && part.clientWidth > 0).map(part => part.id || part.tagName + part.className)""")
        check(f"{name} is cut off in a window of 420 points at {wide}", not wide)
    browser.call("Emulation.clearDeviceMetricsOverride")


def bytes_of(name):
    with open(name, "rb") as file:
        return file.read()


def look_at_state(browser):
    """A run from a saved state begins in the frame of its first picture, also if the page is given the files alone."""
    first, film = (int.from_bytes(bytes_of("pen.state")[6:14], "big") + FRAME - END) // FRAME, bytes_of("state.pbm")
    for how in ("a page", "files"):
        browser.open("state.html" if how == "a page" else "view.html")
        if how == "files":
            browser.give(["state.trace", "state.pbm"], "!document.getElementById('viewer').hidden")
        browser.ask("document.getElementById('first-frame').click()")
        shown, least = browser.ask(SHOWN), int(browser.ask("document.getElementById('frame').min"))
        check(f"{how} of a state: the frames begin at {least} and not at {first}", least == first and shown["frame"] == first)
        check(f"{how} of a state: the first picture", shown["isWhole"] and shown["dots"] == rows_of(film[:PICTURE]))


def refuse_files(browser):
    """The page without data takes the files of a run, and refuses others in words, as it does what is left of a page that was cut off."""
    text, film = lines_of("pen.trace"), bytes_of("pen.pbm")
    made = {
        "column.trace": "\n".join(text[:99] + [text[99].replace(" I ", " J ")] + text[100:]) + "\n",
        "cut.trace": "\n".join(text)[:-3],
        "order.trace": "\n".join([text[5], *text]) + "\n",
        "mixed.trace": "\n".join(text[:9] + lines_of("keypad.trace")) + "\n",
        "label.trace": "\n".join(lines_of("keypad.trace")[:9] + ["loop:"]) + "\n",
        "digits.trace": text[0].replace(" AT ", " AT 1000000000") + "\n",
        "return.trace": "\r\n".join(text) + "\r\n",
        "ended.trace": "\n".join(text + lines_of("pen.report")) + "\n",
        "notes.txt": "to do\n",
        "fault.keys": "100 down 5\n100 down G\n",
    }
    for name, content in made.items():
        with open(name, "w", encoding="ascii", newline="") as file:
            file.write(content)
    page, packed = bytes_of("pen.html"), gzip.compress(film)[:-9]
    for name, content in {
        "cut.pbm": film[:-1], "short.pbm": film[:PICTURE], "long.pbm": film + film[:2 * PICTURE], "film.gz": packed, "cut.html": page[:-len(page) // 5],
    }.items():
        with open(name, "wb") as file:
            file.write(content)
    browser.open("cut.html")
    check("what is left of a page is shown", "This page is cut off" in browser.ask("document.getElementById('fault').textContent"))
    browser.open("view.html")
    for names, words in (
        (["column.trace"], "its line 100 is"), (["cut.trace"], f"its line {len(text):,} is cut off"), (["order.trace"], "line 2 has an earlier cycle"),
        (["mixed.trace"], "its line 10 is"), (["label.trace"], "its last line is a label"), (["digits.trace"], "its line 1 is"), (["return.trace"], "\\x0D”"),
        (["notes.txt"], "is no trace, film or key script"), (["fault.keys"], "its line 2 is"), (["cut.pbm"], "cut off"), (["film.gz"], "can’t unpack it"),
        (["pen.trace", "short.pbm"], "The film isn’t of this run"), (["keypad.trace", "pen.pbm"], "The film isn’t of this run"),
        (["ended.trace", "long.pbm"], "The film isn’t of this run"), (["pen.trace", "keypad.trace"], "two files of one kind"),
    ):
        browser.give(names, "document.getElementById('fault').textContent")
        said = browser.ask("document.getElementById('fault').textContent")
        check(f"{' and '.join(names)}: the page says: {said}", words in said)
        check(f"{' and '.join(names)} is shown all the same", browser.ask("document.getElementById('viewer').hidden"))
    browser.give(["pen.trace", "pen.pbm", "examples/pen.keys"], "!document.getElementById('viewer').hidden")
    check("the files of a run aren't shown", browser.ask(SHOWN)["line"] == listed(text[0]) and not browser.ask("document.getElementById('fault').textContent"))


def refuse_numbers(browser):
    """A frame that is none is refused in words, and so is a place; a key script alone says what is missing; and a narrow page isn't wider than its window."""
    browser.open("view.html")
    browser.give(["examples/pen.keys"], "document.getElementById('ending').textContent")
    said = browser.ask("document.getElementById('ending').textContent")
    check(f"a key script alone: the page says: {said}", "are still missing" in said and browser.ask("document.getElementById('viewer').hidden"))
    browser.give(["pen.pbm"], "!document.getElementById('viewer').hidden")
    check("a film behind a key script isn't shown", browser.ask("document.getElementById('ending').textContent").count("·") == 1)
    for number, least in (("-5", 0), ("0.5", 0), ("1e9", 0), ("", 0), ("2000000", 0), ("7", 7)):
        browser.ask(f"document.getElementById('first').value = '{number}', document.getElementById('first').dispatchEvent(new Event('change'))")
        is_refused, begin = bool(browser.ask("document.getElementById('fault').textContent")), int(browser.ask("document.getElementById('frame').min"))
        check(f"the first picture of frame '{number}' begins at {begin}", begin == least and is_refused == (number != "7"))
    browser.call("Emulation.setDeviceMetricsOverride", width=320, height=640, deviceScaleFactor=1, mobile=False)
    for name in ("view.html", "pen.html"):
        browser.open(name)
        width = browser.ask("document.documentElement.scrollWidth")
        check(f"{name} is {width} points wide in a window of 320", width <= 320)
    browser.call("Emulation.clearDeviceMetricsOverride")
    browser.open("pen.html", "#pc=hitbat")
    time.sleep(0.6)
    said = browser.ask("document.getElementById('said').textContent")
    check(f"a place that is none: the page says: {said}", "hitbat" in said and "is no name" in said)


def open_long(browser):
    """Counts the processor time of the page's thread, so that what else the machine does has no part in it; the clock's is said too. A machine that shares its
    processors with others may count more: so it is opened up to three times."""
    browser.call("Performance.enable", timeDomain="threadTicks")

    def spent():
        return next(metric["value"] for metric in browser.call("Performance.getMetrics")["metrics"] if metric["name"] == "TaskDuration")

    for _ in range(3):
        before = spent()
        clock = browser.open("long.html", "#line=900000")
        # (a page of its own process begins to count anew)
        seconds = spent() - (before if spent() >= before else 0)
        if seconds <= SECONDS:
            break
    moves = browser.ask("(() => { const from = performance.now(); for (let at = 0; at < 50; at++) goLine(20000 * at); return performance.now() - from; })()")
    count, size = browser.ask("run.trace.count"), os.path.getsize("long.html") / 1e6
    print(f"view: {count:,} lines, {size:.1f} MB: usable after {clock:.2f} s, {seconds:.2f} s of them the page's own; a move {moves / 50:.1f} ms")
    check(f"a page of {count:,} lines takes {seconds:.2f} s to open", count >= 1000000 and seconds <= SECONDS)


def have_names(browser):
    """Whatever can be pressed or written in has a name for a reader of the screen, and a page loads nothing but itself."""
    browser.loaded.clear()
    browser.open("pen.html")
    for node in browser.call("Accessibility.getFullAXTree")["nodes"]:
        role = node.get("role", {}).get("value")
        if not node.get("ignored") and role in ("button", "slider", "textbox", "combobox", "listbox", "image", "link", "spinbutton"):
            check(f"a {role} has no name", node.get("name", {}).get("value"))
    others = [url for url in browser.loaded if not url.startswith(("about:", "data:")) and not url.endswith("/pen.html")]
    check(f"the page loads {others}", not others)


def main():
    for looks in ((look_at_game, play_film, look_at_program, look_at_source, look_at_registers, look_at_changed, fit_narrow, look_at_state, refuse_files,
                   refuse_numbers, have_names), (open_long,)):
        browser = Browser(sys.argv[1])
        try:
            for look in looks:
                look(browser)
            check(f"the page has faults: {browser.faults}", not browser.faults)
        finally:
            browser.end()
    return 1 if bad else 0


sys.exit(main())
