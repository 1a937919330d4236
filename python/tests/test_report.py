"""`report`: the page, opened in Chromium, whose numbers are read out and compared with the files of the plays, and its picture."""

import csv
import os
import shutil
import subprocess

import pytest
from conftest import classic, data, example, udp

from altqplay.workbench import browser
from altqplay.workbench.faults import Missing
from altqplay.workbench.rows import read_stats

MOST_BYTES = 2_000_000
LONG_WANTS = ["--want", "voice delay<=1.234567ms", "--want", "rest delay<100ms", "--want", "rest drop=0", "--want", "bulk rate>=1000000000.5"]


@pytest.fixture(scope="module")
def browse():
    """Opens a page, so wide and in light or dark, and answers the driver of Chromium."""
    try:
        chromium = browser.chromium()
    except Missing as fault:
        pytest.skip(str(fault))
    pytest.importorskip("selenium")
    if shutil.which("chromedriver") is None:
        pytest.skip("chromedriver is not installed")
    from selenium import webdriver
    from selenium.webdriver.chrome.options import Options
    from selenium.webdriver.chrome.service import Service

    options = Options()
    options.binary_location = chromium
    for word in ("--headless", "--no-sandbox", "--disable-gpu"):
        options.add_argument(word)
    driver = webdriver.Chrome(options=options, service=Service(shutil.which("chromedriver")))

    def opened(page, width=1200, scheme="light"):
        driver.execute_cdp_cmd("Emulation.setDeviceMetricsOverride", {"width": width, "height": 900, "deviceScaleFactor": 1, "mobile": width < 500})
        driver.execute_cdp_cmd("Emulation.setEmulatedMedia", {"features": [{"name": "prefers-color-scheme", "value": scheme}]})
        driver.get(f"file://{page}")
        return driver
    yield opened
    driver.quit()


@pytest.fixture
def office(altqwork, program, tmp_path):
    """The report of the office of docs/operators/EXAMPLE.md; answers the folder of its files and the words it was made by."""
    subprocess.run(["python3", example("office.py")], check=True, stdout=subprocess.DEVNULL)
    with open(example("office.conf"), encoding="ascii") as file:
        (tmp_path / "new.conf").write_text(file.read().replace("sc 1M 0 1M", "sc 2.5M 0 2.5M"))
    words = ["report", "--before", example("office.conf"), "--after", tmp_path / "new.conf", "--keep", tmp_path / "kept", example("out/office.pcap")]
    said = f"620 packets in {tmp_path / 'page.html'}; 29.0 % of the packets are in the default class, rest\n"
    assert altqwork(*words, tmp_path / "page.html") == (0, said, "")
    return tmp_path, words


def table(driver, name):
    """The rows of a table of the page: (what it is of, the play), then its numbers, times in nanoseconds; None for a dash."""
    rows = driver.execute_script(
        "return Array.from(document.querySelectorAll(`#${arguments[0]} tr[data-of]`)).map(row => "
        "[row.dataset.of, row.dataset.play, ...Array.from(row.cells).slice(2).map(cell => cell.title.replace(' ns', '') || cell.textContent)])", name)
    return {(row[0], row[1]): [None if text == "-" else int(text.replace(",", "")) for text in row[2:]] for row in rows}


def delays(name, of):
    """The delays of a class in a file of fates, in rising order."""
    with open(name, newline="", encoding="ascii") as file:
        return sorted(int(row["end"]) - int(row["arrival"]) for row in csv.DictReader(file) if row["class"] == of and row["end"])


def test_numbers_are_those_of_the_files(browse, office):
    folder, _words = office
    driver = browse(folder / "page.html")
    shown = table(driver, "classes")
    assert set(shown) == {(name, label) for name in ("voice", "bulk", "rest", "all") for label in ("before", "after")}
    for label in ("before", "after"):
        stats = read_stats(folder / "kept" / label / "stats.csv")
        for name in ("voice", "bulk", "rest", "all"):
            counts = stats["*" if name == "all" else name]
            assert shown[name, label][:5] == [counts[word] for word in ("arrived", "sent", "full", "early", "forced")]
        for name in ("voice", "bulk", "rest"):
            ranked = delays(folder / "kept" / label / "fates.csv", name)
            count = len(ranked)
            assert shown[name, label][5:9] == [ranked[0], ranked[(count + 1) // 2 - 1], ranked[(99 * count + 99) // 100 - 1], ranked[-1]]
    # docs/operators/OPERATING.md reckons the due moments of `voice`: 3,416,000 is the greatest delay, of a packet due 1,712,000 after it came
    assert shown["voice", "before"][9] == 200 and shown["voice", "before"][11:] == [0, 3_416_000 - 1_712_000]
    assert shown["rest", "after"][9:] == [0, None, None, None]


def test_flows_are_told(browse, office):
    driver = browse(office[0] / "page.html")
    shown = table(driver, "flows")
    assert shown["udp 10.0.0.1:40000 > 10.0.0.2:8730", "before"][:2] == [240, 77]
    assert shown["udp 10.0.0.1:40000 > 10.0.0.2:8730", "after"][:2] == [240, 71]


def test_what_changed_is_bold_and_nothing_else(browse, office):
    driver = browse(office[0] / "page.html")
    rows = driver.execute_script(
        "return Array.from(document.querySelectorAll('#classes tr[data-of]')).map(row => [row.dataset.play, "
        "...Array.from(row.cells).slice(2).map(cell => [cell.textContent, cell.querySelector('b') !== null])])")
    assert len(rows) == 8
    for before, after in zip(rows[::2], rows[1::2]):
        assert (before[0], after[0]) == ("before", "after") and not any(bold for _text, bold in before[1:])
        assert [bold for _text, bold in after[1:]] == [was[0] != now[0] for was, now in zip(before[1:], after[1:])]


def lines(driver):
    """The lines of the classes on top of the page: what they say, by class."""
    found = driver.execute_script("return Array.from(document.querySelectorAll('.classes li')).map(line => "
                                  "[line.dataset.of, ...['.slowest', '.word', '.dropped', '.wants'].map(part => line.querySelector(part).textContent)])")
    return {line[0]: line[1:] for line in found}


def test_a_line_a_class(browse, office):
    """Delays and drops of docs/operators/EXAMPLE.md: 3,416,000 ns in both; 53,428,000 and 115,380,000; 202,796,000 and 202,620,000, 77 and 71 drops."""
    driver = browse(office[0] / "page.html")
    assert lines(driver) == {"voice": ["slowest 3.4 ms", "same", "0 dropped", ""], "rest": ["slowest 53.4 → 115.4 ms", "worse", "0 dropped", ""],
                             "bulk": ["slowest 202.8 → 202.6 ms", "better", "77 → 71 dropped", ""]}
    colours = [driver.execute_script("return getComputedStyle(document.querySelector(`li[data-of=${arguments[0]}] .word`)).color", name)
               for name in ("voice", "rest", "bulk")]
    assert len(set(colours)) == 3


def test_wants_and_vanished_due_moments(browse, altqwork, office):
    """`voice` without its real-time curve takes up to 13,704,000 ns (docs/operators/EXAMPLE.md), and the page, the command and its status say so."""
    folder, _words = office
    with open(example("office.conf"), encoding="ascii") as file:
        (folder / "lost.conf").write_text(file.read().replace("[rt 1M 10 200K] ", ""))
    page = folder / "lost.html"
    status, said, _fault = altqwork("report", "--before", example("office.conf"), "--after", folder / "lost.conf", "--want", "voice delay<10ms",
                                    "--want", "rest drop=0", "--arrivals", example("out/office.pcap"), page)
    assert status == 1 and "voice: 200 packets have no due moment any more" in said.splitlines()
    assert "  before  kept: 200 packets, the slowest 3.416 ms" in said.splitlines() and "packets, the slowest 13.704 ms" in said
    shown = lines(browse(page))
    assert shown["voice"][:3] == ["slowest 3.4 → 13.7 ms", "worse", "0 dropped"]
    assert "200 packets have no due moment any more" in shown["voice"][3] and "delay<10ms: kept → broken" in shown["voice"][3]
    assert shown["rest"][3].startswith("drop=0: kept, 0 of 180 packets dropped")
    assert browse(page).execute_script("return document.querySelector('figure[data-of=voice] span.asked').textContent") == "want < 10 ms"


def test_status_is_1_where_a_packet_is_late(altqwork, office):
    """docs/operators/OPERATING.md: with 3.6 Mbit/s for `rest` seven packets of `voice` become late."""
    folder, _words = office
    with open(example("office.conf"), encoding="ascii") as file:
        (folder / "late.conf").write_text(file.read().replace("rest root", "rest root [rt 3.6M 0 3.6M]"))
    status, said, _fault = altqwork("report", "--before", example("office.conf"), "--after", folder / "late.conf", example("out/office.pcap"), folder / "late.html")
    assert status == 1 and "voice: 0 → 7 late" in said.splitlines()


@pytest.mark.parametrize("width, scheme", [(1200, "light"), (1200, "dark"), (400, "light"), (400, "dark"), (1081, "light"), (1080, "light"), (720, "light"), (320, "light")])
def test_nothing_is_cut_off(altqwork, browse, office, width, scheme):
    """At the width of a screen, a window, paper and a phone, folded and unfolded: nothing stands beyond an edge, and letters are 11 pixels or more."""
    folder, words = office
    assert altqwork(*words[:-1], *LONG_WANTS, words[-1], folder / "page.html")[0] == 1
    driver = browse(folder / "page.html", width, scheme)
    for opened in (False, True):
        driver.execute_script("document.querySelectorAll('details').forEach(one => { one.open = arguments[0] })", opened)
        assert driver.execute_script("return document.documentElement.scrollWidth <= document.documentElement.clientWidth")
        beyond = driver.execute_script(
            "return Array.from(document.querySelectorAll('body *')).filter(one => !one.closest('.wide, svg, pre') && "
            "(one.getBoundingClientRect().right > innerWidth + 1 || one.getBoundingClientRect().left < -1)).map(one => one.outerHTML.slice(0, 80))")
        assert beyond == []
        least = driver.execute_script("return Math.min(...Array.from(document.querySelectorAll('body *')).map(one => parseFloat(getComputedStyle(one).fontSize)))")
        assert least >= 11


def luminance(text):
    """The relative luminance of a colour rgb(r, g, b), by WCAG 2."""
    parts = [int(part) / 255 for part in text[text.index("(") + 1:-1].split(",")[:3]]
    red, green, blue = [part / 12.92 if part <= 0.04045 else ((part + 0.055) / 1.055) ** 2.4 for part in parts]
    return 0.2126 * red + 0.7152 * green + 0.0722 * blue


@pytest.mark.parametrize("scheme, is_light", [("light", True), ("dark", False)])
def test_words_stand_out(browse, office, scheme, is_light):
    """Each word's colour against the page's is 4.5 to 1 or more (WCAG 2, level AA), in light and in dark."""
    driver = browse(office[0] / "page.html", 1200, scheme)
    paper = luminance(driver.execute_script("return getComputedStyle(document.body).backgroundColor"))
    assert (paper > 0.5) == is_light
    colours = driver.execute_script("return Array.from(new Set(Array.from(document.querySelectorAll('body *:not(svg, path)')).map(one => getComputedStyle(one).color)))")
    for colour in colours:
        bright, dim = sorted((luminance(colour), paper), reverse=True)
        assert (bright + 0.05) / (dim + 0.05) >= 4.5, colour


def test_all_is_printed(browse, office):
    driver = browse(office[0] / "page.html")
    folds = "return Array.from(document.querySelectorAll('details')).map(one => one.open)"
    assert set(driver.execute_script(folds)) == {False}
    driver.execute_script("dispatchEvent(new Event('beforeprint'))")
    assert set(driver.execute_script(folds)) == {True}
    driver.execute_script("dispatchEvent(new Event('afterprint'))")
    assert set(driver.execute_script(folds)) == {False}


def test_page_loads_nothing_has_no_fault_and_is_small(browse, office):
    driver = browse(office[0] / "page.html")
    assert driver.execute_script("return performance.getEntriesByType('resource').length") == 0
    assert [entry for entry in driver.get_log("browser") if entry["level"] == "SEVERE"] == []
    assert os.path.getsize(office[0] / "page.html") < MOST_BYTES


def test_pictures_are_those_of_the_numbers(browse, office):
    """The greatest value of each picture of delays is the class's greatest delay, and its drops are the class's."""
    driver = browse(office[0] / "page.html")
    shown = table(driver, "classes")
    for name in ("voice", "bulk", "rest"):
        said = driver.execute_script("return Array.from(document.querySelector(`figure[data-of=${arguments[0]}]`).querySelectorAll('svg'))"
                                     ".map(one => one.getAttribute('aria-label'))", name)
        values = [f"{label} up to {shown[name, label][8] / 10**6:.3f}" for label in ("before", "after")]
        assert said[0] == f"{name}, greatest delay, ms: {', '.join(values)}"
        drops = [f"{name}, drops, {label}: {shown[name, label][2]}" for label in ("before", "after")]
        assert said[1:] == (drops if name == "bulk" else [])
    # 620 packets come within 2 seconds, and the last of `bulk` leaves 0.2 seconds later at most: the axis is one of seconds
    texts = driver.execute_script("return Array.from(document.querySelector('.axis').querySelectorAll('span')).map(one => one.textContent)")
    assert texts == ["0.0", "0.5", "1.0", "1.5"] or texts == ["0.0", "0.2", "0.4", "0.6", "0.8", "1.0", "1.2", "1.4", "1.6", "1.8"]


def test_a_part_is_drawn_finer(browse, altqwork, office):
    folder, words = office
    assert altqwork(*words, folder / "part.html", "--from", "480", "--to", "481.5")[0] == 0
    driver = browse(folder / "part.html")
    assert "300 steps of 0.005 ms" in driver.execute_script("return document.body.textContent")
    texts = driver.execute_script("return Array.from(document.querySelector('.axis').querySelectorAll('span')).map(one => one.textContent)")
    assert texts[0] == "0.4800" and texts[-1] == "0.4814" and len(texts) == 8
    assert table(driver, "classes")["all", "before"][0] == 620


def test_picture_shows_the_whole_page(altqwork, office):
    """The picture ends where the page does, and right of it a margin is left free: nothing is cut off."""
    image = pytest.importorskip("PIL.Image")
    try:
        browser.chromium()
    except Missing as fault:
        pytest.skip(str(fault))
    folder, words = office
    assert altqwork(*words, folder / "page.html", "--picture", folder / "page.png")[0] == 0
    with image.open(folder / "page.png") as file:
        picture = file.convert("RGB")
    width, height = picture.size
    assert width == 960 and 500 < height < 1200
    for part in (picture.crop((width - 16, 0, width, height)), picture.crop((0, height - 4, width, height))):
        assert part.getcolors() == [(part.width * part.height, (255, 255, 255))]
    counts = {colour: count for count, colour in picture.getcolors(1 << 20)}
    for colour in ((0xB3, 0x26, 0x1E), (0x1A, 0x7F, 0x37), (0x00, 0x60, 0xA8)):
        assert max(count for found, count in counts.items() if max(abs(a - b) for a, b in zip(found, colour)) < 40) > 40


def test_one_play_without_a_capture(altqwork, browse, office):
    folder, _words = office
    words = ["report", "--config", example("office.conf"), "--fates", folder / "kept" / "before" / "fates.csv", folder / "one.html"]
    assert altqwork(*words)[0] == 0
    driver = browse(folder / "one.html")
    assert table(driver, "classes")["bulk", "play"][:3] == [240, 163, 77] and table(driver, "flows") == {}
    assert lines(driver)["bulk"] == ["slowest 202.8 ms", "", "77 dropped", ""]


PF = """altq on em0 hfsc bandwidth 4Mb queue { voice rest }
queue voice bandwidth 5% hfsc(realtime (1Mb 10 200Kb))
queue rest bandwidth 70% hfsc(default)
pass out on em0 inet proto udp from any to any port 5004 queue voice
pass out on em0 inet proto udp from any to any user alice queue voice
"""


def test_a_pf_conf_in_one_command(altqwork, browse, office):
    """Of 620 packets 200 are of the calls; the others are in the default class. What was not understood is said."""
    folder, _words = office
    (folder / "pf.conf").write_text(PF)
    status, said, _fault = altqwork("report", "--config", folder / "pf.conf", "--arrivals", example("out/office.pcap"), folder / "pf.html")
    assert status == 0 and "67.7 % of the packets are in the default class, rest" in said and "line 5 word 12: user" in said
    driver = browse(folder / "pf.html")
    assert table(driver, "classes")["voice", "play"][0] == 200 and table(driver, "classes")["rest", "play"][0] == 420
    assert "line 5 word 12: user" in driver.execute_script("return document.querySelector('p.flag').textContent")


def test_files_of_others_in_one_command(altqwork, browse, program, tmp_path):
    """A pf.conf that another wrote, and a pcapng of Linux cooked packets: six of them come."""
    config = os.path.join(os.path.dirname(data("")), os.pardir, "import_by_others", "01-hfsc-home.pf")
    status, said, _fault = altqwork("report", "--config", config, "--arrivals", data("cooked2.pcapng"), tmp_path / "page.html")
    assert status == 0 and said.startswith("6 packets in ")
    shown = table(browse(tmp_path / "page.html"), "classes")
    assert sum(numbers[0] for (name, _label), numbers in shown.items() if name != "all") == 6


def test_a_stranger_names_no_markup(altqwork, browse, program, tmp_path):
    """What stands in a file's name is text of the page, and of it printable characters alone."""
    (tmp_path / "a.pcap").write_bytes(classic(1, [(5, bytes(12) + b"\x08\x00" + udp(5004), 214)]))
    name = "<b>\x1b[31m.conf"
    (tmp_path / name).write_text("interface if0 bandwidth 8M hfsc\n")
    assert altqwork("report", "--config", tmp_path / name, tmp_path / "a.pcap", tmp_path / "page.html")[0] == 0
    assert browse(tmp_path / "page.html").execute_script("return document.querySelector('h1').textContent") == "<b>\\x1b[31m.conf"


def test_classes_without_packets_are_named(altqwork, browse, program, tmp_path):
    """Both packets are of `b`: no filter leads to `a`, which has a filter for another port, and `root` and `x` hold none."""
    (tmp_path / "a.pcap").write_bytes(classic(1, [(5, bytes(12) + b"\x08\x00" + udp(80), 214)] * 2))
    (tmp_path / "c.conf").write_text("interface if0 bandwidth 8M hfsc\nclass hfsc if0 root NULL pshare 100\nclass hfsc if0 x root pshare 50\n"
                                     "class hfsc if0 a x pshare 50\nclass hfsc if0 b root pshare 50 default\nfilter if0 a 0 5004 0 0 17\n")
    said = altqwork("report", "--config", tmp_path / "c.conf", tmp_path / "a.pcap", tmp_path / "page.html")[1]
    assert said.endswith("page.html; 100.0 % of the packets are in the default class, b; no packet came to a\n")
    assert "no packet came to a." in browse(tmp_path / "page.html").execute_script("return document.querySelector('p').textContent")


@pytest.mark.parametrize("packets", [[], [(5, bytes(12) + b"\x08\x00" + udp(5004), 214)]])
def test_few_packets(altqwork, browse, program, tmp_path, packets):
    (tmp_path / "a.pcap").write_bytes(classic(1, packets))
    (tmp_path / "c.conf").write_text("interface if0 bandwidth 8M hfsc\n")
    assert altqwork("report", "--config", tmp_path / "c.conf", tmp_path / "a.pcap", tmp_path / "page.html")[0] == 0
    shown = table(browse(tmp_path / "page.html"), "classes")
    assert shown == ({("default", "play"): [1, 1, 0, 0, 0, 214_000, 214_000, 214_000, 214_000]} if packets else {})


@pytest.mark.parametrize("words", [["--from", "x"], ["--from", "-1"], ["--to", "0.0000001"], ["--from", "nan"]])
def test_words_that_are_refused(altqwork, words):
    with pytest.raises(SystemExit) as ended:
        altqwork("report", "--config", "c.conf", "a.pcap", "page.html", *words)
    assert ended.value.code == 2


def test_a_capture_is_not_taken_for_the_page(altqwork, tmp_path):
    (tmp_path / "a.pcap").write_bytes(b"kept")
    assert altqwork("report", "--config", "c.conf", "--fates", "f.csv", tmp_path / "a.pcap")[0] == 2
    assert (tmp_path / "a.pcap").read_bytes() == b"kept"


def test_nothing_between(altqwork, program, office):
    folder, words = office
    assert altqwork(*words, folder / "no.html", "--from", "5", "--to", "5")[::2] == (2, "altqwork: nothing lies between --from and --to\n")
