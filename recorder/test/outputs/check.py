#!/usr/bin/env python3
"""check.py WHAT FILES..: looks whether what `record` writes of its findings is right. Each fault is a line; with one the status is 1.

  schema SCHEMA FILE     JSON that meets the schema; status 77 where there is no jsonschema
  json FILE, sarif FILE  what kinds.case has, by hand
  laid FILE              JSON with a line for each member and item, two blanks a level, as Python lays it out
  same FILE FILE         the reports of both have the same fingerprints, and no two of one file
  odd PAGE JSON SARIF    the texts of odd.case, as texts
  page FILE              the page is whole: its elements, names, references; nothing comes from outside
  shown FILE             that, and what kinds.case has
  picture FILE N M       the page has N pictures: SVG that runs and fetches nothing; M arrows in all, those of reports red and dashed
  is FILE PATH VALUE     what stands in JSON at a path as reports.0.kind; `#` at its end is a number of things
  schedule FILE          the table of how threads could have come to hang, of tests/reports/hang.json
  contrast FILE          each colour of a text is far enough from its ground, in the light and in the dark
"""
import base64
import hashlib
import html
import html.parser
import json
import re
import sys
import urllib.parse
import xml.etree.ElementTree

faults = []


def want(what, got, wanted):
    if got != wanted:
        faults.append(f"{what}: {got!r} in place of {wanted!r}")


def load(path):
    with open(path, "rb") as file:
        return json.loads(file.read().decode("utf-8", "strict"))


def schema(schema_path, path):
    try:
        import jsonschema
    except ImportError:
        sys.exit(77)
    validator = jsonschema.Draft7Validator(load(schema_path), format_checker=jsonschema.FormatChecker())
    for error in validator.iter_errors(load(path)):
        faults.append(f"{'/'.join(map(str, error.absolute_path))}: {error.message[:200]}")


def findings(path):
    run = load(path)
    want("summary", run["summary"], "4 reports, 2 circles, 2 processes")
    want("told", run["told"][0], "bank: not recorded: 80 types (a trace has room for 1,023)")
    kinds = [(each["kind"], each["processes"], each["silenced"]) for each in run["reports"]]
    want("kinds", kinds, [
        ("reversal", [4711, 4720], False), ("duplicate", [4711], False), ("reversal", [4711], False),
        ("circle", [4711], False), ("self", [4711], False), ("other", [4720], False), ("reversal", [4711], True)])
    first, double, third, circle, itself, other, silenced = run["reports"]
    want("held", [(each["lock"], each["type"], each["class"], each["site"]) for each in first["held"]],
         [("journal", "journal", "sleep mutex", "reversal.c:18")])
    asked = first["asked"]
    want("asked", (asked["lock"], asked["file"], asked["line"]), ("pool", "reversal.c", 19))
    want("thread", asked["thread"], {"number": 4713, "name": None, "maker": "main", "made": "reversal.c:30"})
    want("callers", [(each["function"], each["line"]) for each in asked["callers"]],
         [("checkpoint", 19), ("audit", 29), ("main", 42)])
    want("established", [(each["from"], each["to"], each["site"], each["thread"]["name"]) for each in first["established"]],
         [("pool", "journal", "reversal.c:10", "writer")])
    want("silence", first["silence"], '"journal" "pool"')
    want("silence by functions", double["silence"], '"make()<main()"')
    want("the second lock", double["asked"]["lock"], "make(mutex)<main(page[])/2")
    want("three locks", [each["lock"] for each in third["held"]] + [third["asked"]["lock"]], ["disk", "inode", "disk/2"])
    want("a place without a line", [third["established"][1][name] for name in ("site", "file", "line")],
         ["libx.so+0x1a2f(flush):0", None, None])
    want("and as it is told", third["text"][-1], ' "buffer" -> "inode" in flush+0x2f (libx.so)')
    want("a lock there", silenced["text"][2], ' 2nd "b" (rw) in take (libx.so)')
    want("waits", [(each["seat"], each["does"], each["lock"], each["holder"], each["line"]) for each in circle["waits"]],
         [(1, "waits", "journal", 2, 13), (1, "holds", "pool", None, 10),
          (2, "waits", "pool", 1, 24), (2, "holds", "journal", None, 21)])
    want("itself", [(each["does"], each["lock"], each["holder"]) for each in itself["waits"]],
         [("waits", "queue", None), ("holds", "queue", None)])
    want("other", other["text"], ["witness exhausted"])
    want("no place", [silenced["established"][0][name] for name in ("site", "file", "line")], ["listed", None, None])
    for each in (first, double, third, circle, itself):
        want("sentences for " + each["kind"], len(each["advice"]), 3)
    want("orders", sum(each["broken"] for each in run["processes"][0]["orders"]), 3)
    want("threads", [each["number"] for each in run["processes"][0]["threads"]], [4711, 4712, 4713])


def sarif(path):
    run = load(path)["runs"][0]
    rules = [each["id"] for each in run["tool"]["driver"]["rules"]]
    want("rules", rules, ["lock-order-reversal", "duplicate-lock-type", "deadlock", "self-deadlock", "lock-error"])
    results = run["results"]
    want("results", [(each["ruleId"], each["level"], each["occurrenceCount"], "suppressions" in each) for each in results], [
        ("lock-order-reversal", "warning", 2, False), ("duplicate-lock-type", "warning", 1, False),
        ("lock-order-reversal", "warning", 1, False), ("deadlock", "error", 1, False),
        ("self-deadlock", "error", 1, False), ("lock-order-reversal", "warning", 1, True)])
    for each in results:
        want("rule of " + each["ruleId"], rules[each["ruleIndex"]], each["ruleId"])
        numbers = {place["id"] for place in each["relatedLocations"]}
        links = {int(number) for number in re.findall(r"\]\((\d+)\)", each["message"]["text"])}
        want("links", links, numbers)
        want("places", len(each["locations"]), 1)
    place = results[0]["locations"][0]["physicalLocation"]
    want("place", (place["artifactLocation"], place["region"]),
         ({"uri": "reversal.c", "uriBaseId": "%SRCROOT%"}, {"startLine": 19}))
    flows = results[0]["codeFlows"][0]["threadFlows"]
    lines = [[step["location"]["physicalLocation"]["region"]["startLine"] for step in flow["locations"]] for flow in flows]
    want("ways", lines, [[42, 28, 18, 42, 29, 19], [28, 10]])
    important = [step["importance"] for step in flows[0]["locations"]]
    want("importance", important, ["unimportant", "unimportant", "essential"] * 2)
    circle = results[3]["codeFlows"][0]["threadFlows"]
    lines = [[step["location"]["physicalLocation"]["region"]["startLine"] for step in flow["locations"]] for flow in circle]
    want("what is held comes before what is waited for", lines, [[10, 13], [21, 24]])
    bare = results[2]["relatedLocations"][-1]["physicalLocation"]
    want("an object", bare, {"address": {"relativeAddress": 0x1a2f}, "artifactLocation": {"uri": "libx.so"}})
    want("and in words", '\n"buffer" -> "inode" in [flush+0x2f (libx.so)](6).' in results[2]["message"]["text"], True)
    place = results[5]["locations"][0]["physicalLocation"]
    want("a place with a line", place["region"], {"startLine": 15})
    want("suppression", results[5]["suppressions"], [{"kind": "external", "justification": "a line of known allows it"}])
    notes = run["invocations"][0]["toolExecutionNotifications"]
    want("notifications", [(each["level"], each["message"]["text"]) for each in notes], [
        ("note", "bank: not recorded: 80 types (a trace has room for 1,023)"),
        ("note", "4 reports, 2 circles, 2 processes"), ("error", "witness exhausted")])


def laid(path):
    with open(path, encoding="utf-8") as file:
        text = file.read()
    want("as it is laid out", text == json.dumps(json.loads(text), indent=2, ensure_ascii=False) + "\n", True)


def fingerprints(path):
    run = load(path)
    if "runs" in run:
        return [each["partialFingerprints"] for each in run["runs"][0]["results"]]
    return [each["fingerprint"] for each in run["reports"]]


def same(one, other):
    want("fingerprints", fingerprints(other), fingerprints(one))
    prints = [json.dumps(each) for each in fingerprints(one)]
    want("equal ones", len(prints) - len(set(prints)), 0)


class Page(html.parser.HTMLParser):
    """The elements of a page, each as its name, its attributes, and its text."""
    void = {"meta", "link", "input", "br", "img"}

    def __init__(self, path):
        super().__init__(convert_charrefs=True)
        self.elements, self.open = [], []
        with open(path, encoding="utf-8", errors="strict") as file:
            self.source = file.read()
        self.feed(self.source)
        self.close()
        want("open elements", [each[0] for each in self.open], [])

    def handle_starttag(self, tag, attributes):
        names = [name for name, _ in attributes]
        want(f"attributes of {tag}", sorted(names), sorted(set(names)))
        element = [tag, dict(attributes), ""]
        self.elements.append(element)
        if tag not in self.void:
            self.open.append(element)

    def handle_startendtag(self, tag, attributes):
        self.elements.append([tag, dict(attributes), ""])

    def handle_endtag(self, tag):
        if not self.open or self.open[-1][0] != tag:
            faults.append(f"line {self.getpos()[0]}: </{tag}> ends {self.open[-1][0] if self.open else 'nothing'}")
        else:
            self.open.pop()

    def handle_data(self, data):
        for each in self.open:
            each[2] += data

    def all(self, tag, **attributes):
        return [each for each in self.elements
                if each[0] == tag and all(each[1].get(name.strip("_")) == value for name, value in attributes.items())]


def page(path):
    found = Page(path)
    names = {each[0] for each in found.elements}
    known = set("""html head meta title link style body a header h1 h2 h3 h4 p nav ul ol li main form label input select option
        section article div code pre span mark details summary button table thead tbody tr th td img b footer script""".split())
    want("unknown elements", names - known, set())
    ids = [each[1]["id"] for each in found.elements if "id" in each[1]]
    want("equal ids", sorted(ids), sorted(set(ids)))
    for tag, attributes, text in found.elements:
        for name in attributes:
            want(f"{name} of <{tag}>", name.startswith("on") or name in ("style", "srcdoc", "action"), False)
            want(f"{name} of <{tag}>", name != "src" or (tag == "img" and drawing_of(attributes) is not None), True)
        for name in ("aria-labelledby", "for"):
            want(f"{name} of <{tag}>", attributes.get(name, ids[0]) in ids, True)
        if tag == "a":
            want("a link", attributes["href"][0] == "#" and attributes["href"][1:] in ids, True)
        if tag in ("input", "select"):
            want(f"id of <{tag}>", "id" in attributes, True)
        if tag == "img":
            want("words for the picture", attributes.get("alt", "") != "", True)
    for tag in ("script", "style", "link", "h1"):
        want(f"number of <{tag}>", len(found.all(tag)), 1)
    policy = [each[1]["content"] for each in found.all("meta") if each[1].get("http-equiv") == "Content-Security-Policy"]
    sums = [base64.b64encode(hashlib.sha256(found.all(tag)[0][2].encode()).digest()).decode() for tag in ("style", "script")]
    want("policy", policy, [f"default-src 'none'; img-src data:; style-src 'sha256-{sums[0]}'; script-src 'sha256-{sums[1]}'; "
                            "base-uri 'none'; form-action 'none'"])
    want("language", found.all("html")[0][1].get("lang"), "en")
    before = 1
    for tag, _, text in found.elements:
        if re.fullmatch("h[1-6]", tag):
            want(f"level of the heading {text.strip()[:40]}", int(tag[1]) <= before + 1 and text.strip() != "", True)
            before = int(tag[1])
    outside = re.sub(r"<script.*?</script>|<style.*?</style>", "", found.source, flags=re.S)
    want("names of the net", re.findall(r"(?:href|src)=.?(?:https?:|//)", outside), [])
    return found


def shown(path):
    """What kinds.case has, as the page shows it."""
    found = page(path)
    cards = found.all("article")
    want("cards", [each[1]["data-kind"] for each in cards],
         ["circle", "self", "reversal", "duplicate", "reversal", "other", "reversal"])
    card = next(each for each in cards if each[1]["data-kind"] == "reversal")
    text = re.sub(r"\s+", " ", card[2])
    for words in ('"journal" is held, "pool" is asked for', "2 processes: 4711, 4720", "at reversal.c:18 in checkpoint, by thread 4713",
                  "Callers (2)", "audit at helper.c:29", "pool was held, journal was asked for", "thread 4712 (writer), made by main",
                  'take "pool" before "journal" here too', '"journal" "pool"'):
        want(words, words in text, True)
    want("a place without a line", any("in flush+0x2f (libx.so)" in re.sub(r"\s+", " ", each[2]) for each in cards), True)
    want("no line 0", any(":0" in each[2] for each in cards), False)
    marked = [each[2].strip() for each in found.all("mark")]
    for line in ("pthread_mutex_lock(&journal);", "pthread_mutex_lock(&pool);"):
        want("a marked line", line in marked, True)
    lines = [each[1]["data-line"] for each in found.all("mark")]
    want("its number", "18" in lines and "19" in lines and "10" in lines, True)
    rows = [each for each in found.all("span") + found.all("mark") if each[1].get("class") == "row"]
    want("lines around a place", max(len(each[2].splitlines()) for each in found.all("pre")), 7)
    want("rows", len(rows) >= 7 * 6, True)
    for kind in ("circle", "self", "reversal", "duplicate"):
        each = next(card for card in cards if card[1]["data-kind"] == kind)
        advice = re.search(r"What to do(.*?)(The line for|$)", re.sub(r"\s+", " ", each[2])).group(1)
        want(f"sentences for {kind}", len(re.findall(r"[.](?: |$)", advice.strip())), 3)
    entries = [re.sub(r"\s+", " ", each[2]).strip() for each in found.all("tr")]
    want("the list of all reports", entries[1:8], [
        "1Lock order reversaljournal, poolyes", "2Two locks of one typemake(mutex)<main(page[])yes",
        "3Lock order reversaldisk, inode, bufferyes", "4Threads that wait for one anotherjournal, poolyes",
        "5A thread that waits for itselfqueueyes", "6The recordingyes", "7Lock order reversala, bsilenced"])
    want("how many count", "6 of 7 count for the status" in re.sub(r"\s+", " ", found.source), True)
    origin = [each[2] for each in found.all("p", class_="origin")]
    want("version and command line", origin[0].startswith("record 1.0") and origin[0].endswith(": ./bank --once 'two words'"), True)
    links = [each[1]["href"] for each in found.all("a", class_="link")]
    want("links of reports to themselves", sorted(links), sorted("#" + each[1]["id"] for each in cards))
    folds = [each for each in found.all("details") if each[1].get("class") == "body"]
    want("reports that fold, and those that stand open", (len(folds), sum("open" in each[1] for each in folds)), (7, 6))


def odd(page_path, json_path, sarif_path):
    found = page(page_path)
    want("scripts", len(found.all("script")), 1)
    want("heading", found.all("h1")[0][2].strip(), "Lock orders of <script>alert(\"1\")</script>\u2401\ufffd'&amp;")
    text = "".join(each[2] for each in found.all("article"))
    for words in ("a<b>&'\u2402\ufffd", "</script><svg onload=alert(5)>{0}[x](1)", 'dir with space/<odd>&"file".c:12',
                  "operator<</**/<int, \"x\">(){lambda()#1}[]\\\\", "\u241b[31m\u2421", "main<a>&\u00e9[U+202E]"):
        want(words, words in text, True)
    run = load(json_path)
    want("program", run["program"], "<script>alert(\"1\")</script>\x01\ufffd'&amp;")
    want("type", run["reports"][0]["held"][0]["type"], "a<b>&'\x02\ufffd")
    want("thread", run["reports"][0]["held"][0]["thread"]["name"], '</code><b onclick="alert(4)">\x1b[31m\x7f')
    result = load(sarif_path)["runs"][0]["results"][0]
    want("a text that is no link", "{{0}}\\[x\\](1)" in result["message"]["text"], True)
    want("links", re.findall(r"(?<!\\)\]\((\d+)\)", result["message"]["text"]), ["1", "2", "4"])
    want("a file", result["relatedLocations"][0]["physicalLocation"]["artifactLocation"]["uri"],
         "dir%20with%20space/%3Codd%3E%26%22file%22.c")


SVG = "{http://www.w3.org/2000/svg}"


def drawing_of(attributes):
    """The root of the picture of an image; None where it isn't a part of the page."""
    head = "data:image/svg+xml,"
    if not attributes["src"].startswith(head):
        return None
    return xml.etree.ElementTree.fromstring(urllib.parse.unquote(attributes["src"][len(head):], errors="strict"))


def drawn_arrows(root):
    """Of each arrow of a picture its types, whether it is red, and whether it is dashed."""
    for group in root.iter(SVG + "g"):
        if group.get("class") == "edge":
            line = group.find(SVG + "path")
            yield group.find(SVG + "title").text, line.get("stroke") == "red", line.get("stroke-dasharray") is not None


def picture(path, pictures, arrows):
    """The pictures of the page, by what dot makes of orders."""
    found = Page(path)
    roots = [drawing_of(each[1]) for each in found.all("img")]
    want("pictures", len(roots), int(pictures))
    for root in roots:
        want("elements", {each.tag for each in root.iter()} - {SVG + name for name in ("svg", "g", "title", "polygon", "path", "text")}, set())
        names = {name for each in root.iter() for name in each.attrib}
        want("attributes", [name for name in names if name.startswith("on") or "href" in name or name == "style"], [])
    drawn = [arrow for root in roots for arrow in drawn_arrows(root)]
    want("arrows", len(drawn), int(arrows))
    want("what is dashed is red", [each for each in drawn if each[2] and not each[1]], [])
    want("what goes against orders", any(each[2] for each in drawn), True)


def schedule(path):
    source = page(path).source
    table = re.search(r"<table class='schedule'>(.*?)</table>", source, re.S).group(1)
    parted = table.replace("<code class='line'>", " | ")
    rows = [[html.unescape(re.sub("<.*?>", "", cell)) for cell in re.findall(r"<t[hd][^>]*>(.*?)</t[hd]>", row)]
            for row in re.findall(r"<tr.*?</tr>", parted)]
    want("rows", rows, [
        ["Thread 8", "Thread 9"],
        ["gets journal at hang.c:9 |     pthread_mutex_lock(&journal);", ""],
        ["", "gets pool at hang.c:19 |     if (count < 2) pthread_mutex_lock(&pool);"],
        ["waits for pool at hang.c:10 \u2192 held by Thread 9 |     pthread_mutex_lock(&pool);", ""],
        ["", "waits for journal at hang.c:20 \u2190 held by Thread 8 |     pthread_mutex_lock(&journal);"]])
    want("escaped lines", "if (count &lt; 2) pthread_mutex_lock(&amp;pool);" in table, True)
    want("marked rows", [bool(each) for each in re.findall(r"<tr( class='rests')?>", table)], [False, False, True, False, False])
    want("what it rests on", "The schedule rests on the marked rows" in source, True)
    want("and what isn't known", "No values were recorded" in source, True)


def value(path, way, wanted):
    at = load(path)
    for step in way.split("."):
        at = len(at) if step == "#" else at[int(step)] if isinstance(at, list) else at[step]
    want(f"{path}, {way}", at, json.loads(wanted))


def light(colour):
    parts = [int(colour[i:i + 2], 16) / 255 for i in (1, 3, 5)]
    parts = [part / 12.92 if part <= 0.03928 else ((part + 0.055) / 1.055) ** 2.4 for part in parts]
    return 0.2126 * parts[0] + 0.7152 * parts[1] + 0.0722 * parts[2]


def contrast(path):
    css = Page(path).all("style")[0][2]
    schemes = [dict(re.findall(r"--([\w-]+):\s*(#[0-9a-f]{6})", each)) for each in re.findall(r":root \{(.*?)\}", css, re.S)]
    want("schemes", len(schemes), 3)
    for scheme in schemes:
        for ink, ground in (("ink", "paper"), ("ink", "ground"), ("ink", "code"), ("ink", "mark"), ("faint", "paper"),
                            ("faint", "ground"), ("faint", "code"), ("held", "paper"), ("asked", "paper"),
                            ("step", "paper"), ("bad", "paper"), ("bad", "ground"), ("accent", "paper"), ("accent", "ground"),
                            ("good", "good-ground")):
            one, other = sorted((light(scheme[ink]), light(scheme[ground])), reverse=True)
            want(f"{ink} on {ground}, {(one + 0.05) / (other + 0.05):.2f}", (one + 0.05) / (other + 0.05) >= 4.5, True)


def main():
    what = {"schema": schema, "json": findings, "sarif": sarif, "laid": laid, "same": same, "page": page, "shown": shown, "odd": odd, "is": value,
            "picture": picture, "schedule": schedule, "contrast": contrast}[sys.argv[1]]
    what(*sys.argv[2:])
    for fault in faults:
        print(fault)
    sys.exit(1 if faults else 0)


main()
