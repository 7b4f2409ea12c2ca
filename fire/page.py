#!/usr/bin/env python3
"""Looks at the page of a report in a real browser, and compares what is drawn with the report.

The orders of examples/dozen-orders.csv are planned and their page is written, as `./pallet plan < FILE | ./pallet-page` does.
A headless Chromium opens the page at 1280 by 900, and prints it. Looked at are: that the browser says nothing on its console;
that the page has as many `rect` elements as the report has cases in all listed forms; and that each stands at the very place of
its case, of the very size, in the very order, with y upwards, by this script's own reading of the report.

usage: fire/page.py [--keep FOLDER] [ORDERS]     FOLDER gets page.html, page.png and page.pdf; ORDERS is a CSV file

Needs the built programs (run ./pallet once; or name them in PALLET and PALLET_PAGE) and Chromium of the distribution (named in
CHROMIUM, where it has another name than chromium). The last line is of totals; the status is not 0 where anything was found.
"""

import argparse
import html.parser
import os
import shutil
import subprocess
import sys
import tempfile

import program

PAGE_PROGRAM = os.environ.get("PALLET_PAGE", os.path.join(program.TOP, "crates", "pallet_page", "out", "pallet_page"))
CHROMIUM = os.environ.get("CHROMIUM", "chromium")


def forms_of(report):
    """The listed forms of a report, in order: the width of the pallet, and of each case x, y, its extent in x and in y."""
    forms, order, cases = [], None, None
    for line in report.decode("ascii").splitlines():
        words = line.split()
        if words[0] == "order":
            order = [int(word) for word in words[1:]]
        elif words[0] == "layer":
            cases = []
            forms.append((order[1], cases))
        elif words[0] in ("allowed", "end"):
            cases = None
        elif cases is not None:
            x, y = int(words[0]), int(words[1])
            long_side, short_side = max(order[2:4]), min(order[2:4])
            cases.append((x, y, long_side, short_side) if words[2] == "L" else (x, y, short_side, long_side))
    return forms


class Drawn(html.parser.HTMLParser):
    """The rectangles of a page, by the picture in which they stand, and what the page must not have."""

    def __init__(self):
        super().__init__()
        self.pictures, self.faults = [], []

    def handle_starttag(self, tag, attrs):
        values = dict(attrs)
        if tag == "svg":
            self.pictures.append([])
        elif tag == "rect":
            if not self.pictures:
                self.faults.append("a rect outside of any picture")
                return
            self.pictures[-1].append(tuple(float(values[name]) for name in ("x", "y", "width", "height")))
        elif tag in ("script", "link", "img", "iframe", "object"):
            self.faults.append("the page has an element %s" % tag)
        for name in ("href", "src", "xlink:href"):
            if values.get(name) and not values[name].startswith("#"):
                self.faults.append("the page refers to %r" % values[name])


def compare(forms, drawn):
    """What is wrong with the rectangles drawn: each picture's scale is that of its first case, alike in x and y."""
    wrong = list(drawn.faults)
    pictures = [picture for picture in drawn.pictures if picture]
    cases, rectangles = sum(len(form) for _, form in forms), sum(len(picture) for picture in pictures)
    if cases != rectangles:
        wrong.append("%d rectangles for %d cases" % (rectangles, cases))
    if len(forms) != len(pictures):
        return wrong + ["%d pictures with rectangles for %d forms" % (len(pictures), len(forms))]
    for number, ((width, form), picture) in enumerate(zip(forms, pictures), 1):
        scale = picture[0][2] / form[0][2]
        for place, (case, rectangle) in enumerate(zip(form, picture), 1):
            x, y, along_x, along_y = case
            right = tuple(scale * value for value in (x, width - y - along_y, along_x, along_y))
            if rectangle != right:
                wrong.append("form %d, case %d: drawn at %r in place of %r" % (number, place, rectangle, right))
    return wrong


def browse(path, folder):
    """What the browser says of the page on its console, with the pictures that it made."""
    common = [CHROMIUM, "--headless", "--no-sandbox", "--disable-gpu", "--hide-scrollbars", "--enable-logging=stderr",
              "--user-data-dir=" + os.path.join(folder, "profile")]
    said = []
    for words, name in ([["--window-size=1280,900", "--screenshot=" + os.path.join(folder, "page.png")], "page.png"],
                        [["--no-pdf-header-footer", "--print-to-pdf=" + os.path.join(folder, "page.pdf")], "page.pdf"]):
        ended = subprocess.run([*common, *words, "file://" + path], stdout=subprocess.PIPE, stderr=subprocess.PIPE,
                               timeout=180, check=False)
        lines = ended.stderr.decode("utf-8", "replace").splitlines()
        said += ["the console says: %s" % line for line in lines if ":CONSOLE" in line]
        made = os.path.join(folder, name)
        if not os.path.exists(made) or os.path.getsize(made) == 0:
            said.append("the browser made no %s (status %d)" % (name, ended.returncode))
    return said


def main():
    reader = argparse.ArgumentParser(description=__doc__, formatter_class=argparse.RawDescriptionHelpFormatter)
    reader.add_argument("--keep", metavar="FOLDER")
    reader.add_argument("orders", nargs="?", default=os.path.join(program.EXAMPLES, "dozen-orders.csv"))
    chosen = reader.parse_args()
    program.need_program()
    if not os.access(PAGE_PROGRAM, os.X_OK):
        print("no program at %s: run ./pallet-page once, or name one in PALLET_PAGE" % PAGE_PROGRAM, file=sys.stderr)
        return 2
    if shutil.which(CHROMIUM) is None:
        print("no browser %s: install Chromium, or name one in CHROMIUM" % CHROMIUM, file=sys.stderr)
        return 2
    with open(chosen.orders, "rb") as file:
        report = program.run(["plan"], file.read()).written
    ended = subprocess.run([PAGE_PROGRAM], input=report, stdout=subprocess.PIPE, stderr=subprocess.PIPE, check=False)
    finds = [] if (ended.returncode, ended.stderr) == (0, b"") else ["status %d, said %r" % (ended.returncode, ended.stderr)]
    drawn, forms = Drawn(), forms_of(report)
    drawn.feed(ended.stdout.decode("utf-8"))
    drawn.close()
    finds += compare(forms, drawn)
    with tempfile.TemporaryDirectory() as folder:
        path = os.path.join(folder, "page.html")
        with open(path, "wb") as file:
            file.write(ended.stdout)
        finds += browse(path, folder)
        if chosen.keep:
            os.makedirs(chosen.keep, exist_ok=True)
            for name in ("page.html", "page.png", "page.pdf"):
                if os.path.exists(os.path.join(folder, name)):
                    shutil.copy(os.path.join(folder, name), chosen.keep)
    for find in finds[:20]:
        print("FIND %s" % find)
    print("%d forms, %d cases, %d bytes of page, %d finds" % (len(forms), sum(len(form) for _, form in forms), len(ended.stdout), len(finds)))
    return 1 if finds else 0


if __name__ == "__main__":
    sys.exit(main())
