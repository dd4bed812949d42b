"""A page of text as LibreOffice reads it, and LibreOffice run from its packages as if they were installed."""

import os
import re
import subprocess
from xml.sax.saxutils import escape

# The page, with a style and a paragraph for each line.
PAGE = """<?xml version="1.0" encoding="UTF-8"?>
<office:document xmlns:office="urn:oasis:names:tc:opendocument:xmlns:office:1.0"
 xmlns:text="urn:oasis:names:tc:opendocument:xmlns:text:1.0" xmlns:style="urn:oasis:names:tc:opendocument:xmlns:style:1.0"
 xmlns:fo="urn:oasis:names:tc:opendocument:xmlns:xsl-fo-compatible:1.0" office:version="1.3"
 office:mimetype="application/vnd.oasis.opendocument.text">
<office:automatic-styles>{styles}</office:automatic-styles>
<office:body><office:text>{paragraphs}</office:text></office:body>
</office:document>
"""

STYLE = """<style:style style:name="P{number}" style:family="paragraph"><style:text-properties style:font-name="{family}"
 fo:font-family="{family}" fo:font-size="{size}pt" style:font-family-asian="{family}" style:font-size-asian="{size}pt"
 style:font-family-complex="{family}" style:font-size-complex="{size}pt"/></style:style>
"""

# The arguments are the folder of the packages, a folder for LibreOffice's own files with the page in it, and the file to be written.
CONVERTED = """mount -t overlay overlay -o lowerdir="$1/usr":/usr /usr && mount -t overlay overlay -o lowerdir="$1/etc":/etc /etc &&
rm -rf "$2/profile" && soffice "-env:UserInstallation=file://$2/profile" --headless --convert-to pdf --outdir "$2" "$2/page.fodt" &&
mv "$2/page.pdf" "$3"
"""

# What says when a document was made, and its numbers that are drawn by lot.
DATES = re.compile(rb"/CreationDate\(.*?\)|/ID *\[.*?\]|/DocChecksum */\w+", re.DOTALL)

# An object of the file with its number, and the number of another that it names.
OBJECTS = re.compile(rb"^\d+ 0 obj\n(.*?)^endobj\n", re.DOTALL | re.MULTILINE)
NAMED = re.compile(rb"\b\d+ 0 R\b")


def office_page(lines):
    """A page of lines, each a family, a size and a text."""
    rows = [line.split("|") for line in lines]
    styles = [STYLE.format(number=number, family=family, size=size) for number, (family, size, _) in enumerate(rows)]
    paragraphs = [f'<text:p text:style-name="P{number}">{escape(text)}</text:p>' for number, (_, _, text) in enumerate(rows)]
    return PAGE.format(styles="".join(styles), paragraphs="\n".join(paragraphs))


def installed(packages, tree):
    """A folder in which packages lie together, with the settings where their scripts would put them."""
    if not tree.exists():
        made = tree.with_suffix(".new")
        made.mkdir(exist_ok=True)
        for package in packages:
            subprocess.run(["cp", "-aln", f"{package}/.", made], check=True)
        subprocess.run(["cp", "-aln", f"{made}/usr/lib/libreoffice/share/.registry/.", made / "etc/libreoffice/registry"], check=True)
        os.replace(made, tree)
    return tree


def converted(tree, room, out):
    """What converts the page that lies in a room."""
    return ["unshare", "-m", "sh", "-c", CONVERTED, "sh", tree, room, out]


def without_order(pdf):
    """The objects of a file without dates, in an order of their own: LibreOffice writes fonts in the order of their addresses."""
    return b"".join(sorted(NAMED.sub(b"R", DATES.sub(b"", body)) for body in OBJECTS.findall(pdf)))
