"""The files of the desk's page, as the program has them: what stands between the quotes in crates/page_files/src."""
import os
import re

SOURCES = os.path.join(os.path.dirname(os.path.abspath(__file__)), "..", "crates", "page_files", "src")


def read_file(name):
    """The bytes of the file markup, style or script."""
    with open(os.path.join(SOURCES, name + ".rt"), "rb") as source:
        text = source.read()
    return text[re.search(rb'=\s+b"', text).end():text.rindex(b'";')]
