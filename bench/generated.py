"""Generated text of docs/PERFORMANCE.md: all that stands between '<!-- generated: NAME -->' and '<!-- end -->'."""

import pathlib
import re

ROOT = pathlib.Path(__file__).resolve().parents[1]
PAGE = ROOT / "docs" / "PERFORMANCE.md"


def put(texts):
    """Puts each text, by its name, between its markers. Returns the names that the page has no markers for."""
    page = PAGE.read_text()
    missing = []
    for name, text in texts.items():
        markers = rf"(<!-- generated: {re.escape(name)} -->\n).*?(<!-- end -->)"
        page, count = re.subn(markers, lambda found: f"{found[1]}{text.strip()}\n{found[2]}", page, flags=re.S)
        missing += [] if count == 1 else [name]
    PAGE.write_text(page)
    return missing
