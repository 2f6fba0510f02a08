"""Elements of HTML and SVG. Whatever stands in them is escaped as it is written, so a name of a
feed is never more than text.
"""
import base64
import hashlib
import json
from importlib import resources
from typing import Any
from xml.etree.ElementTree import Element, SubElement, tostring

STYLE = resources.files(__package__).joinpath("pages", "page.css").read_text(encoding="utf-8")


def add(parent: Element, tag: str, text: str | None = None, **attributes: object) -> Element:
    """Adds an element behind the others of its parent. Attributes whose names are words of Python
    end in an underscore, and hyphens are underscores; one of None isn't there.
    """
    said = {
        name.rstrip("_").replace("_", "-"): str(value)
        for name, value in attributes.items()
        if value is not None
    }
    element = SubElement(parent, tag, said)
    element.text = text
    return element


def page(title: str, policy: str) -> tuple[Element, Element]:
    """The root and the body of a page which may do no more than its policy says (CSP)."""
    root = Element("html", lang="en")
    head = add(root, "head")
    add(head, "meta", charset="utf-8")
    add(head, "meta", name="viewport", content="width=device-width, initial-scale=1")
    add(head, "meta", http_equiv="Content-Security-Policy", content=policy)
    add(head, "title", title)
    add(head, "style", STYLE)
    return root, add(root, "body")


def add_data(parent: Element, name: str, data: Any) -> None:
    """Adds data for a script. In it nothing can end the element."""
    text = json.dumps(data, separators=(",", ":")).replace("<", "\\u003c")
    add(parent, "script", text, type="application/json", id=name)


def digest(script: str) -> str:
    """The source by which a policy allows exactly this script."""
    found = base64.b64encode(hashlib.sha256(script.encode()).digest()).decode()
    return f"'sha256-{found}'"


def written(root: Element) -> str:
    return "<!DOCTYPE html>\n" + tostring(root, encoding="unicode", method="html") + "\n"
