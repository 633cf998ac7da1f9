"""A strict reading of HTML for the tests: every element ends as it should, and nothing is loaded from elsewhere."""
import html.parser
import re

VOID = {"br", "input", "link", "meta"}


class Element:
    def __init__(self, name, attributes, parent):
        self.name, self.attributes, self.parent, self.children = name, attributes, parent, []

    def all(self, name=None, /, **wanted):
        """The elements below this one in the document's order, by name and by attributes; class_ asks for one of the classes."""
        for child in self.children:
            if isinstance(child, Element):
                if (name is None or child.name == name) and child.has(wanted):
                    yield child
                yield from child.all(name, **wanted)

    def one(self, name=None, /, **wanted):
        found = list(self.all(name, **wanted))
        assert len(found) == 1, "%d of %s %s" % (len(found), name, wanted)
        return found[0]

    def has(self, wanted):
        classes = (self.attributes.get("class") or "").split()
        return all(value in classes if key == "class_" else self.attributes.get(key) == value for key, value in wanted.items())

    @property
    def text(self):
        return "".join(child if isinstance(child, str) else child.text for child in self.children)


class Reader(html.parser.HTMLParser):
    def __init__(self):
        super().__init__(convert_charrefs=True)
        self.root = self.at = Element("", {}, None)
        self.faults = []

    def handle_starttag(self, tag, attrs):
        names = [name for name, _ in attrs]
        if len(names) != len(set(names)):
            self.faults.append("<%s> has an attribute twice" % tag)
        element = Element(tag, dict(attrs), self.at)
        self.at.children.append(element)
        if tag not in VOID:
            self.at = element

    def handle_endtag(self, tag):
        if self.at.name != tag:
            self.faults.append("</%s> ends <%s>" % (tag, self.at.name))
        else:
            self.at = self.at.parent

    def handle_data(self, data):
        self.at.children.append(data)


def read(text):
    """The document's root, and what is wrong with its form."""
    reader = Reader()
    reader.feed(text)
    reader.close()
    if reader.at is not reader.root:
        reader.faults.append("<%s> has no end" % reader.at.name)
    return reader.root, reader.faults


def form_faults(root):
    """What would confuse a browser or a screen reader: ids twice or missing, headings that skip a level, tables without scopes."""
    elements = list(root.all())
    ids = [element.attributes["id"] for element in elements if "id" in element.attributes]
    faults = ["id %s twice" % one for one in set(ids) if ids.count(one) > 1]
    labelled = [label.attributes["for"] for label in root.all("label")]
    for element in elements:
        for name in ("for", "aria-labelledby", "aria-describedby", "list"):
            wanted = (element.attributes.get(name) or "").split()
            faults += ["%s of <%s>: no %s" % (name, element.name, one) for one in wanted if one not in ids]
        if element.name == "th" and element.attributes.get("scope") not in ("row", "col"):
            faults.append("<th> without a scope")
        if element.name == "svg" and element.attributes.get("role") == "img" and not list(element.all("title")):
            faults.append("a picture without a title")
        typed = element.name in ("input", "select") and element.attributes.get("type") != "hidden"
        if typed and element.attributes.get("id") not in labelled:
            faults.append("<%s> without a label" % element.name)
    levels = [int(element.name[1]) for element in elements if re.fullmatch("h[1-6]", element.name)]
    if levels[:1] != [1] or any(after > before + 1 for before, after in zip(levels, levels[1:])):
        faults.append("headings %s" % levels)
    return faults


def outside(root):
    """What a document loads or links to that is not in it. `own` paths of a server begin with a slash."""
    found = []
    for element in root.all():
        for name, value in element.attributes.items():
            if name in ("href", "src", "action", "formaction", "data", "poster", "srcset", "xlink:href") and not value.startswith("#"):
                found.append(value)
            if name.startswith("on") or name == "style" or "url(" in (value or ""):
                found.append("%s=%s" % (name, value))
        if element.name in ("script", "iframe", "object", "embed", "img", "base"):
            found.append(element.name)
        if element.name == "style" and re.search(r"url\(|@import|expression", element.text):
            found.append("style with a link")
    return found
