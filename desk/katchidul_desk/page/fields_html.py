"""The form in HTML. A field's label, hint and sentence are tied to it, so that a screen reader says all three."""
from ..preview.markup import element, joined
from . import form


def control(field, value, wrong):
    described = " ".join(["%s-hint" % field.id] * bool(field.hint) + ["%s-wrong" % field.id])
    shared = {"id": field.id, "name": field.id, "aria_describedby": described, "aria_invalid": "true" if wrong else None}
    if field.choices is None:
        names = "zones" if field.name == "zone" else None
        return element("input", type="text", value=value, autocomplete="off", spellcheck="false", list=names, **shared)
    return element("select", [element("option", label, value=name, selected=name == value) for name, label in field.choices], **shared)


def one(field, value, wrong):
    """The sentence's element is there even if it is empty: only then does a screen reader speak a sentence that comes into it."""
    hint = element("p", field.hint, id=field.id + "-hint", class_="hint") if field.hint else None
    sentence = element("p", wrong or "", id=field.id + "-wrong", class_="wrong", aria_live="polite")
    return element("div", element("label", field.label, for_=field.id), hint, control(field, value, wrong), sentence, class_="field")


def group(part, values, faults):
    return element(
        "fieldset", element("legend", part.title), element("p", part.hint, class_="hint") if part.hint else None,
        element("div", [one(field, values[field.name], faults.get(field.name)) for field in part.fields], class_="fields"))


def summary(faults):
    """The faults above the form, each a link to its field."""
    if not faults:
        return None
    wrong = [field for field in form.FIELDS if field.name in faults]
    links = [element("a", "%s: %s" % (field.label, faults[field.name]), href="#" + field.id) for field in wrong]
    title = "One field is not right yet" if len(links) == 1 else "%d fields are not right yet" % len(links)
    lines = element("ul", [element("li", link) for link in links])
    return element("div", element("h3", title), lines, id="faults", class_="notice", role="alert", tabindex=-1, autofocus=True)


def zone_list(names):
    return element("datalist", [element("option", value=name) for name in names], id="zones")


def whole(values, faults, zones):
    """The form, with its faults above it. The other choices are open if one of them is used or wrong."""
    more_used = any(values[field.name] or field.name in faults for part in form.MORE for field in part.fields)
    more = element("details", element("summary", "More choices"), [group(part, values, faults) for part in form.MORE], open=more_used)
    return joined(summary(faults), element(
        "form", [group(part, values, faults) for part in form.MAIN], more, zone_list(zones),
        element("p", element("button", "Show the pages", type="submit", class_="main")), id="order", method="get", action="/"))
