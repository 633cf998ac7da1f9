"""The version: what the installation wrote beside the package, or the header's of the checkout."""
import pathlib
import re

PACKAGE = pathlib.Path(__file__).resolve().parent


def version():
    try:
        return (PACKAGE.parent / "version").read_text("utf-8").strip()
    except OSError:
        header = (PACKAGE.parent.parent / "include" / "katchidul.h").read_text("utf-8")
        return ".".join(re.findall(r"^#define KATCHIDUL_VERSION_M\w+ (\d+)", header, re.MULTILINE))
