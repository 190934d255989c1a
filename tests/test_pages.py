"""The pages tell the truth about where things are: every path in backticks is there, and every name that a path or a crate stands before.

`crates/a/b.rt`, `specs/X.antt` near a crate's name, `crate/File` (a file of its specs), `crate/edit_name` (a must-fail edit), `{a,b}` and `*`
are understood; `crate::name` is a function, a constant or a type of that crate's source.
"""

import glob
import os
import re
import unittest

ROOT = os.path.dirname(os.path.dirname(os.path.abspath(__file__)))
PAGES = sorted(
    os.path.relpath(path, ROOT)
    for pattern in ("*.md", "docs/*.md", "docs/landings/*.md", "bench/*.md", "second/*.md", "python/*.md", "tests/*.md")
    for path in glob.glob(os.path.join(ROOT, pattern))
)
CRATES = sorted(os.listdir(os.path.join(ROOT, "crates")))
# the kit's own crates, whose sources are not here
KIT = {"io", "os", "libc", "std", "check"}
# made by the build, or a reader's own
MADE = ("target/", "/dev/", "guides/", "CRATE", "crates/CRATE")


def spread(text):
    """A path with {a,b} as the paths that it stands for."""
    found = re.search(r"\{([^{}]*)\}", text)
    if not found:
        return [text]
    return [one for part in found.group(1).split(",") for one in spread(text[:found.start()] + part + text[found.end():])]


def there(path):
    """Whether something is at the path, from the root."""
    return bool(glob.glob(os.path.join(ROOT, path)))


def found(path, page, crates):
    """Whether the path is there: from the root, from the page, in crates/, in a crate that the line names, or as a must-fail edit."""
    first, _, rest = path.partition("/")
    tries = [path, os.path.join(os.path.dirname(page), path), os.path.join("crates", path)]
    tries += [os.path.join("crates", crate, path) for crate in crates]
    tries += [os.path.join("crates", crate, path + ".antt") for crate in crates]
    tries += [os.path.join("crates", first, "specs", rest + ".antt"), os.path.join("crates", first, "must-fail", rest + ".edit")]
    if not rest:
        tries.append(os.path.join("crates", "*", first))
    return any(there(one) for one in tries)


def source(crate):
    """The text of a crate's source."""
    text = ""
    for path in glob.glob(os.path.join(ROOT, "crates", crate, "src", "*.rt")):
        with open(path, encoding="utf-8") as file:
            text += file.read()
    return text


def lines(page):
    """The lines of a page outside its indented and fenced parts, each with its number."""
    fenced = False
    with open(os.path.join(ROOT, page), encoding="utf-8") as file:
        for number, line in enumerate(file, 1):
            if line.startswith("```"):
                fenced = not fenced
            elif not fenced and not line.startswith("    "):
                yield number, line


class Pages(unittest.TestCase):
    """What the pages name is there."""

    maxDiff = None

    def test_paths(self):
        """Every path in backticks."""
        missing = []
        for page in PAGES:
            near, heading = [""] * 4, ""
            for number, line in lines(page):
                near, heading = near[1:] + [line], line if line.startswith("#") else heading
                said = " ".join(near + [heading, os.path.basename(page).lower()])
                crates = [crate for crate in CRATES if re.search(r"\b%s\b" % crate, said)]
                for text in re.findall(r"`([^`\s]+)`", line):
                    if "/" not in text or not re.fullmatch(r"[\w./{},*+-]+", text) or text.startswith(MADE):
                        continue
                    for path in spread(text):
                        if not found(path.rstrip("/"), page, crates):
                            missing.append("%s:%d: %s" % (page, number, path))
        self.assertEqual(missing, [])

    def test_names(self):
        """Every `crate::name`."""
        missing = []
        for page in PAGES:
            for number, line in lines(page):
                for crate, name in re.findall(r"`(\w+)::(?:\w+::)*(\w+)`", line):
                    if crate in CRATES and not re.search(r"\b(fn|const|struct|enum|mod) %s\b" % name, source(crate)):
                        missing.append("%s:%d: %s::%s" % (page, number, crate, name))
                    elif crate not in CRATES and crate not in KIT and not there("crates/*/src/%s.rt" % crate):
                        missing.append("%s:%d: %s::%s" % (page, number, crate, name))
        self.assertEqual(missing, [])


if __name__ == "__main__":
    unittest.main()
