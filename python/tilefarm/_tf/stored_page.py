"""Pages as one file: style, modules and data stand in it, and it needs no server."""
import base64
import hashlib
import json
import os
import re

PAGE = f"{os.path.dirname(os.path.realpath(__file__))}/page"
IMPORT = re.compile(r'^import \{[^}]*\} from "\./(\w+\.js)";\n', re.M)
EXPORT = re.compile(r"^export (?=(?:async )?(?:function|class|const) )", re.M)
DECLARED = re.compile(r"^(?:export )?(?:async )?(?:function|class|const|let) (\w+)", re.M)


def page_of(name: str, module: str, data: dict) -> str:
    """A page with its style, its modules and its data in it. Nothing else is allowed to it, and nothing is loaded."""
    style, script = page_file("page.css"), joined_modules(module)
    policy = (f"default-src 'none'; script-src {hashed(script)}; style-src {hashed(style)}; img-src data: blob:; base-uri 'none'; "
              "form-action 'none'")
    text = json.dumps(data, separators=(",", ":")).replace("<", "\\u003c")
    changes = {
        '<meta name="color-scheme"': f'<meta http-equiv="Content-Security-Policy" content="{policy}">\n<meta name="color-scheme"',
        '<link rel="icon" href="icon.svg">\n': "",
        '<link rel="stylesheet" href="page.css">': f"<style>{style}</style>",
        f'<script type="module" src="{module}"></script>\n': "",
        "</body>": f'<script type="application/json" id="stored">{text}</script>\n<script type="module">{script}</script>\n</body>',
    }
    page = page_file(name)
    for old, new in changes.items():
        page = page.replace(old, new)
    return page


def hashed(text: str) -> str:
    """How a policy names a script or a style that stands in the page."""
    return f"'sha256-{base64.b64encode(hashlib.sha256(text.encode()).digest()).decode()}'"


def page_file(name: str) -> str:
    with open(os.path.join(PAGE, name), encoding="utf-8") as file:
        return file.read()


def joined_modules(first: str) -> str:
    """A module and all that it imports as one, each behind what it imports. Their names must differ."""
    texts: dict[str, str] = {}

    def add(name: str) -> None:
        if name not in texts:
            text = page_file(name)
            for needed in IMPORT.findall(text):
                add(needed)
            texts[name] = text

    add(first)
    names = [it for text in texts.values() for it in DECLARED.findall(text)]
    doubled = {it for it in names if names.count(it) > 1}
    if doubled:
        raise AssertionError(f"modules of the page share the names {sorted(doubled)}")
    return "\n".join(EXPORT.sub("", IMPORT.sub("", text)) for text in texts.values())
