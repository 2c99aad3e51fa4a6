"""The site of the pages: Sphinx with MyST and furo, as Debian packages them, without a network.

`./issuer docs` runs it over a copy of the pages. Links, and the anchors that they name, are checked by the build.
"""
import pathlib
import re

import furo
from pygments.lexers.special import TextLexer
from sphinx.highlighting import lexers

project = "issuer"
extensions = ["myst_parser"]
root_doc = "index"
source_suffix = {".md": "markdown"}
myst_heading_anchors = 4  # the anchors of GitHub, down to ####
highlight_language = "none"
lexers["antt"] = TextLexer()  # definitions and proofs have no lexer of their own
smartquotes = False  # quotation marks and "--option" stay as they are written
html_theme = "furo"
html_title = "issuer"
html_css_files = ["wide.css"]
html_copy_source = False
html_show_sourcelink = False
html_show_sphinx = False
html_show_copyright = False
html_show_search_summary = False  # it would fetch pages, which a browser refuses of files

# Debian 12 has furo 2022.12.07 from its sources: the script is an ES module that is loaded as none, so it stops at its
# first line; the style sheet lacks the rule that follows the system's dark mode, and takes normalize.css from the root
# of a web server. Each is made here if the fault is there.
HERE = pathlib.Path(__file__).parent
THEME = pathlib.Path(furo.__file__).parent / "theme/furo/static"
MADE = HERE / "made"
NORMALIZE = pathlib.Path("/usr/share/javascript/normalize.css/normalize.css")
html_static_path = ["static", "made"]
(MADE / "scripts").mkdir(parents=True, exist_ok=True)
(MADE / "styles").mkdir(exist_ok=True)
script = (THEME / "scripts/furo.js").read_text(encoding="utf-8")
if script.startswith("import Gumshoe"):
    scrolling = (THEME / "scripts/gumshoe-patched.js").read_text(encoding="utf-8")
    (MADE / "scripts/furo.js").write_text(scrolling + script.split("\n", 1)[1], encoding="utf-8")
style = (THEME / "styles/furo.css").read_text(encoding="utf-8")
dark = re.search(r'body\[data-theme="dark"\] \{(?P<rules>[^}]*)\}', style)
if "prefers-color-scheme" not in style and dark:
    rules = f'body:not([data-theme="light"]) {{{dark["rules"]}}}'
    media = f"@media not print {{ @media (prefers-color-scheme: dark) {{ {rules} }} }}\n"
    (MADE / "dark.css").write_text(media, encoding="utf-8")
    html_css_files = ["dark.css", "wide.css"]
if re.search(r"@import [^;]*normalize[^;]*;", style) and NORMALIZE.exists():
    normal = NORMALIZE.read_text(encoding="utf-8")
    whole = re.sub(r"@import [^;]*normalize[^;]*;", lambda _: normal, style)
    (MADE / "styles/furo.css").write_text(whole, encoding="utf-8")
