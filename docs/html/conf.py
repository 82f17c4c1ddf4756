# Sphinx's settings for docs/site. docs/html/build.sh copies this next to the documents, with what
# they link to, and writes what Doxygen read of the headers to xml.
from pygments.lexers import AgdaLexer
from sphinx.util import logging

project = "Dethrux"
with open("VERSION", encoding="utf-8") as it:
    release = it.read().strip()
extensions = ["myst_parser", "sphinx.ext.autodoc", "breathe"]
html_theme = "sphinx_rtd_theme"
html_static_path = ["static"]
html_css_files = ["style.css"]
html_extra_path = ["extra"]
html_show_copyright = html_show_sourcelink = html_copy_source = False
myst_heading_anchors = 4
breathe_projects = {"dethrux": "xml"}
breathe_default_project = "dethrux"
autodoc_default_options = {"members": True, "imported-members": True, "undoc-members": True}
autodoc_default_options["show-inheritance"] = True
autodoc_member_order = "bysource"
# Pygments does not know Rattle's clauses, and takes definitions for Agda.
suppress_warnings = ["misc.highlighting_failure"]


def check_documentation(_app, kind, name, _value, _options, lines):
    """Warns about a name of the Python package without documentation, and drops what a field has."""
    if lines and lines[0].startswith("Alias for field"):
        lines.clear()
    if kind not in ("attribute", "data") and not any(lines):
        logging.getLogger(__name__).warning("%s has no documentation", name)


def setup(app):
    app.add_lexer("antt", AgdaLexer)
    app.connect("autodoc-process-docstring", check_documentation)
