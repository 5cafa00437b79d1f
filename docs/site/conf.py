"""How Sphinx makes the site of the pages that bin/docs has laid out: MyST reads them, and furo is the theme."""

import re

project = "Hikebox"
author = "The Hikebox authors"
html_title = "Hikebox"
root_doc = "index"
extensions = ["myst_parser", "sphinx.ext.autodoc"]

html_theme = "furo"
html_show_sphinx = False
html_show_copyright = False
html_copy_source = False
html_static_path = ["site.css"]
html_css_files = ["site.css"]
pygments_style = "friendly"
pygments_dark_style = "monokai"
highlight_language = "none"
# (Rattle's ghost lines are no Rust)
suppress_warnings = ["misc.highlighting_failure"]

myst_heading_anchors = 6
myst_links_external_new_tab = False

# In a docstring `name` is a name of the package, or else code.
default_role = "py:obj"
autodoc_member_order = "bysource"
autodoc_typehints = "none"
autodoc_preserve_defaults = True
add_module_names = False
python_use_unqualified_type_names = True

# Members that the package's own modules call, and users don't.
INTERNAL = {
    *("TAKES_BACK", "begin_anew", "begin_retry", "begin_with", "comes_back", "cost_of", "generation", "give_back"),
    *("is_read", "is_refused", "lend", "make", "may_come_back_to", "millis", "moment_of", "not_pickled", "of_node"),
    *("on_storm", "reads_clock", "retry_drawing", "switches"),
}


def is_skipped(app, what, name, obj, skip, options):
    """Whether a member is left out: None leaves it to Sphinx."""
    return True if name in INTERNAL else None


def without_places(app, what, name, obj, options, signature, returned):
    """A signature without the places in memory of the defaults that have no text of their own, and with the values of
    those that have the name of something of a module's own."""
    if signature:
        values = getattr(obj, "__kwdefaults__", None) or {}
        named = {name: f"{name}={value!r}" for name, value in values.items()}
        signature = re.sub(r"(\w+)=_[\w.]+", lambda found: named.get(found[1], found[0]), signature)
        signature = re.sub(r"<(?:built-in |bound )?(?:function|method) (\w+)[^<>]*>", r"\1", signature)
    return signature, returned


def setup(app):
    app.connect("autodoc-process-signature", without_places)
    app.connect("autodoc-skip-member", is_skipped)
