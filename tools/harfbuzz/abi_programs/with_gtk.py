"""with_gtk FAMILY SIZE TEXT OUT: draws a label in a window of GTK 3."""

import sys

import gi

gi.require_version("Gtk", "3.0")
from gi.repository import GLib, Gtk, Pango  # noqa: E402

family, size, text, out = sys.argv[1:]
label = Gtk.Label(label=text)
attributes = Pango.AttrList()
attributes.insert(Pango.attr_font_desc_new(Pango.FontDescription(f"{family} {size}")))
label.set_attributes(attributes)
window = Gtk.OffscreenWindow()
window.add(label)
window.show_all()
loop = GLib.MainLoop()


def written():
    pixels = window.get_pixbuf()
    open(out, "wb").write(f"{pixels.get_width()} {pixels.get_height()}\n".encode() + pixels.get_pixels())
    loop.quit()


GLib.timeout_add(300, written)
loop.run()
