"""with_gtk4 FAMILY SIZE TEXT OUT: draws a label in a window of GTK 4, through its C interface."""

import ctypes
import sys
from xml.sax.saxutils import escape

family, size, text, out = sys.argv[1:]
gtk = ctypes.CDLL("libgtk-4.so.1")


def made(call, *arguments):
    """What a call makes, to which these addresses and texts are passed."""
    function = getattr(gtk, call)
    function.restype = ctypes.c_void_p
    return ctypes.c_void_p(function(*arguments))


def drawing(widget):
    """What a widget draws, as a node of a scene; none before it has its place in the window."""
    snapshot = made("gtk_snapshot_new")
    width, height = (ctypes.c_double(measure(widget)) for measure in (gtk.gtk_widget_get_width, gtk.gtk_widget_get_height))
    gtk.gdk_paintable_snapshot(made("gtk_widget_paintable_new", widget), snapshot, width, height)
    return made("gtk_snapshot_free_to_node", snapshot)


gtk.gtk_init()
label, window = made("gtk_label_new", None), made("gtk_window_new")
gtk.gtk_label_set_markup(label, f'<span font="{family} {size}">{escape(text)}</span>'.encode())
gtk.gtk_window_set_child(window, label)
gtk.gtk_window_present(window)
while not (node := drawing(label)):
    gtk.g_main_context_iteration(None, 1)
texture = made("gsk_renderer_render_texture", made("gtk_native_get_renderer", window), node, None)
gtk.gdk_texture_save_to_png(texture, out.encode())
