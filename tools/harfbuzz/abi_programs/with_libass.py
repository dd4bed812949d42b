"""with_libass LINE OUT: draws a line of subtitles with libass, through its C interface, and writes the pictures that it is made of."""

import ctypes
import sys

SCRIPT = """[Script Info]
PlayResX: 640
PlayResY: 120
[V4+ Styles]
Format: Name, Fontname, Fontsize, PrimaryColour, Alignment
Style: Default,DejaVu Sans,36,&H00FFFFFF,2
[Events]
Format: Start, End, Style, Text
Dialogue: 0:00:00.00,0:00:10.00,Default,{}
"""


class Image(ctypes.Structure):
    pass


Image._fields_ = [
    ("w", ctypes.c_int), ("h", ctypes.c_int), ("stride", ctypes.c_int), ("bitmap", ctypes.c_void_p), ("color", ctypes.c_uint32),
    ("dst_x", ctypes.c_int), ("dst_y", ctypes.c_int), ("next", ctypes.POINTER(Image)), ("type", ctypes.c_int),
]


def main():
    line, out = sys.argv[1:]
    ass = ctypes.CDLL("libass.so.9")
    for call in ("ass_library_init", "ass_renderer_init", "ass_read_memory"):
        getattr(ass, call).restype = ctypes.c_void_p
    ass.ass_render_frame.restype = ctypes.POINTER(Image)
    library = ctypes.c_void_p(ass.ass_library_init())
    renderer = ctypes.c_void_p(ass.ass_renderer_init(library))
    ass.ass_set_frame_size(renderer, 640, 120)
    ass.ass_set_fonts(renderer, None, b"DejaVu Sans", 1, None, 1)
    script = SCRIPT.format(line).encode()
    track = ctypes.c_void_p(ass.ass_read_memory(library, script, ctypes.c_size_t(len(script)), None))
    image = ass.ass_render_frame(renderer, track, ctypes.c_longlong(1000), None)
    with open(out, "wb") as written:
        while image:
            part = image.contents
            written.write(f"{part.w} {part.h} {part.dst_x} {part.dst_y} {part.color} {part.type}\n".encode())
            for row in range(part.h):
                written.write(ctypes.string_at(part.bitmap + row * part.stride, part.w))
            image = part.next


main()
