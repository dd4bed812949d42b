"""with_pil FONT TEXT LANGUAGE FEATURE OUT: draws a text with Python's PIL and libraqm."""

import sys
from PIL import Image, ImageDraw, ImageFont
path, text, language, feature, out = sys.argv[1:]
font = ImageFont.truetype(path, 36, layout_engine=ImageFont.Layout.RAQM)
picture = Image.new("L", (900, 70), 255)
ImageDraw.Draw(picture).text((10, 8), text, font=font, fill=0, language=language or None, features=[feature] if feature else None)
open(out, "wb").write(picture.tobytes() + str(font.getlength(text)).encode())
