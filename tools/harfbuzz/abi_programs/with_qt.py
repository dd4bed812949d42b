"""with_qt FAMILY SIZE TEXT OUT: draws a text with Qt 6's QTextLayout."""

import sys

from PyQt6.QtCore import QPointF
from PyQt6.QtGui import QFont, QGuiApplication, QImage, QPainter, QTextLayout

family, size, text, out = sys.argv[1:]
application = QGuiApplication(sys.argv[:1])
picture = QImage(900, 90, QImage.Format.Format_Grayscale8)
picture.fill(255)
layout = QTextLayout(text, QFont(family, int(size)))
layout.beginLayout()
layout.createLine().setLineWidth(880)
layout.endLayout()
painter = QPainter(picture)
layout.draw(painter, QPointF(10, 10))
painter.end()
widths = [line.naturalTextWidth() for line in (layout.lineAt(0),)]
data = picture.constBits().asstring(picture.sizeInBytes())
open(out, "wb").write(data + repr(widths).encode())
