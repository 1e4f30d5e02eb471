"""PDF pages of a few objects, written byte by byte, for the checks of the night."""

POINT = 72 / 25.4


def document(objects, head=b"%PDF-1.4\n"):
    """The bytes of a PDF of these objects, numbered from 1; the first is its catalogue."""
    data, places = bytearray(head), []
    for number, body in enumerate(objects, 1):
        places.append(len(data))
        data += b"%d 0 obj\n%s\nendobj\n" % (number, body)
    start = len(data)
    data += b"xref\n0 %d\n0000000000 65535 f \n" % (len(objects) + 1)
    data += b"".join(b"%010d 00000 n \n" % place for place in places)
    data += b"trailer\n<< /Size %d /Root 1 0 R >>\n" % (len(objects) + 1)
    return bytes(data + b"startxref\n%d\n%%%%EOF\n" % start)


def page(content, size, resources=b"", more=()):
    """The bytes of a PDF of one page of `size` in millimetres, with this content."""
    width, height = (side * POINT for side in size)
    box = b"[0 0 %.4f %.4f]" % (width, height)
    return document(
        [
            b"<< /Type /Catalog /Pages 2 0 R >>",
            b"<< /Type /Pages /Kids [3 0 R] /Count 1 >>",
            b"<< /Type /Page /Parent 2 0 R /MediaBox %s /TrimBox %s /Contents 4 0 R /Resources << %s >> >>"
            % (box, box, resources),
            b"<< /Length %d >>\nstream\n%s\nendstream" % (len(content), content),
            *more,
        ]
    )


def spot(name):
    """The resources of a page that has the separation `name` as its colour space /Spot, over cyan."""
    tint = b"<< /FunctionType 2 /Domain [0 1] /C0 [0 0 0 0] /C1 [1 0 0 0] /N 1 >>"
    return b"/ColorSpace << /Spot [/Separation /%s /DeviceCMYK %s] >>" % (name, tint)
