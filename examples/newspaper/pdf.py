"""The newspaper's pages as PDF files, out of the layers that the plan has for them: see ISO 32000-1, 8.9
and 11.7.4.

A contone layer is an image in DeviceCMYK, a line layer an image mask that is filled with its ink; S is the
separation HOUSE. Each page has a bleed of its own width around its trim box, and nothing in it.
"""
import zlib

# Points around the trim box; 150 pixels of 1200 an inch.
BLEED = 9
SEPARATION = (
    "[/Separation /HOUSE /DeviceCMYK << /FunctionType 2 /Domain [0 1] /C0 [0 0 0 0] /C1 [0.9 0.3 0 0] /N 1 >>]"
)


class Pdf:
    """The objects of a file under way."""

    def __init__(self):
        self.objects = []

    def add(self, text, data=None):
        """Adds a dictionary, or a stream of it and these data, and returns its number."""
        if data is not None:
            data = zlib.compress(data, 6)
            text = f"<< {text} /Filter /FlateDecode /Length {len(data)} >>"
        self.objects.append((text, data))
        return len(self.objects)

    def write(self, path, root):
        out, places = bytearray(b"%PDF-1.4\n%\xe2\xe3\xcf\xd3\n"), []
        for number, (text, data) in enumerate(self.objects, 1):
            places.append(len(out))
            out += f"{number} 0 obj\n{text}\n".encode()
            out += b"stream\n" + data + b"\nendstream\n" if data is not None else b""
            out += b"endobj\n"
        start = len(out)
        out += f"xref\n0 {len(places) + 1}\n0000000000 65535 f \n".encode()
        out += b"".join(b"%010d 00000 n \n" % place for place in places)
        out += f"trailer << /Size {len(places) + 1} /Root {root} 0 R >>\nstartxref\n{start}\n%%EOF\n".encode()
        with open(path, "wb") as file:
            file.write(out)


def line_image(pdf, bitmap, mask):
    """An image mask of a bitmap where its own mask admits it."""
    rows = bitmap.rows if mask is None else [row & open_ for row, open_ in zip(bitmap.rows, mask.rows)]
    size = (bitmap.width + 7) // 8
    data = b"".join((row << (8 * size - bitmap.width)).to_bytes(size, "big") for row in rows)
    head = f"/Type /XObject /Subtype /Image /Width {bitmap.width} /Height {bitmap.height}"
    return pdf.add(f"{head} /ImageMask true /BitsPerComponent 1 /Decode [1 0]", data)


def picture_image(pdf, picture):
    head = f"/Type /XObject /Subtype /Image /Width {picture.width} /Height {picture.height}"
    return pdf.add(f"{head} /ColorSpace /DeviceCMYK /BitsPerComponent 8", b"".join(picture.rows))


def layer_content(layer, image, dpi, height):
    """The operators that paint a layer, whose image is /I and its number in the page."""
    scale, name = layer.get("scale", 1), layer["image"]
    wide, high = image.width * scale * 72 / dpi, image.height * scale * 72 / dpi
    left, top = layer.get("x", 0) * 72 / dpi, layer.get("y", 0) * 72 / dpi
    ink = [value / 255 for value in (layer.get("ink", [0, 0, 0, 255]) + [0])[:5]]
    state = "/Over gs" if layer.get("paint") == "overprint" else "/Knock gs"
    colour = f"/House cs {ink[4]:.6f} scn" if ink[4] else " ".join(f"{value:.6f}" for value in ink[:4]) + " k"
    place = f"{wide:.6f} 0 0 {high:.6f} {left + BLEED:.6f} {height + BLEED - top - high:.6f} cm"
    return f"q {state} {colour if layer['kind'] == 'line' else ''} {place} /{name} Do Q\n"


def write_page(path, page, images, size, dpi):
    """Writes a page of the plan as a PDF file. `images` has what each file of its layers was drawn as."""
    pdf, content, resources = Pdf(), "", ""
    width, height = (side * 72 / dpi for side in size)
    for number, layer in enumerate(page["layers"]):
        image, mask = images[layer["file"]], images.get(layer.get("mask"))
        drawn = line_image(pdf, image, mask) if layer["kind"] == "line" else picture_image(pdf, image)
        resources += f"/I{number} {drawn} 0 R "
        content += layer_content(layer | {"image": f"I{number}"}, image, dpi, height)
    stream = pdf.add("", content.encode())
    box = f"[0 0 {width + 2 * BLEED:.4f} {height + 2 * BLEED:.4f}]"
    trim = f"[{BLEED} {BLEED} {width + BLEED:.4f} {height + BLEED:.4f}]"
    over = "/Over << /OP true /op true /OPM 1 >> /Knock << /OP false /op false /OPM 0 >>"
    number = len(pdf.objects) + 1
    pdf.add(
        f"<< /Type /Page /Parent {number + 1} 0 R /MediaBox {box} /BleedBox {box} /TrimBox {trim} /Contents {stream}"
        f" 0 R /Resources << /XObject << {resources}>> /ExtGState << {over} >> /ColorSpace << /House {SEPARATION} >>"
        " >> >>"
    )
    pdf.add(f"<< /Type /Pages /Kids [{number} 0 R] /Count 1 >>")
    pdf.write(path, pdf.add(f"<< /Type /Catalog /Pages {number + 1} 0 R >>"))
