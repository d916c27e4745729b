# SPDX-License-Identifier: Apache-2.0
"""A small writer of PDF files for tests: objects by number, pages, and the table of places."""


def escaped(name):
    """A name's bytes as a PDF has them after the slash."""
    return "".join(chr(byte) if chr(byte).isalnum() and byte < 128 else f"#{byte:02X}" for byte in name)


def spot(name, look="0 .9 .8 .1"):
    """The colour space of a spot."""
    return (f"[/Separation /{escaped(name)} /DeviceCMYK << /FunctionType 2 /Domain [0 1] /C0 [0 0 0 0] /C1 [{look}] /N 1 >>]")


def spaces(names, look="0 .9 .8 .1"):
    """The colour spaces /S0, /S1 .. of spots, for a page's resources."""
    return "/ColorSpace << " + " ".join(f"/S{k} {spot(name, look)}" for k, name in enumerate(names)) + " >>"


# A font of Japan that the file lacks, as /F.
JAPAN = ("/Font << /F << /Type /Font /Subtype /Type0 /BaseFont /HeiseiKakuGo-W5-Identity-H /Encoding /Identity-H /DescendantFonts [<< /Type /Font "
         "/Subtype /CIDFontType0 /BaseFont /HeiseiKakuGo-W5 /CIDSystemInfo << /Registry (Adobe) /Ordering (Japan1) /Supplement 2 >> /FontDescriptor << "
         "/Type /FontDescriptor /FontName /HeiseiKakuGo-W5 /Flags 4 /FontBBox [-92 -250 1010 922] /ItalicAngle 0 /Ascent 752 /Descent -221 /CapHeight 737 "
         "/StemV 114 >> >>] >> >>")


class Pdf:
    """The objects of a file. The catalog is the first one, and the tree of pages the second."""

    def __init__(self):
        self.objects, self.kids = [b"", b""], []

    def add(self, text):
        """An object. Answers how it is named."""
        self.objects.append(text.encode("latin-1") if isinstance(text, str) else text)
        return f"{len(self.objects)} 0 R"

    def stream(self, entries, data):
        data = data.encode("latin-1") if isinstance(data, str) else data
        return self.add(f"<< {entries} /Length {len(data)} >>\nstream\n".encode("latin-1") + data + b"\nendstream")

    def page(self, content, size=(120, 48), resources="", more=""):
        """A page. `more` stands in its dictionary; where it has a MediaBox, no other is written."""
        box = "" if "/MediaBox" in more else f"/MediaBox [0 0 {size[0]} {size[1]}]"
        drawn = self.stream("", content)
        self.kids.append(self.add(f"<< /Type /Page /Parent 2 0 R {box} {more} /Contents {drawn} /Resources << {resources} >> >>"))

    def image(self, entries, data):
        return self.stream("/Type /XObject /Subtype /Image " + entries, data)

    def bytes(self, catalog="", version="1.7"):
        self.objects[0] = f"<< /Type /Catalog /Pages 2 0 R {catalog} >>".encode("latin-1")
        self.objects[1] = f"<< /Type /Pages /Kids [{' '.join(self.kids)}] /Count {len(self.kids)} >>".encode()
        file, places = f"%PDF-{version}\n".encode(), []
        for number, thing in enumerate(self.objects, 1):
            places.append(len(file))
            file += f"{number} 0 obj\n".encode() + thing + b"\nendobj\n"
        start = len(file)
        file += f"xref\n0 {len(places) + 1}\n0000000000 65535 f \n".encode()
        file += b"".join(f"{place:010d} 00000 n \n".encode() for place in places)
        return file + f"trailer << /Size {len(places) + 1} /Root 1 0 R >>\nstartxref\n{start}\n%%EOF\n".encode()
