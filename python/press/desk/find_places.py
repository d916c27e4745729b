# SPDX-License-Identifier: Apache-2.0
"""Where thin strokes are on the plates of a page, by a process of its own that the editor can stop:

    python3 -m press.desk.find_places FOLDER

prints the places for the job in a page's folder: a list of the trap's width in points and the rectangle.
"""
import json
import sys

from press.folder import PageFolder
from press.zones_anew import find_places

if __name__ == "__main__":
    json.dump(list(find_places(PageFolder.read(sys.argv[1]))), sys.stdout)
