# SPDX-License-Identifier: Apache-2.0
"""What random cases are made of: a folder of files, and the words that a program is called with in that folder."""
from collections import namedtuple

from . import jobs, pictures, plates

# `files` by name, with None for a folder; where `mute`, standard output takes no byte.
Case = namedtuple("Case", "program words files mute")

# A file of the system that can be opened and takes no byte.
FULL = "/dev/full"
FOLDER = "folder"


def file_name(rng, stem):
    """A name for a file, some of them odd."""
    if rng.random() < 0.95:
        return stem
    return rng.choice([FOLDER + "/" + stem, "é" + stem, *(stem + end for end in ("=", ".0", ".x1", "%", "\\", "."))])


def output_name(rng, stem):
    """A name for an output; some can't be created or written."""
    if rng.random() < 0.985:
        return file_name(rng, stem)
    return rng.choice([FOLDER, "nowhere/" + stem, (stem + "-") * 100, FULL])


def input_name(rng, stem, files, data):
    """A name under which the bytes stand among the files; some stand nowhere."""
    name = file_name(rng, stem)
    if rng.random() < 0.01:
        return rng.choice([FOLDER, "missing", "nowhere/" + stem])
    files[name] = data
    return name


def one_page(rng, files, picture=None, broken=0.03):
    """A job and plates: their names, the colorants', and a report's."""
    picture = picture or pictures.picture(rng)
    long = rng.random() < 0.006
    job = input_name(rng, "job", files, jobs.long_job(rng) if long else jobs.job(rng, picture))
    inputs = [input_name(rng, "p%d" % plate, files, plates.plate_file(rng, picture, plate, broken))
              for plate in range(len(picture.planes))]
    return picture, job, inputs


def outputs(rng, inputs, suffix=""):
    """Names for outputs; some are names of inputs, and some stand twice."""
    names = [output_name(rng, "o%d%s" % (plate, suffix)) for plate in range(len(inputs))]
    if rng.random() < 0.05:
        names[rng.randrange(len(names))] = rng.choice(inputs + names)
    return names


def joined(*columns):
    return [":".join(parts) for parts in zip(*columns)]


def with_bad_words(rng, words, share=0.06):
    """In some cases a word is taken out, doubled, put in or changed."""
    if rng.random() >= share:
        return words
    words, place = list(words), rng.randrange(len(words) + 1)
    kind = rng.randrange(5)
    if kind == 0:
        words[place:] = []
    elif kind == 1:
        words[place:place + 1] = []
    elif kind == 2:
        words.insert(place, rng.choice(words))
    elif kind == 3:
        words.insert(place, rng.choice(["", "-", "--", "x", "-x", "--help", "-h", "help", "0", "a:b", "a:b:c", "C:a:"]))
    elif place < len(words):
        words[place] = changed(rng, words[place])
    return words


def changed(rng, word):
    """A word with one character more, less or another; never one that names a file outside the case's folder."""
    place = rng.randint(0, len(word))
    odd = rng.choice([":", "", " ", "(", "/", "é", "%", "0", "+", "x", "n" * 70])
    made = rng.choice([word[:place] + odd + word[place:], word[:place] + odd + word[place + 1:],
                       word[:place] + word[place + 1:], odd])
    return word if any(part.startswith("/") for part in made.split(":")) or "//" in made else made


def number_word(rng, number):
    """A number's spelling: up to ten digits."""
    return rng.choice([str(number)] * 8 + [str(number).zfill(rng.randint(1, 10))])


def wrong_number(rng, greatest):
    return rng.choice(["0", str(greatest + 1), "+1", "-1", "1x", "", "00000000001", " 1", "4294967297", "1.0", "٣"])


def workers_word(rng, share=0.02):
    return wrong_number(rng, 64) if rng.random() < share else number_word(rng, rng.choice([1, 2, 3, 4, 7, 64]))


def band_word(rng, share=0.02):
    if rng.random() < share:
        return wrong_number(rng, 4096)
    return number_word(rng, rng.choice([1, 1, 2, 3, 5, 8, 64, 4096]))
