#!/usr/bin/env python3
"""Writes play.sheet, a radio play of level 1, beside this script. README.md explains its records."""
import pathlib
import struct

ABSENT, SILENCE = 32767, -32768
NO_RANGE = (ABSENT, ABSENT)
INTEGRATED, DIALOGUE, BOTH = 1, 2, 3
DIRECT_SPEAKERS, OBJECTS = 1, 3
EDITION, LEVEL = 1, 1

references = []


def entries(*values):
    """A list: its first word and count, with its entries put at the end of section 6."""
    first = len(references)
    references.extend(values)
    return [first, len(values)]


def language(code):
    first, second, third = (ord(letter) - ord("a") + 1 for letter in code)
    return 1024 * first + 32 * second + third


def programme(code, contents, sets=(), labels=()):
    return [language(code), *entries(*contents), *entries(*sets), *entries(*map(language, labels)), BOTH]


def content(code, an_object, loudness):
    return [language(code), an_object, *entries(), loudness]


def sound(pack, tracks, complements=(), gain=ABSENT, gains=NO_RANGE, offset=ABSENT, offsets=NO_RANGE, sets=(0, 0)):
    """An object without children; a listener may move it if it has a range."""
    interact = int(gains != NO_RANGE or offsets != NO_RANGE)
    lists = [*entries(*tracks), *entries(), *entries(*complements)]
    return [pack, *lists, interact, gain, *gains, offset, *offsets, *sets]


def value_set(gain, gains, offset, offsets):
    return [gain, 1, *gains, offset, *offsets]


STEREO, VOICE, EFFECT = range(3)
packs = [
    [DIRECT_SPEAKERS, 2, 0],
    [OBJECTS, 1, 1],
    [OBJECTS, 1, 1],
]

BED_LEFT, BED_RIGHT, ENGLISH, GERMAN, FRENCH, RAIN, DOOR = range(7)
tracks = [
    [STEREO, 0],
    [STEREO, 1],
    [VOICE, 0],
    [VOICE, 0],
    [VOICE, 0],
    [EFFECT, 0],
    [EFFECT, 0],
]

voice = {"gain": 0, "gains": (-60, 90)}
objects = [
    sound(STEREO, [BED_LEFT, BED_RIGHT]),
    sound(VOICE, [ENGLISH], complements=[2, 3], **voice),
    sound(VOICE, [GERMAN], **voice),
    sound(VOICE, [FRENCH], **voice),
    sound(EFFECT, [RAIN], gain=-30, gains=(-300, 60), offset=100, offsets=(-300, 300), sets=(0, 1)),
    sound(EFFECT, [DOOR], gains=(SILENCE, 0), offset=-150, offsets=(-300, 0)),
]

sets = [value_set(-120, (-300, 0), ABSENT, (0, 200))]

# zxx: no language
contents = [
    content("zxx", 0, INTEGRATED),
    content("eng", 1, DIALOGUE),
    content("deu", 2, DIALOGUE),
    content("fra", 3, DIALOGUE),
    content("zxx", 4, INTEGRATED),
    content("zxx", 5, INTEGRATED),
]

programmes = [
    programme("eng", [0, 1, 2, 3, 4, 5], labels=["eng", "deu", "fra"]),
    programme("deu", [0, 2, 4], sets=[0], labels=["deu"]),
]

sections = [programmes, contents, objects, packs, tracks, [[entry] for entry in references], sets]
header, body = [EDITION, LEVEL], []
for records in sections:
    header += [len(records), 16 + len(body)]
    body += [word for record in records for word in record]

sheet = struct.pack(f">{16 + len(body)}H", *(word % 65536 for word in header + body))
pathlib.Path(__file__).with_name("play.sheet").write_bytes(sheet)
