# SPDX-License-Identifier: Apache-2.0
"""The trials of places, rights, disks and two runs at once."""
from . import places, rights
from .cases import CASES, WRITING, names_of

RACES, SHORT_RACES = 40, 6

OUTPUT_WAYS = [
    places.a_folder, places.a_link, places.a_link_by_its_whole_path, places.a_link_to_nothing, places.a_link_into_no_folder,
    places.a_link_to_itself, places.another_name, places.a_name_that_is_taken, places.a_device_that_is_full,
    places.standard_output, places.standard_output_into_a_file, places.standard_output_onto_a_file, places.a_file_that_is_open,
    places.a_pipe, places.the_input, rights.a_file_that_may_not_be_written, rights.a_file_of_another, rights.a_file_of_another_as_nobody,
]
INPUT_WAYS = [places.a_missing_input, places.a_folder_to_read, places.a_pipe_to_read, rights.an_unreadable_input]


def about(way, *names):
    return " ".join([way.__name__.replace("_", " "), *names])


def at(way, case, name):
    with places.Place(case, name) as place:
        return way(place)


def some(choices, is_short):
    """All, or in a short trial the first and the last."""
    return choices if not is_short or len(choices) < 3 else [choices[0], choices[-1]]


def all_of(program, library, is_short):
    """All trials of a program, each as a text that says what it does and a call that says what was wrong."""
    for case in CASES:
        if case.program != program:
            continue
        if case in WRITING:
            yield from of_outputs(case, library, is_short)
            yield from of_disks(case, is_short)
        yield from of_inputs(case, is_short)
        if places.plain_of(case).told:
            yield "no reader of " + case.words[0], lambda case=case: places.no_reader(case)
    for case, is_right in names_of(program):
        yield "name %s" % case.words[2][:20], lambda case=case, is_right=is_right: places.named(case, is_right)


def of_outputs(case, library, is_short):
    # What stands in place of an output that is an input too could not be read.
    for name in some([name for name in case.writes if name not in case.files], is_short):
        for way in OUTPUT_WAYS:
            yield about(way, name), lambda way=way, name=name: at(way, case, name)
        way = rights.an_owner_that_may_not_be_given
        yield about(way, name), lambda way=way, name=name: at(lambda place: way(place, library), case, name)


def of_inputs(case, is_short):
    for name in some(list(case.reads), is_short):
        for way in INPUT_WAYS:
            # A run opens its plates for each page, and a plate that is replaced is no pipe afterwards.
            if way is places.a_pipe_to_read and (case.pages and name != "job" or name in case.writes):
                continue
            if way is places.a_pipe_to_read and case.together and name != "job":
                way = places.a_pipe_to_read_twice
            yield about(way, name), lambda way=way, name=name: at(way, case, name)


def of_disks(case, is_short):
    yield "a full disk", lambda: rights.a_full_disk(case, is_short)
    yield "a read only disk", lambda: rights.a_read_only_disk(case)
    yield "a folder that may not be changed", lambda: rights.a_folder_that_may_not_be_changed(case)
    yield "a folder without rights", lambda: rights.a_folder_without_rights(case)
    yield "two at once", lambda: rights.two_at_once(case, SHORT_RACES if is_short else RACES)
