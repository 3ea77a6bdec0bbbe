#!/usr/bin/env python3
"""Writes the mode and the errors of each node of a plan, and the verdict of its run, by the library of Wireline.

usage: report.py PLAN [LIBRARY]     LIBRARY is libwireline.so if none is named

Its status is that of the library: 1 if the plan is refused, and then what is wrong with the plan is on standard error.
"""
import ctypes
import json
import sys

DONE, REFUSED, ROOM = 0, 1, 4
TEXT, JSON = 0, 1


class Asked(ctypes.Structure):
    _fields_ = [("format", ctypes.c_uint32), ("tick", ctypes.c_uint32), ("all_send", ctypes.c_uint32)]


def command(library, name):
    """Returns a command of the library, as a function of a plan's bytes and the form of the output. It returns the status and the output."""
    does = getattr(library, f"wireline_{name}")
    size, bytes_at = ctypes.c_size_t, ctypes.c_char_p
    does.restype = ctypes.c_uint32
    does.argtypes = [bytes_at, size, ctypes.POINTER(Asked), ctypes.c_void_p, size, ctypes.POINTER(size)]

    def call(plan, form=TEXT, room=4096):
        asked, needed = Asked(form, 0, 0), size()
        while True:
            out = ctypes.create_string_buffer(room)
            status = does(plan, len(plan), ctypes.byref(asked), out, room, ctypes.byref(needed))
            if status != ROOM: return status, out.raw[:needed.value]
            room = needed.value

    return call


def main(name, library="libwireline.so"):
    library = ctypes.CDLL(library)
    with open(name, "rb") as it: plan = it.read()
    status, text = command(library, "run")(plan, JSON)
    if status == REFUSED: sys.stderr.write(command(library, "explain")(plan)[1].decode())
    if status != DONE: return status
    for it in json.loads(text)["records"]:
        if it["kind"] == "node": print(f"node {it['node']}: {it['mode']}, {it['errors']} errors")
        if it["kind"] == "verdict": print(f"verdict: {it['verdict']}, {it['unsent']} frames unsent")
    return DONE


if __name__ == "__main__":
    sys.exit(main(*sys.argv[1:]) if 2 <= len(sys.argv) <= 3 else sys.stderr.write(__doc__) and 2)
