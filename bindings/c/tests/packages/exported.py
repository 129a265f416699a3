"""exported.py LIBRARY NAME..: calls functions of the shared library by their names, as a language
without the header does. All arguments are NULL or 0, or 1 for a number of bytes."""

import sys
from ctypes import CDLL, c_char_p, c_int32, c_size_t

WANTED = {"gt_text": b"ok", "gt_status_text": b"no known meaning", "gt_status_words": 16,
          "gt_version_fits": 1, "gt_is_object": 0}
NULL = -1

library = CDLL(sys.argv[1])
names = sys.argv[2:]
failed = 0
for name in names:
    function = getattr(library, name)
    function.restype = c_char_p if name in ("gt_text", "gt_status_text") else c_int32
    count = c_size_t(name == "gt_pps_agreed")
    found = function(None, count, None, count, None, None, None, None)
    if not (name == "gt_version" and found or name.endswith("_free")
            or found == WANTED.get(name, NULL)):
        failed += 1
        print(f"{name} returns {found}")
print(f"exported: {len(names) - failed} passed, {failed} failed")
sys.exit(failed > 0 or len(names) < 60)
