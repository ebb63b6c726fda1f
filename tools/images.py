#!/usr/bin/env python3
"""Writes the images that programs are run on, and what is asked of them.

    tools/images.py [NAME ..]      crates/asker/data/NAME, or by drives and shelves crates/drive_cases/data/images and
                                   crates/survey_cases/data/shelves; all, where none is named

Needs Python's standard library alone, prints nothing, and writes the same bytes each time.
"""

import sys

sys.dont_write_bytecode = True
import budget_images
import checked_images
import combined_images
import directory_images
import drive_images
import file_images
import growing_images
import mapped_images
import matching_images
import stack_images
import survey_images
import tree_images
import volume_images
from asked import CRATES

WRITERS = {
    "volumes": volume_images,
    "files": file_images,
    "directories": directory_images,
    "matchings": matching_images,
    "checks": checked_images,
    "maps": mapped_images,
    "growing": growing_images,
    "stacks": stack_images,
    "trees": tree_images,
    "combinations": combined_images,
    "budgets": budget_images,
    "drives": drive_images,
    "shelves": survey_images,
}
ELSEWHERE = {"drives": "drive_cases/data/images", "shelves": "survey_cases/data/shelves"}


def main(words):
    if not set(words) <= set(WRITERS):
        print(__doc__, file=sys.stderr)
        return 2
    for name in words or WRITERS:
        path = CRATES / ELSEWHERE.get(name, f"asker/data/{name}")
        path.write_bytes(b"".join(image.record() for case in WRITERS[name].CASES for image in case()))
    return 0


if __name__ == "__main__":
    sys.exit(main(sys.argv[1:]))
