"""Images that are opened: good and damaged descriptors of a volume, and recognition sequences.

tools/udf.py has the layout of a volume. Where a case says nothing else, the recognition sequence is in 16 to 18, the main sequence has a primary, a
partition, a logical volume and a terminating descriptor, and the image has 320 sectors.
"""

from discs import HIGHEST, Asked
from rules import Disc, asked, label
from udf import ANCHOR, BLOCK, MAIN, SECTOR, START, TERMINATOR, anchor, file_set, filled, logical, long_ad, other, partition, primary

ROOM = 64
SECTORS = 320


def made(maker, **said):
    return lambda sector: maker(sector, **said)


GOOD = [primary, partition, logical, TERMINATOR]
RECOGNITION = [b"BEA01", b"NSR03", b"TEA01"]


def recognised(name, kind=0):
    """A sector of the recognition sequence."""
    return filled(SECTOR, (0, bytes([kind])), (6 - len(name), name), (6, b"\x01"))


def image(sequence=GOOD, recognition=RECOGNITION, kind=0, anchored=None, main=MAIN, fsd=file_set, fsd_at=START + BLOCK, length=SECTORS * SECTOR):
    """The sectors that hold something, each with its bytes, and the image's length."""
    held = {16 + i: recognised(name, kind) for i, name in enumerate(recognition)}
    held.update({main + i: make(main + i) for i, make in enumerate(sequence)})
    held[ANCHOR] = (anchored or anchor)(ANCHOR)
    if fsd:
        held[fsd_at] = fsd(fsd_at)
    return held, length


def laid(name, held, length):
    """The image of a case."""
    image = Asked(name, more=length)
    for sector, what in held.items():
        image.lay(sector, what)
    return image


def without(*left_out):
    return [make for i, make in enumerate(GOOD) if i not in left_out]


def instead(place, make):
    return [make if i == place else m for i, m in enumerate(GOOD)]


def labelled(label):
    return image(sequence=instead(0, made(primary, label=label)))


# Several descriptors of one kind, told apart by what they say: the first, the second, the third.
LABELS = [b"\x08ONE", b"\x08TWO", b"\x08THREE"]
STARTS = [START, START + 4, START + 8]  # There is a file set descriptor in block 2 of each.
BLOCKS = [BLOCK, BLOCK + 4, BLOCK + 8]  # The same sectors, of the first partition.
LAST = 0xFFFFFFFF


def several(numbers, kinds="pdl"):
    """A sequence with as many descriptors of each kind as there are numbers, which are their sequence numbers; one of each kind not named."""
    makers = {
        "p": [made(primary, label=label, sequence=n) for label, n in zip(LABELS, numbers)],
        "d": [made(partition, start=start, sequence=n) for start, n in zip(STARTS, numbers)],
        "l": [made(logical, block=block, sequence=n) for block, n in zip(BLOCKS, numbers)],
    }
    alone = {"p": primary, "d": partition, "l": logical}
    return [make for kind in "pdl" for make in (makers[kind] if kind in kinds else [alone[kind]])]


def placed(sequence):
    """An image with that sequence, and a file set descriptor wherever one of those partitions and blocks can place it; each has its own root."""
    held, length = image(sequence=sequence + [TERMINATOR])
    for k in range(5):
        sector = START + BLOCK + 4 * k
        held[sector] = file_set(sector, root=long_ad(SECTOR, 10 + k, partition=0))
    return held, length


HELD = {
    "good": image(),
    # each refusal in turn
    "no_bytes": ({}, 0),
    "nothing_at_256": image(length=256 * SECTOR, fsd=None),
    "a_byte_short_at_256": image(length=257 * SECTOR - 1, fsd=None),
    "anchor_tag_ruined": image(anchored=made(anchor, ruined=True)),
    "anchor_id_3": image(anchored=made(anchor, identifier=3)),
    "anchor_id_unlisted": image(anchored=made(anchor, identifier=10)),
    "sequence_runs_off_the_image": image(main=300, sequence=GOOD[:3], anchored=made(anchor, location=300), length=304 * SECTOR),
    "sequence_at_the_last_number": image(anchored=made(anchor, location=0xFFFFFFFF)),
    "primary_tag_ruined": image(sequence=instead(0, made(primary, ruined=True))),
    "partition_tag_ruined": image(sequence=instead(1, made(partition, ruined=True))),
    "logical_tag_ruined": image(sequence=instead(2, made(logical, ruined=True))),
    "primary_label_of_id_9": labelled(b"\x09VOLUME"),
    "primary_label_of_odd_length": labelled(b"\x10\x00A\x00"),
    "primary_label_too_long": image(sequence=instead(0, made(primary, raw=filled(32, (0, b"\x08A"), (31, b"\x20"))))),
    "logical_label_of_id_9": image(sequence=instead(2, made(logical, label=b"\x09LOGICAL"))),
    "no_primary": image(sequence=without(0)),
    "no_partition": image(sequence=without(1)),
    "no_logical": image(sequence=without(2)),
    "block_size_512": image(sequence=instead(2, made(logical, size=512))),
    "block_size_4096": image(sequence=instead(2, made(logical, size=4096))),
    "another_partition": image(sequence=instead(2, made(logical, number=1))),
    "file_set_missing": image(sequence=instead(2, made(logical, block=40)), fsd=None),
    "file_set_at_the_last_numbers": image(sequence=[primary, made(partition, start=0xFFFFFFFF), made(logical, block=0xFFFFFFFF), TERMINATOR]),
    "file_set_a_byte_short": image(length=(START + BLOCK + 1) * SECTOR - 1),
    "file_set_tag_ruined": image(fsd=made(file_set, ruined=True)),
    "file_set_id_257": image(fsd=made(file_set, identifier=257)),
    "file_set_of_zeros": image(fsd=None),
    # which descriptor counts
    "two_primaries": image(sequence=[primary, made(primary, label=b"\x08LATER"), partition, logical, TERMINATOR]),
    "two_partitions": image(
        sequence=[primary, made(partition, start=200), logical, partition, TERMINATOR],
    ),
    "two_partitions_of_two_numbers": image(sequence=[primary, partition, logical, made(partition, number=7), TERMINATOR]),
    "two_logicals": image(sequence=[primary, partition, made(logical, size=512), logical, TERMINATOR]),
    "later_primary_ruined": image(sequence=[primary, made(primary, ruined=True), partition, logical, TERMINATOR]),
    "partition_number_7": image(sequence=[primary, made(partition, number=7), made(logical, number=7), TERMINATOR]),
    # which counts by the highest number
    **{
        f"{name}_{what}": placed(several(numbers, kinds))
        for name, kinds in (("primaries", "p"), ("partitions", "d"), ("logicals", "l"), ("all", "pdl"))
        for what, numbers in (
            ("rising", [4, 5]),
            ("falling", [5, 4]),
            ("equal", [4, 4]),
            ("from_zero", [0, LAST]),
            ("to_zero", [LAST, 0]),
            ("all_zero", [0, 0]),
            ("of_three_rising", [4, 5, 6]),
            ("of_three_falling", [6, 5, 4]),
            ("of_three_first", [6, 4, 5]),
            ("of_three_middle", [4, 6, 5]),
            ("of_three_first_two_equal", [6, 6, 5]),
            ("of_three_outer_equal", [6, 5, 6]),
            ("of_three_last_numbers", [LAST, LAST - 1, LAST]),
        )
    },
    # in 32 bits, and not by one byte of them
    "high_byte_decides": placed(several([0x01000000, 0x00FFFFFF])),
    "low_byte_decides": placed(several([0xFFFFFF01, 0xFFFFFF00])),
    # the numbers of one kind say nothing of another's
    "numbers_across_kinds": placed(
        [made(primary, sequence=9), made(partition, sequence=5), made(partition, start=STARTS[1], sequence=4), made(logical, sequence=1), made(logical, block=BLOCKS[1], sequence=0)]
    ),
    "one_of_each_with_falling_numbers": placed([made(primary, sequence=3), made(partition, sequence=2), made(logical, sequence=1)]),
    "kinds_between_each_other": placed([m for trio in zip(*[several([6, 5, 6], "pdl")[3 * k : 3 * k + 3] for k in range(3)]) for m in trio]),
    # of partitions of two numbers too: the one that counts is not the one that the file set names
    "highest_of_another_partition": placed([primary, made(partition, number=7, sequence=9), made(partition, sequence=8), logical]),
    "highest_block_size": placed([primary, partition, made(logical, sequence=5, size=512), made(logical, sequence=4)]),
    "lower_block_size": placed([primary, partition, made(logical, sequence=5), made(logical, sequence=4, size=512)]),
    "highest_file_set_missing": image(sequence=[primary, made(partition, start=4096, sequence=9), made(partition, sequence=8), logical, TERMINATOR]),
    # a bad one refuses, wherever it stands and whatever its number is
    "lower_primary_ruined": placed([made(primary, sequence=5), made(primary, sequence=4, ruined=True), partition, logical]),
    "higher_partition_ruined": placed([primary, partition, made(partition, sequence=9, ruined=True), logical]),
    "lower_partition_ruined": placed([primary, made(partition, sequence=1, ruined=True), partition, logical]),
    "lower_logical_label_of_id_9": placed([primary, partition, logical, made(logical, sequence=1, label=b"\x09LOGICAL")]),
    "higher_primary_label_of_id_9": placed([made(primary, sequence=9, label=b"\x09VOLUME"), primary, partition, logical]),
    # one behind the terminator, or behind the sequence, isn't seen
    "higher_behind_the_terminator": placed(several([5, 4]) + [TERMINATOR] + several([9, 9])),
    "higher_behind_the_sequence": image(sequence=GOOD[:3] + [made(primary, label=LABELS[1], sequence=9)], anchored=made(anchor, length=3 * SECTOR)),
    # a number that is no descriptor's of the three kinds
    "higher_of_ids_skipped": placed([primary, other(4), other(7), made(primary, label=LABELS[1], sequence=0), partition, logical]),
    # the end of the sequence
    "terminator_first": image(sequence=[TERMINATOR] + GOOD),
    "terminator_with_a_ruined_tag": image(sequence=GOOD[:3] + [made(TERMINATOR, ruined=True)]),
    "ruined_behind_the_terminator": image(sequence=GOOD + [made(primary, ruined=True)]),
    "no_terminator": image(sequence=GOOD[:3], anchored=made(anchor, length=3 * SECTOR + 2047)),
    "sequence_under_a_sector": image(anchored=made(anchor, length=2047)),
    "sequence_cut_before_the_logical": image(anchored=made(anchor, length=2 * SECTOR)),
    # what is skipped
    "unlisted_id_between": image(sequence=[primary, made(other(77), ruined=True), partition, logical, TERMINATOR]),
    "other_ids_between": image(sequence=[primary, other(4), made(other(7), ruined=True), partition, other(9), made(other(256), ruined=True), logical, TERMINATOR]),
    # labels and roots
    "label_of_8_bits": labelled(b"\x08Caf\xe9 \xa9"),
    "label_of_16_bits": labelled(b"\x10\x00A\x03\xb1\x20\xac\xd8\x00\x00Z"),
    "label_up_to_a_zero": labelled(b"\x08DISC\x00more"),
    "label_empty": labelled(b""),
    "label_of_id_0": labelled(b"\x00VOLUME"),
    # the ids of deleted names, whatever stands behind them; 253 is none of them, and a length too large is refused before the id is read
    "label_of_id_253": labelled(b"\xfdVOLUME"),
    "label_of_id_254": labelled(b"\xfeVOLUME"),
    "label_of_id_254_alone": labelled(b"\xfe"),
    "label_of_id_255": labelled(b"\xff\x00V\x00O"),
    "label_of_id_255_alone": labelled(b"\xff"),
    "label_of_id_255_and_odd_length": labelled(b"\xff\x00V\x00"),
    "label_of_id_254_too_long": image(sequence=instead(0, made(primary, raw=filled(32, (0, b"\xfeA"), (31, b"\x20"))))),
    "logical_label_of_id_253": image(sequence=instead(2, made(logical, label=b"\xfdLOGICAL"))),
    "logical_label_of_id_254": image(sequence=instead(2, made(logical, label=b"\xfeLOGICAL"))),
    "logical_label_of_id_255_and_odd_length": image(sequence=instead(2, made(logical, label=b"\xff\x00L\x00"))),
    "label_full": labelled(b"\x08" + b"\xff" * 30),
    "root_of_type_2": image(fsd=made(file_set, root=long_ad(0x3FFFFFFF, 0xFFFFFFFF, 2, 0xFFFF, b"\xff" * 6))),
    "bytes_behind_the_last_sector": image(length=SECTORS * SECTOR + 77),
    # recognition sequences
    "no_recognition": image(recognition=[]),
    "recognition_of_nsr02": image(recognition=[b"BEA01", b"NSR02", b"TEA01"]),
    "recognition_without_nsr": image(recognition=[b"BEA01", b"TEA01"]),
    "recognition_without_bea": image(recognition=[b"NSR03", b"TEA01"]),
    "recognition_without_tea": image(recognition=[b"BEA01", b"NSR03"]),
    "recognition_nsr_before_bea": image(recognition=[b"NSR02", b"BEA01", b"TEA01"]),
    "recognition_nsr_behind_tea": image(recognition=[b"BEA01", b"TEA01", b"NSR02", b"TEA01"]),
    "recognition_cd001_first": image(recognition=[b"CD001", b"BEA01", b"NSR02", b"TEA01"]),
    "recognition_tea_eighth": image(recognition=[b"CD001", b"CDW02", b"CD001", b"CD001", b"BEA01", b"NSR02", b"NSR03", b"TEA01"]),
    "recognition_tea_ninth": image(recognition=[b"CD001"] * 6 + [b"BEA01", b"NSR02", b"TEA01"]),
    "recognition_unknown_between": image(recognition=[b"BEA01", b"NSR04", b"NSR03", b"TEA01"]),
    "recognition_with_boot2": image(recognition=[b"BEA01", b"BOOT2", b"NSR03", b"TEA01"]),
    "recognition_of_kind_1": image(kind=1),
    "recognition_of_a_bridge_disc": image(recognition=[b"\x01CD001", b"\xffCD001", b"BEA01", b"NSR02", b"TEA01"]),
    "recognition_off_the_image": image(length=18 * SECTOR, fsd=None),
}



def images():
    for name, (held, length) in HELD.items():
        yield laid(name, held, length)


def opened():
    """Each is probed and opened; its label has room, and is a byte short of it."""
    for image in images():
        image.query("probe", "open", "label", room=ROOM)
        name = asked(Disc(bytes(image.bytes)), lambda disc: label(disc, 0, ROOM))[1]
        image.query("label", room=max(len(name or b"") - 1, 0))
        image.query("open", "label", volume=HIGHEST, room=ROOM)
        yield image


CASES = [opened]
