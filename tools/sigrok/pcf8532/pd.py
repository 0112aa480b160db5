"""sigrok's side of the decoder: i2c's packets in, annotations and bus logs out."""

import sys
from pathlib import Path

import sigrokdecode as srd

# The library's module and bin/buslog's: installed they are beside this file, and in the repository in folders of their own.
HERE = Path(__file__).resolve().parent
sys.path[:0] = [str(HERE)] if (HERE / "buslog").exists() else [str(HERE.parents[1]), str(HERE.parents[2] / "bindings" / "python")]

from buslog.check import NOTHING, Model, about, warned  # noqa: E402
from buslog.log import HEAD, LIMIT, recorded  # noqa: E402
from buslog.text import Transfer  # noqa: E402
from humtrellis import NONE, PCA85133_NONE, Part, Refusal  # noqa: E402

from .meaning import Course  # noqa: E402

PARTS = {"pcf8532": Part.PCF8532, "pca85133": Part.PCA85133}
VERSIONS = (1, 2)


class Decoder(srd.Decoder):
    """A transfer ends at a STOP or at the next START; those of other devices are passed over."""

    api_version = 3
    id = "pcf8532"
    name = "PCF8532"
    longname = "NXP PCF8532 or PCA85133"
    desc = "LCD drivers: what each byte does, the model's answer, the glass."
    license = "mit"
    inputs = ["i2c"]
    outputs = []
    tags = ["Display", "IC"]
    options = (
        {"id": "part", "desc": "Part", "default": "pcf8532", "values": tuple(PARTS)},
        {"id": "chips0", "desc": "Chips in group 0", "default": 1, "values": tuple(range(9))},
        {"id": "chips1", "desc": "Chips in group 1", "default": 0, "values": tuple(range(9))},
        {"id": "phase", "desc": "Blink phase of the glass", "default": 0, "values": (0, 1)},
    )
    annotations = (
        ("address", "Address"),
        ("control", "Control byte"),
        ("command", "Command"),
        ("data", "Data byte"),
        ("byte", "Other byte"),
        ("answer", "Answer of the model"),
        ("glass", "Glass"),
        ("warning", "Warning"),
    )
    annotation_rows = (
        ("bytes", "Bytes", (0, 1, 2, 3, 4)),
        ("answers", "Answers", (5,)),
        ("glasses", "Glass after the transfer", (6,)),
        ("warnings", "Warnings", (7,)),
    )
    binary = (
        ("log1", "Bus log, version 1"),
        ("log2", "Bus log, version 2"),
    )

    def __init__(self):
        self.reset()

    def reset(self):
        self.index = 0
        self.course = self.model = None

    def start(self):
        self.annotated = self.register(srd.OUTPUT_ANN)
        self.logged = self.register(srd.OUTPUT_BINARY)
        chips = self.options["chips0"], self.options["chips1"]
        self.model = Model(PARTS[self.options["part"]], chips)
        # A PCA85133 has no log.
        self.room = {version: LIMIT - HEAD for version in VERSIONS if self.model.bus.part == Part.PCF8532}
        for version in self.room:
            self._log(0, 0, version, bytes([version, *chips]))

    def decode(self, ss, es, data):
        # sigrok goes on after a start that was refused.
        if not self.model:
            return
        packet, bits = data
        if packet in ("START", "START REPEAT"):
            self._end(ss)
            self.begun, self.marks, self.course = ss, "", Course(self.model.bus)
        elif packet == "BITS" and self.course:
            # i2c has the last bit first.
            self.value = sum(bit[0] << place for place, bit in enumerate(bits))
            self.from_sample, self.to_sample = ss, es
        elif packet in ("ACK", "NACK") and self.course:
            self._byte(es, packet == "ACK")
        elif packet == "STOP":
            self._end(es)

    def _byte(self, es, on_bus):
        """A byte and its acknowledge."""
        if not self.marks and not self._transfer(bytes([self.value])).ours:
            self.course = None
            return
        refused, before = self.course.refusal, self.course.answer.acknowledged
        byte = self.course.take(self.value)
        self.marks += "+" if on_bus else "-"
        self._tell(self.from_sample, self.to_sample, byte.kind, *byte.texts)
        transfer = self._transfer(bytes(self.course.data))
        if self.course.refusal:
            if not refused:
                self._tell(self.from_sample, es, "warning", warned(self.course.refusal), str(self.course.refusal))
        # What follows a read's address the master acknowledges.
        elif (self.course.answer.acknowledged > before) != on_bus and (len(self.marks) == 1 or not transfer.read):
            difference = self.model.last(transfer.data, on_bus)
            self._tell(self.from_sample, es, "warning", about(difference, transfer.group))

    def _end(self, es):
        """The transfer so far is whole."""
        course, self.course = self.course, None
        if not course or not course.data:
            return
        number = place = 0
        answer = NOTHING
        try:
            answer = self.model.bus.transfer(bytes(course.data))
        except Refusal as refusal:
            number, place = refusal.number, refusal.place
        none = PCA85133_NONE if self.model.bus.part == Part.PCA85133 else NONE
        last = none if answer.acknowledged_by is None else answer.acknowledged_by
        self._tell(self.begun, es, "answer", f"T {self.index} {number:d} {place} {answer.acknowledged} {answer.stored} {answer.discarded} {last}")
        self._tell(self.begun, es, "glass", *self._glass())
        for version in list(self.room):
            self._record(es, version, self._transfer(bytes(course.data)))
        self.index += 1

    def _glass(self):
        """The S and G lines of a replay that ended here, and its G lines alone."""
        pictures = [self.model.bus.picture(group, self.options["phase"]) for group in (0, 1)]
        lit = [f"S {group} {column} {value}" for group, picture in enumerate(pictures) for column, value in enumerate(picture.columns) if value]
        counts = [f"G {group} {picture.lit}" for group, picture in enumerate(pictures)]
        return ", ".join(lit + counts), ", ".join(counts)

    def _record(self, es, version, transfer):
        """A log that is full ends before the transfer, since a later one without it would be another history."""
        record = recorded(transfer, version, self.room[version])
        if record is None:
            del self.room[version]
            self._tell(self.begun, es, "warning", f"log{version} ends before transfer {self.index}: it would have more than {LIMIT:,} bytes")
        else:
            self.room[version] -= len(record)
            self._log(self.begun, es, version, record)

    def _transfer(self, data):
        return Transfer(None, data, self.marks, "", True)

    def _tell(self, ss, es, kind, *texts):
        kinds = [name for name, _ in self.annotations]
        self.put(ss, es, self.annotated, [kinds.index(kind), list(texts)])

    def _log(self, ss, es, version, data):
        self.put(ss, es, self.logged, [VERSIONS.index(version), data])
