"""The PDP-8/E with KM8-E memory, a console and an RK8-E with four RK05 drives, by the tables of its handbooks. It has no EAE. With `peer` it takes
SIMH's side where the two differ: a wait after each ION, a GT flag, and locks that CAF ends."""
from dataclasses import dataclass, field
from typing import Optional
from tests.model.machine import Machine

SECTORS = 6496
WORDS = 256
DONE, MOVING, NO_IMAGE, BUSY, LOCKED, MISSING = 0o4000, 0o2000, 0o200, 0o100, 0o20, 0o2
SEEK, LOCK, WRITES, READS = 3, 2, (4, 5), (0, 1)


@dataclass
class Drive:
    """A drive: the sectors of its image, or none, and what its arm does."""

    sectors: Optional[dict[int, list[int]]] = None
    is_locked: bool = False
    cylinder: int = 0
    function: int = 0
    left: Optional[int] = None
    written: set[int] = field(default_factory=set)

    def sector(self, number: int) -> list[int]:
        return (self.sectors or {}).get(number, [0] * WORDS)


class Machine8e(Machine):
    """Core, registers, flags and drives; what was printed, and the transfers, of the last step and all."""

    devices = Machine.devices | {0o74}

    def __init__(self, is_peer: bool = False) -> None:
        super().__init__()
        self.is_peer = is_peer
        self.mq = self.gt = self.user = self.user_buffer = 0
        self.has_user_request = False
        self.console_enable = True
        self.command = self.disk_address = self.memory_address = self.status = 0
        self.is_transferring = False
        self.drives = [Drive() for _ in range(4)]
        self.disk_time = self.seek_time = 10
        self.moves: list[str] = []
        self.all_moves: list[str] = []
        self.began: set[int] = set()
        self.is_interrupt = False

    def start(self, cell: int) -> None:
        super().start(cell)
        self.user = self.user_buffer = 0
        self.clear_all()

    def clear_all(self) -> None:
        """What CAF does."""
        self.ac = self.link = 0
        self.is_on = self.is_waiting = self.has_user_request = False
        self.has_key = self.has_printed = self.is_busy = False
        self.key_buffer, self.console_enable = 0, True
        self.clear_disk()
        for drive in self.drives:
            drive.cylinder = 0
            drive.is_locked = drive.is_locked and not self.is_peer

    def clear_disk(self) -> None:
        self.command = self.disk_address = self.memory_address = self.status = 0
        self.is_transferring = False
        for drive in self.drives:
            drive.left = None

    # ## Requests

    def is_flagged(self) -> bool:
        return self.status & (DONE | BUSY | LOCKED | MISSING) != 0

    def requests(self) -> bool:
        console = self.console_enable and (self.has_key or self.has_printed)
        return self.has_user_request or console or self.is_flagged() and self.command & 0o400 != 0

    # ## A step

    def begin(self) -> None:
        """What has no time left ends, and the printer its character."""
        self.done()
        for drive in self.drives:
            if drive.left == 0:
                drive.left = None
                self.end_work(drive)

    def grants(self) -> bool:
        return self.is_on and not self.is_waiting and not self.is_held and self.requests()

    def step(self) -> Optional[str]:
        """One instruction, or one interrupt; whether it stopped the machine."""
        self.moves.clear()
        self.begin()
        self.is_interrupt = self.grants()
        if self.is_interrupt:
            self.core[0] = self.pc
            self.save_field = 64 * self.user + 8 * self.instruction_field + self.data_field
            self.pc, self.is_on = 1, False
            self.instruction_field = self.buffer_field = self.data_field = self.user = self.user_buffer = 0
            return None
        place, word = self.pc, self.core[self.here]
        self.pc = (self.pc + 1) % 4096
        self.began.clear()
        waits = word == 0o6001 and not self.user and (self.is_peer or not self.is_on)
        if word < 0o6000:
            self.refer(word, place)
        elif word < 0o7000:
            if not self.user:
                self.meet(word, place)
            self.input_output(word)
        elif not word & 0o400:
            self.group_1_at(word, place)
        elif word & 1:
            self.group_3(word)
        else:
            self.group_2(word)
        self.is_waiting = waits
        for number, drive in enumerate(self.drives):
            if drive.left is not None and number not in self.began:
                drive.left -= 1
        return None if self.is_running else "HALT"

    def jump(self, operation: int, address: int) -> None:
        self.user = self.user_buffer
        super().jump(operation, address)

    def group_1_at(self, word: int, place: int) -> None:
        turn = word & 0o16
        if turn not in (0o2, 0o14, 0o16):
            self.group_1(word)
            return
        self.group_1(word & ~0o16)
        if turn == 0o2:
            self.ac = self.ac % 64 * 64 + self.ac // 64
        elif turn == 0o14:
            self.ac &= word
        else:
            self.ac = place & 0o7600 | word & 0o177

    def group_2(self, word: int) -> None:
        if self.user and word & 0o6:
            self.has_user_request = True
            word &= ~0o6
        super().group_2(word)

    def group_3(self, word: int) -> None:
        ac, mq = 0 if word & 0o200 else self.ac, self.mq
        if word & 0o20:
            self.ac, self.mq = mq if word & 0o100 else 0, ac
        else:
            self.ac = ac | mq if word & 0o100 else ac
        if self.is_peer and not word & 0o56:
            self.gt = 0

    # ## Input and output

    def input_output(self, word: int) -> None:
        device, pulses = word >> 3 & 0o77, word & 7
        if self.user:
            self.has_user_request = True
        elif device == 0o00:
            self.processor(pulses)
        elif device == 0o74:
            self.disk(pulses)
        else:
            super().input_output(word)

    def processor(self, pulses: int) -> None:
        if pulses == 0:
            self.skip(self.is_on)
            self.is_on = False
        elif pulses in (1, 2):
            self.is_on = pulses == 1
        elif pulses == 3:
            self.skip(self.requests())
        elif pulses == 4:
            self.ac = 0o4000 * self.link + 0o2000 * self.gt + 0o1000 * self.requests() + 0o200 * self.is_on + self.save_field
        elif pulses == 5:
            self.link, self.gt = self.ac >> 11, self.ac >> 10 & 1 if self.is_peer else 0
            self.restore(self.ac % 128)
            self.is_on = True
        elif pulses == 6:
            self.skip(self.gt == 1)
        else:
            self.clear_all()
            self.gt = 0

    def restore(self, fields: int) -> None:
        """The user buffer, the instruction buffer and the data field."""
        self.user_buffer, self.buffer_field, self.data_field = fields >> 6, fields >> 3 & 7, fields & 7
        self.is_held = True

    def fields(self, number: int, pulses: int) -> None:
        if pulses != 4:
            super().fields(number, pulses if pulses < 4 else 0)
        elif number == 0:
            self.has_user_request = False
        elif number in (1, 2):
            super().fields(number, pulses)
        elif number == 3:
            self.ac |= self.save_field
        elif number == 4:
            self.restore(self.save_field)
        elif number == 5:
            self.skip(self.has_user_request)
        else:
            self.user_buffer, self.is_held = number - 6, True

    def keyboard(self, pulses: int) -> None:
        if pulses in (0, 2, 6):
            self.has_key = False
        if pulses == 1:
            self.skip(self.has_key)
        if pulses in (2, 6):
            self.ac = 0
        if pulses in (4, 6):
            self.ac |= self.key_buffer
        if pulses == 5:
            self.console_enable = self.ac & 1 == 1

    def printer(self, pulses: int) -> None:
        if pulses == 0:
            self.has_printed = True
        if pulses == 1:
            self.skip(self.has_printed)
        if pulses in (2, 6):
            self.has_printed = False
        if pulses in (4, 6):
            self.printed.append(self.ac % 256)
            self.is_busy = True
        if pulses == 5:
            self.skip(self.console_enable and (self.has_key or self.has_printed))

    # ## The disk

    def disk(self, pulses: int) -> None:
        if pulses == 0:
            return
        if pulses == 1:
            self.skip(self.is_flagged())
            return
        if pulses == 5:
            self.ac = self.status_word()
            return
        given, self.ac = self.ac, 0
        if pulses == 2:
            self.clear_by(given & 3)
        elif self.is_transferring and pulses in (3, 4, 6):
            self.status |= BUSY
        elif pulses == 3:
            self.disk_address = given
            self.go_to(self.command >> 9, self.sector() // 32)
        elif pulses == 4:
            self.memory_address = given
        elif pulses == 6:
            self.command, self.status = given, 0

    def status_word(self) -> int:
        drive = self.drives[self.command >> 1 & 3]
        return self.status | (MOVING if drive.left is not None else 0) | (NO_IMAGE if drive.sectors is None else 0)

    def clear_by(self, kind: int) -> None:
        """DCLR."""
        if kind == 1:
            self.clear_disk()
            return
        self.status = BUSY if self.is_transferring and kind != 3 else 0
        if kind == 2 and not self.is_transferring:
            self.go_to(SEEK, 0)

    def sector(self) -> int:
        return 4096 * (self.command & 1) + self.disk_address

    def go_to(self, function: int, cylinder: int) -> None:
        number = self.command >> 1 & 3
        drive = self.drives[number]
        if drive.sectors is None or drive.left is not None or cylinder > 202:
            self.status |= DONE | MISSING
        elif function in WRITES and drive.is_locked:
            self.status |= DONE | LOCKED
        elif function == LOCK:
            drive.is_locked = True
            self.status |= DONE
        else:
            way = self.seek_time * abs(drive.cylinder - cylinder)
            drive.cylinder, drive.function = cylinder, function
            drive.left = max(10, way) if function == SEEK else way + self.disk_time
            self.began.add(number)
            self.status |= DONE if function == SEEK else 0
            self.is_transferring = self.is_transferring or function != SEEK

    def end_work(self, drive: Drive) -> None:
        """A seek's end, or a transfer's: all its words move in this moment."""
        if drive.function == SEEK:
            if self.command & 0o200 and drive is self.drives[self.command >> 1 & 3]:
                self.status |= DONE
            return
        count, first = (128 if self.command & 0o100 else WORDS), 4096 * (self.command >> 3 & 7)
        cells = [first + (self.memory_address + it) % 4096 for it in range(count)]
        number, sector = self.drives.index(drive), self.sector()
        if drive.function in READS:
            for cell, word in zip(cells, drive.sector(sector)):
                self.core[cell] = word
        elif drive.function in WRITES:
            assert drive.sectors is not None
            drive.sectors[sector] = [self.core[it] for it in cells] + [0] * (WORDS - count)
            drive.written.add(sector)
        if drive.function in (*READS, *WRITES):
            way = "read" if drive.function in READS else "write"
            self.moves.append(f"RK {number} {way} {sector:05o} {first >> 12:o}{self.memory_address:04o} {count}")
            self.all_moves.append(self.moves[-1])
        self.memory_address = (self.memory_address + count) % 4096
        self.is_transferring = False
        self.status |= DONE
