"""The PDP-8/E with a PC8-E reader and punch, an LE8 line printer and a DK8-EA clock, by the tables of its handbooks. With `peer` it takes SIMH's side
in one thing more: CAF begins the clock's count anew."""
from tests.model.machine import Machine
from tests.model.machine8e import Machine8e
from typing import Optional


class FullMachine8e(Machine8e):
    """What the 8/E has beside its drives, and what it has punched and printed on its line printer."""

    devices = Machine8e.devices | {0o01, 0o02, 0o13, 0o66}

    def __init__(self, is_peer: bool = False) -> None:
        self.tape: list[int] = []
        self.has_paper = False
        self.period: Optional[int] = None
        self.instructions = 0
        self.punched: list[int] = []
        self.lined: list[int] = []
        super().__init__(is_peer)
        self.clear_devices()

    def start(self, cell: int) -> None:
        super().start(cell)
        self.instructions = 0

    def clear_all(self) -> None:
        super().clear_all()
        self.clear_devices()

    def clear_devices(self) -> None:
        self.reader_flag = self.punch_flag = self.line_flag = self.clock_flag = False
        self.reader_buffer = 0
        self.is_asked = self.is_punching = self.is_lining = False
        self.tape_enable = self.line_enable = True
        self.clock_enable = False
        if self.is_peer:
            self.instructions = 0

    def requests(self) -> bool:
        tape = self.tape_enable and (self.reader_flag or self.punch_flag)
        return super().requests() or tape or self.line_enable and self.line_flag or self.clock_enable and self.clock_flag

    # ## A step

    def begin(self) -> None:
        super().begin()
        if self.is_asked and self.tape:
            self.reader_buffer, self.reader_flag = self.tape.pop(0), True
        self.punch_flag = self.punch_flag or self.is_punching
        self.line_flag = self.line_flag or self.is_lining
        self.is_asked = self.is_punching = self.is_lining = False
        if self.period and self.instructions and self.instructions % self.period == 0:
            self.clock_flag = True

    def step(self) -> Optional[str]:
        why = super().step()
        self.instructions += not self.is_interrupt
        return why

    # ## Input and output

    def input_output(self, word: int) -> None:
        device, pulses = word >> 3 & 0o77, word & 7
        if self.user or device not in (0o01, 0o02, 0o13, 0o66):
            super().input_output(word)
        elif device == 0o01:
            self.reader(pulses)
        elif device == 0o02:
            self.punch(pulses)
        elif device == 0o13:
            self.clock(pulses)
        else:
            self.line_printer(pulses)

    def reader(self, pulses: int) -> None:
        if pulses == 0:
            self.tape_enable = True
        if pulses == 1:
            self.skip(self.reader_flag)
        if pulses in (2, 6):
            self.ac |= self.reader_buffer
        if pulses in (2, 4, 6):
            self.reader_flag = False
        if pulses in (4, 6):
            self.is_asked = True

    def punch(self, pulses: int) -> None:
        if pulses == 0:
            self.tape_enable = False
        if pulses == 1:
            self.skip(self.punch_flag)
        if pulses in (2, 6):
            self.punch_flag = False
        if pulses in (4, 6):
            self.punched.append(self.ac % 256)
            self.is_punching = True

    def line_printer(self, pulses: int) -> None:
        if pulses == 1:
            self.skip(self.line_flag)
        if pulses == 3:
            self.skip(not self.has_paper)
        if pulses in (2, 6):
            self.line_flag = False
        if pulses in (4, 6):
            self.lined.append(self.ac % 128)
            self.is_lining = True
        if pulses in (5, 7):
            self.line_enable = pulses == 5

    def clock(self, pulses: int) -> None:
        if pulses in (1, 2):
            self.clock_enable = pulses == 1
        if pulses == 5:
            self.clock_enable = self.ac & 1 == 1
        if pulses in (3, 7):
            self.skip(self.clock_flag)
        if pulses in (3, 6):
            self.clock_flag = False


class BareMachine8e(Machine8e):
    """The 8/E without drives and without these devices, as it is where none is asked for."""

    devices = Machine.devices

    def disk(self, pulses: int) -> None:
        """Nothing, as no disk is there."""
