from amaranth import *
from amaranth.lib import wiring
from amaranth.lib.wiring import In, Out


class PowerOn(wiring.Component):
    """Holds the domain `core` in reset for three ticks of `board`, which has no reset, and as long as a button is pressed."""

    button: In(1)
    count: Out(4)

    def elaborate(self, platform):
        m = Module()
        m.domains.board = ClockDomain(reset_less=True)
        m.domains.core = cd_core = ClockDomain()
        waited = Signal(2)
        with m.If(waited != 3):
            m.d.board += waited.eq(waited + 1)
        m.d.comb += cd_core.rst.eq((waited != 3) | self.button)
        m.d.core += self.count.eq(self.count + 1)
        return m


top = PowerOn()
