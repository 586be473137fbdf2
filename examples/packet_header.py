from amaranth import *
from amaranth.lib import data, enum, wiring
from amaranth.lib.wiring import In, Out


class Kind(enum.Enum, shape=2):
    DATA = 0
    ACK = 1
    RESET = 2


class Header(data.Struct):
    kind: Kind
    length: 6
    address: data.ArrayLayout(4, 2)
    offset: signed(8)


class Router(wiring.Component):
    """Turns a packet round: its source becomes its destination, and data is acknowledged."""

    i: In(Header)
    o: Out(Header)
    dropped: Out(4)

    def elaborate(self, platform):
        m = Module()

        with m.If(self.i.kind == Kind.RESET):
            m.d.sync += self.dropped.eq(self.dropped + 1)
        with m.Else():
            m.d.comb += [
                self.o.eq(self.i),
                self.o.kind.eq(Kind.ACK),
                self.o.address[0].eq(self.i.address[1]),
                self.o.address[1].eq(self.i.address[0]),
                self.o.offset.eq(-self.i.offset),
            ]

        return m


top = Router()
