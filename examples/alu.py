from amaranth import *
from amaranth.lib import enum, wiring
from amaranth.lib.wiring import In, Out


class Op(enum.Enum, shape=3):
    ADD = 0
    SUB = 1
    AND = 2
    OR = 3
    XOR = 4
    LESS = 5


class ALU(wiring.Component):
    op: In(Op)
    a: In(signed(8))
    b: In(signed(8))
    y: Out(signed(9))
    zero: Out(1)

    def elaborate(self, platform):
        m = Module()

        with m.Switch(self.op):
            with m.Case(Op.ADD):
                m.d.comb += self.y.eq(self.a + self.b)
            with m.Case(Op.SUB):
                m.d.comb += self.y.eq(self.a - self.b)
            with m.Case(Op.AND):
                m.d.comb += self.y.eq(self.a & self.b)
            with m.Case(Op.OR):
                m.d.comb += self.y.eq(self.a | self.b)
            with m.Case(Op.XOR):
                m.d.comb += self.y.eq(self.a ^ self.b)
            with m.Case(Op.LESS):
                m.d.comb += self.y.eq(self.a < self.b)
            with m.Default():
                m.d.comb += self.y.eq(0)

        m.d.comb += self.zero.eq(self.y == 0)
        return m


top = ALU()
