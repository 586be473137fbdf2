from amaranth import *
from amaranth.lib import stream, wiring
from amaranth.lib.wiring import In, Out
from amaranth.sim import Simulator


class StreamBuffer(wiring.Component):
    """Holds one word of a stream, and hands it on a cycle later."""

    i: In(stream.Signature(8))
    o: Out(stream.Signature(8))

    def elaborate(self, platform):
        m = Module()

        m.d.comb += self.i.ready.eq(~self.o.valid | self.o.ready)

        with m.If(self.i.ready):
            m.d.sync += [
                self.o.valid.eq(self.i.valid),
                self.o.payload.eq(self.i.payload),
            ]

        return m


async def stream_put(ctx, stream, payload):
    ctx.set(stream.valid, 1)
    ctx.set(stream.payload, payload)
    await ctx.tick().until(stream.ready)
    ctx.set(stream.valid, 0)


async def stream_get(ctx, stream):
    ctx.set(stream.ready, 1)
    (payload,) = await ctx.tick().sample(stream.payload).until(stream.valid)
    ctx.set(stream.ready, 0)
    return payload


dut = StreamBuffer()
words = [3, 1, 4, 15]


async def producer(ctx):
    for word in words:
        await stream_put(ctx, dut.i, word)


async def consumer(ctx):
    for word in words:
        await ctx.tick()
        assert await stream_get(ctx, dut.o) == word


sim = Simulator(dut)
sim.add_clock(1e-6)
sim.add_testbench(producer)
sim.add_testbench(consumer)
with sim.write_vcd("stream_buffer.vcd"):
    sim.run()
