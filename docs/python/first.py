"""The stalling pipeline of one register, written and asked about."""
from burch_dill import TRUE, Declarations, Pipeline, Specification, Word, check, ite

both = Declarations()
inc = both.function("inc", 1)
pc = both.latch("pc", Word)
pipe = Pipeline(both, flush=0, steps=1)
stall = pipe.input("stall", TRUE)
pipe.next(pc, ite(stall, pc, inc(pc)))
spec = Specification(both)
spec.next(pc, inc(pc))
print(pipe.text(), end="")
print(check(pipe, spec).outcome.value)
