"""Three stages by index: groups of latches, one that is squashed by a stall, and a path that may be left out."""
import sys

from burch_dill import TRUE, Bool, Declarations, Group, Pipeline, Specification, Word, check, first_of, ite, show

both = Declarations()
inc, src, dst, op, alu = both.functions(inc=1, src=1, dst=1, op=1, alu=2)
pc, rf = both.latch("pc", Word), both.memory("rf")
spec = Specification(both)
spec.next(pc, inc(pc))
spec.next(rf, rf.write(dst(pc), alu(op(pc), rf.read(src(pc)))))

pipe = Pipeline(both, flush=2, steps=1)
stall = pipe.input("stall", TRUE)
compute = pipe.group(2, v=Bool, d=Word, o=Word, a=Word)     # the latches v2, d2, o2, a2
write = pipe.group(3, v=Bool, d=Word, r=Word)               # v3, d3, r3
result = pipe.let("r2", alu(compute.o, compute.a))
paths = [(compute, result), (write, write.r)]               # the youngest first
if "--without" in sys.argv:
    del paths[0]                                            # no path from compute
operand = first_of([(stage.v & stage.d.equals(src(pc)), word) for stage, word in paths], rf.read(src(pc)))

pipe.next(pc, ite(stall, pc, inc(pc)))
pipe.next(rf, ite(write.v, rf.write(write.d, write.r), rf))
pipe.advance(compute, Group(v=TRUE, d=dst(pc), o=op(pc), a=operand), squash=stall)
pipe.advance(write, compute.having(r=result))

verdict = check(pipe, spec)
print(verdict.outcome.value)
if verdict.case is not None:
    print(show(pipe, spec, verdict.case).text.split("\n")[0])
    print("the instruction reads register", verdict.case.symbols["src"](verdict.case.state["pc"]))
