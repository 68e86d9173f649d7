; What the five stages stand for: the instructions in them are done, the oldest first.
(completion
 (let rf5 memory (ite v5 (write rf d5 x5) rf))
 (let rf4 memory (ite v4 (write rf5 d4 x4) rf5))
 (let rf3 memory (ite v3 (write rf4 d3 x3) rf4))
 (abstract pc pc)
 (abstract rf (ite v2 (write rf3 d2 (alu o2 a2)) rf3)))
