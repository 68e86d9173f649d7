; The same with the two stages that wait in the wrong order: the younger is done first.
(completion
 (let rf5 memory (ite v5 (write rf d5 x5) rf))
 (let rf3 memory (ite v3 (write rf5 d3 x3) rf5))
 (let rf4 memory (ite v4 (write rf3 d4 x4) rf3))
 (abstract pc pc)
 (abstract rf (ite v2 (write rf4 d2 (alu o2 a2)) rf4)))
