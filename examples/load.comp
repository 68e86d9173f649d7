; What the three stages of load.pipe stand for: the instruction in memory is done, then the one in compute.
(completion
 (let done3 memory (ite v3 (write rf d3 (ite l3 (read data x3) x3)) rf))
 (let x word (alu o2 a2))
 (abstract pc pc)
 (abstract rf (ite v2 (write done3 d2 (ite (is_load o2) (read data x) x)) done3))
 (abstract data data))
