; What the two stages stand for: the write that is pending is done.
(completion
 (abstract pc pc)
 (abstract rf (ite v (write rf d (alu o a)) rf)))
