(completion (abstract pc pc) (abstract rf (ite v (write rf d (alu o a)) rf)))
