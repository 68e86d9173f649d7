; The bit stands for its opposite.
(completion (abstract a (not a)))
