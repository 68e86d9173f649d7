; The same, but the write that is pending is left out.
(completion
 (abstract pc pc)
 (abstract rf rf))
