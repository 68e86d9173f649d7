(completion (abstract pc pc) (abstract rf rf))
