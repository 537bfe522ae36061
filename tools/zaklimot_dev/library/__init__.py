"""The library for C: made of the crate's archive, and laid where compilers look for it."""
