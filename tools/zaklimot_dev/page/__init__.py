"""The adapter in a web page: the library's crate as a WebAssembly module, and the one file that
holds it."""
