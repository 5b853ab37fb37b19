"""Reads the sources of this repository as text, and makes pages and numbers from them.

source     reads a file: imports, definitions, types, functions with their contracts
library    the public types and calls of a crate (tools/promises)
claims     what the documents name, and whether it is there (tools/promises)
shape      the shape of the code in numbers (tools/shape)
atlas      how definitions, calls, laws and mutants hang together, and where their pages are
proofs     which proofs rest on the lemma of a law
instances  which computed cases meet the premises of a law; texts and numbers in them
markup, markdown, pages, laws, reading, front, documents, build: the pages (tools/site)
links, browser, visit: their check

Nothing here is installed with the package `robus`."""
