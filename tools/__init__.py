"""What scripts of several folders share: the types of Schema.fbs, frames and streams written byte by byte from the standard, a
model that reads them, written from docs/FORMAT.md, random schemas and values; the crates of this repository, their names and
their edits; and the wheel, the packages and the record of proofs of a release. Every script puts the top of the repository on
`sys.path` and imports from here; a module that only the scripts of one folder use is in that folder."""
