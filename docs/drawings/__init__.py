"""The drawings of the documents, as SVG: the same sources give the same bytes. `docs/make-drawings` writes them to docs/pictures."""
