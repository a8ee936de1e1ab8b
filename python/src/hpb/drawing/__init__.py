"""Pictures as SVG: the same values give the same bytes."""
