"""Documents about an auction: pictures, and the page about an auction's file (docs/REPORT.md)."""
