"""Pictures of a plan: what is drawn as data, and two ways to draw it, a page and files for print."""
