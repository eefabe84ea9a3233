"""Makes the manual pages of tools/run man_pages from the help texts and the documents."""
