"""What several tests need, once: the programs, designs and their changes, files of rows, transcripts of pages, a browser."""
