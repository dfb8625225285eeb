"""The pages: of folders, of a year, and their pictures."""
