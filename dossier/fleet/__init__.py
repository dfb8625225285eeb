"""Many folders: audited, verified, signed and kept, by the day, by the year, and now."""
