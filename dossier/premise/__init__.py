"""What stands behind the premises of a yes: the client, the stamps, the leap seconds, and what a folder has of them."""
