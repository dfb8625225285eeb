"""What the answers come to: how they are asked for, the verdict, the cause, and both in sentences."""
