"""Partitions of an issuer's cards: the rule that deals cards to them, and the paths of a partition."""
import hashlib
import os


def partition_of(pan: str, partitions: int) -> int:
    """Returns the partition of a card: all its PSNs have one.

    Publishers and configurations go by this rule, so it can't change while there are journals.
    """
    return int.from_bytes(hashlib.sha256(pan.encode("ascii")).digest()[:8], "big") % partitions


def partition_journal(state: str, partition: int) -> str:
    """Returns the journals' name of a partition, below the folder of state."""
    return os.path.join(state, str(partition), "journal")


def partition_configuration(folder: str, partition: int) -> str:
    """Returns the path of a partition's configuration."""
    return os.path.join(folder, f"{partition}.json")
