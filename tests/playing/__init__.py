"""What plays pipelines on a server whose members crash and whose partitions move, and looks whether each object's calls can have
happened one after the other."""
