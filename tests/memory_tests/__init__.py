"""What a run of the program comes to whose requests for memory are refused one by one."""
