"""Shows a running network on a page of this machine. The command is `pbnet-view`."""
