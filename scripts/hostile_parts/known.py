"""The known weaknesses: what an attack that finds one reports as known, and not as wrong."""

WEAKNESSES = {
    "many errors": "`check --all` of a plan with 100,000 errors takes most of a minute: each of the 50 that are reported "
    "costs five readings of the whole plan",
    "arguments are printed raw": "arguments of the command line that are refused are printed with their control "
    "characters",
    "file size": "a capture that reaches the limit of `ulimit -f` ends the program itself by SIGXFSZ, without a report, "
    "and is cut off within a record: ./pbnet has the program ignore that signal",
    "a signal to the program itself": "SIGINT, SIGTERM or SIGHUP to the program itself, and not to the launcher ./pbnet, "
    "ends it at once, and a capture can then be cut off within a record: the toolchain has no handlers of signals",
}
